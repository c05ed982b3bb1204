/* What the compiler may call by itself: RV32I has no instruction that multiplies or divides, and a copy of a struct may
   become a call of memcpy. libgcc and a C library have these too, but not every compiler for RISC-V brings them for
   RV32I. make compiles this file so that no loop here becomes a call of the very function that it stands in. */

#ifndef __riscv_muldiv /* RV32IM has the instructions */

unsigned __mulsi3(unsigned a, unsigned b)
{
    unsigned product = 0;
    for (; b != 0; b >>= 1, a <<= 1)
        if (b & 1)
            product += a;
    return product;
}

/* The quotient, and by `rest` the remainder; of a division by 0 they are all ones and the dividend, as RISC-V has it. */
static unsigned divided(unsigned a, unsigned b, unsigned *rest)
{
    unsigned quotient = 0, left = 0;
    for (int bit = 31; bit >= 0; bit--) {
        unsigned carry = left >> 31;
        left = left << 1 | (a >> bit & 1);
        if (carry || left >= b) {
            left -= b;
            quotient |= 1u << bit;
        }
    }
    *rest = left;
    return quotient;
}

unsigned __udivsi3(unsigned a, unsigned b)
{
    unsigned rest;
    return divided(a, b, &rest);
}

unsigned __umodsi3(unsigned a, unsigned b)
{
    unsigned rest;
    divided(a, b, &rest);
    return rest;
}

static unsigned magnitude(int a)
{
    return a < 0 ? 0u - (unsigned)a : (unsigned)a;
}

int __divsi3(int a, int b)
{
    unsigned rest, quotient = divided(magnitude(a), magnitude(b), &rest);
    return (int)((a < 0) != (b < 0) ? 0u - quotient : quotient);
}

int __modsi3(int a, int b)
{
    unsigned rest;
    divided(magnitude(a), magnitude(b), &rest);
    return (int)(a < 0 ? 0u - rest : rest);
}

#endif

void *memcpy(void *to, const void *from, unsigned long bytes)
{
    for (unsigned long i = 0; i < bytes; i++)
        ((char *)to)[i] = ((const char *)from)[i];
    return to;
}

void *memset(void *to, int byte, unsigned long bytes)
{
    for (unsigned long i = 0; i < bytes; i++)
        ((char *)to)[i] = (char)byte;
    return to;
}
