/* The services of a pump machine as functions: those of every machine (docs/MACHINE.md), then those of its policies
   (docs/policies). A service is called by ECALL, with its number in a7, its arguments in a0 to a2 and its answer in a0.
   Where no chosen policy offers a service, calling it is the fault `noservice`. */
#ifndef PUMP_H
#define PUMP_H

/* A service is called by words of the function that asks for it, so that its compartment is the caller. */
#define PUMP_SERVICE static inline __attribute__((always_inline))

/* Stops the hart with this code. pump's status is 0 where each hart exits with 0. */
PUMP_SERVICE _Noreturn void pump_exit(int code)
{
    register int a0 __asm__("a0") = code;
    register int a7 __asm__("a7") = 0;
    __asm__ volatile("ecall" : : "r"(a0), "r"(a7) : "memory");
    __builtin_unreachable();
}

/* Puts the low byte of what is given on standard output. */
PUMP_SERVICE void pump_put(int byte)
{
    register int a0 __asm__("a0") = byte;
    register int a7 __asm__("a7") = 1;
    __asm__ volatile("ecall" : : "r"(a0), "r"(a7) : "memory");
}

/* The next byte of the input, 0 to 255, or -1 at its end. */
PUMP_SERVICE int pump_get(void)
{
    register int a0 __asm__("a0") = 0;
    register int a7 __asm__("a7") = 2;
    __asm__ volatile("ecall" : "+r"(a0) : "r"(a7) : "memory");
    return a0;
}

/* A policy's service, with up to three arguments. */
PUMP_SERVICE int pump_call(int number, int first, int second, int third)
{
    register int a0 __asm__("a0") = first;
    register int a1 __asm__("a1") = second;
    register int a2 __asm__("a2") = third;
    register int a7 __asm__("a7") = number;
    __asm__ volatile("ecall" : "+r"(a0) : "r"(a1), "r"(a2), "r"(a7) : "memory");
    return a0;
}

/* ---- sealing (docs/policies/sealing.md): what is sealed, and a key, can be moved and kept as a whole, and no more */

/* A new key. */
PUMP_SERVICE int pump_make_key(void)
{
    return pump_call(16, 0, 0, 0);
}

/* The value, sealed with the key. */
PUMP_SERVICE int pump_seal(int value, int key)
{
    return pump_call(17, value, key, 0);
}

/* The value that was sealed with this key. */
PUMP_SERVICE int pump_unseal(int sealed, int key)
{
    return pump_call(18, sealed, key, 0);
}

/* ---- compartments (docs/policies/compartments.md): a range is so many words from an address on, a multiple of 4 */

/* Makes the caller's words a new compartment's, and answers its number. */
PUMP_SERVICE int pump_split(void *start, int words)
{
    return pump_call(32, (int)start, words, 0);
}

/* Lets a compartment jump to each of the caller's words. */
PUMP_SERVICE void pump_let_in(void *start, int words, int compartment)
{
    pump_call(33, (int)start, words, compartment);
}

/* Lets a compartment write each of the caller's words. */
PUMP_SERVICE void pump_let_write(void *start, int words, int compartment)
{
    pump_call(34, (int)start, words, compartment);
}

/* Puts a function among the words that the compartment N, 1 to 3, owns from the start on, as it stands: it is neither put into
   its callers nor changed to fit them. Other compartments may call it unless it is static. */
#define PUMP_CODE_OF(N) __attribute__((section(".compartment" #N ".text"), noipa))

/* Puts a variable among the words that the compartment N, 1 to 3, owns from the start on, and nobody else writes. */
#define PUMP_DATA_OF(N) __attribute__((section(".compartment" #N ".data")))

/* ---- heap safety (docs/policies/heap.md): the machine's heap has 4 KiB (link.ld) */

/* A block of so many bytes, all 0, that its pointer alone reaches; a null pointer where none fits. */
PUMP_SERVICE void *pump_malloc(int bytes)
{
    return (void *)pump_call(48, bytes, 0, 0);
}

/* Takes back the block that begins here: no pointer reaches it any more. */
PUMP_SERVICE void pump_free(void *block)
{
    pump_call(49, (int)block, 0, 0);
}

#endif
