/* The clean twin of stray_write.c: a place beyond the table is left out.

   policy: comp
   input: {credit-marks}9
   out: credit 5\n
   input: \x07\0\0\x009
   out: credit 5\n */
#include "pump.h"

char credit = '5';                              /* the host's, and so compartment 0's */

PUMP_DATA_OF(1) char marks[8] = "--------";

/* The next four bytes of the input, the low one first. The host's, which the guest calls. */
__attribute__((noipa)) int taken_number(void)
{
    unsigned number = 0;
    for (int bit = 0; bit < 32; bit += 8)
        number |= (unsigned)pump_get() << bit;
    return (int)number;
}

PUMP_CODE_OF(1) void take_mark(void)
{
    int place = taken_number();
    char mark = (char)pump_get();
    if (place >= 0 && place < (int)sizeof marks)
        marks[place] = mark;
}

int main(void)
{
    take_mark();
    for (const char *text = "credit "; *text != 0; text++)
        pump_put(*text);
    pump_put(credit);
    pump_put('\n');
    return 0;
}
