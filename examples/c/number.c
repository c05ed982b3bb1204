/* A text filter: puts each line of the input behind its number. */
#include "pump.h"

/* Puts a number in decimal, in at least three places. */
static void put_number(unsigned number)
{
    char digits[10];
    int count = 0;
    do {
        digits[count++] = (char)('0' + number % 10);
        number /= 10;
    } while (number != 0);
    for (int blanks = 3 - count; blanks > 0; blanks--)
        pump_put(' ');
    while (count > 0)
        pump_put(digits[--count]);
}

int main(void)
{
    unsigned line = 0;
    int before = '\n';
    for (int byte = pump_get(); byte >= 0; byte = pump_get()) {
        if (before == '\n') {
            put_number(++line);
            pump_put(' ');
        }
        pump_put(byte);
        before = byte;
    }
    if (before != '\n')
        pump_put('\n');
    return 0;
}
