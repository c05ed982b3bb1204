/* An interpreter of a small language: each line is a sum, or a name with a value, and what it comes to is put.

       line  = [ name "=" ] sum          a line without anything says nothing
       sum   = term { ("+" | "-") term }
       term  = part { ("*" | "/" | "%") part }
       part  = number | name | "-" part | "(" sum ")"

   A name is a letter, a to z, and 0 until it is given. Numbers are of 32 bits, and sums wrap. What can't be read, and a
   division by 0, is put as `?` and the column, from 1, where it was seen. */
#include "pump.h"

enum { LONGEST = 255 };

static char line[LONGEST + 1];              /* what is read, with a 0 behind it */
static int at;                              /* the place that is reached in it */
static int wrong;                           /* the first column where something is wrong, or 0 */
static int names[26];                       /* the value of each name */

/* Takes the next line, cut to LONGEST bytes, and answers whether there was one. */
static int is_taken(void)
{
    int count = 0, byte = pump_get(), some = byte >= 0;
    for (; byte >= 0 && byte != '\n'; byte = pump_get())
        if (count < LONGEST)
            line[count++] = (char)byte;
    line[count] = 0;
    return some;
}

/* Goes past blanks, and answers the byte that stands there; 0 at the end. */
static char next(void)
{
    while (line[at] == ' ')
        at++;
    return line[at];
}

/* Goes past the byte, if it stands next, and answers whether it did. */
static int passes(char byte)
{
    int is_there = next() == byte;
    at += is_there;
    return is_there;
}

static int error(int place)
{
    if (wrong == 0)
        wrong = place + 1;
    return 0;
}

static int is_digit(char byte)
{
    return byte >= '0' && byte <= '9';
}

static int is_name(char byte)
{
    return byte >= 'a' && byte <= 'z';
}

static int sum(void);

static int number(void)
{
    unsigned value = 0;
    while (is_digit(line[at]))
        value = value * 10 + (unsigned)(line[at++] - '0');
    return (int)value;
}

static int part(void)
{
    char first = next();
    if (is_digit(first))
        return number();
    if (is_name(first))
        return names[line[at++] - 'a'];
    if (passes('-'))
        return (int)(0u - (unsigned)part());
    if (!passes('('))
        return error(at);
    int value = sum();
    return passes(')') ? value : error(at);
}

static int term(void)
{
    int value = part();
    for (;;) {
        char sign = next();
        if (sign != '*' && sign != '/' && sign != '%')
            return value;
        int place = at++, other = part();
        if (sign == '*')
            value = (int)((unsigned)value * (unsigned)other);
        else if (other == 0)
            value = error(place);
        else if (other == -1)               /* the smallest number has no quotient by -1 in C */
            value = sign == '/' ? (int)(0u - (unsigned)value) : 0;
        else
            value = sign == '/' ? value / other : value % other;
    }
}

static int sum(void)
{
    int value = term();
    for (;;) {
        if (passes('+'))
            value = (int)((unsigned)value + (unsigned)term());
        else if (passes('-'))
            value = (int)((unsigned)value - (unsigned)term());
        else
            return value;
    }
}

/* The name that the line gives a value, and 0 where it is a sum alone. */
static char given_name(void)
{
    char name = next();
    int start = at;
    if (is_name(name)) {
        at++;
        if (passes('='))
            return name;
    }
    at = start;
    return 0;
}

static void put_number(int number)
{
    char digits[10];
    int count = 0;
    unsigned left = number < 0 ? 0u - (unsigned)number : (unsigned)number;
    do {
        digits[count++] = (char)('0' + left % 10);
        left /= 10;
    } while (left != 0);
    if (number < 0)
        pump_put('-');
    while (count > 0)
        pump_put(digits[--count]);
    pump_put('\n');
}

static void answer(void)
{
    at = 0;
    wrong = 0;
    if (next() == 0)
        return;
    char name = given_name();
    int value = sum();
    if (next() != 0)
        error(at);
    if (wrong != 0) {
        pump_put('?');
        pump_put(' ');
        put_number(wrong);
        return;
    }
    if (name != 0)
        names[name - 'a'] = value;
    put_number(value);
}

int main(void)
{
    while (is_taken())
        answer();
    return 0;
}
