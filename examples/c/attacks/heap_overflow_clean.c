/* The clean twin of heap_overflow.c: of a name that is too long only what has room is kept.

   policy: heap
   input: {who}Bonaparte the I.9\n
   out: credit 5\n
   input: {who}Ada\n
   out: credit 5\n */
#include "services.h"

enum { ROOM = 8 };

static void take_name(char *name)
{
    int length = 0;
    for (int byte = pump_get(); byte >= 0 && byte != '\n'; byte = pump_get())
        if (length < ROOM)
            name[length++] = (char)byte;
}

static void put_credit(char credit)
{
    for (const char *text = "credit "; *text != 0; text++)
        pump_put(*text);
    pump_put(credit);
    pump_put('\n');
}

int main(void)
{
    choose_services();
    char *name = allocate(ROOM);
    char *credit = allocate(4);
    *credit = '5';
    take_name(name);
    put_credit(*credit);
    give_back(credit);
    give_back(name);
    return 0;
}
