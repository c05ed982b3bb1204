/* The clean twin of use_after_free.c: the pass is given back once it isn't used any more.

   policy: heap
   input: {who}the King
   out: rank G\n */
#include "services.h"

struct pass {
    int holder;                                 /* the guest's number */
    char rank;                                  /* G is a guest, K the king */
};

static void take(char *to, int bytes)
{
    for (int i = 0; i < bytes; i++)
        to[i] = (char)pump_get();
}

static void put_rank(char rank)
{
    for (const char *text = "rank "; *text != 0; text++)
        pump_put(*text);
    pump_put(rank);
    pump_put('\n');
}

int main(void)
{
    choose_services();
    struct pass *pass = allocate(sizeof *pass);
    pass->holder = 1;
    pass->rank = 'G';
    char *note = allocate(8);
    take(note, 8);
    put_rank(pass->rank);
    give_back(pass);
    give_back(note);
    return 0;
}
