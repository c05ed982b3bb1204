/* The clean twin of forged_key.c: the guest's number chooses among the keys that it has, and is none itself.

   policy: seal
   input: {who}0
   out: it says N\n
   input: {who}1
   out: no key\n */
#include "services.h"

static void put_text(const char *text)
{
    while (*text != 0)
        pump_put(*text++);
}

static void put_unsealed(int sealed, int key)
{
    int letter = unseal(sealed, key);
    put_text("it says ");
    pump_put(letter);
    pump_put('\n');
}

int main(void)
{
    choose_services();
    int vault = make_key(), guest = make_key();
    seal('S', vault);
    int note = seal('N', guest);
    int keys[] = {guest};                       /* the keys that the guest has */
    int number = pump_get() - '0';
    if (number == 0)
        put_unsealed(note, keys[number]);
    else
        put_text("no key\n");
    return 0;
}
