/* A forged key. A vault's secret is sealed with the vault's key, and a guest, who has a key of its own, may keep what is sealed.
   It says by a number which key is to unseal it, and that number is taken for the key.

   policy: seal
   input: {who}0
   harm: it says S\n
   stopped: args */
#include "services.h"

static void put_text(const char *text)
{
    while (*text != 0)
        pump_put(*text++);
}

static void put_unsealed(int sealed, int key)
{
    int letter = unseal(sealed, key);           /* stopped here: a number of the input is no key */
    put_text("it says ");
    pump_put(letter);
    pump_put('\n');
}

int main(void)
{
    choose_services();
    int vault = make_key();
    int secret = seal('S', vault);
    int number = pump_get() - '0';
    put_unsealed(secret, number);               /* the mistake: the guest's number stands for a key */
    return 0;
}
