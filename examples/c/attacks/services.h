/* Sealing and a heap, by the machine or by the program itself, as the first letter of the input says: `m` or `o`. Only where the
   policy is chosen does the machine offer its services, so without it an attack runs on the program's own ones. These are
   as good as code without tags can be: a seal is a note of the key's number, and a block is where it stands. */
#ifndef SERVICES_H
#define SERVICES_H

#include "pump.h"

enum { OWN_BLOCKS = 8, OWN_BYTES = 16, OWN_SEALS = 8 };

static int is_machine;                          /* whether the machine's services are called */

static _Alignas(4) char own_blocks[OWN_BLOCKS][OWN_BYTES];
static char own_taken[OWN_BLOCKS];              /* which of them are handed out */

static struct { int value, key; } own_seals[OWN_SEALS];
static int own_seal_count, own_key_count;

/* Takes the letter that says whose services are called. */
PUMP_SERVICE void choose_services(void)
{
    is_machine = pump_get() == 'm';
}

/* The first block of the program's own that isn't handed out, which has 16 bytes however many are asked for. */
PUMP_SERVICE void *own_block(void)
{
    int first = 0;
    while (own_taken[first])
        first++;
    own_taken[first] = 1;
    return own_blocks[first];
}

/* A block of up to 16 bytes. */
PUMP_SERVICE void *allocate(int bytes)
{
    return is_machine ? pump_malloc(bytes) : own_block();
}

PUMP_SERVICE void give_back(void *block)
{
    if (is_machine)
        pump_free(block);
    else
        own_taken[((char *)block - own_blocks[0]) / OWN_BYTES] = 0;
}

PUMP_SERVICE int make_key(void)
{
    return is_machine ? pump_make_key() : own_key_count++;
}

/* What the program itself seals is the number of a note, which has the value and the key. */
PUMP_SERVICE int own_seal(int value, int key)
{
    own_seals[own_seal_count].value = value;
    own_seals[own_seal_count].key = key;
    return own_seal_count++;
}

PUMP_SERVICE int seal(int value, int key)
{
    return is_machine ? pump_seal(value, key) : own_seal(value, key);
}

/* Exits with 1 where the key is another one than the note's. */
PUMP_SERVICE int own_unseal(int sealed, int key)
{
    if (own_seals[sealed].key != key)
        pump_exit(1);
    return own_seals[sealed].value;
}

PUMP_SERVICE int unseal(int sealed, int key)
{
    return is_machine ? pump_unseal(sealed, key) : own_unseal(sealed, key);
}

#endif
