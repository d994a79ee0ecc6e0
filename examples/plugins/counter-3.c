/* The same as counter.c, with a routine that spoils the old record and then doesn't succeed. */
#include "counter.c"

static const char name[] = "counter::record";

unsigned long counter_carry(unsigned long unused)
{
    struct record *old = old_place(name, sizeof name - 1);
    old->calls = old->total = -1UL;
    return 7;
}
