/* The same with a wider record, in another order, and a routine that carries the old one over. */
#include "crates.h"

struct record {
    unsigned long largest;
    unsigned long total;
    unsigned long calls;
};

struct record counter_record CRATE(counter, record);

unsigned long counter_add(unsigned long number)
{
    if (number > counter_record.largest)
        counter_record.largest = number;
    counter_record.total += number;
    return ++counter_record.calls;
}

unsigned long counter_total(void)
{
    return counter_record.total;
}

static const char name[] = "counter::record";

/* The old record has the layout of counter.c. */
unsigned long counter_carry(unsigned long unused)
{
    const struct { unsigned long calls, total; } *old = old_place(name, sizeof name - 1);
    if (!old)
        return 1;
    counter_record.total = old->total;
    counter_record.calls = old->calls;
    return 0;
}
