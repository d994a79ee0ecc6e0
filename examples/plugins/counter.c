/* Counts numbers, and keeps their total. */
#include "crates.h"

struct record {
    unsigned long calls;
    unsigned long total;
};

struct record counter_record CRATE(counter, record);

unsigned long counter_add(unsigned long number)
{
    counter_record.total += number;
    return ++counter_record.calls;
}

unsigned long counter_total(void)
{
    return counter_record.total;
}
