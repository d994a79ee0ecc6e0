/* Two pointers to the filter in data: one that the object has, and one that a task stores. */
#include "crates.h"

typedef unsigned long function(unsigned long);

static function *volatile linked = filter_of;
static function *volatile stored;

/* Keeps the address that the filter has now. */
unsigned long table_keep(unsigned long number)
{
    stored = filter_of;
    return number;
}

/* Tries to write the pointer that linking set. */
unsigned long table_go(unsigned long number)
{
    linked = stored;
    return number;
}
