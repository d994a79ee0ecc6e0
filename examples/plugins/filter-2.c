/* Ten times the number. */
#include "crates.h"

unsigned long filter_of(unsigned long number)
{
    counter_add(number);
    yield();
    return 10 * number;
}
