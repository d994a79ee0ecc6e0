/* Twice the number, which is counted. It lets others go on before it answers. */
#include "crates.h"

unsigned long filter_of(unsigned long number)
{
    counter_add(number);
    yield();
    return 2 * number;
}
