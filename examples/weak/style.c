/* The style of squares. */
#include "crates.h"

unsigned long style_of(unsigned long number)
{
    return number * number;
}
