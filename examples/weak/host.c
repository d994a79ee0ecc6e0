/* Puts out 1, 2 and so on in the style that there is, and tells whoever takes notes. */
#include "crates.h"

/* The style where no crate has another one. */
__attribute__((weak)) unsigned long style_of(unsigned long number)
{
    return number;
}

/* Where nobody takes notes, this is at 0. */
__attribute__((weak)) void note_of(unsigned long number);

/* A function of its own, so that the address is asked for each time, and not once before the loop. */
__attribute__((noinline)) static void tell(unsigned long number)
{
    if (note_of)
        note_of(number);
}

unsigned long host_go(unsigned long rounds)
{
    for (unsigned long number = 1; number <= rounds; number++) {
        put_number(style_of(number));
        tell(number);
        yield();
    }
    return 0;
}
