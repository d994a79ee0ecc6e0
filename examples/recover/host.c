/* Asks for a note on 1, 2 and so on, and puts out what it says. */
#include "crates.h"

unsigned long host_go(unsigned long numbers)
{
    for (unsigned long number = 1; number <= numbers; number++) {
        put_number(notes_of(number));
        put_byte(';');
    }
    return numbers;
}
