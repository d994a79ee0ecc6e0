/* Asks the filter about 1, 2 and so on, puts the answers out, and ends with what the counter has. */
#include "crates.h"

unsigned long host_go(unsigned long rounds)
{
    for (unsigned long number = 1; number <= rounds; number++) {
        unsigned long answer = filter_of(number);
        put_number(number);
        put_byte('>');
        put_number(answer);
        yield();
    }
    return counter_total();
}
