/* Puts the squares of 1, 2 and so on into the map, and then puts out what the map has for each. */
#include "crates.h"

unsigned long host_go(unsigned long keys)
{
    for (unsigned long key = 1; key <= keys; key++) {
        while (map_put(key, key * key))
            ;
        yield();
    }
    for (unsigned long key = 1; key <= keys; key++) {
        unsigned long value;
        while (map_get(key, &value))
            ;
        put_number(value);
        put_byte(' ');
    }
    return 0;
}
