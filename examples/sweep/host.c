/* Puts the squares of 1, 2 and so on into the map, and then puts out what the map has for each. */
#include "crates.h"

unsigned long host_go(unsigned long keys)
{
    for (unsigned long key = 1; key <= keys; key++) {
        map_put(key, key * key);
        yield();
    }
    for (unsigned long key = 1; key <= keys; key++) {
        put_number(map_get(key));
        put_byte(' ');
    }
    return 0;
}
