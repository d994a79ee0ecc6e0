/* Values by keys, in a table of 16 slots. */
#include "crates.h"
#include "map.h"

struct record_1 map_record CRATE(map, record) = { .state.version = 1 };

/* The slot of a key, or the free one where it is to stand. */
static unsigned long slot_of(unsigned long key)
{
    unsigned long at = key * 5 % 16;
    while (map_record.slots[at].key && map_record.slots[at].key != key)
        at = (at + 1) % 16;
    return at;
}

unsigned long map_put(unsigned long key, unsigned long value)
{
    unsigned long at = slot_of(key);
    map_record.slots[at].key = key;
    map_record.slots[at].value = value;
    return !is_current(&map_record.state);
}

unsigned long map_get(unsigned long key, unsigned long *value)
{
    *value = map_record.slots[slot_of(key)].value;
    return !is_current(&map_record.state);
}
