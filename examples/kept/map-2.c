/* The same with 32 slots, whose keys and values stand apart, and a count. */
#include "crates.h"
#include "map.h"

struct record_2 map_record CRATE(map, record) = { .state.version = 2 };

static unsigned long slot_of(unsigned long key)
{
    unsigned long at = key * 5 % 32;
    while (map_record.keys[at] && map_record.keys[at] != key)
        at = (at + 1) % 32;
    return at;
}

unsigned long map_put(unsigned long key, unsigned long value)
{
    unsigned long at = slot_of(key);
    map_record.used += map_record.keys[at] == 0;
    map_record.keys[at] = key;
    map_record.values[at] = value;
    return !is_current(&map_record.state);
}

unsigned long map_get(unsigned long key, unsigned long *value)
{
    *value = map_record.values[slot_of(key)];
    return !is_current(&map_record.state);
}

/* Puts each key of the old record into the new one. */
ROUTINE(map, carry, record, 1, struct record_1, old)
{
    for (int at = 0; at < 16; at++)
        if (old->slots[at].key)
            map_put(old->slots[at].key, old->slots[at].value);
    return 0;
}
