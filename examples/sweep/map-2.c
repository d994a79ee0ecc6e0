/* The same with 32 slots, whose keys and values stand apart, and a count. */
#include "crates.h"
#include "map.h"

struct record_2 map_record CRATE(map, record);

static unsigned long slot_of(unsigned long key)
{
    unsigned long at = key * 5 % 32;
    while (map_record.keys[at] && map_record.keys[at] != key)
        at = (at + 1) % 32;
    return at;
}

unsigned long map_put(unsigned long key, unsigned long value)
{
    unsigned long at = slot_of(key);
    map_record.used += map_record.keys[at] == 0;
    map_record.keys[at] = key;
    map_record.values[at] = value;
    return 0;
}

unsigned long map_get(unsigned long key)
{
    return map_record.values[slot_of(key)];
}

/* Puts each key of the old record into the new one. */
unsigned long map_carry(unsigned long unused) CRATE(map, carry);
unsigned long map_carry(unsigned long unused)
{
    static const char name[] = "map::record";
    const struct record_1 *old = old_place(name, sizeof name - 1);
    if (!old)
        return 1;
    for (int at = 0; at < 16; at++)
        if (old->slots[at].key)
            map_put(old->slots[at].key, old->slots[at].value);
    return 0;
}
