/* The new layout, which moves nothing: a key that it does not have is looked for where the old code keeps it. */
#include "crates.h"
#include "map.h"

struct record_2 map_record CRATE(map, record);
static const struct record_1 *old;

static unsigned long slot_of(unsigned long key)
{
    unsigned long at = key * 5 % 32;
    while (map_record.keys[at] && map_record.keys[at] != key)
        at = (at + 1) % 32;
    return at;
}

unsigned long map_put(unsigned long key, unsigned long value)
{
    unsigned long at = slot_of(key);
    map_record.used += map_record.keys[at] == 0;
    map_record.keys[at] = key;
    map_record.values[at] = value;
    return 0;
}

unsigned long map_get(unsigned long key)
{
    unsigned long at = slot_of(key);
    if (map_record.keys[at] == key || !old)
        return map_record.values[at];
    unsigned long then = key * 5 % 16;
    while (old->slots[then].key && old->slots[then].key != key)
        then = (then + 1) % 16;
    return old->slots[then].value;
}

/* Says where the old record is. The pointer keeps the old cell. */
unsigned long map_carry(unsigned long unused) CRATE(map, carry);
unsigned long map_carry(unsigned long unused)
{
    static const char name[] = "map::record";
    old = old_place(name, sizeof name - 1);
    return !old;
}
