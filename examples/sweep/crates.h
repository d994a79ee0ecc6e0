/* What the crates of this folder offer to each other. */
#include "../plugins/cells.h"

unsigned long map_put(unsigned long key, unsigned long value) CRATE(map, put);
unsigned long map_get(unsigned long key) CRATE(map, get);
unsigned long host_go(unsigned long keys) CRATE(host, go);
