/* What the crates of this folder offer to each other. What the map answers is 1 where it has to be asked again. */
#include "../plugins/cells.h"

unsigned long map_put(unsigned long key, unsigned long value) CRATE(map, put);
unsigned long map_get(unsigned long key, unsigned long *value) CRATE(map, get);
unsigned long host_go(unsigned long keys) CRATE(host, go);
