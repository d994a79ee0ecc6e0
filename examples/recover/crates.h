/* What the crates of this folder offer to each other. */
#include "../plugins/cells.h"

unsigned long notes_of(unsigned long number) CRATE(notes, of);
unsigned long host_go(unsigned long numbers) CRATE(host, go);
