/* What the crates of this folder offer to each other. */
#include "../plugins/cells.h"

unsigned long style_of(unsigned long number) CRATE(style, of);
void note_of(unsigned long number) CRATE(note, of);
unsigned long host_go(unsigned long rounds) CRATE(host, go);
