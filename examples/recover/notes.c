/* Writes notes. There are three of them, and none is given back. */
#include "crates.h"

struct note {
    unsigned long number, square;
};

static struct note notes[3];
static unsigned long taken;

/* The next note, or null where all are taken. */
__attribute__((noinline)) static struct note *take(void)
{
    return taken < 3 ? &notes[taken++] : 0;
}

/* A mistake: nobody sees whether there was a note left. */
unsigned long notes_of(unsigned long number)
{
    struct note *note = take();
    note->number = number;
    note->square = number * number;
    return note->square;
}
