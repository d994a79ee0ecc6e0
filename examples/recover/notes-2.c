/* Writes notes, and gives each back once it is read. */
#include "crates.h"

struct note {
    unsigned long number, square;
};

static struct note notes[3];
static unsigned long taken;

/* The next note, or null where all are taken. */
__attribute__((noinline)) static struct note *take(void)
{
    return taken < 3 ? &notes[taken++] : 0;
}

unsigned long notes_of(unsigned long number)
{
    struct note *note = take();
    if (!note)
        return 0;
    note->number = number;
    note->square = number * number;
    taken--;
    return note->square;
}
