/* What a crate in C needs: the calls of a task, the two more of a swap's routine, and names of crates. */
#ifndef CELLS_H
#define CELLS_H

/* Behind a declaration, CRATE(counter, add) gives it the name counter::add in the object. gcc puts the text of a
   label into its assembler source as it is, so it has to bring its quotes; clang names the symbol by it. */
#ifdef __clang__
#define CRATE(crate, name) __asm__(#crate "::" #name)
#else
#define CRATE(crate, name) __asm__("\"" #crate "::" #name "\"")
#endif

/* A call is the instruction ecall: its number stands in a7 (x17), its arguments in a0 and a1 (x10 and x11), and its
   answer in a0. "memory" tells the compiler that others may run meanwhile. */
static inline unsigned long cells_call(unsigned long number, unsigned long first, unsigned long second)
{
    register unsigned long a7 __asm__("a7") = number;
    register unsigned long a0 __asm__("a0") = first;
    register unsigned long a1 __asm__("a1") = second;
    __asm__ volatile("ecall" : "+r"(a0) : "r"(a7), "r"(a1) : "memory");
    return a0;
}

static inline void end(unsigned long code)          { cells_call(0, code, 0); __builtin_unreachable(); }
static inline void put_byte(unsigned char byte)     { cells_call(1, byte, 0); }
static inline void put_number(unsigned long number) { cells_call(2, number, 0); }
static inline void yield(void)                      { cells_call(3, 0, 0); }

/* In a routine alone: where a name of so many bytes is in the old cells, and in the new ones; 0 where it isn't. */
static inline void *old_place(const char *name, unsigned long bytes) { return (void *)cells_call(4, (unsigned long)name, bytes); }
static inline void *new_place(const char *name, unsigned long bytes) { return (void *)cells_call(5, (unsigned long)name, bytes); }

/* State that a routine is to carry over begins with this head: which layout it has, 0 once a routine has taken it away, and how
   many tasks are between enter and leave. */
struct state {
    volatile unsigned long version, inside;
};

/* Behind what was read or written: whether a routine has not taken the state away by then. Where it has, the caller has to call
   the new code, which does the same again. So this is for what may be done twice, as storing a value, and for many tasks. */
static inline int is_current(struct state *state)
{
    __asm__ volatile("" : : : "memory");
    return state->version != 0;
}

/* Around what has to be done once, as adding to a count. enter is 0 where a routine has taken the state away: then the caller
   has to call the new code. One task alone may do so: two that count at the same time could lose one of the counts. */
static inline int enter(struct state *state)
{
    state->inside++;
    if (state->version)
        return 1;
    state->inside--;
    return 0;
}

static inline void leave(struct state *state)
{
    __asm__ volatile("" : : : "memory");
    state->inside--;
}

/* The routine CRATE::ROUTINE, which takes the old cells' variable CRATE::NAME, of that TYPE, over where its layout is NUMBER
   and no task is between enter and leave. Behind the macro stands a body, in which OLD points to the variable; it answers 0
   where it has succeeded. Codes of its own are 1 where no old cell has the name, 2 for another version, 3 where a task is in
   between. */
#define ROUTINE(crate, routine, name, number, type, old)                                 \
    static unsigned long crate##_##routine##_of(type *old);                              \
    unsigned long crate##_##routine(unsigned long unused) CRATE(crate, routine);         \
    unsigned long crate##_##routine(unsigned long unused)                                \
    {                                                                                    \
        static const char text[] = #crate "::" #name;                                    \
        type *found = old_place(text, sizeof text - 1);                                  \
        if (!found)                                                                      \
            return 1;                                                                    \
        if (found->state.version != number)                                              \
            return 2;                                                                    \
        if (found->state.inside)                                                         \
            return 3;                                                                    \
        unsigned long code = crate##_##routine##_of(found);                              \
        if (code == 0)                                                                   \
            found->state.version = 0;                                                    \
        return code;                                                                     \
    }                                                                                    \
    static unsigned long crate##_##routine##_of(type *old)

#endif
