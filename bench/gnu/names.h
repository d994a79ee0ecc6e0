/* The assembler's name of what is declared. gcc writes it as it stands, so the quotes belong to it; clang makes a symbol of it. */
#ifdef __clang__
#define NAMED(name) __asm__(name)
#else
#define NAMED(name) __asm__("\"" name "\"")
#endif

typedef unsigned long u64;
typedef unsigned int u32;
