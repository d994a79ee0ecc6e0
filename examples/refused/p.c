/* An object of this source is refused where it is made for a linker that relaxes, with functions at multiples of 16:
   notes of the kind ALIGN then ask the linker to remove bytes. Here clang made the assembler's source, and then the object:

       clang FLAGS -falign-functions=16 -S p.c
       clang --target=riscv64-unknown-elf -march=rv64im -mabi=lp64 -mrelax -c p.s -o 'k#p.o'

   FLAGS are those of ../plugins/Makefile, without -mno-relax. */
#include "../plugins/cells.h"

extern long number CRATE(q, number);
long p_of(long factor) CRATE(p, of);

long p_of(long factor)
{
    return factor * number;
}
