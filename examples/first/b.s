.rodata
.globl b::p
b::p: .quad a::n+4, 1
