.data
.globl a::n
a::n: .quad 7
