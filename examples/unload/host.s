# Puts out what another crate makes of its argument, and ends.
.text
.globl host::go
host::go: call filter::twice
li a7,2
ecall
li a7,0
ecall
