# Puts its argument out and counts it down to 1. After each number the other tasks go on.
.text
.globl count::down
count::down: li a7,2
ecall
li a7,3
ecall
addi a0,a0,-1
bne a0,zero,count::down
ret
