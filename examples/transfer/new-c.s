.data
.globl c::count
c::count: .quad 0
.text
.globl c::add
c::add: la t0,c::count
ld a0,0(t0)
addi a0,a0,10
sd a0,0(t0)
ret
.globl c::mv
c::mv: la a0,c::name
li a1,8
li a7,4
ecall
ld t1,0(a0)
la t0,c::count
sd t1,0(t0)
li a0,0
ret
.rodata
c::name: .byte 99,58,58,99,111,117,110,116
