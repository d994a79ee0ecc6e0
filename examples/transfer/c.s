.data
.globl c::count
c::count: .quad 0
.text
.globl c::add
c::add: la t0,c::count
ld a0,0(t0)
addi a0,a0,1
sd a0,0(t0)
ret
