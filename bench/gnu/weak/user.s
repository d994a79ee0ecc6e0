# Leads to a name of which it has a default, to one of which another crate has, and to one that nobody needs to have.
        .text
        .weak own
        .weak none
        .globl user
user:
        call own
        call other
1:      auipc a0, %pcrel_hi(own + 4)
        addi a0, a0, %pcrel_lo(1b)
2:      auipc a1, %pcrel_hi(other)
        sd a0, %pcrel_lo(2b)(a1)
3:      auipc a2, %pcrel_hi(none)
        addi a2, a2, %pcrel_lo(3b)
        lui a3, %hi(none)
        addi a3, a3, %lo(none)
        ret
own:
        ret

        .data
        .quad own, other - 1, none + 8
        .word own - user
        .word none
