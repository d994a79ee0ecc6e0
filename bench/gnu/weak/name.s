# All three names for good.
        .text
        .globl own, other, none
        nop
own:
        nop
other:
        nop
none:
        ret
