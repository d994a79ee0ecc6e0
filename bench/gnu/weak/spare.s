# A default of one name, and a word that leads to it.
        .text
        .weak other
        nop
other:
        ret

        .section .rodata
        .quad other
