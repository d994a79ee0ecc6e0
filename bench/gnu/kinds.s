# The kinds that gcc leaves to the assembler's own hands.
        .text
        .globl "kinds::go"
"kinds::go":
        .reloc ., R_RISCV_BRANCH, "kinds::go" + 4094
        .word 0x00b50063
        .reloc ., R_RISCV_JAL, "kinds::go" - 1048576 + 4
        .word 0x000000ef
        .reloc ., R_RISCV_CALL, "queue::run"
        auipc ra, 0
        jalr ra, 0(ra)
        lui a0, %hi("queue::done" + 0x800)
        ld a1, %lo("queue::done" + 0x800)(a0)
        sd a1, %lo("queue::done" - 5)(a0)
1:      auipc a2, %pcrel_hi("shop::stock" + 2047)
        sb a1, %pcrel_lo(1b)(a2)
        addi a2, a2, %pcrel_lo(1b)

        .data
        .byte 7
        .half "shop::work" - "queue::put"
        .reloc ., R_RISCV_ADD8, "kinds::end"
        .reloc ., R_RISCV_SUB8, "kinds::start"
        .byte 0
        .word "shop::places" - "kinds::start" + 9
        .quad "queue::put" - "shop::work"
        .reloc ., R_RISCV_32, "kinds::start"
        .word 1
        .reloc ., R_RISCV_32_PCREL, "queue::done" - 3
        .word 1
        .reloc ., R_RISCV_SET8, "kinds::end"
        .byte 1
        .reloc ., R_RISCV_SET6, "kinds::end"
        .reloc ., R_RISCV_SUB6, "kinds::start"
        .byte 0xc0
        .reloc ., R_RISCV_SET16, "kinds::end"
        .reloc ., R_RISCV_SUB16, "kinds::start"
        .half 1
        .reloc ., R_RISCV_SET32, "kinds::end"
        .word 1

        .section .rodata
        .globl "kinds::start", "kinds::end"
"kinds::start":
        .quad "kinds::go" + 4, "shop::acts"
        .zero 21
"kinds::end":
        .byte 1
