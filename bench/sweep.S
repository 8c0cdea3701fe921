# Sweeps over 4 MB by words, again and again: adds 1 to each word (lw, addi, sw, addi, bne).
        .globl  _start
        .text
_start: lui     a0, %hi(table)
        addi    a0, a0, %lo(table)
        lui     a2, 1024                # 4 MB
        add     a1, a0, a2
again:  addi    a3, a0, 0
next:   lw      a4, 0(a3)
        addi    a4, a4, 1
        sw      a4, 0(a3)
        addi    a3, a3, 4
        bne     a3, a1, next
        jal     x0, again
        .bss
        .balign 4096
table:  .zero   4194304
