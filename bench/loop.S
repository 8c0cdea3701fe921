# Counts up, for ever: addi and bne, and a jump each time that the count wraps.
        .globl  _start
        .text
_start: addi    t0, t0, 1
        bne     t0, x0, _start
        jal     x0, _start
