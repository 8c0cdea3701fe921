# Where a program with a C library begins (docs/MACHINE.md, "The start"). The linker has put the library's
# thread-local data where it is used, so that its place is all that tp needs.
    .globl _start
_start:
    .option push
    .option norelax
    la   gp, __global_pointer$
    .option pop
    la   tp, __tls_base
    lw   a0, 0(sp)
    addi a1, sp, 4
    call begin
