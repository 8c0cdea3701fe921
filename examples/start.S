# Where a program and its threads begin, without a library (docs/MACHINE.md, "The start" and "Calls").

# A program: main(argc, argv), and what it returns is the status of the whole process.
    .globl _start
_start:
    lw   a0, 0(sp)
    addi a1, sp, 4
    call main
    li   a7, 94             # exit_group
    ecall

# word start_thread(void (*body)(word), word argument, void *stack_end, volatile word *alive)
#
# A thread that calls body(argument) and ends. `alive` holds its number until then, and 0 afterwards.
# It answers the number, or the negative of an error.
    .globl start_thread
start_thread:
    addi a2, a2, -16
    sw   a0, 0(a2)
    sw   a1, 4(a2)
    li   a0, 0x1250F00      # VM, FS, FILES, SIGHAND, THREAD, SYSVSEM, CHILD_CLEARTID, CHILD_SETTID
    mv   a1, a2             # the new thread's stack
    mv   a4, a3             # its number's place
    li   a2, 0
    li   a3, 0
    li   a7, 220            # clone
    ecall
    beqz a0, 1f
    ret
1:  lw   a1, 0(sp)
    lw   a0, 4(sp)
    jalr a1
    li   a0, 0
    li   a7, 93             # exit, of this thread alone
    ecall
