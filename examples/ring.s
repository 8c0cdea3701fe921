# Process i of a ring of N, with the arguments `ring`, i and N, each process on the host of its number.
# It listens on port 7000, connects to that port of the next host, and accepts a connection from the one
# before. A counter then goes round 100 times: each process adds i + 1 and sends it on, a byte at a call,
# the lowest first. At the end process 0 writes the counter in decimal into the file `value`.
#
# s0: i + 1             s1: N                s2: the socket that listens
# s3: to the next       s4: from the one before
# s5: the counter       s6: how many rounds are left
_start:
 lw a0, 8(sp)
 call number
 addi s0, a0, 1
 lw a0, 12(sp)
 call number
 mv s1, a0
# An address at sp: the family 2, port 7000, any host. From sp + 16 on a byte that is read or written, and
# digits.
 addi sp, sp, -32
 li t0, 0x581B0002
 sw t0, 0(sp)
 sw zero, 4(sp)
 sw zero, 8(sp)
 sw zero, 12(sp)
 call socket
 mv s2, a0
 mv a1, sp
 li a2, 16
 li a7, 200
 ecall
 bne a0, zero, failed
 mv a0, s2
 li a1, 1
 li a7, 201
 ecall
 bne a0, zero, failed
# The address of the next host, 10.0.0.(i + 2), or 10.0.0.1 behind the last one.
 remu t0, s0, s1
 addi t0, t0, 1
 slli t0, t0, 24
 addi t0, t0, 10
 sw t0, 4(sp)
 call socket
 mv s3, a0
connect:
 mv a0, s3
 mv a1, sp
 li a2, 16
 li a7, 203
 ecall
 beq a0, zero, connected
# Nobody listens there yet (ECONNREFUSED): others go on first.
 li t0, -111
 bne a0, t0, failed
 li a7, 124
 ecall
 j connect
connected:
 mv a0, s2
 li a1, 0
 li a7, 202
 ecall
 blt a0, zero, failed
 mv s4, a0
 li s5, 0
 li s6, 100
 li t0, 1
 beq s0, t0, first
other:
 call receive
 add s5, s5, s0
 call send
 addi s6, s6, -1
 bne s6, zero, other
 j done
# Process 0 begins a round, and sees the counter come back.
first:
 add s5, s5, s0
 call send
 call receive
 addi s6, s6, -1
 bne s6, zero, first
# The digits, from the last on, up to sp + 32.
 addi a1, sp, 32
 li t0, 10
digit:
 remu t1, s5, t0
 addi t1, t1, 48
 addi a1, a1, -1
 sb t1, 0(a1)
 divu s5, s5, t0
 bne s5, zero, digit
 mv s1, a1
# openat(AT_FDCWD, "value", O_CREAT | O_TRUNC | O_WRONLY, 0)
 li a0, -100
 la a1, value
 li a2, 0x241
 li a3, 0
 li a7, 56
 ecall
 blt a0, zero, failed
 mv a1, s1
 addi a2, sp, 32
 sub a2, a2, s1
 li a7, 64
 ecall
 bne a0, a2, failed
done:
 li a0, 0
 j exit
failed:
 li a0, 1
exit:
 li a7, 94
 ecall
# socket(AF_INET, SOCK_STREAM, 0)
socket:
 li a0, 2
 li a1, 1
 li a2, 0
 li a7, 198
 ecall
 blt a0, zero, failed
 ret
# The number that the digits at a0 spell.
number:
 mv t0, a0
 li a0, 0
 li t2, 10
next:
 lbu t1, 0(t0)
 beq t1, zero, end
 mul a0, a0, t2
 add a0, a0, t1
 addi a0, a0, -48
 addi t0, t0, 1
 j next
end:
 ret
# Sends the four bytes of the counter.
send:
 li s7, 0
 li s8, 32
send_byte:
 srl t0, s5, s7
 sb t0, 16(sp)
 mv a0, s3
 addi a1, sp, 16
 li a2, 1
 li a7, 64
 ecall
 bne a0, a2, failed
 addi s7, s7, 8
 bne s7, s8, send_byte
 ret
# Receives them.
receive:
 li s5, 0
 li s7, 0
 li s8, 32
receive_byte:
 mv a0, s4
 addi a1, sp, 16
 li a2, 1
 li a7, 63
 ecall
 bne a0, a2, failed
 lbu t0, 16(sp)
 sll t0, t0, s7
 or s5, s5, t0
 addi s7, s7, 8
 bne s7, s8, receive_byte
 ret
value:
 .ascii "value\0"
