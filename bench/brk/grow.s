# Grows its heap once by as many MiB as its first argument has bytes, and then by one page 10,000 times. Exits with 0, or with 1 where
# brk does not answer what was asked for.
    .option norelax
    .global _start
_start:
    ld   t0, 16(sp)              # the address of the first argument after the program's name
    li   s1, 0
1:  lbu  t1, 0(t0)
    beqz t1, 2f
    addi s1, s1, 1
    addi t0, t0, 1
    j    1b
2:  slli s1, s1, 20              # its length in MiB
    li   a7, 214                 # brk
    li   a0, 0
    ecall
    add  s0, a0, s1
    mv   a0, s0
    li   a7, 214
    ecall
    li   s2, 10000
    li   s3, 4096
3:  add  s0, s0, s3
    mv   a0, s0
    li   a7, 214
    ecall
    bne  a0, s0, 4f
    addi s2, s2, -1
    bnez s2, 3b
    li   a0, 0
    li   a7, 93
    ecall
4:  li   a0, 1
    li   a7, 93
    ecall
