loop:
    add  x14, x14, x21
    and  x14, x14, x22
    add  x5, x20, x14
    ld   x8, 0(x5)
    add  x7, x7, x8
    xor  x7, x7, x6
    sd   x7, 0(x5)
    srli x9, x7, 7
    add  x10, x10, x9
    addi x6, x6, -1
    bne  x6, x0, loop
    ecall
