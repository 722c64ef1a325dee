# One instruction of each row of the table, in the table's order, and then edges of each form's fields, and some
# atomic rows in every order of accesses.
        lui     x10, 0x12
        auipc   x31, 0xfffff
        jal     x1, . + 0x1000
        jalr    x1, -4(x5)
        beq     x1, x2, . + 16
        bne     x3, x4, . - 16
        blt     x5, x6, . + 4094
        bge     x7, x8, . - 4096
        bltu    x9, x10, . + 2048
        bgeu    x11, x12, . - 2
        lb      x1, 0(x2)
        lh      x3, 2(x4)
        lw      x5, -4(x6)
        ld      x7, 8(x8)
        lbu     x9, 2047(x10)
        lhu     x11, -2048(x12)
        lwu     x13, 16(x14)
        sb      x1, 1(x2)
        sh      x3, -2(x4)
        sw      x5, 2047(x6)
        sd      x7, -2048(x8)
        addi    x1, x2, -5
        slti    x3, x4, 2047
        sltiu   x5, x6, -2048
        xori    x7, x8, -1
        ori     x9, x10, 1
        andi    x11, x12, 255
        slli    x13, x14, 63
        srli    x15, x16, 32
        srai    x17, x18, 33
        add     x1, x2, x3
        sub     x4, x5, x6
        sll     x7, x8, x9
        slt     x10, x11, x12
        sltu    x13, x14, x15
        xor     x16, x17, x18
        srl     x19, x20, x21
        sra     x22, x23, x24
        or      x25, x26, x27
        and     x28, x29, x30
        fence   iorw, iorw
        ecall
        ebreak
        addiw   x1, x2, -2048
        slliw   x3, x4, 31
        srliw   x5, x6, 1
        sraiw   x7, x8, 16
        addw    x1, x2, x3
        subw    x4, x5, x6
        sllw    x7, x8, x9
        srlw    x10, x11, x12
        sraw    x13, x14, x15
        mul     x1, x2, x3
        mulh    x4, x5, x6
        mulhsu  x7, x8, x9
        mulhu   x10, x11, x12
        div     x13, x14, x15
        divu    x16, x17, x18
        rem     x19, x20, x21
        remu    x22, x23, x24
        mulw    x25, x26, x27
        divw    x28, x29, x30
        divuw   x31, x0, x1
        remw    x2, x3, x4
        remuw   x5, x6, x7
        lr.w    x1, (x2)
        sc.w    x4, x6, (x5)
        amoswap.w x7, x9, (x8)
        amoadd.w x10, x12, (x11)
        amoxor.w x13, x15, (x14)
        amoand.w x16, x18, (x17)
        amoor.w  x19, x21, (x20)
        amomin.w x22, x24, (x23)
        amomax.w x25, x27, (x26)
        amominu.w x28, x30, (x29)
        amomaxu.w x31, x1, (x0)
        lr.d    x2, (x3)
        sc.d    x5, x7, (x6)
        amoswap.d x8, x10, (x9)
        amoadd.d x11, x13, (x12)
        amoxor.d x14, x16, (x15)
        amoand.d x17, x19, (x18)
        amoor.d  x20, x22, (x21)
        amomin.d x23, x25, (x24)
        amomax.d x26, x28, (x27)
        amominu.d x29, x31, (x30)
        amomaxu.d x0, x2, (x1)
        lui     x0, 0xabcde
        auipc   x1, 0x80000
        jal     x0, . - 1048576
        jal     x31, . + 1048574
        jal     x1, . + 2048
        jal     x1, . - 2
        jalr    x0, 2047(x31)
        slli    x1, x2, 0
        srai    x1, x2, 63
        fence   r, w
        fence.tso
        sub     x31, x31, x31
        lr.w    x10, (x11)
        sc.w    x12, x13, (x11)
        amoadd.d.aqrl x10, x12, (x11)
        lr.w.rl x31, (x1)
        lr.w.aq x31, (x1)
        lr.w.aqrl x31, (x1)
        amoadd.w.rl x31, x1, (x30)
        amoadd.w.aq x31, x1, (x30)
        amoadd.w.aqrl x31, x1, (x30)
        sc.d.rl x31, x1, (x30)
        sc.d.aq x31, x1, (x30)
        sc.d.aqrl x31, x1, (x30)
        amomaxu.d.rl x31, x1, (x30)
        amomaxu.d.aq x31, x1, (x30)
        amomaxu.d.aqrl x31, x1, (x30)
