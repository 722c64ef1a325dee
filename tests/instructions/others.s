# Words that have no row: of other extensions, and near misses of rows.
        .option norvc
        fence.i
        csrrw   x0, mstatus, x0
        csrrci  x1, fcsr, 31
        flw     f1, 0(x2)
        fsd     f1, 8(x2)
        fadd.s  f1, f2, f3
        fmadd.d f1, f2, f3, f4
        mret
        wfi
        .option rvc
        c.addi  x1, 1
        c.addi  x1, 1
        c.ebreak
        c.ebreak
        .option norvc
        .4byte  0x00000000      # no opcode
        .4byte  0xffffffff      # all ones
        .4byte  0x042081b3      # add x3, x1, x2 with funct7 02
        .4byte  0x402091b3      # sll with funct7 20
        .4byte  0x6220c1b3      # div with funct7 31
        .4byte  0x0420913b      # sllw with funct7 02
        .4byte  0x0220913b      # funct7 01 of the W rows with funct3 1, which has no multiplication
        .4byte  0x04111093      # slli x1, x2, 65: bit 26
        .4byte  0x44115093      # srai x1, x2, 65: bit 26
        .4byte  0x0211109b      # slliw x1, x2, 33: bit 25
        .4byte  0x4211509b      # sraiw x1, x2, 33: bit 25
        .4byte  0x0001209b      # addiw with funct3 2
        .4byte  0x00012063      # a branch with funct3 2
        .4byte  0x00017003      # a load with funct3 7
        .4byte  0x00014023      # a store with funct3 4
        .4byte  0x00011067      # jalr with funct3 1
        .4byte  0x000000f3      # ecall with rd 1
        .4byte  0x00008073      # ecall with rs1 1
        .4byte  0x00300073      # ecall with immediate 3
        .4byte  0x00100072      # ebreak without bit 0
        .4byte  0x1011202f      # lr.w with rs2 1
        .4byte  0x11f1302f      # lr.d with rs2 31
        .4byte  0x283120af      # funct5 05, which no extension here has, with funct3 2
        .4byte  0xf83130af      # funct5 1F with funct3 3
        .4byte  0x003100af      # an amoadd with funct3 0
        .4byte  0x003110af      # an amoadd with funct3 1
        .4byte  0x003140af      # an amoadd with funct3 4
        .4byte  0x183100af      # an sc with funct3 0
        .4byte  0x003120ae      # amoadd.w without bit 0
