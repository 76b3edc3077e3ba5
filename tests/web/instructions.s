# Each instruction on operands at the edges, for tests/web/compare: those of two registers on each pair of eight words, the others on
# each word. What they leave goes to memory from 80002000 on ($18); a trap is noted there too, and its instruction left out.
        .entry  main
        .org    0x80000000
        j       trap
        nop
        .org    0x80000080
trap:   mfc0    $26, $13
        sw      $26, 0($18)
        mfc0    $26, $8
        sw      $26, 4($18)
        mfc0    $27, $14
        sw      $27, 8($18)
        addiu   $18, $18, 12
        addiu   $27, $27, 4
        jr      $27
        rfe

        .org    0x80000200
main:   lui     $18, 0x8000
        ori     $18, $18, 0x2000
        lui     $16, 0x8000
        ori     $16, $16, 0x1000        # the first word
        addiu   $20, $16, 32            # their end
        addiu   $21, $20, 32            # room for a word that is stored in parts

first:  addiu   $17, $20, -32
        lw      $4, 0($16)
pair:   lw      $5, 0($17)
        nop
        add     $8, $4, $5
        sw      $8, 0($18)
        addu    $8, $4, $5
        sw      $8, 4($18)
        sub     $8, $4, $5
        sw      $8, 8($18)
        subu    $8, $4, $5
        sw      $8, 12($18)
        and     $8, $4, $5
        sw      $8, 16($18)
        or      $8, $4, $5
        sw      $8, 20($18)
        xor     $8, $4, $5
        sw      $8, 24($18)
        nor     $8, $4, $5
        sw      $8, 28($18)
        slt     $8, $4, $5
        sw      $8, 32($18)
        sltu    $8, $4, $5
        sw      $8, 36($18)
        sllv    $8, $4, $5
        sw      $8, 40($18)
        srlv    $8, $4, $5
        sw      $8, 44($18)
        srav    $8, $4, $5
        sw      $8, 48($18)
        mult    $4, $5
        mfhi    $8
        sw      $8, 52($18)
        mflo    $8
        sw      $8, 56($18)
        nop
        nop
        multu   $4, $5
        mfhi    $8
        sw      $8, 60($18)
        mflo    $8
        sw      $8, 64($18)
        nop
        nop
        div     $4, $5
        mfhi    $8
        sw      $8, 68($18)
        mflo    $8
        sw      $8, 72($18)
        nop
        nop
        divu    $4, $5
        mfhi    $8
        sw      $8, 76($18)
        mflo    $8
        sw      $8, 80($18)
        nop
        nop
        ori     $8, $0, 0
        beq     $4, $5, to1
        ori     $8, $8, 1
        ori     $8, $8, 2
to1:    sw      $8, 84($18)
        ori     $8, $0, 0
        bne     $4, $5, to2
        ori     $8, $8, 1
        ori     $8, $8, 2
to2:    sw      $8, 88($18)
        addiu   $18, $18, 92
        addiu   $17, $17, 4
        bne     $17, $20, pair
        nop

        sll     $8, $4, 0
        sw      $8, 0($18)
        sll     $8, $4, 1
        sw      $8, 4($18)
        sll     $8, $4, 31
        sw      $8, 8($18)
        srl     $8, $4, 0
        sw      $8, 12($18)
        srl     $8, $4, 1
        sw      $8, 16($18)
        srl     $8, $4, 31
        sw      $8, 20($18)
        sra     $8, $4, 0
        sw      $8, 24($18)
        sra     $8, $4, 1
        sw      $8, 28($18)
        sra     $8, $4, 31
        sw      $8, 32($18)
        addi    $8, $4, -1
        sw      $8, 36($18)
        addi    $8, $4, 0
        sw      $8, 40($18)
        addi    $8, $4, 32767
        sw      $8, 44($18)
        addi    $8, $4, -32768
        sw      $8, 48($18)
        addiu   $8, $4, -1
        sw      $8, 52($18)
        addiu   $8, $4, 0
        sw      $8, 56($18)
        addiu   $8, $4, 32767
        sw      $8, 60($18)
        addiu   $8, $4, -32768
        sw      $8, 64($18)
        slti    $8, $4, -1
        sw      $8, 68($18)
        slti    $8, $4, 0
        sw      $8, 72($18)
        slti    $8, $4, 32767
        sw      $8, 76($18)
        slti    $8, $4, -32768
        sw      $8, 80($18)
        sltiu   $8, $4, -1
        sw      $8, 84($18)
        sltiu   $8, $4, 0
        sw      $8, 88($18)
        sltiu   $8, $4, 32767
        sw      $8, 92($18)
        sltiu   $8, $4, -32768
        sw      $8, 96($18)
        andi    $8, $4, 0x00ff
        sw      $8, 100($18)
        andi    $8, $4, 0xffff
        sw      $8, 104($18)
        ori     $8, $4, 0x00ff
        sw      $8, 108($18)
        ori     $8, $4, 0xffff
        sw      $8, 112($18)
        xori    $8, $4, 0x00ff
        sw      $8, 116($18)
        xori    $8, $4, 0xffff
        sw      $8, 120($18)
        ori     $8, $0, 0
        blez    $4, to3
        ori     $8, $8, 1
        ori     $8, $8, 2
to3:    sw      $8, 124($18)
        ori     $8, $0, 0
        bgtz    $4, to4
        ori     $8, $8, 1
        ori     $8, $8, 2
to4:    sw      $8, 128($18)
        ori     $8, $0, 0
        bltz    $4, to5
        ori     $8, $8, 1
        ori     $8, $8, 2
to5:    sw      $8, 132($18)
        ori     $8, $0, 0
        bgez    $4, to6
        ori     $8, $8, 1
        ori     $8, $8, 2
to6:    sw      $8, 136($18)
        ori     $8, $0, 0
        bltzal  $4, to7
        ori     $8, $8, 1
        ori     $8, $8, 2
to7:    sw      $8, 140($18)
        ori     $8, $0, 0
        bgezal  $4, to8
        ori     $8, $8, 1
        ori     $8, $8, 2
to8:    sw      $8, 144($18)
        sw      $31, 148($18)
        sw      $4, 0($21)
        lb      $8, 0($21)
        nop
        sw      $8, 152($18)
        lb      $8, 1($21)
        nop
        sw      $8, 156($18)
        lb      $8, 2($21)
        nop
        sw      $8, 160($18)
        lb      $8, 3($21)
        nop
        sw      $8, 164($18)
        lbu     $8, 0($21)
        nop
        sw      $8, 168($18)
        lbu     $8, 1($21)
        nop
        sw      $8, 172($18)
        lbu     $8, 2($21)
        nop
        sw      $8, 176($18)
        lbu     $8, 3($21)
        nop
        sw      $8, 180($18)
        lh      $8, 0($21)
        nop
        sw      $8, 184($18)
        lh      $8, 2($21)
        nop
        sw      $8, 188($18)
        lh      $8, 1($21)
        nop
        sw      $8, 192($18)
        lhu     $8, 0($21)
        nop
        sw      $8, 196($18)
        lhu     $8, 2($21)
        nop
        sw      $8, 200($18)
        lhu     $8, 1($21)
        nop
        sw      $8, 204($18)
        addu    $8, $21, $0
        lwl     $8, 0($21)
        nop
        sw      $8, 208($18)
        addu    $8, $21, $0
        lwl     $8, 1($21)
        nop
        sw      $8, 212($18)
        addu    $8, $21, $0
        lwl     $8, 2($21)
        nop
        sw      $8, 216($18)
        addu    $8, $21, $0
        lwl     $8, 3($21)
        nop
        sw      $8, 220($18)
        addu    $8, $21, $0
        lwr     $8, 0($21)
        nop
        sw      $8, 224($18)
        addu    $8, $21, $0
        lwr     $8, 1($21)
        nop
        sw      $8, 228($18)
        addu    $8, $21, $0
        lwr     $8, 2($21)
        nop
        sw      $8, 232($18)
        addu    $8, $21, $0
        lwr     $8, 3($21)
        nop
        sw      $8, 236($18)
        sw      $21, 0($21)
        swl     $4, 0($21)
        lw      $8, 0($21)
        nop
        sw      $8, 240($18)
        sw      $21, 0($21)
        swl     $4, 1($21)
        lw      $8, 0($21)
        nop
        sw      $8, 244($18)
        sw      $21, 0($21)
        swl     $4, 2($21)
        lw      $8, 0($21)
        nop
        sw      $8, 248($18)
        sw      $21, 0($21)
        swl     $4, 3($21)
        lw      $8, 0($21)
        nop
        sw      $8, 252($18)
        sw      $21, 0($21)
        swr     $4, 0($21)
        lw      $8, 0($21)
        nop
        sw      $8, 256($18)
        sw      $21, 0($21)
        swr     $4, 1($21)
        lw      $8, 0($21)
        nop
        sw      $8, 260($18)
        sw      $21, 0($21)
        swr     $4, 2($21)
        lw      $8, 0($21)
        nop
        sw      $8, 264($18)
        sw      $21, 0($21)
        swr     $4, 3($21)
        lw      $8, 0($21)
        nop
        sw      $8, 268($18)
        sw      $21, 0($21)
        sb      $4, 0($21)
        lw      $8, 0($21)
        nop
        sw      $8, 272($18)
        sw      $21, 0($21)
        sb      $4, 1($21)
        lw      $8, 0($21)
        nop
        sw      $8, 276($18)
        sw      $21, 0($21)
        sb      $4, 2($21)
        lw      $8, 0($21)
        nop
        sw      $8, 280($18)
        sw      $21, 0($21)
        sb      $4, 3($21)
        lw      $8, 0($21)
        nop
        sw      $8, 284($18)
        sw      $21, 0($21)
        sh      $4, 0($21)
        lw      $8, 0($21)
        nop
        sw      $8, 288($18)
        sw      $21, 0($21)
        sh      $4, 2($21)
        lw      $8, 0($21)
        nop
        sw      $8, 292($18)
        sw      $21, 0($21)
        sh      $4, 3($21)
        lw      $8, 0($21)
        nop
        sw      $8, 296($18)
        lw      $8, 2($21)
        sw      $8, 1($21)
        mthi    $4
        mfhi    $8
        sw      $8, 300($18)
        mtlo    $4
        mflo    $8
        sw      $8, 304($18)
        addiu   $18, $18, 308
        addiu   $16, $16, 4
        bne     $16, $20, first
        nop

        jal     there
        lui     $9, 0x8000
        ori     $9, $9, 0x1800
        jalr    $10, $9
        sync
        syscall
        break
        .word   0xffffffff              # no instruction
        lw      $8, 0($0)               # no row of the TLB has the page
        ll      $8, 0($21)
        nop
        sc      $8, 0($21)
        sw      $8, 0($18)
        sc      $8, 0($21)              # the link is used up
        sw      $8, 4($18)
        lui     $9, 0x0001              # a row of the TLB: page 00010 in frame 00002, which may be written
        mtc0    $9, $10
        ori     $8, $0, 0x2600
        mtc0    $8, $2
        ori     $8, $0, 0x0700
        mtc0    $8, $0
        tlbwi
        lw      $8, 16($9)
        nop
        sw      $8, 8($18)
        sw      $18, 20($9)
        mtc0    $0, $2
        tlbp
        mfc0    $8, $0
        nop
        sw      $8, 12($18)
        tlbr
        mfc0    $8, $2
        nop
        sw      $8, 16($18)
        tlbwr
        mfc0    $8, $1
        nop
        sw      $8, 20($18)
        lui     $8, 0xbfff
        sw      $0, 32264($8)           # PWR
there:  sw      $31, 24($18)
        jr      $31
        addiu   $18, $18, 32

        .org    0x80001000
        .word   0, 1, -1, 0x7fffffff, 0x80000000, 0x00008000, 0xffff7f80, 0x12345678
        .org    0x80001800
        jr      $10
        nop
