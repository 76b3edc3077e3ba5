# Makes each trap once, and keeps what its entry sets: eight words for each trap from 80001000 on, the
# vector, Cause, EPC, BadVAddr, EntryHi, Context, Status, and 0. The next trap is made at the next
# address of the list at `next`; nothing returns by rfe. $16 is the place of the words, $17 that in
# the list, $18 kseg0, $19 kseg1.
        .entry  main

        .org    0x80000000
        ori     $26, $0, 0x0000         # the vector at 80000000
        j       keep
        or      $26, $26, $18

        .org    0x80000080
        ori     $26, $0, 0x0080         # the vector at 80000080
        or      $26, $26, $18
keep:   sw      $26, 0($16)
        mfc0    $26, $13                # Cause
        sw      $26, 4($16)
        mfc0    $26, $14                # EPC
        sw      $26, 8($16)
        mfc0    $26, $8                 # BadVAddr
        sw      $26, 12($16)
        mfc0    $26, $10                # EntryHi
        sw      $26, 16($16)
        mfc0    $26, $4                 # Context
        sw      $26, 20($16)
        mfc0    $26, $12                # Status
        sw      $26, 24($16)
        mtc0    $0, $12
        addiu   $16, $16, 32
        lw      $26, 0($17)
        addiu   $17, $17, 4
        jr      $26
        nop

        .org    0x80000200
main:   lui     $18, 0x8000
        lui     $19, 0xbfff
        ori     $16, $18, 0x1000
        ori     $17, $18, 0x2000
        ori     $8, $0, 0x0140
        mtc0    $8, $10                 # EntryHi: identifier 5
        mtc0    $18, $4                 # Context: PTEBase 80000000
        ori     $8, $0, 0x0004
        mtc0    $8, $12                 # Status: IEp, which a trap moves to IEo
        syscall
t1:     break
t2:     lui     $8, 0x7fff
        add     $8, $8, $8              # overflows
t3:     .word   0xffffffff              # reserved
t4:     beq     $0, $0, t5
        beq     $0, $0, t5              # a branch in a delay slot
t5:     .word   0x44000000              # coprocessor 1
t6:     lw      $8, 1($18)
t7:     sw      $8, 2($18)
t8:     beq     $0, $0, t9
        lh      $8, 1($18)              # in a delay slot
t9:     lui     $8, 0x8010
        lw      $8, 0($8)               # behind RAM of 1,048,576 bytes
t10:    lui     $8, 0xbfe0
        lb      $8, 0($8)               # a byte of the bus
t11:    lui     $8, 0xbfe0
        jr      $8                      # the bus executed
        nop
t12:    lui     $8, 0x0040
        lw      $8, 0x1234($8)          # no row
t13:    lui     $8, 0x0040
        sw      $8, 0x1234($8)
t14:    lui     $8, 0xc000
        lw      $8, 0($8)               # no row in kseg2
# row 0: page 00401, at first not valid, and then not to be written
t15:    lui     $8, 0x0040
        ori     $9, $8, 0x1140
        mtc0    $9, $10
        mtc0    $0, $2
        mtc0    $0, $0
        tlbwi
        lw      $8, 0x1234($8)
t16:    ori     $9, $0, 0x3200
        mtc0    $9, $2
        tlbwi
        lui     $8, 0x0040
        sw      $8, 0x1234($8)
# row 1: page 00400 in frame 00003, which is executed in user mode
t17:    lui     $8, 0x0040
        ori     $9, $8, 0x0140
        mtc0    $9, $10
        ori     $9, $0, 0x3200
        mtc0    $9, $2
        ori     $9, $0, 0x0100
        mtc0    $9, $0
        tlbwi
t18:    ori     $9, $0, 0x000c          # KUp, IEp
        mtc0    $9, $12
        jr      $8
        rfe
t19:    lui     $8, 0x0040
        ori     $8, $8, 8
        ori     $9, $0, 0x000c
        mtc0    $9, $12
        jr      $8
        rfe
# the interrupts: software's, the timer's, another processor's (here its own), the console's
t20:    ori     $8, $0, 0x0100
        mtc0    $8, $13
        ori     $8, $0, 0x0101
        mtc0    $8, $12
        nop
t21:    mtc0    $0, $13
        ori     $8, $0, 5
        mtc0    $8, $11
        ori     $8, $0, 0x8001
        mtc0    $8, $12
spin:   beq     $0, $0, spin
        nop
t22:    mtc0    $0, $11
        ori     $8, $19, 0x8000
        ori     $9, $0, 1
        sw      $9, 4($8)               # CIPI
        ori     $9, $0, 0x0801
        mtc0    $9, $12
        nop
t23:    sw      $0, 4($8)
        lui     $8, 0xbfe0
        ori     $9, $0, 5
        sw      $9, 4($8)               # WIRQ: ENABLE, FORCE
        ori     $9, $0, 0x0401
        mtc0    $9, $12
        nop
t24:    sw      $0, 32264($19)          # PWR

        .org    0x80002000
next:   .word   t1, t2, t3, t4, t5, t6, t7, t8, t9, t10, t11, t12, t13, t14, t15, t16, t17, t19, t20, t21, t22, t23, t24

# the page in user mode: coprocessor 0, and an address of the kernel
        .org    0x80003000
        mfc0    $8, $12
        nop
        lw      $8, 0($18)
