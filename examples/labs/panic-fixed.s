# panic, fixed: `ll` and `sc`. The bug: each processor looks whether the work is done, by the word 1000,
# and only then says that it does it, so that both may do it.
        lui     $8, 0xbfff
        ori     $8, $8, 0x8000          # the processors' places, in kseg1
        lui     $9, 0x8000
        ori     $9, $9, 0x021c          # the address of both
        sw      $9, 1792($8)            # processor 1 begins there
        ori     $9, $0, 3
        sw      $9, -492($8)            # CPUE: both run

both:   lui     $8, 0xbfff
        ori     $8, $8, 0x8000
        lui     $11, 0x8000

take:   ll      $12, 4096($11)
        bne     $12, $0, over
        ori     $12, $0, 1
        sc      $12, 4096($11)
        beq     $12, $0, take
        nop
        lw      $13, 4100($11)          # how often it was done
        addiu   $13, $13, 1
        sw      $13, 4100($11)
        bne     $13, $12, panic
        nop

# the second to come through switches off
over:   ll      $12, 4160($11)
        addiu   $13, $12, 1
        sc      $13, 4160($11)
        beq     $13, $0, over
        nop
        beq     $12, $0, rest
        nop
        sw      $0, -504($8)            # PWR
rest:   wait
        beq     $0, $0, rest
        nop

panic:  beq     $0, $0, panic
        nop
