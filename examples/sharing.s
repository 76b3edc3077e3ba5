# False sharing: processor 0 takes a lock by ll and sc, and switches the machine off. Meanwhile
# processor 1 counts, in a word of the same 16 bytes as the lock.
        lui $8, 0xbfff
        ori $8, $8, 0x8000      # the processors' places, in kseg1
        lui $11, 0x8000
        ori $9, $11, 0x0240     # the address of other
        sw $9, 1792($8)         # processor 1 begins there
        ori $9, $0, 3
        sw $9, -492($8)         # CPUE: both run

take:   ll $12, 4096($11)       # the lock, at 80001000
        bne $12, $0, take
        ori $13, $0, 1
        sc $13, 4096($11)
        beq $13, $0, take
        nop
        lui $8, 0xbfff
        sw $0, 32264($8)        # PWR

        .org 0x80000240
other:  lui $11, 0x8000
count:  sw $9, 4104($11)        # the count, at 80001008
        beq $0, $0, count
        addiu $9, $9, 1
