# Two processors take a lock by ll and sc. Whoever has it prints its letter: processor 0 an A,
# processor 1 a B. The second to come through switches the machine off.
        lui $8, 0xbfff
        ori $8, $8, 0x8000      # the processors' places, in kseg1
        lui $9, 0x8000
        ori $9, $9, 0x0228      # the address of both
        sw $9, 1792($8)         # processor 1 begins there
        ori $9, $0, 66
        sw $9, 1796($8)         # with B in register 4
        ori $9, $0, 3
        sw $9, -492($8)         # CPUE: both run
        ori $4, $0, 65          # processor 0 has A

both:   lui $10, 0xbfe0         # the console
        lui $11, 0x8000
take:   ll $12, 4096($11)       # the lock, at 80001000
        bne $12, $0, take
        ori $13, $0, 1
        sc $13, 4096($11)
        beq $13, $0, take
        nop
        sw $4, 0($10)           # CHAR
sent:   lw $12, 4($10)          # WIRQ
        andi $12, $12, 2        # ACTIVE: the byte was sent
        beq $12, $0, sent
        nop
        sw $0, 4($10)
        sw $0, 4096($11)        # the lock is free

count:  ll $12, 4100($11)       # how many came through before
        addiu $13, $12, 1
        sc $13, 4100($11)
        beq $13, $0, count
        nop
        beq $12, $0, rest
        lui $8, 0xbfff
        sw $0, 32264($8)        # PWR
rest:   wait
        beq $0, $0, rest
        nop
