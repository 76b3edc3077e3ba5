# Adds 5 + 4 + 3 + 2 + 1 and stores the sum at 80001000.
        ori $8, $0, 5           # the next number
        ori $9, $0, 0           # the sum
loop:   addu $9, $9, $8
        addiu $8, $8, -1
        bne $8, $0, loop
        nop
        lui $10, 0x8000
        sw $9, 4096($10)
        lui $8, 0xbfff          # the controller
        sw $0, 32264($8)        # PWR
