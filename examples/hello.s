# Prints "hi" on the console, a byte at a time, and switches the machine off.
        lui $8, 0xbfe0          # the console
        ori $9, $0, 104         # h
        sw $9, 0($8)            # CHAR
sent:   lw $10, 4($8)           # WIRQ
        andi $10, $10, 2        # ACTIVE: the byte was sent
        beq $10, $0, sent
        nop
        sw $0, 4($8)
        ori $9, $0, 105         # i
        sw $9, 0($8)
last:   lw $10, 4($8)
        andi $10, $10, 2
        beq $10, $0, last
        nop
        lui $8, 0xbfff          # the controller
        sw $0, 32264($8)        # PWR
