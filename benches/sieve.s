# A sieve over the numbers below 8,192, again and again: a byte's store for each number and for each
# multiple of a prime, and a byte's load for each number. $17 counts the primes.
        lui     $16, 0x8000
        ori     $16, $16, 0x2000
        ori     $18, $0, 1
        ori     $19, $0, 8192
again:  addu    $8, $16, $0
        addu    $9, $16, $19
clear:  sb      $0, 0($8)
        addiu   $8, $8, 1
        bne     $8, $9, clear
        nop
        ori     $10, $0, 2
number: addu    $11, $16, $10
        lbu     $12, 0($11)
        bne     $12, $0, passed
        addu    $13, $10, $10
        addiu   $17, $17, 1
mark:   sltu    $14, $13, $19
        beq     $14, $0, passed
        addu    $15, $16, $13
        sb      $18, 0($15)
        j       mark
        addu    $13, $13, $10
passed: addiu   $10, $10, 1
        bne     $10, $19, number
        nop
        j       again
        nop
