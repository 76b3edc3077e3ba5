# The benchmark's loop: loads, stores, shifts, sums and a branch with its slot. Its data is at $16.
        lui     $16, 0x8000
        ori     $16, $16, 0x1000
loop:   lw      $8, 0($16)
        addu    $9, $8, $17
        sll     $10, $9, 3
        srl     $11, $9, 5
        xor     $9, $10, $11
        sw      $9, 0($16)
        lbu     $12, 2($16)
        addiu   $18, $18, 1
        slt     $13, $12, $9
        sb      $13, 4($16)
        bne     $18, $0, loop
        addu    $17, $17, $18
