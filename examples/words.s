.entry main
table:  .word 7, main + 4, -1   # at 80000200
main:   lui   $t0, 0x8000       # at 8000020c
        lw    $t1, 512($t0)
again:  addiu $t1, $t1, -1
        bne   $t1, $zero, again
        nop
        j     main
        nop
