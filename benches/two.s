# Processor 0 starts processor 1, and both go through the benchmark's loop, each with data of its own.
# What reads this text appends the loop, which is that of loop.s.
        lui     $8, 0xbfff
        ori     $8, $8, 0x8400
        lui     $9, 0x8000
        ori     $9, $9, 0x0400
        sw      $9, 768($8)         # where processor 1 starts
        ori     $10, $0, 2
        sw      $10, -1516($8)      # both processors are on
        lui     $16, 0x8000
        ori     $16, $16, 0x1800
        j       loop
        nop
        .org    0x80000400
        lui     $16, 0x8000
        ori     $16, $16, 0x2800
        j       loop
        nop
        .org    0x80001000
