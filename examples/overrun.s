# Processor 0 calls the function whose address is at `hook`, again and again. Processor 1 fills the four words of
# `buffer`, which lie before it, and one word more.
        .entry  main

# any trap: the processor stops
        .org    0x80000080
panic:  wait
        beq     $0, $0, panic
        nop

        .org    0x80000200
main:   lui     $8, 0xbfff
        ori     $8, $8, 0x8000          # the processors' places, in kseg1
        lui     $9, 0x8000
        ori     $9, $9, 0x0240          # the address of fill
        sw      $9, 1792($8)            # processor 1 begins there
        ori     $9, $0, 3
        sw      $9, -492($8)            # CPUE: both run
        lui     $11, 0x8000
call:   lw      $9, 4112($11)           # hook
        jalr    $31, $9
        nop
        beq     $0, $0, call
        nop
hooked: jr      $31
        nop

        .org    0x80000240
fill:   lui     $11, 0x8000
        ori     $11, $11, 0x1000        # buffer
        ori     $12, $0, 1
next:   sw      $12, 0($11)
        addiu   $11, $11, 4
        addiu   $12, $12, 1
        slti    $13, $12, 6             # meant: 5
        bne     $13, $0, next
        nop
rest:   wait
        beq     $0, $0, rest
        nop

        .org    0x80001000
buffer: .space  16
hook:   .word   hooked
