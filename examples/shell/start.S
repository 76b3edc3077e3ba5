/* The vectors, and where the processors start. */
#include "../c/machine.h"

        .set    noat
        .set    noreorder

/* The shell enables no interrupt and uses no mapped address, so a trap is a bug: off. Processor 0
   then shows where the bug is: EPC, in the debugger. */
        .section .vectors, "ax"
        b       bug
        nop
        .org    0x80
bug:    la      $k0, PWR
        sw      $zero, 0($k0)

/* The entry, and where processor 1 starts, with the function to call in register 4. */
        .text
        .globl  start, begin
start:  la      $a0, main
begin:  la      $t0, SELF
        lw      $t0, 0($t0)             # 1, or 2 on processor 1
        la      $sp, stacks
        sll     $t0, $t0, 12
        addu    $sp, $sp, $t0           # the end of this processor's stack
        jalr    $a0
        addiu   $sp, $sp, -16
        b       bug                     # no function returns
        nop

/* A page of stack for each of two processors. */
        .bss
        .balign 8
stacks: .space  2 * 4096
