/* The vectors, and where the processors start. */
#include "machine.h"

/* A trap's registers on the stack, above the 16 bytes that a C function may use of its caller's
   frame: 32 general registers, then these. */
#define REGISTER(r) (16 + 4 * (r))
#define FRAME_HI       REGISTER(32)
#define FRAME_LO       REGISTER(33)
#define FRAME_STATUS   REGISTER(34)
#define FRAME_CAUSE    REGISTER(35)
#define FRAME_EPC      REGISTER(36)
#define FRAME_BADVADDR REGISTER(37)
#define FRAME_SIZE     REGISTER(38)

        .set    noat
        .set    noreorder

/* 80000000: no row matches an address below 80000000. Context has PTEBase 80000000 and the page's
   number times four, so for page 00400 and those behind it, it is an address in the page table,
   which is the page at 80001000. */
        .section .vectors, "ax"
refill: mfc0    $k0, BADVADDR
        srl     $k0, $k0, 22
        addiu   $k0, $k0, -1            # 0 for 00400000 to 007fffff, which the page table has
        bne     $k0, $zero, 1f
        ori     $k0, $zero, 0           # no other page is valid
        mfc0    $k0, CONTEXT
        lw      $k0, 0($k0)
1:      mtc0    $k0, ENTRYLO            # EntryHi has the page already
        tlbwr
        mfc0    $k1, EPC
        jr      $k1                     # the instruction is tried again
        rfe

/* 80000080: all other traps. */
        .org    0x80
        mfc0    $k0, STATUS
        andi    $k0, $k0, KUP
        beq     $k0, $zero, 2f          # in kernel mode the stack stays
        move    $k1, $sp
        la      $k0, SELF
        lw      $k0, 0($k0)             # 1, or 2 on processor 1
        la      $sp, stacks
        sll     $k0, $k0, 12
        addu    $sp, $sp, $k0           # the end of this processor's stack
2:      j       save
        addiu   $sp, $sp, -FRAME_SIZE

        .text
save:   .irp    r, 1, 2, 3, 4, 5, 6, 7, 8, 9, 10, 11, 12, 13, 14, 15, 16, 17, 18, 19, 20, 21, 22, 23, 24, 25, 28, 30, 31
        sw      $\r, REGISTER(\r)($sp)
        .endr
        sw      $k1, REGISTER(29)($sp)  # the stack pointer of before
        mfhi    $t0
        mflo    $t1
        mfc0    $t2, STATUS
        mfc0    $t3, CAUSE
        mfc0    $t4, EPC
        mfc0    $t5, BADVADDR
        sw      $t0, FRAME_HI($sp)
        sw      $t1, FRAME_LO($sp)
        sw      $t2, FRAME_STATUS($sp)
        sw      $t3, FRAME_CAUSE($sp)
        sw      $t4, FRAME_EPC($sp)
        sw      $t5, FRAME_BADVADDR($sp)
        jal     trap
        addiu   $a0, $sp, 16            # the frame
        lw      $t0, FRAME_HI($sp)
        lw      $t1, FRAME_LO($sp)
        lw      $t2, FRAME_STATUS($sp)
        mthi    $t0
        mtlo    $t1
        mtc0    $t2, STATUS
        lw      $k1, FRAME_EPC($sp)
        .irp    r, 1, 2, 3, 4, 5, 6, 7, 8, 9, 10, 11, 12, 13, 14, 15, 16, 17, 18, 19, 20, 21, 22, 23, 24, 25, 28, 30, 31, 29
        lw      $\r, REGISTER(\r)($sp)
        .endr
        jr      $k1
        rfe

/* The entry, and where processor 1 starts, with the function to call in register 4. */
        .globl  start, begin
start:  la      $a0, main
begin:  la      $t0, SELF
        lw      $t0, 0($t0)
        la      $sp, stacks
        sll     $t0, $t0, 12
        addu    $sp, $sp, $t0
        jalr    $a0
        addiu   $sp, $sp, -16
rest:   .word   0x42000020              # wait
        b       rest
        nop

/* enter_user(pc, sp): to user mode, with interrupts. */
        .globl  enter_user
enter_user:
        mfc0    $t0, STATUS
        ori     $t0, $t0, KUP | IEP
        mtc0    $t0, STATUS
        move    $sp, $a1
        jr      $a0
        rfe

/* The bytes of the process. */
        .section .rodata
        .balign 4
        .globl  user, user_end
user:   .incbin "user.bin"
        .if     . - user > 4096
        .error  "the process has one page"
        .endif
        .balign 4
user_end:

/* A page of stack for each of two processors. */
        .bss
        .balign 8
stacks: .space  2 * 4096
