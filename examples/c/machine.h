/* The machine's registers and bits, for kernels in C and for files .S. */

/* The console, in slot 0 of the bus. */
#define CHAR    0xbfe00000              /* read: the oldest typed byte, or 0; write: send a byte */
#define WIRQ    0xbfe00004              /* a byte was sent */
#define RIRQ    0xbfe00008              /* typed bytes wait */
#define ENABLE  1                       /* of WIRQ and RIRQ: raise the console's line if ACTIVE */
#define ACTIVE  2

/* The controller, in slot 31. */
#define RAMSZ   0xbfff7e00              /* bytes of RAM */
#define IRQS    0xbfff7e04              /* a bit for each slot whose line is up */
#define PWR     0xbfff7e08              /* write: the machine is off */
#define IRQE    0xbfff7e0c              /* which slots reach any processor */
#define CPUS    0xbfff7e10              /* a bit for each processor that is there */
#define CPUE    0xbfff7e14              /* read: for each that was started; write: start these */
#define SELF    0xbfff7e18              /* the bit of the processor that reads */
#define CIRQE(c) (0xbfff8000 + 0x400 * (c))     /* which slots reach processor c */
#define CIPI(c)  (0xbfff8004 + 0x400 * (c))     /* not 0: interrupt processor c */
#define CRAM(c)  (0xbfff8300 + 0x400 * (c))     /* its first address, its register 4, 62 words more */

/* Registers of coprocessor 0, for mfc0 and mtc0. */
#define INDEX    $0
#define RANDOM   $1
#define ENTRYLO  $2
#define CONTEXT  $4
#define BADVADDR $8
#define COUNT    $9
#define ENTRYHI  $10
#define COMPARE  $11
#define STATUS   $12
#define CAUSE    $13
#define EPC      $14
#define PRID     $15

/* Status and Cause: interrupts, in the places of IM and of IP. */
#define IP_BUS   0x00000400
#define IP_CPU   0x00000800             /* another processor */
#define IP_TIMER 0x00008000
/* Status: the current and the previous pair. A trap moves the one to the other, rfe moves it back. */
#define IEC      0x1
#define KUC      0x2
#define IEP      0x4
#define KUP      0x8

/* EntryLo, and an entry of the page table: the frame, and */
#define TLB_D    0x400                  /* it may be written */
#define TLB_V    0x200                  /* it is valid */
#define TLB_G    0x100                  /* for every address space */

#ifndef __ASSEMBLER__

/* A register of the bus, which only an aligned word reaches. */
#define WORD(address) (*(volatile unsigned *)(address))

#define get_control(number) ({ unsigned word_; \
    __asm__ volatile("mfc0 %0, $" #number : "=r"(word_)); word_; })
#define set_control(number, word) \
    __asm__ volatile("mtc0 %0, $" #number : : "r"((unsigned)(word)) : "memory")

/* Stops the processor until an interrupt that Status lets through is up, whatever IEc is. (The
   instruction isn't of MIPS I, so the assembler is given its word.) */
static inline void wait_for_interrupt(void) {
    __asm__ volatile(".word 0x42000020" : : : "memory");
}

/* A lock is a word that is 0 while it is free. ll and sc are of MIPS II. */
static inline void acquire(volatile unsigned *lock) {
    unsigned word;
    __asm__ volatile(
        ".set push\n"
        ".set mips2\n"
        "1: ll %0, 0(%1)\n"
        "bnez %0, 1b\n"
        "li %0, 1\n"
        "sc %0, 0(%1)\n"
        "beqz %0, 1b\n"
        ".set pop"
        : "=&r"(word) : "r"(lock) : "memory");
}
static inline void release(volatile unsigned *lock) {
    __asm__ volatile("" : : : "memory");
    *lock = 0;
}

#endif
