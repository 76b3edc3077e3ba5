/* A kernel for two processors: a console, a lock, a process in user mode, system calls, a timer. */
#include "calls.h"
#include "machine.h"

#define PAGE 4096
#define ROUNDS 100
#define STEPS_OF_A_TICK 1000

/* What start.S saves of a trap. */
struct frame {
    unsigned registers[32], hi, lo, status, cause, epc, bad_address;
};

extern unsigned page_table[];           /* of the pages from 00400000 on; kernel.ld says where */
extern unsigned user[], user_end[];     /* the bytes of the process */
extern char end[];                      /* of the kernel */
void begin(void);
void enter_user(unsigned pc, unsigned sp);

static volatile unsigned console_lock, counter_lock;
static volatile unsigned counter, done_counting, ticks;

/* The console. Whoever prints a line has its lock. */
static void print_char(char c) {
    WORD(CHAR) = c;
    while (!(WORD(WIRQ) & ACTIVE)) {}
    WORD(WIRQ) = 0;
}
static void print(const char *text) {
    while (*text != 0) print_char(*text++);
}
static void print_number(unsigned number) {
    if (number >= 10) print_number(number / 10);
    print_char('0' + number % 10);
}
static void print_word(unsigned word) {
    for (int shift = 28; shift >= 0; shift -= 4) print_char("0123456789abcdef"[word >> shift & 15]);
}
static void say(const char *text) {
    acquire(&console_lock);
    print(text);
    release(&console_lock);
}

/* Both processors count; the lock makes each addition whole. */
static void count(void) {
    for (int i = 0; i < ROUNDS; i++) {
        acquire(&counter_lock);
        counter = counter + 1;
        release(&counter_lock);
    }
    acquire(&counter_lock);
    done_counting++;
    release(&counter_lock);
}

/* What processor 1 does: start.S calls it, on processor 1's stack. */
static void second(void) {
    say("processor 1: started\n");
    count();
}
static void start_second(void) {
    WORD(CRAM(1)) = (unsigned)begin;
    WORD(CRAM(1) + 4) = (unsigned)second;
    WORD(CPUE) = 2;
}

static void off(void) {
    say("kernel: off\n");
    WORD(PWR) = 0;
}

/* Frames of a page each, behind the kernel. */
static unsigned new_frame(void) {
    static unsigned next;
    if (next == 0) next = ((unsigned)end + PAGE - 1) / PAGE * PAGE - 0x80000000;
    unsigned frame = next;
    next += PAGE;
    if (next > WORD(RAMSZ)) {
        say("kernel: no frame is left\n");
        WORD(PWR) = 0;
    }
    return frame;
}

/* The process: a page of code and data at 00400000, and one of stack behind it. The refill handler
   puts the table's entries into the TLB. */
static void start_process(void) {
    unsigned code = new_frame(), stack = new_frame();
    unsigned *to = (unsigned *)(0x80000000 + code);
    for (const unsigned *from = user; from < user_end; from++) *to++ = *from;
    page_table[0] = code | TLB_D | TLB_V;
    page_table[1] = stack | TLB_D | TLB_V;
    set_control(4, 0x80000000);         /* Context's PTEBase */
    set_control(11, STEPS_OF_A_TICK);   /* Compare */
    set_control(12, IP_TIMER);          /* Status; interrupts are on in user mode only */
    enter_user(0x00400000, 0x00402000);
}

/* A text of the process is read by its own addresses, so by the TLB. Only those of its pages are
   taken, so the kernel has no fault. */
static void print_users(unsigned address) {
    acquire(&console_lock);
    while (address >= 0x00400000 && address < 0x00402000 && *(char *)address != 0)
        print_char(*(char *)address++);
    release(&console_lock);
}

static void system_call(struct frame *frame) {
    frame->epc += 4;                    /* on behind the syscall */
    switch (frame->registers[2]) {
    case CALL_PRINT: print_users(frame->registers[4]); break;
    case CALL_TICKS: frame->registers[2] = ticks; break;
    case CALL_EXIT: off(); break;
    }
}

/* A trap that the kernel can't help. */
static void fault(struct frame *frame) {
    acquire(&console_lock);
    print(frame->status & KUP ? "kernel: the process" : "kernel: the kernel");
    print(" has trap ");
    print_number(frame->cause >> 2 & 15);
    print(" at address ");
    print_word(frame->bad_address);
    print("\n");
    release(&console_lock);
    off();
}

/* Called by start.S with interrupts off. */
void trap(struct frame *frame) {
    switch (frame->cause >> 2 & 15) {
    case 0:
        ticks++;
        set_control(11, STEPS_OF_A_TICK);   /* acknowledges the timer's interrupt */
        break;
    case 8: system_call(frame); break;
    default: fault(frame);
    }
}

void main(void) {
    print("kernel: RAM ");
    print_number(WORD(RAMSZ));
    print(" bytes, processors ");
    print_word(WORD(CPUS));
    print(", PRId ");
    print_word(get_control(15));
    print("\nprocessor 0: starts processor 1\n");
    start_second();
    count();
    while (done_counting < 2) {}
    acquire(&console_lock);
    print("processor 0: both have counted to ");
    print_number(counter);
    print("\n");
    release(&console_lock);
    start_process();
}
