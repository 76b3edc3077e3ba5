/* A shell on the console, for one or two processors. Keys are read where both wait. */
#include "../c/machine.h"

#define LINE 60

void begin(void);

static volatile unsigned console_lock;
static volatile unsigned answers;       /* how often processor 1 has answered */

/* Whoever prints has the console's lock. */
static void print_char(char c) {
    WORD(CHAR) = c;
    while (!(WORD(WIRQ) & ACTIVE)) {}
    WORD(WIRQ) = 0;
}
static void print(const char *text) {
    acquire(&console_lock);
    while (*text != 0) print_char(*text++);
    release(&console_lock);
}

/* The next key. While none waits the processor does, until the console's line is up: no processor is
   ready then, and the next key is typed. A key that comes just before the wait ends it at once. */
static char key(void) {
    while (!(WORD(RIRQ) & ACTIVE)) wait_for_interrupt();
    return WORD(CHAR);
}

/* A line of at most LINE bytes, echoed. Returns 0 at control-D. */
static int read_line(char *line) {
    int length = 0;
    for (;;) {
        char c = key(), echo[] = {c, 0};
        if (c == 4) return 0;
        if (c == '\n' || c == '\r') break;
        if ((c == 8 || c == 127) && length > 0) {
            length--;
            print("\b \b");
        } else if (c >= ' ' && c < 127 && length < LINE) {
            line[length++] = c;
            print(echo);
        }
    }
    line[length] = 0;
    print("\n");
    return 1;
}

static int is(const char *line, const char *word) {
    while (*line == *word && *word != 0) line++, word++;
    return *line == *word;
}

/* Processor 1: it waits for interrupts of processor 0, and answers each. */
static void second(void) {
    set_control(12, IP_CPU);            /* Status: wait ends at this interrupt; none is taken */
    print("processor 1: started\n");
    for (;;) {
        answers++;
        while (!(get_control(13) & IP_CPU)) wait_for_interrupt();
        WORD(CIPI(1)) = 0;              /* acknowledges it */
        print("processor 1: interrupted\n");
    }
}

static void wait_for_answer(unsigned before) {
    while (answers == before) {}
}
static void start_second(void) {
    unsigned before = answers;
    WORD(CRAM(1)) = (unsigned)begin;
    WORD(CRAM(1) + 4) = (unsigned)second;
    WORD(CPUE) = 2;
    wait_for_answer(before);
}
static void ring(void) {
    unsigned before = answers;
    WORD(CIPI(1)) = 1;
    wait_for_answer(before);
}

static void command(const char *line) {
    int started = WORD(CPUE) & 2;
    if (is(line, "")) return;
    if (is(line, "help"))
        print("help   lists the commands\n"
              "start  starts processor 1\n"
              "ring   interrupts processor 1\n"
              "off    switches the machine off\n");
    else if (is(line, "start") && !(WORD(CPUS) & 2)) print("there is no processor 1\n");
    else if (is(line, "start") && started) print("processor 1 has been started\n");
    else if (is(line, "start")) start_second();
    else if (is(line, "ring") && !started) print("processor 1 hasn't been started\n");
    else if (is(line, "ring")) ring();
    else print("no such command; help lists them\n");
}

void main(void) {
    char line[LINE + 1];
    WORD(RIRQ) = ENABLE;                /* typed bytes raise the console's line */
    set_control(12, IP_BUS);            /* Status: wait ends at it; no interrupt is taken */
    print("A shell. Type help, and a line end.\n");
    for (;;) {
        print("% ");
        if (!read_line(line) || is(line, "off")) break;
        command(line);
    }
    print("off\n");
    WORD(PWR) = 0;
}
