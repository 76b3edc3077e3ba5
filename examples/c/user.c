/* The process, at 00400000 in user mode. */
#include "calls.h"

static unsigned call(unsigned number, unsigned argument) {
    register unsigned v0 __asm__("$2") = number;
    register unsigned a0 __asm__("$4") = argument;
    __asm__ volatile("syscall" : "+r"(v0) : "r"(a0) : "memory");
    return v0;
}

__attribute__((section(".text.first"))) void _start(void) {
    char text[] = "process: this text is on the stack\n";
    call(CALL_PRINT, (unsigned)"process: hello from user mode\n");
    call(CALL_PRINT, (unsigned)text);
    while (call(CALL_TICKS, 0) < 3) {}
    call(CALL_PRINT, (unsigned)"process: the timer has ticked three times\n");
    call(CALL_PRINT, (unsigned)"process: a load from 80002000, which is the kernel's\n");
    *(volatile unsigned *)0x80002000;
    call(CALL_PRINT, (unsigned)"process: never printed\n");
    call(CALL_EXIT, 0);
}
