/* The system calls: the number in register 2, the argument in register 4, the result in register 2. */
#define CALL_PRINT 0                    /* prints a text of the process */
#define CALL_TICKS 1                    /* how often the timer has interrupted */
#define CALL_EXIT  2                    /* ends the process */
