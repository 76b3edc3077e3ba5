/* The machine and the assembler of Talusdish, a proved emulator of System/161, from C.
 *
 *     talusdish_slot slot = {0};
 *     talusdish_open(&slot);                                   a session: bytes, and a machine if one is booted
 *     talusdish_assemble(&slot, text, size, false, &fault);    its bytes are an ELF file then
 *     n = talusdish_read(&slot, 0, file, sizeof file);         which is read from it
 *     talusdish_boot(&slot, file, n, &conf);                   its machine is booted from it
 *     talusdish_steps(&slot, 0, 1000, &made);                  and makes Steps
 *     talusdish_word(&slot, 0x1000, &word);                    whose work is seen
 *     talusdish_close(&slot);
 *
 * Who owns what. The caller owns the slot and every buffer; a call keeps no pointer to any of them behind its
 * return. The slot owns the session, which lies on the heap of malloc, until talusdish_close. A slot of zeros is
 * empty. Its bytes are written by these calls alone, and never copied: two copies would own one session.
 *
 * Threads. A slot belongs to one thread at a time: one call at a time on each slot. Slots are independent of one
 * another, and there is no state beside them.
 *
 * Errors. Each call on an empty or closed slot is answered: by 255, by false, or by the number 0 where a number is
 * returned. Other answers than 0 are the numbers below. Where memory is refused, the session is as it was; but where it
 * is refused to a slice of an exploration, the session has no exploration then.
 *
 * What is trusted: that the pointers point to what their types say (never NULL, but for a buffer of length 0: give any
 * pointer that isn't NULL there too), that lengths are true, that no two arguments overlap, and that bools are 0 or 1.
 */
#ifndef TALUSDISH_H
#define TALUSDISH_H

#include <stdbool.h>
#include <stddef.h>
#include <stdint.h>

#ifdef __cplusplus
extern "C" {
#endif

/* What a caller keeps of a session: zeros for none. */
typedef struct {
    void *at;
    bool full;
} talusdish_slot;

/* The place of a fault in a text: the line and the column in bytes, both from 1. */
typedef struct {
    uint64_t line;
    uint64_t column;
} talusdish_fault;

/* The size of a machine and its modes. */
typedef struct {
    uint32_t ram;        /* bytes of RAM: 4,096 to 16,777,216, a multiple of 4,096 */
    uint32_t processors; /* 1 to 32 */
    uint32_t log;        /* entries of the log: 1 to 16,777,216 */
    bool line;           /* whether ll links to a line, the aligned 16 bytes, in place of a word */
    bool strict;         /* whether the machine stops where a row of a TLB would overlap another one */
} talusdish_size;

/* What chooses the events of a driven run. */
typedef struct {
    uint32_t kind;     /* TALUSDISH_TURNS, TALUSDISH_RANDOM or TALUSDISH_PRIORITIES */
    uint32_t turns;    /* turns: Steps of a turn, at least 1 */
    uint64_t seed;     /* random, priorities: the seed */
    uint32_t changes;  /* priorities: how many times in a stretch one changes, at most 64 */
    uint32_t within;   /* priorities: Steps of a stretch, at least 1 */
    uint32_t transfer; /* a byte of the console is sent once so many events came after it; or where no processor is ready */
    uint32_t gap;      /* with gaps: a key is typed once so many events came after the last one */
    bool gaps;         /* without: a key is typed only where no processor is ready */
} talusdish_order;

/* What a line of a trace shows, beside what each one does. */
typedef struct {
    bool names;   /* registers by their names, t0, in place of their numbers, r8 */
    bool symbols; /* behind an address its place by the nearest symbol below it: 80000204 <main+4>; nothing where there is none */
    bool loads;   /* the word that a Step loads, before what the Step changed: (00001000)=00000005 */
} talusdish_style;

/* How a run of a search has to end: the machine off, and with this word in RAM. */
typedef struct {
    uint32_t address; /* the physical address of the word in bytes, a multiple of 4; where there is no word, no run ends right */
    uint32_t word;
} talusdish_goal;

/* A page of an address space, whose shootdown is watched: once the initiator has stored to `pte` and then to `done`, no
 * processor uses the page through an old row of its TLB. */
typedef struct {
    uint32_t id;   /* the identifier of the address space: 0 to 63 */
    uint32_t page; /* the page: a virtual address divided by 4,096 */
    uint32_t pte;  /* the physical address in bytes of the word with the page table's entry, as EntryLo has it */
    uint32_t done; /* the physical address of the word that is stored to when the shootdown is over: another one */
} talusdish_watch;

/* What is wrong with a list of events. What isn't named is 0. */
typedef struct {
    uint32_t kind;      /* TALUSDISH_VERDICT_NONE to TALUSDISH_VERDICT_HUNG */
    uint32_t processor; /* stale, reached, conflict */
    uint32_t address;   /* stale, reached: the virtual address in bytes */
    uint32_t row;       /* stale: the old row of its TLB, 0 to 63; conflict: the row that it was to write */
    uint32_t other;     /* conflict: the row that it would have overlapped */
} talusdish_verdict;

/* A verdict on the events of a machine, and up to which it needs them: cut behind so many, they have it too. Zeros for none. */
typedef struct {
    talusdish_verdict verdict;
    uint64_t events; /* stale, reached: the last of these is the Step that is it */
} talusdish_judgement;

/* What a search by talusdish_seeds found. */
typedef struct {
    talusdish_verdict verdict; /* of the first run that goes wrong, which is that of the seed `order->seed + right`; zeros where none does */
    uint64_t right;  /* how many runs don't go wrong: all before that one */
    uint64_t cut;    /* how many of these ended only because `n` events were made: of what may come behind them nothing is known */
    uint64_t events; /* how many of that run's events the verdict needs: so many bytes has the session; 0 where none goes wrong */
} talusdish_sought;

/* A class of lists of delays. A delay is a choice of an order by turns at which a ready processor is passed over; such choices, Steps where
 * a processor is ready, are numbered from 0 along a run, and a number may stand in a list several times. */
typedef struct {
    uint32_t most;   /* how many delays a list has at most: 0 to 64 */
    uint32_t from;   /* none comes before this choice */
    uint32_t within; /* each comes before this one */
} talusdish_class;

/* What a search by talusdish_delays found. */
typedef struct {
    talusdish_verdict verdict; /* of the run of the first list that goes wrong; zeros where none does */
    uint64_t right;  /* where none does: how many different runs there are, modulo 2^64; else 0 */
    uint64_t cut;    /* of these: how many ended only because `n` events were made, modulo 2^64; else 0 */
    uint64_t events; /* how many of the wrong run's events the verdict needs: so many bytes has the session; 0 where none goes wrong */
    uint32_t count;  /* how many delays its list has; 0 where none goes wrong */
    uint32_t delays[64]; /* these, the first `count` */
} talusdish_sought_list;

/* A list of delays: the choices at which a ready processor is passed over. */
typedef struct {
    uint32_t count;  /* how many there are: 0 to 64 */
    uint32_t delays[64]; /* these, the first `count` */
} talusdish_list;

/* What a slice of such a search found, by talusdish_slice. */
typedef struct {
    talusdish_sought_list found; /* as of talusdish_delays, but `right` and `cut` of the slice's runs alone; they are no more than it may make */
    bool goes_on;        /* none goes wrong, and lists are left */
    talusdish_list next; /* the first of these, to go on from; empty where it doesn't go on */
} talusdish_sought_slice;

/* What an exploration found. */
typedef struct {
    uint32_t kind;   /* TALUSDISH_CLEAN to TALUSDISH_UNFINISHED */
    uint32_t states; /* clean, hung: how many different states there are; found: before the list; open: 0; unfinished: so far */
    uint64_t events; /* found, hung: how many events the list has; open: up to how many events nothing goes wrong; else 0 */
    talusdish_verdict verdict; /* found: what goes wrong; else zeros */
} talusdish_exploration;

/* An event's outcome. */
typedef struct {
    uint32_t kind;   /* TALUSDISH_RAN to TALUSDISH_TAKEN */
    uint32_t first;  /* trapped: the code, as in Cause; conflict: the row, 0 to 63 */
    uint32_t second; /* trapped: the vector's address; conflict: the other row */
} talusdish_outcome;

/* An entry of the log: an event that was made, and its outcome. */
typedef struct {
    uint32_t kind;  /* TALUSDISH_STEP, TALUSDISH_KEY or TALUSDISH_DONE */
    uint32_t value; /* the processor, the key (0 to 255), or 0 */
    talusdish_outcome outcome;
} talusdish_entry_view;

/* What switched a strict machine off. */
typedef struct {
    uint32_t processor; /* which was to write a row of its TLB */
    uint32_t row;       /* that row, 0 to 63, which stays as it was */
    uint32_t other;     /* the lowest other row that it would have overlapped */
} talusdish_conflict_view;

/* A processor. */
typedef struct {
    uint32_t registers[32];
    uint32_t hi;
    uint32_t lo;
    uint32_t pc;    /* the address of its instruction */
    uint32_t state; /* 0 stopped, 1 running, 2 waiting */
    bool in_slot;   /* whether its instruction is in a delay slot */
    uint64_t count; /* its Steps, idle ones included */
} talusdish_processor_view;

/* A row of a TLB. */
typedef struct {
    uint32_t high; /* EntryHi: page and identifier */
    uint32_t low;  /* EntryLo: frame and flags */
} talusdish_row_words;

/* The machine beside its processors and RAM. */
typedef struct {
    bool off;         /* whether it was switched off */
    bool sending;     /* whether the console is sending a byte */
    uint8_t latch;    /* that byte, or 0 */
    uint32_t waiting; /* how many typed bytes wait: 0 to 256 */
    uint32_t started; /* bit c is set if processor c was started; processor 0 is from the boot on */
} talusdish_board_view;

enum { TALUSDISH_TURNS = 0, TALUSDISH_RANDOM = 1, TALUSDISH_PRIORITIES = 2 };

enum {
    TALUSDISH_VERDICT_NONE = 0,
    TALUSDISH_VERDICT_STALE = 1,    /* a Step used a watched page through an old row of the TLB */
    TALUSDISH_VERDICT_REACHED = 2,  /* a Step fetched a word at an address that is never to be reached */
    TALUSDISH_VERDICT_CONFLICT = 3, /* a strict machine was to write a row that overlaps another one */
    TALUSDISH_VERDICT_STUCK = 4,    /* nothing is left to do, and the console hasn't sent what is asked for, if anything is */
    TALUSDISH_VERDICT_OUTPUT = 5,   /* the machine is off, and the console hasn't sent what is asked for */
    TALUSDISH_VERDICT_END = 6,      /* output is asked for, the machine isn't off, and was never stuck; not of an exploration */
    TALUSDISH_VERDICT_HUNG = 7      /* no order of events leads from here to an end; comes before END. Of talusdish_seeds, talusdish_delays, talusdish_slice and talusdish_hung alone:
                                     * an exploration that finds such a list is TALUSDISH_HUNG, and has no verdict */
};

enum {
    TALUSDISH_CLEAN = 0, /* in whatever order and for however long, nothing goes wrong, and each list of events can come to its end */
    TALUSDISH_FOUND = 1, /* a shortest list of events that goes wrong */
    TALUSDISH_HUNG = 2,  /* nothing goes wrong, and this is a shortest list that no events continue to an end */
    TALUSDISH_OPEN = 3,  /* there are more states than the limit */
    TALUSDISH_UNFINISHED = 4 /* it has no answer yet; of talusdish_explore_slice alone */
};

enum { TALUSDISH_STEP = 0, TALUSDISH_KEY = 1, TALUSDISH_DONE = 2 };

enum {
    TALUSDISH_RAN = 0,
    TALUSDISH_TRAPPED = 1,
    TALUSDISH_IDLE = 2,
    TALUSDISH_POWERED_OFF = 3,
    TALUSDISH_CONFLICT = 4,
    TALUSDISH_TAKEN = 5
};

/* Answers. */
enum {
    TALUSDISH_OK = 0,
    /* why an event is refused; each only if none above it holds */
    TALUSDISH_BAD_PROCESSOR = 1, /* there is no such processor */
    TALUSDISH_OFF = 2,           /* the machine is off */
    TALUSDISH_WORN = 8,          /* the machine has accepted 2^63 - 1 events */
    TALUSDISH_KEY_FULL = 4,      /* 256 typed bytes are waiting */
    TALUSDISH_NOTHING_SENT = 5,  /* the console isn't sending a byte */
    TALUSDISH_EVENT_MEMORY = 6,  /* memory was refused; only of TALUSDISH_DONE */
    /* why a driven run has no more events */
    TALUSDISH_RUN_OFF = 16,   /* the machine is off */
    TALUSDISH_RUN_STUCK = 17, /* the order chooses no event: no processor is ready, and no key is left */
    /* an order's first number that is outside its limits */
    TALUSDISH_NO_TURN = 18,
    TALUSDISH_NO_STRETCH = 19,
    TALUSDISH_TOO_MANY_CHANGES = 20,
    /* of a search */
    TALUSDISH_ALL_RIGHT = 21, /* each run ends right */
    TALUSDISH_BAD_WATCH = 22, /* a watch has an identifier, a page or a word that there isn't, or one word for both */
    TALUSDISH_NO_SYMBOL = 24, /* there is no such symbol */
    TALUSDISH_DROPPED = 23,   /* the log doesn't have all events since the machine's boot: it had no room for them */
    TALUSDISH_MORE = 25,      /* an exploration has no answer yet */
    /* of any call */
    TALUSDISH_BAD = 253,       /* a text isn't UTF-8, or a number means nothing */
    TALUSDISH_NO_MEMORY = 254, /* memory was refused */
    TALUSDISH_NOTHING = 255    /* the slot is empty, or its session has no machine; of talusdish_explore_slice: or no exploration */
};

/* Opens a session, without a machine and without bytes, in a slot. What the slot held is freed then. False where memory is
 * refused: the slot is as it was. */
bool talusdish_open(talusdish_slot *slot);

/* Frees a slot's session. The slot is empty then, and may be closed or opened again. */
void talusdish_close(talusdish_slot *slot);

/* Assembles a text of `size` bytes of UTF-8. The ELF file, with the labels as its symbols if they are wanted, becomes the
 * session's bytes, and the answer is 0. Else nothing is changed, and the answer is BAD, or the number of the fault's kind,
 * whose place is told: 1 BadToken, 2 UnknownWord, 3 BadOperand, 4 OutOfRange, 5 UnknownLabel, 6 DoubleLabel,
 * 7 BranchTooFar, 8 Overlap, 9 NoMemory (column 1, and a line that the assembler had reached). */
uint8_t talusdish_assemble(talusdish_slot *slot, const uint8_t *text, size_t size, bool symbols, talusdish_fault *fault);

/* Boots an ELF file of `size` bytes: the machine is the session's from then on, in the place of an earlier one, and the
 * answer is 0. Else nothing is changed, and the answer is 1 for a size outside the limits; 2 Truncated, 3 NotElf32Big,
 * 4 NotExecutable, 5 NotMips, 6 BadHeaderTable, 7 SegmentOutsideFile, 8 SegmentOutsideRam, 9 FileLargerThanMemory or
 * 10 BadEntry for the file's first fault; or NO_MEMORY. A machine takes three times its RAM, and 4 bytes for each entry of
 * its log. */
uint8_t talusdish_boot(talusdish_slot *slot, const uint8_t *file, size_t size, const talusdish_size *conf);

/* Makes one event: a Step of processor `value`, the key `value` (0 to 255), or the end of the console's transfer. 0, and the
 * outcome is told; BAD where the numbers mean no event; or why it is refused (1 to 8). Nothing is changed or told then. */
uint8_t talusdish_event(talusdish_slot *slot, uint8_t kind, uint32_t value, talusdish_outcome *outcome);

/* The same of a Step of processor `p`, of a typed byte, and of the end of the console's transfer. */
uint8_t talusdish_step(talusdish_slot *slot, uint32_t p, talusdish_outcome *outcome);
uint8_t talusdish_key(talusdish_slot *slot, uint8_t byte, talusdish_outcome *outcome);
uint8_t talusdish_done(talusdish_slot *slot, talusdish_outcome *outcome);

/* Makes Steps of processor `p` until `n` are made, which is answered by 0, or one is refused (1, 2 or 8). `made` is how many
 * were. As many calls of talusdish_event in less time. */
uint8_t talusdish_steps(talusdish_slot *slot, uint32_t p, uint32_t n, uint32_t *made);

/* Makes the events that an order chooses, from a new beginning of it and with `size` bytes of keys, until the machine is
 * off (RUN_OFF), `n` are made (0), none is chosen (RUN_STUCK), or the chosen one is refused (WORN, EVENT_MEMORY). `made` is
 * how many were. NO_TURN to TOO_MANY_CHANGES or BAD for an order that can't be followed: nothing is changed then. Two calls
 * are two runs: each begins the order and the keys anew. */
uint8_t talusdish_drive(talusdish_slot *slot, const talusdish_order *order, const uint8_t *keys, size_t size, uint64_t n, uint64_t *made);

/* The same, and the lines of its events, each with a line feed, become the session's bytes: the same lines as those of
 * `s161 trace`, numbered from the events of the machine. With `names` registers are shown by their names. Works on a copy of
 * the machine; where memory is refused (NO_MEMORY), no event is made. */
uint8_t talusdish_trace(talusdish_slot *slot, const talusdish_order *order, const uint8_t *keys, size_t size, bool names, uint64_t n, uint64_t *made);

/* The same with lines in a style: those that `s161 trace` prints with --names, --symbols and --loads. With `style->symbols` the places
 * are by the symbols of the ELF `file` of `file_size` bytes, mostly the one that the machine was booted from; one without a sound
 * table of symbols has none, and gives no place. Without, no byte of it is read, and `file_size` may be 0. The answers are those of
 * talusdish_trace, the first that holds: NOTHING; BAD, NO_TURN to TOO_MANY_CHANGES for an order that can't be followed; else
 * NO_MEMORY, or why the run has no more events. But for the last, nothing is changed, and `made` is 0. The memory for the names of the
 * file is asked for at each call, and given back. */
uint8_t talusdish_lines(talusdish_slot *slot, const talusdish_order *order, const uint8_t *keys, size_t keys_size, const talusdish_style *style,
                        const uint8_t *file, size_t file_size, uint64_t n, uint64_t *made);

/* Looks for a run that ends wrong. The runs are those that the order chooses with `count` seeds, its own and those behind it
 * (modulo 2^64), each of at most `n` events from the machine as it is, with `size` bytes of keys. Each is made on a copy, in
 * this order, up to the first that doesn't end right; the session stays as it is. 0 where one ends wrong; ALL_RIGHT where
 * none does; NO_TURN to TOO_MANY_CHANGES, BAD or NO_MEMORY where one isn't made. `right` is how many end right before it:
 * the wrong run is that of the seed `order->seed + right`, and talusdish_drive or talusdish_trace with that seed makes it. A
 * copy takes the machine's RAM once. A caller that isn't to be held up has few seeds a call, and goes on behind ALL_RIGHT with
 * `order->seed` larger by `count`: call by call, the runs are those of one call. */
uint8_t talusdish_search(talusdish_slot *slot, const talusdish_order *order, const uint8_t *keys, size_t size, uint64_t n, uint64_t count,
                         const talusdish_goal *goal, uint64_t *right);

/* Looks for a run that goes wrong, as `s161 search --seeds` does. The runs are those that the order chooses with `count` seeds, its own
 * and those behind it (modulo 2^64), each of at most `n` events from the boot of this `file` on a machine of the size and the modes of
 * the session's; that one stays as it is, whatever it has done. What goes wrong is what talusdish_judge says, where the keys are those
 * of the runs; and a run that was cut at its `n` events and has no verdict yet, or END, is HUNG if no order of events leads from its
 * end to an end (the machine off, or nothing left to do and the output sent), and those that there are lead to at most `hung` different
 * states; nothing is looked at with 0. `s161 search` has 10,000. The runs are made in the order of the seeds, in this thread, up to the
 * first that goes wrong. 0, and what was found is told, both where one goes wrong and where none does; the events that its verdict needs
 * become the session's bytes, each a byte as of talusdish_explore, and none where none does. (The command shortens them; here they are
 * the run's first ones.) Else nothing is changed or told, and the answer is the first of these that holds: BAD, NO_TURN to
 * TOO_MANY_CHANGES for an order that can't be followed; what talusdish_boot answers of a file that can't be booted; BAD_WATCH; BAD for
 * 2^31 watches, or 2^32 keys or bytes of output. Behind the order it may be NO_MEMORY instead. It takes a machine's RAM a few times, and
 * what `hung` states take, as in talusdish_explore. A caller that isn't to be held up has few seeds a call: where none
 * went wrong it goes on with `order->seed` larger by `count`, and call by call the runs are those of one call. */
uint8_t talusdish_seeds(talusdish_slot *slot, const uint8_t *file, size_t file_size, const talusdish_order *order, uint64_t n, uint64_t count,
                        uint32_t hung, const uint8_t *keys, size_t keys_size, const talusdish_watch *watches, size_t watches_size,
                        const uint32_t *never, size_t never_size, bool asked, const uint8_t *output, size_t output_size,
                        talusdish_sought *found);

/* The same by delays, as `s161 search --delays` does: every run by turns of `order->turns` Steps with the delays of a list of the class.
 * Lists of which a delay has no effect, since no processor is left to pass over there, are left out: their runs are those of shorter ones.
 * The lists are looked at in their order, shorter ones first and then those with smaller numbers, in this thread, up to the first whose
 * run goes wrong; where none does, no list of the class has a run that goes wrong. What goes wrong, what the session's bytes are, and what
 * is answered in which order is as of talusdish_seeds; but BAD, too, for another kind of order than TALUSDISH_TURNS and for more than 64
 * delays. There are about P runs of one delay and P * P / 2 of two, where a run has P choices: `within` and few events bound them. It takes
 * some 5 KB of stack for each delay of a list, beside about 130 KB. It is one call, which can't be stopped: talusdish_slice makes a part of it. */
uint8_t talusdish_delays(talusdish_slot *slot, const uint8_t *file, size_t file_size, const talusdish_order *order, const talusdish_class *lists,
                         uint64_t n, uint32_t hung, const uint8_t *keys, size_t keys_size, const talusdish_watch *watches, size_t watches_size,
                         const uint32_t *never, size_t never_size, bool asked, const uint8_t *output, size_t output_size,
                         talusdish_sought_list *found);

/* A slice of the same, for a caller that isn't to be held up: the lists are those from `from` on, which is the empty list at first, and no
 * more than `most` runs that go right are made, so it is at least 1. Where one goes wrong it is told as there; where lists are left,
 * `goes_on` is true, and the next call takes `next` as its `from`, with all else the same. Call by call, the runs are those of one call, so
 * that no list of the class has a run that goes wrong where no slice has one and the last doesn't go on; and the sums of `right` and `cut`
 * are what that one tells. A `from` may be any list, whether in the class or not: those before it, in the order of the lists, are left out.
 * Else the first answer of talusdish_delays that holds, where BAD is also for more than 64 delays in `from`. A slice makes, beside its
 * runs, those of the lists that `from` begins with, to find its place. */
uint8_t talusdish_slice(talusdish_slot *slot, const uint8_t *file, size_t file_size, const talusdish_order *order,
                        const talusdish_class *lists, const talusdish_list *from, uint64_t most, uint64_t n, uint32_t hung,
                        const uint8_t *keys, size_t keys_size, const talusdish_watch *watches, size_t watches_size,
                        const uint32_t *never, size_t never_size, bool asked, const uint8_t *output, size_t output_size,
                        talusdish_sought_slice *slice);

/* Looks at every state that the machine can reach from its boot, whatever events it has made since, by any order of Steps, ends of
 * transfers and the `keys_size` keys in their order; as long as there are no more than `limit` states, which is at least 1. What goes
 * wrong is a stale use of one of the `watches`, a fetch at one of the `never_size` virtual addresses `never`, a conflict on a strict
 * machine, that nothing is left to do, and, where output is asked for, that the machine is off and the console hasn't sent exactly
 * these `output_size` bytes. 0, and the exploration is told; the events of its list become the session's bytes, each a byte: a
 * number below that of the processors is a Step of that processor, the next one the end of a transfer, and the one behind it the
 * next key. Else nothing is changed or told, and the answer is the first of these that holds: BAD for a limit of 0; BAD_WATCH; BAD for
 * 2^31 watches, or 2^32 keys or bytes of output. With a limit that isn't 0 it may be NO_MEMORY instead. It takes about a hundred bytes
 * a state, and as long as `s161 explore`. It is one call, which can't be stopped: talusdish_explore_slice makes a part of it. */
uint8_t talusdish_explore(talusdish_slot *slot, uint32_t limit, const uint8_t *keys, size_t keys_size, const talusdish_watch *watches,
                          size_t watches_size, const uint32_t *never, size_t never_size, bool asked, const uint8_t *output,
                          size_t output_size, talusdish_exploration *found);

/* Begins what talusdish_explore does, for a caller that isn't to be held up: talusdish_explore_slice goes on with it. 0, and the session
 * has this exploration, in the place of one that it had. The exploration has a machine at boot of its own, and copies of all that is
 * asked: between slices the session's machine may make events, another file may be booted, and the buffers may be written to. Else
 * nothing is changed, so that an exploration before stays, and the answer is what talusdish_explore answers of what isn't explored.
 * No call but these two, and those that free the session, changes a session's exploration; a copy of the session has none. Until its
 * answer is told it takes the machine's RAM a few times, and about a hundred bytes a state. */
uint8_t talusdish_explore_begin(talusdish_slot *slot, uint32_t limit, const uint8_t *keys, size_t keys_size, const talusdish_watch *watches,
                                size_t watches_size, const uint32_t *never, size_t never_size, bool asked, const uint8_t *output,
                                size_t output_size);

/* A slice of the session's exploration: tries all events of `number` states more. 0 where the answer is known then: it is told, and the
 * events of its list become the session's bytes, as by talusdish_explore, whatever the numbers of the slices were; the session has no
 * exploration any more. TALUSDISH_MORE where it isn't known yet: the kind TALUSDISH_UNFINISHED, how many states were found so far, and
 * zeros are told, and the session's bytes stay. The states may be fewer than before: those that only Random or Count of a processor tells
 * apart count as one until a Step reads it, and then all are looked for anew, at most twice for each processor. NO_MEMORY: nothing is
 * told, the bytes stay, and the session has no exploration any more. NOTHING, and nothing is told, where it has none: none was begun, its
 * answer was told, or memory was refused to a slice.
 *
 * The work of a slice is bounded by `number`: a state has as many events as there are processors, and two, and each is tried once. But
 * where the table of the states grows, a slice goes over all states that were found; and the one that tells CLEAN or HUNG looks once more
 * at each, for its ends, which takes a good part of the whole time. With `number` 0 nothing is tried. */
uint8_t talusdish_explore_slice(talusdish_slot *slot, uint32_t number, talusdish_exploration *found);

/* The value of the first symbol of an ELF `file` with this name of `name_size` bytes of UTF-8. 0, and it is told; else nothing is:
 * NO_SYMBOL, BAD for a name that isn't UTF-8, or NO_MEMORY. */
uint8_t talusdish_symbol(const uint8_t *file, size_t file_size, const uint8_t *name, size_t name_size, uint32_t *value);

/* The symbol of an ELF `file` that is nearest below an address: the first one with the greatest value that isn't above it. Its name
 * becomes the session's bytes, `distance` is how many bytes the address is behind it, and the answer is 0. Else nothing is changed or
 * told: NO_SYMBOL where each value is above the address, or NO_MEMORY. */
uint8_t talusdish_nearest(talusdish_slot *slot, const uint8_t *file, size_t size, uint32_t address, uint32_t *distance);

/* Audits the machine's events since its boot, as its log has them: whether one is a stale use of one of the `size` watches' pages, and
 * which is the first. 0, and it is told: TALUSDISH_VERDICT_NONE or TALUSDISH_VERDICT_STALE. Else nothing is told: DROPPED; and where it
 * isn't that, BAD_WATCH or NO_MEMORY. The session stays as it is. */
uint8_t talusdish_audit(talusdish_slot *slot, const talusdish_watch *watches, size_t size, talusdish_judgement *judgement);

/* Judges the machine's events since its boot, as its log has them, as they would be made on a machine of its size that is booted from
 * this `file`: the one that it was booted from. What goes wrong is what talusdish_explore says, and that the events end with the
 * machine neither off nor stuck where output is asked for; the first of these in the order of their numbers is told, or
 * TALUSDISH_VERDICT_NONE. `keys` are all that could be typed: while some are left, the machine isn't stuck. 0; else nothing is told, and
 * the answer is the first of these that holds: DROPPED; what talusdish_boot answers of a file that can't be booted; BAD_WATCH. Where it
 * isn't DROPPED, it may be NO_MEMORY instead. The session stays as it is. */
uint8_t talusdish_judge(talusdish_slot *slot, const uint8_t *file, size_t file_size, const uint8_t *keys, size_t keys_size,
                        const talusdish_watch *watches, size_t watches_size, const uint32_t *never, size_t never_size, bool asked,
                        const uint8_t *output, size_t output_size, talusdish_judgement *judgement);

/* The same with the verdict HUNG, which comes before END: the machine is off or stuck behind none of the events, and from the last one
 * no order of events leads to an end (the machine off, or nothing left to do and the output sent); those that there are lead to at most
 * `hung` different states. With 0 it isn't looked at. `judgement->events` is then how many of the first events hang already. Where
 * it isn't DROPPED, a file that can't be booted or BAD_WATCH, the answer may also be BAD, for 2^31 watches, or 2^32 keys or bytes of
 * output. The session stays as it is. */
uint8_t talusdish_hung(talusdish_slot *slot, const uint8_t *file, size_t file_size, uint32_t hung, const uint8_t *keys, size_t keys_size,
                       const talusdish_watch *watches, size_t watches_size, const uint32_t *never, size_t never_size, bool asked,
                       const uint8_t *output, size_t output_size, talusdish_judgement *judgement);

/* Shows a processor. False where there is no such one: nothing is told then. */
bool talusdish_processor(talusdish_slot *slot, uint32_t p, talusdish_processor_view *view);

/* How many events the machine has accepted; 0 with no machine. */
uint64_t talusdish_made(talusdish_slot *slot);

/* The bytes that the console has sent become the session's. 0 or NO_MEMORY. */
uint8_t talusdish_output(talusdish_slot *slot);

/* How many bytes the session has; 0 with no session. */
size_t talusdish_length(talusdish_slot *slot);

/* Copies the session's bytes from index `from` on, as many as there are and fit into `size` bytes. Returns how many. */
size_t talusdish_read(talusdish_slot *slot, size_t from, uint8_t *into, size_t size);

/* The word at a physical address. False where the address is no multiple of 4 or outside RAM: nothing is told then. */
bool talusdish_word(talusdish_slot *slot, uint32_t address, uint32_t *word);

/* A register of coprocessor 0 of a processor by its number, 0 to 31, as mfc0 reads it. False where there is no such
 * processor or register: nothing is told then. */
bool talusdish_cop(talusdish_slot *slot, uint32_t p, uint32_t number, uint32_t *word);

/* A row, 0 to 63, of a processor's TLB. False where there is no such processor or row: nothing is told then. */
bool talusdish_row(talusdish_slot *slot, uint32_t p, uint32_t i, talusdish_row_words *words);

/* The physical address of the first byte of the word, or of the line, that a processor's link of ll is to. False where there
 * is no such processor, or its link isn't live: nothing is told then. */
bool talusdish_link(talusdish_slot *slot, uint32_t p, uint32_t *at);

/* What switched a strict machine off. False where nothing did: nothing is told then. */
bool talusdish_conflict(talusdish_slot *slot, talusdish_conflict_view *conflict);

/* Whether the machine is off, its console, and which processors were started. False with no machine: nothing is told then. */
bool talusdish_board(talusdish_slot *slot, talusdish_board_view *board);

/* The text of the machine's log becomes the session's bytes: its last entries, as many as it has room for, without the machine
 * line; `m161 tail ..` in its first line says how many came before them. 0 or NO_MEMORY. */
uint8_t talusdish_log(talusdish_slot *slot);

/* How many entries the log keeps: all events of the machine, or the last ones, as many as it has room for. 0 with no machine. */
size_t talusdish_entries(talusdish_slot *slot);

/* An entry of the log by its number, from 0, the oldest one that is kept. False where there is no such entry: nothing is told
 * then. */
bool talusdish_entry(talusdish_slot *slot, size_t i, talusdish_entry_view *entry);

/* Copies the session, its machine and its bytes, but no exploration that it has begun, into the slot `to`, which is another one; what
 * that held is freed then. 0; or NO_MEMORY or NOTHING (`slot` is empty), and `to` is as it was. */
uint8_t talusdish_copy(talusdish_slot *slot, talusdish_slot *to);

#ifdef __cplusplus
}
#endif

#endif
