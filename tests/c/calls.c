/* Each call of talusdish.h: what it answers and tells, on empty slots too. Prints a line for each check that fails, and last
 * `N passed, M failed`. */
#include "talusdish.h"

#include <stdio.h>
#include <stdlib.h>
#include <string.h>

static int passed, failed;

static void check(bool holds, const char *what, int line) {
    if (holds) {
        passed++;
    } else {
        failed++;
        printf("tests/c/calls.c:%d: %s\n", line, what);
    }
}
#define CHECK(what) check((what), #what, __LINE__)

/* A buffer of exactly this size, so that the address sanitizer sees each byte beyond it. */
static uint8_t *exact(const void *bytes, size_t size) {
    uint8_t *own = malloc(size ? size : 1);
    if (!own) exit(2);
    if (size) memcpy(own, bytes, size);
    return own;
}

static uint8_t assemble(talusdish_slot *slot, const char *text, talusdish_fault *fault) {
    size_t size = strlen(text);
    uint8_t *own = exact(text, size);
    uint8_t answer = talusdish_assemble(slot, own, size, false, fault);
    free(own);
    return answer;
}

/* The session's bytes, read in pieces of seven. */
static uint8_t *bytes_of(talusdish_slot *slot, size_t *size) {
    *size = talusdish_length(slot);
    uint8_t *all = exact("", 0);
    free(all);
    all = malloc(*size ? *size : 1);
    size_t at = 0, n;
    uint8_t piece[7];
    while ((n = talusdish_read(slot, at, piece, sizeof piece)) > 0) {
        memcpy(all + at, piece, n);
        at += n;
    }
    CHECK(at == *size);
    return all;
}

static bool has_bytes(talusdish_slot *slot, const char *want) {
    size_t size;
    uint8_t *all = bytes_of(slot, &size);
    bool same = size == strlen(want) && memcmp(all, want, size) == 0;
    free(all);
    return same;
}

static const talusdish_size small = {65536, 1, 16, false, false};
static const talusdish_order turns = {TALUSDISH_TURNS, 1, 0, 0, 0, 4, 0, false};
static const talusdish_style plain = {false, false, false};

static uint8_t boot(talusdish_slot *slot, const char *text, talusdish_size conf) {
    talusdish_fault fault;
    size_t size;
    CHECK(assemble(slot, text, &fault) == 0);
    uint8_t *file = bytes_of(slot, &size);
    uint8_t answer = talusdish_boot(slot, file, size, &conf);
    free(file);
    return answer;
}

static const char *sum = "main: addiu $8, $0, 5\n addiu $9, $8, 7\n lui $10, 0x8000\n sw $9, 0x1000($10)\nlast: wait\n beq $0, $0, last\n nop\n";
static const char *hi =
    " lui $8, 0xbfe0\n ori $9, $0, 104\n sw $9, 0($8)\n"
    "sent: lw $10, 4($8)\n andi $10, $10, 2\n beq $10, $0, sent\n nop\n"
    " lui $8, 0xbfff\n sw $0, 32264($8)\n nop\n";
/* Sends each typed byte back. */
static const char *echo =
    " lui $8, 0xbfe0\nread: lw $9, 8($8)\n andi $9, $9, 2\n beq $9, $0, read\n nop\n"
    " sw $0, 8($8)\n lw $10, 0($8)\n sw $10, 0($8)\n"
    "sent: lw $9, 4($8)\n andi $9, $9, 2\n beq $9, $0, sent\n nop\n sw $0, 4($8)\n beq $0, $0, read\n nop\n";

/* Each view of a slot without a session. */
static void views_of_empty(talusdish_slot *slot) {
    talusdish_processor_view processor;
    talusdish_row_words row = {1, 2};
    talusdish_board_view board = {true, true, 9, 9, 9};
    talusdish_conflict_view conflict = {7, 8, 9};
    talusdish_entry_view entry = {7, 8, {9, 9, 9}};
    uint32_t word = 5;
    uint8_t byte = 3;
    memset(&processor, 0x5a, sizeof processor);
    talusdish_processor_view same = processor;
    CHECK(!talusdish_processor(slot, 0, &processor) && memcmp(&processor, &same, sizeof processor) == 0);
    CHECK(talusdish_made(slot) == 0);
    CHECK(talusdish_length(slot) == 0);
    CHECK(talusdish_read(slot, 0, &byte, 1) == 0 && byte == 3);
    CHECK(!talusdish_word(slot, 0, &word) && word == 5);
    CHECK(!talusdish_cop(slot, 0, 12, &word) && word == 5);
    CHECK(!talusdish_row(slot, 0, 0, &row) && row.high == 1 && row.low == 2);
    CHECK(!talusdish_board(slot, &board) && board.latch == 9);
    CHECK(!talusdish_link(slot, 0, &word) && word == 5);
    CHECK(!talusdish_conflict(slot, &conflict) && conflict.processor == 7 && conflict.row == 8 && conflict.other == 9);
    CHECK(talusdish_entries(slot) == 0);
    CHECK(!talusdish_entry(slot, 0, &entry) && entry.kind == 7 && entry.value == 8 && entry.outcome.kind == 9);
}

/* Each call on a slot without a session. */
static void on_empty(talusdish_slot *slot) {
    talusdish_fault fault = {7, 9};
    talusdish_outcome outcome = {1, 2, 3};
    talusdish_goal goal = {0, 0};
    talusdish_slot to = {0};
    uint64_t made = 5;
    uint32_t few = 5;
    uint8_t byte = 3;
    views_of_empty(slot);
    CHECK(talusdish_assemble(slot, &byte, 0, true, &fault) == TALUSDISH_NOTHING);
    CHECK(talusdish_boot(slot, &byte, 1, &small) == TALUSDISH_NOTHING);
    CHECK(talusdish_event(slot, TALUSDISH_STEP, 0, &outcome) == TALUSDISH_NOTHING);
    CHECK(talusdish_steps(slot, 0, 10, &few) == TALUSDISH_NOTHING && few == 0);
    CHECK(talusdish_drive(slot, &turns, &byte, 1, 10, &made) == TALUSDISH_NOTHING && made == 0);
    made = 5;
    CHECK(talusdish_trace(slot, &turns, &byte, 0, false, 10, &made) == TALUSDISH_NOTHING && made == 0);
    made = 5;
    CHECK(talusdish_lines(slot, &turns, &byte, 0, &plain, &byte, 1, 10, &made) == TALUSDISH_NOTHING && made == 0);
    CHECK(talusdish_output(slot) == TALUSDISH_NOTHING);
    CHECK(talusdish_log(slot) == TALUSDISH_NOTHING);
    made = 5;
    CHECK(talusdish_step(slot, 0, &outcome) == TALUSDISH_NOTHING && talusdish_key(slot, 1, &outcome) == TALUSDISH_NOTHING);
    CHECK(talusdish_done(slot, &outcome) == TALUSDISH_NOTHING);
    CHECK(talusdish_search(slot, &turns, &byte, 0, 10, 10, &goal, &made) == TALUSDISH_NOTHING && made == 0);
    CHECK(talusdish_copy(slot, &to) == TALUSDISH_NOTHING && !to.full && !to.at);
    CHECK(fault.line == 7 && fault.column == 9 && outcome.kind == 1 && outcome.first == 2 && outcome.second == 3);
    CHECK(slot->at == NULL && !slot->full);
}

static void faults(void) {
    talusdish_slot slot = {0};
    talusdish_fault fault = {7, 9};
    CHECK(talusdish_open(&slot));
    CHECK(talusdish_length(&slot) == 0 && talusdish_made(&slot) == 0);
    CHECK(assemble(&slot, "main: addiu $8, $0, 1\n  bogus $1\n", &fault) == 2);
    CHECK(fault.line == 2 && fault.column == 3);
    CHECK(assemble(&slot, "a: nop\n beq $0, $0, b\n", &fault) == 5 && fault.line == 2);
    uint8_t *bad = exact("nop\n\xff", 5);
    fault.line = 7;
    CHECK(talusdish_assemble(&slot, bad, 5, false, &fault) == TALUSDISH_BAD && fault.line == 7);
    free(bad);
    CHECK(talusdish_length(&slot) == 0);
    CHECK(assemble(&slot, sum, &fault) == 0 && fault.line == 7);
    size_t size;
    uint8_t *file = bytes_of(&slot, &size);
    CHECK(size > 52 && memcmp(file, "\177ELF", 4) == 0);
    CHECK(assemble(&slot, "bogus\n", &fault) == 2 && talusdish_length(&slot) == size);
    free(file);
    talusdish_close(&slot);
}

/* Refusals of a boot, each of which leaves the session. */
static void boots(void) {
    talusdish_slot slot = {0};
    talusdish_fault fault;
    size_t size, more;
    CHECK(talusdish_open(&slot));
    CHECK(assemble(&slot, sum, &fault) == 0);
    uint8_t *file = bytes_of(&slot, &size);
    CHECK(talusdish_assemble(&slot, (const uint8_t *)sum, strlen(sum), true, &fault) == 0);
    uint8_t *labelled = bytes_of(&slot, &more);
    CHECK(more > size);
    talusdish_size no_ram = small, many = small;
    no_ram.ram = 100;
    many.processors = 33;
    CHECK(talusdish_boot(&slot, file, size, &no_ram) == 1);
    CHECK(talusdish_boot(&slot, file, size, &many) == 1);
    uint8_t *cut = exact(file, 51);
    CHECK(talusdish_boot(&slot, cut, 51, &small) == 2);
    free(cut);
    cut = exact(file, size - 1);
    CHECK(talusdish_boot(&slot, cut, size - 1, &small) == 7);
    free(cut);
    file[0] = 0;
    CHECK(talusdish_boot(&slot, file, size, &small) == 3);
    CHECK(talusdish_length(&slot) == more && talusdish_output(&slot) == TALUSDISH_NOTHING);
    file[0] = 0x7f;
    CHECK(talusdish_boot(&slot, file, size, &small) == 0);
    CHECK(talusdish_boot(&slot, labelled, more, &small) == 0);
    CHECK(talusdish_length(&slot) == more);
    free(file);
    free(labelled);
    talusdish_close(&slot);
}

static void events(void) {
    talusdish_slot slot = {0};
    talusdish_outcome outcome = {9, 9, 9};
    talusdish_processor_view processor;
    uint32_t made, word = 5;
    CHECK(talusdish_open(&slot));
    CHECK(talusdish_event(&slot, TALUSDISH_STEP, 0, &outcome) == TALUSDISH_NOTHING);
    CHECK(boot(&slot, sum, small) == 0);
    CHECK(talusdish_processor(&slot, 0, &processor) && processor.pc == 0x80000200 && processor.state == 1 && processor.count == 0 && !processor.in_slot);
    CHECK(!talusdish_processor(&slot, 1, &processor));
    CHECK(talusdish_event(&slot, TALUSDISH_STEP, 1, &outcome) == TALUSDISH_BAD_PROCESSOR && outcome.kind == 9);
    CHECK(talusdish_event(&slot, TALUSDISH_DONE, 0, &outcome) == TALUSDISH_NOTHING_SENT && outcome.kind == 9);
    CHECK(talusdish_event(&slot, TALUSDISH_KEY, 256, &outcome) == TALUSDISH_BAD && outcome.kind == 9);
    CHECK(talusdish_event(&slot, 3, 0, &outcome) == TALUSDISH_BAD && outcome.kind == 9);
    CHECK(talusdish_made(&slot) == 0);
    CHECK(talusdish_event(&slot, TALUSDISH_STEP, 0, &outcome) == 0 && outcome.kind == TALUSDISH_RAN && outcome.first == 0 && outcome.second == 0);
    CHECK(talusdish_processor(&slot, 0, &processor) && processor.pc == 0x80000204 && processor.registers[8] == 5 && processor.count == 1);
    CHECK(talusdish_steps(&slot, 0, 3, &made) == 0 && made == 3);
    CHECK(talusdish_word(&slot, 0x1000, &word) && word == 12);
    CHECK(!talusdish_word(&slot, 0x1001, &word) && !talusdish_word(&slot, 65536, &word) && word == 12);
    CHECK(talusdish_steps(&slot, 1, 3, &made) == TALUSDISH_BAD_PROCESSOR && made == 0);
    for (int k = 0; k < 256; k++) CHECK(talusdish_event(&slot, TALUSDISH_KEY, (uint32_t)k, &outcome) == 0 && outcome.kind == TALUSDISH_TAKEN);
    CHECK(talusdish_event(&slot, TALUSDISH_KEY, 0, &outcome) == TALUSDISH_KEY_FULL);
    CHECK(talusdish_made(&slot) == 260);
    CHECK(talusdish_processor(&slot, 0, &processor) && processor.count == 4 && processor.registers[9] == 12);
    talusdish_close(&slot);
}

/* Steps, keys and ends of transfers by their own calls; the entries of the log. */
static void single_events(void) {
    static const char *text = " lui $8, 0xbfe0\n ori $9, $0, 65\n sw $9, 0($8)\n syscall\n nop\n";
    talusdish_slot slot = {0};
    talusdish_outcome outcome = {9, 9, 9};
    talusdish_entry_view entry = {7, 8, {9, 9, 9}};
    talusdish_size conf = small;
    conf.log = 4;
    CHECK(talusdish_open(&slot));
    CHECK(talusdish_step(&slot, 0, &outcome) == TALUSDISH_NOTHING && outcome.kind == 9);
    CHECK(boot(&slot, text, conf) == 0);
    CHECK(talusdish_entries(&slot) == 0 && !talusdish_entry(&slot, 0, &entry) && entry.kind == 7);
    CHECK(talusdish_step(&slot, 1, &outcome) == TALUSDISH_BAD_PROCESSOR && outcome.kind == 9);
    CHECK(talusdish_done(&slot, &outcome) == TALUSDISH_NOTHING_SENT && outcome.kind == 9);
    CHECK(talusdish_step(&slot, 0, &outcome) == 0 && outcome.kind == TALUSDISH_RAN);
    CHECK(talusdish_key(&slot, 200, &outcome) == 0 && outcome.kind == TALUSDISH_TAKEN);
    CHECK(talusdish_step(&slot, 0, &outcome) == 0 && talusdish_step(&slot, 0, &outcome) == 0);
    CHECK(talusdish_entries(&slot) == 4);
    CHECK(talusdish_entry(&slot, 0, &entry) && entry.kind == TALUSDISH_STEP && entry.value == 0 && entry.outcome.kind == TALUSDISH_RAN);
    CHECK(talusdish_entry(&slot, 1, &entry) && entry.kind == TALUSDISH_KEY && entry.value == 200 && entry.outcome.kind == TALUSDISH_TAKEN);
    CHECK(talusdish_done(&slot, &outcome) == 0 && outcome.kind == TALUSDISH_TAKEN);
    CHECK(talusdish_output(&slot) == 0 && has_bytes(&slot, "A"));
    CHECK(talusdish_step(&slot, 0, &outcome) == 0 && outcome.kind == TALUSDISH_TRAPPED && outcome.first == 8 && outcome.second == 0x80000080);
    /* the log keeps the last four */
    CHECK(talusdish_entries(&slot) == 4 && talusdish_made(&slot) == 6);
    CHECK(talusdish_entry(&slot, 2, &entry) && entry.kind == TALUSDISH_DONE && entry.value == 0 && entry.outcome.kind == TALUSDISH_TAKEN);
    CHECK(talusdish_entry(&slot, 3, &entry) && entry.outcome.kind == TALUSDISH_TRAPPED && entry.outcome.first == 8 && entry.outcome.second == 0x80000080);
    entry.kind = 7;
    CHECK(!talusdish_entry(&slot, 4, &entry) && !talusdish_entry(&slot, SIZE_MAX, &entry) && entry.kind == 7);
    talusdish_close(&slot);
}

/* Two processors add one to the word at 1000 by a load and a store; the second looks, and switches off if it is 2. */
static const char *race =
    " lui $8, 0xbfff\n ori $8, $8, 0x8000\n lui $9, 0x8000\n ori $9, $9, 0x021c\n sw $9, 1792($8)\n ori $9, $0, 3\n sw $9, -492($8)\n"
    "both: lui $8, 0xbfff\n ori $8, $8, 0x8000\n lui $11, 0x8000\n lw $12, 4096($11)\n addiu $12, $12, 1\n sw $12, 4096($11)\n"
    "over: ll $12, 4160($11)\n addiu $13, $12, 1\n sc $13, 4160($11)\n beq $13, $0, over\n nop\n beq $12, $0, rest\n nop\n"
    " lw $12, 4096($11)\n addiu $12, $12, -2\n bne $12, $0, rest\n nop\n sw $0, -504($8)\nrest: wait\n beq $0, $0, rest\n nop\n";

static void searches(void) {
    talusdish_slot slot = {0}, other = {0};
    talusdish_goal goal = {0x1000, 2};
    talusdish_order order = {TALUSDISH_RANDOM, 0, 0, 0, 0, 100, 0, false};
    talusdish_size two = {65536, 2, 16, false, false};
    talusdish_board_view board;
    uint64_t right = 9, made;
    uint32_t word;
    const uint8_t *none = (const uint8_t *)"";
    CHECK(talusdish_open(&slot));
    CHECK(boot(&slot, race, two) == 0);
    CHECK(talusdish_search(&slot, &order, none, 0, 10000, 100, &goal, &right) == 0);
    CHECK(talusdish_made(&slot) == 0);
    /* the runs of the seeds before it end right, and its own doesn't */
    for (uint64_t k = 0; k <= right; k++) {
        talusdish_order one = order;
        one.seed = k;
        CHECK(talusdish_copy(&slot, &other) == 0);
        uint8_t answer = talusdish_drive(&other, &one, none, 0, 10000, &made);
        CHECK(talusdish_word(&other, 0x1000, &word));
        CHECK((answer == TALUSDISH_RUN_OFF && word == 2) == (k < right));
    }
    CHECK(talusdish_search(&slot, &order, none, 0, 10000, right, &goal, &made) == TALUSDISH_ALL_RIGHT && made == right);
    order.seed = UINT64_MAX;
    CHECK(talusdish_search(&slot, &order, none, 0, 10000, 0, &goal, &made) == TALUSDISH_ALL_RIGHT && made == 0);
    order.seed = right;
    CHECK(talusdish_search(&slot, &order, none, 0, 10000, 5, &goal, &made) == 0 && made == 0);
    goal.address = 65536;
    CHECK(talusdish_search(&slot, &turns, none, 0, 10000, 5, &goal, &made) == 0 && made == 0);
    order.kind = 9;
    CHECK(talusdish_search(&slot, &order, none, 0, 10, 5, &goal, &made) == TALUSDISH_BAD && made == 0);
    order.kind = TALUSDISH_PRIORITIES;
    CHECK(talusdish_search(&slot, &order, none, 0, 10, 5, &goal, &made) == TALUSDISH_NO_STRETCH && made == 0);
    CHECK(talusdish_board(&slot, &board) && board.started == 1);
    CHECK(talusdish_board(&other, &board) && board.started == 3);
    talusdish_close(&other);
    talusdish_close(&slot);
}

/* Polls for a key, and goes on behind it. */
static const char *poll =
    " lui $8, 0xbfe0\nread: lw $9, 8($8)\n andi $9, $9, 2\n beq $9, $0, read\n nop\ngot: nop\n";

typedef struct {
    const char *keys, *output; /* output: NULL where none is asked for */
    talusdish_watch watch[1];
    size_t watches;
    uint32_t never[2];
    size_t nevers;
} goal_of_run;

static uint8_t explore(talusdish_slot *slot, uint32_t limit, const goal_of_run *goal, talusdish_exploration *found) {
    const char *output = goal->output ? goal->output : "";
    uint8_t *keys = exact(goal->keys, strlen(goal->keys)), *sent = exact(output, strlen(output));
    uint8_t *watches = exact(goal->watch, goal->watches * sizeof *goal->watch), *never = exact(goal->never, goal->nevers * sizeof *goal->never);
    uint8_t answer = talusdish_explore(slot, limit, keys, strlen(goal->keys), (talusdish_watch *)(void *)watches, goal->watches,
                                       (uint32_t *)(void *)never, goal->nevers, goal->output != NULL, sent, strlen(output), found);
    free(keys), free(sent), free(watches), free(never);
    return answer;
}

/* The events are those of the text: 0 to 9 each. */
static bool has_events(talusdish_slot *slot, const char *want) {
    size_t size;
    uint8_t *all = bytes_of(slot, &size);
    bool same = size == strlen(want);
    for (size_t k = 0; same && k < size; k++) same = all[k] == want[k] - '0';
    free(all);
    return same;
}

static void explorations(void) {
    talusdish_slot slot = {0};
    talusdish_exploration found = {9, 9, 9, {9, 9, 9, 9, 9}}, same = found;
    talusdish_board_view board;
    talusdish_size two = {8192, 2, 16, false, false};
    goal_of_run goal = {"", NULL, {{0, 0, 0, 0}}, 0, {0, 0}, 0};
    uint64_t made;
    CHECK(explore(&slot, 9, &goal, &found) == TALUSDISH_NOTHING);
    CHECK(talusdish_open(&slot));
    CHECK(explore(&slot, 9, &goal, &found) == TALUSDISH_NOTHING && memcmp(&found, &same, sizeof found) == 0);
    /* four instructions and wait: five Steps, then nothing is left to do */
    CHECK(boot(&slot, sum, small) == 0);
    uint32_t file = (uint32_t)talusdish_length(&slot);
    CHECK(explore(&slot, 0, &goal, &found) == TALUSDISH_BAD && memcmp(&found, &same, sizeof found) == 0 && talusdish_length(&slot) == file);
    goal.watches = 1;
    goal.watch[0] = (talusdish_watch){64, 0, 0x1000, 0x1004};
    CHECK(explore(&slot, 9, &goal, &found) == TALUSDISH_BAD_WATCH && memcmp(&found, &same, sizeof found) == 0);
    CHECK(explore(&slot, 0, &goal, &found) == TALUSDISH_BAD && memcmp(&found, &same, sizeof found) == 0); /* the limit comes first */
    goal.watch[0] = (talusdish_watch){63, 0xfffff, 0x1000, 65536};
    CHECK(explore(&slot, 9, &goal, &found) == TALUSDISH_BAD_WATCH && memcmp(&found, &same, sizeof found) == 0);
    goal.watch[0].done = 65532;
    CHECK(explore(&slot, 99, &goal, &found) == 0 && found.kind == TALUSDISH_FOUND && found.states == 5 && found.events == 5);
    CHECK(found.verdict.kind == TALUSDISH_VERDICT_STUCK && found.verdict.processor == 0 && found.verdict.address == 0);
    CHECK(has_events(&slot, "00000") && talusdish_made(&slot) == 0);
    goal.watches = 0;
    goal.output = "";
    CHECK(explore(&slot, 6, &goal, &found) == 0 && found.kind == TALUSDISH_CLEAN && found.states == 6 && found.events == 0);
    CHECK(has_events(&slot, "") && found.verdict.kind == TALUSDISH_VERDICT_NONE);
    CHECK(explore(&slot, 3, &goal, &found) == 0 && found.kind == TALUSDISH_OPEN && found.states == 0 && found.events == 2 && has_events(&slot, ""));
    goal.never[0] = 4;
    goal.never[1] = 0x80000208;
    goal.nevers = 2;
    /* what the machine has done since its boot is no matter, and it stays so */
    CHECK(talusdish_drive(&slot, &turns, (const uint8_t *)"", 0, 3, &made) == 0);
    CHECK(explore(&slot, 99, &goal, &found) == 0 && found.kind == TALUSDISH_FOUND && found.states == 3 && found.events == 3);
    CHECK(found.verdict.kind == TALUSDISH_VERDICT_REACHED && found.verdict.processor == 0 && found.verdict.address == 0x80000208);
    CHECK(found.verdict.row == 0 && found.verdict.other == 0 && has_events(&slot, "000") && talusdish_made(&slot) == 3);
    /* the key comes where it has to, before the load, and no sooner: event 2 behind the processor's 0 and the transfer's 1 */
    CHECK(boot(&slot, poll, small) == 0);
    goal.keys = "k";
    goal.never[0] = 0x80000214;
    goal.nevers = 1;
    CHECK(explore(&slot, 99, &goal, &found) == 0 && found.kind == TALUSDISH_FOUND && found.verdict.kind == TALUSDISH_VERDICT_REACHED);
    CHECK(found.verdict.address == 0x80000214 && found.events == 7 && has_events(&slot, "0200000"));
    /* a byte has to be sent before the machine is off */
    CHECK(boot(&slot, hi, small) == 0);
    goal.keys = "";
    goal.nevers = 0;
    goal.output = "x";
    CHECK(explore(&slot, 99, &goal, &found) == 0 && found.kind == TALUSDISH_FOUND && found.verdict.kind == TALUSDISH_VERDICT_OUTPUT);
    CHECK(found.events == 10 && has_events(&slot, "0001000000"));
    goal.output = "h";
    CHECK(explore(&slot, 99, &goal, &found) == 0 && found.kind == TALUSDISH_CLEAN);
    /* spins for ever: two states, and no end */
    CHECK(boot(&slot, "here: beq $0, $0, here\n nop\n", small) == 0);
    CHECK(explore(&slot, 99, &goal, &found) == 0 && found.kind == TALUSDISH_HUNG && found.states == 2 && found.events == 0 && has_events(&slot, ""));
    /* two processors: the found list loses an increment, and leaves nothing to do */
    CHECK(boot(&slot, race, two) == 0);
    goal.output = NULL;
    CHECK(explore(&slot, 9999, &goal, &found) == 0 && found.kind == TALUSDISH_FOUND && found.verdict.kind == TALUSDISH_VERDICT_STUCK);
    size_t size;
    uint8_t *events = bytes_of(&slot, &size);
    CHECK(size == found.events);
    talusdish_outcome outcome;
    uint32_t word;
    for (size_t k = 0; k < size; k++) CHECK(talusdish_step(&slot, events[k], &outcome) == 0);
    free(events);
    CHECK(talusdish_word(&slot, 0x1000, &word) && word == 1);
    CHECK(talusdish_board(&slot, &board) && !board.off);
    CHECK(talusdish_drive(&slot, &turns, (const uint8_t *)"", 0, 9, &made) == TALUSDISH_RUN_STUCK && made == 0);
    talusdish_close(&slot);
}

/* The buffers are freed behind the call. */
static uint8_t explore_begin(talusdish_slot *slot, uint32_t limit, const goal_of_run *goal) {
    const char *output = goal->output ? goal->output : "";
    uint8_t *keys = exact(goal->keys, strlen(goal->keys)), *sent = exact(output, strlen(output));
    uint8_t *watches = exact(goal->watch, goal->watches * sizeof *goal->watch), *never = exact(goal->never, goal->nevers * sizeof *goal->never);
    uint8_t answer = talusdish_explore_begin(slot, limit, keys, strlen(goal->keys), (talusdish_watch *)(void *)watches, goal->watches,
                                             (uint32_t *)(void *)never, goal->nevers, goal->output != NULL, sent, strlen(output));
    free(keys), free(sent), free(watches), free(never);
    return answer;
}

static bool is_exploration(const talusdish_exploration *found, uint32_t kind, uint32_t states, uint64_t events) {
    return found->kind == kind && found->states == states && found->events == events;
}

/* A slice of so many states has no answer yet, and so many were found. */
static bool has_more(talusdish_slot *slot, uint32_t number, uint32_t states) {
    const talusdish_verdict none = {0, 0, 0, 0, 0};
    talusdish_exploration found = {9, 9, 9, {9, 9, 9, 9, 9}};
    return talusdish_explore_slice(slot, number, &found) == TALUSDISH_MORE && is_exploration(&found, TALUSDISH_UNFINISHED, states, 0) &&
           memcmp(&found.verdict, &none, sizeof none) == 0;
}

/* There is no exploration: nothing is told. */
static bool has_none(talusdish_slot *slot) {
    talusdish_exploration found = {9, 9, 9, {9, 9, 9, 9, 9}}, same = found;
    return talusdish_explore_slice(slot, 1, &found) == TALUSDISH_NOTHING && memcmp(&found, &same, sizeof found) == 0;
}

/* Slices of so many states, one behind the other, find what one call does, and nothing is there to go on with behind it. */
static void explored_as(talusdish_slot *slot, uint32_t limit, uint32_t number, const goal_of_run *goal) {
    talusdish_exploration whole = {9, 9, 9, {9, 9, 9, 9, 9}}, found = whole;
    size_t long_one, long_too;
    int slices = 0;
    uint8_t answer;
    CHECK(explore(slot, limit, goal, &whole) == 0);
    uint8_t *wanted = bytes_of(slot, &long_one);
    CHECK(explore_begin(slot, limit, goal) == 0);
    while ((answer = talusdish_explore_slice(slot, number, &found)) == TALUSDISH_MORE && found.states <= limit && slices < 9999) slices++;
    CHECK(answer == 0 && is_exploration(&found, whole.kind, whole.states, whole.events) && (number > 1 || slices > 0));
    CHECK(memcmp(&found.verdict, &whole.verdict, sizeof whole.verdict) == 0);
    uint8_t *had = bytes_of(slot, &long_too);
    CHECK(long_one == long_too && memcmp(wanted, had, long_one) == 0 && has_none(slot));
    free(wanted), free(had);
}

/* What isn't begun, and slices of what isn't there. */
static void unexplored(void) {
    talusdish_slot slot = {0};
    goal_of_run goal = {"", "", {{64, 0, 0x1000, 0x1004}}, 0, {0, 0}, 0};
    CHECK(explore_begin(&slot, 9, &goal) == TALUSDISH_NOTHING && has_none(&slot) && !slot.full && !slot.at);
    CHECK(talusdish_open(&slot));
    CHECK(explore_begin(&slot, 9, &goal) == TALUSDISH_NOTHING && has_none(&slot));
    CHECK(boot(&slot, sum, small) == 0);
    CHECK(has_none(&slot));
    CHECK(explore_begin(&slot, 0, &goal) == TALUSDISH_BAD && has_none(&slot));
    goal.watches = 1;
    CHECK(explore_begin(&slot, 9, &goal) == TALUSDISH_BAD_WATCH && has_none(&slot));
    CHECK(explore_begin(&slot, 0, &goal) == TALUSDISH_BAD && has_none(&slot)); /* the limit comes first */
    goal.watch[0] = (talusdish_watch){63, 0xfffff, 0x1000, 65536};
    CHECK(explore_begin(&slot, 9, &goal) == TALUSDISH_BAD_WATCH && has_none(&slot));
    goal.watch[0].done = 65532;
    CHECK(explore_begin(&slot, 9, &goal) == 0 && has_more(&slot, 0, 1));
    talusdish_close(&slot);
    CHECK(has_none(&slot));
}

/* One after the other of six states in a row: four instructions, wait, and what is behind it. */
static void slices_in_a_row(void) {
    talusdish_slot slot = {0}, copy = {0};
    talusdish_exploration found = {9, 9, 9, {9, 9, 9, 9, 9}};
    talusdish_outcome outcome;
    goal_of_run goal = {"", "", {{63, 0xfffff, 0x1000, 65532}}, 1, {4, 0x80000000}, 2};
    CHECK(talusdish_open(&slot));
    CHECK(boot(&slot, sum, small) == 0);
    size_t file = talusdish_length(&slot);
    CHECK(explore_begin(&slot, 6, &goal) == 0 && talusdish_length(&slot) == file && talusdish_made(&slot) == 0);
    CHECK(has_more(&slot, 0, 1) && has_more(&slot, 0, 1));
    for (uint32_t states = 2; states < 7; states++) CHECK(has_more(&slot, 1, states) && has_more(&slot, 0, states));
    CHECK(talusdish_length(&slot) == file);
    CHECK(talusdish_explore_slice(&slot, 1, &found) == 0 && is_exploration(&found, TALUSDISH_CLEAN, 6, 0));
    CHECK(found.verdict.kind == TALUSDISH_VERDICT_NONE && has_events(&slot, "") && has_none(&slot));
    /* all at once, and all that is left */
    CHECK(explore_begin(&slot, 6, &goal) == 0);
    CHECK(talusdish_explore_slice(&slot, 6, &found) == 0 && is_exploration(&found, TALUSDISH_CLEAN, 6, 0) && has_none(&slot));
    CHECK(explore_begin(&slot, UINT32_MAX, &goal) == 0 && has_more(&slot, 5, 6));
    CHECK(talusdish_explore_slice(&slot, UINT32_MAX, &found) == 0 && is_exploration(&found, TALUSDISH_CLEAN, 6, 0) && has_none(&slot));
    /* another one in its place, with another limit and another goal, and one that isn't begun */
    CHECK(explore_begin(&slot, 6, &goal) == 0 && has_more(&slot, 2, 3));
    goal.output = NULL;
    CHECK(explore_begin(&slot, 3, &goal) == 0);
    CHECK(explore_begin(&slot, 0, &goal) == TALUSDISH_BAD && has_more(&slot, 1, 2) && has_more(&slot, 1, 3));
    CHECK(talusdish_explore_slice(&slot, 1, &found) == 0 && is_exploration(&found, TALUSDISH_OPEN, 0, 2) && has_events(&slot, "") && has_none(&slot));
    /* the session's machine goes on and is another one, its bytes are others, and another exploration is made, meanwhile */
    CHECK(explore_begin(&slot, 99, &goal) == 0 && has_more(&slot, 1, 2));
    CHECK(talusdish_step(&slot, 0, &outcome) == 0 && talusdish_made(&slot) == 1 && has_more(&slot, 1, 3) && talusdish_made(&slot) == 1);
    CHECK(boot(&slot, hi, small) == 0);
    CHECK(talusdish_step(&slot, 0, &outcome) == 0 && talusdish_key(&slot, 'k', &outcome) == 0 && talusdish_log(&slot) == 0);
    CHECK(has_more(&slot, 1, 4) && has_bytes(&slot, "m161 log 2 word\ns 0 ran\nk 6b taken\n") && talusdish_made(&slot) == 2);
    /* a copy has none, nor has a slot any more to which one without is copied */
    CHECK(talusdish_copy(&slot, &copy) == 0 && has_none(&copy) && has_more(&slot, 0, 4));
    CHECK(explore_begin(&copy, 99, &goal) == 0 && has_more(&copy, 0, 1) && talusdish_copy(&slot, &copy) == 0 && has_none(&copy));
    goal.output = "x";
    CHECK(explore(&slot, 99, &goal, &found) == 0 && found.kind == TALUSDISH_FOUND && found.events == 10 && has_events(&slot, "0001000000"));
    CHECK(has_more(&slot, 1, 5) && has_events(&slot, "0001000000"));
    CHECK(talusdish_explore_slice(&slot, 1, &found) == 0 && is_exploration(&found, TALUSDISH_FOUND, 5, 5));
    CHECK(found.verdict.kind == TALUSDISH_VERDICT_STUCK && has_events(&slot, "00000") && talusdish_made(&slot) == 2 && has_none(&slot));
    /* one that was begun is freed with its session, or where another one is opened in its place */
    CHECK(explore_begin(&slot, 99, &goal) == 0 && has_more(&slot, 3, 4) && talusdish_open(&slot) && has_none(&slot));
    CHECK(explore_begin(&copy, 99, &goal) == 0 && has_more(&copy, 3, 4));
    talusdish_close(&copy);
    CHECK(has_none(&copy));
    talusdish_close(&slot);
}

/* Uses a page, whose entry and mark it has stored to, by the old row of the TLB: the ninth Step. */
static const char *stale =
    " lui $8, 0x40\n mtc0 $8, $10\n ori $9, $0, 0x700\n mtc0 $9, $2\n tlbwi\n"
    " lui $10, 0x8000\n sw $0, 0x1000($10)\n sw $0, 0x1004($10)\n lw $11, 0($8)\n wait\n";
/* Reads Random at the third Step, and spins. */
static const char *random_reader = " nop\n nop\n mfc0 $8, $1\nhere: beq $0, $0, here\n nop\n";
/* Reads Count at the second Step and Random at the third, and switches off. */
static const char *time_reader = " nop\n mfc0 $8, $9\n mfc0 $9, $1\n lui $8, 0xbfff\n sw $0, 32264($8)\n nop\n";
/* Two processors read both, and wait. */
static const char *time_readers =
    " lui $8, 0xbfff\n ori $8, $8, 0x8000\n lui $9, 0x8000\n ori $9, $9, 0x021c\n sw $9, 1792($8)\n ori $9, $0, 3\n sw $9, -492($8)\n"
    "both: mfc0 $10, $9\n mfc0 $11, $1\nrest: wait\n beq $0, $0, rest\n nop\n";

/* Of two processors, by slices of so many states. */
static void slices_of(uint32_t number) {
    talusdish_slot slot = {0};
    talusdish_size two = {8192, 2, 16, false, false};
    goal_of_run goal = {"", NULL, {{0, 0x400, 0x1000, 0x1004}}, 0, {0x80000260, 4}, 0};
    goal_of_run keyed = {"k", "", {{63, 1, 0x1000, 0x1004}}, 1, {0x80000214, 4}, 2};
    CHECK(talusdish_open(&slot));
    /* an increment is lost, which leaves nothing to do; so it may, where no byte is asked for; an address is met; more states than the limit */
    CHECK(boot(&slot, race, two) == 0);
    explored_as(&slot, 9999, number, &goal);
    goal.output = "";
    explored_as(&slot, 9999, number, &goal);
    goal.nevers = 2;
    explored_as(&slot, 9999, number, &goal);
    goal.output = NULL, goal.nevers = 0;
    explored_as(&slot, 50, number, &goal);
    /* a key; a byte that isn't to be sent; a stale use; no end; states that are looked for anew */
    CHECK(boot(&slot, poll, two) == 0);
    explored_as(&slot, 99, number, &keyed);
    CHECK(boot(&slot, hi, two) == 0);
    explored_as(&slot, 99, number, &keyed);
    CHECK(boot(&slot, stale, two) == 0);
    goal.watches = 1;
    explored_as(&slot, 99, number, &goal);
    goal.watches = 0;
    CHECK(boot(&slot, "here: beq $0, $0, here\n nop\n", two) == 0);
    explored_as(&slot, 99, number, &goal);
    CHECK(boot(&slot, random_reader, two) == 0);
    explored_as(&slot, 99, number, &goal);
    CHECK(boot(&slot, time_readers, two) == 0);
    explored_as(&slot, 99, number, &goal);
    talusdish_close(&slot);
}

static void slices(void) {
    talusdish_slot slot = {0};
    talusdish_exploration found = {9, 9, 9, {9, 9, 9, 9, 9}};
    talusdish_size one = {8192, 1, 16, false, false};
    goal_of_run goal = {"", NULL, {{0, 0x400, 0x1000, 0x1004}}, 1, {0, 0}, 0};
    unexplored();
    slices_in_a_row();
    slices_of(1);
    slices_of(7);
    slices_of(1000);
    slices_of(UINT32_MAX);
    /* a watch, of which a copy was taken */
    CHECK(talusdish_open(&slot));
    CHECK(boot(&slot, stale, one) == 0);
    CHECK(explore_begin(&slot, 99, &goal) == 0 && has_more(&slot, 8, 9));
    CHECK(talusdish_explore_slice(&slot, 1, &found) == 0 && is_exploration(&found, TALUSDISH_FOUND, 9, 9) && has_events(&slot, "000000000"));
    CHECK(found.verdict.kind == TALUSDISH_VERDICT_STALE && found.verdict.processor == 0 && found.verdict.address == 0x400000);
    CHECK(found.verdict.row == 0 && has_none(&slot));
    /* the third Step reads Random, and the states are looked for anew: the first three, and behind them, since Random goes round 56 values, 56 of a
     * circle of two instructions */
    CHECK(boot(&slot, random_reader, one) == 0);
    CHECK(explore_begin(&slot, 99, &goal) == 0 && has_more(&slot, 1, 2) && has_more(&slot, 1, 3) && has_more(&slot, 1, 1));
    for (uint32_t states = 2; states < 60; states++) CHECK(has_more(&slot, 1, states));
    CHECK(talusdish_explore_slice(&slot, 1, &found) == 0 && is_exploration(&found, TALUSDISH_HUNG, 59, 0) && has_events(&slot, ""));
    CHECK(has_none(&slot));
    /* twice anew: for Count and for Random. Then six states in a row, of which the last is off */
    CHECK(boot(&slot, time_reader, one) == 0);
    CHECK(explore_begin(&slot, 99, &goal) == 0 && has_more(&slot, 1, 2) && has_more(&slot, 1, 1));
    CHECK(has_more(&slot, 1, 2) && has_more(&slot, 1, 3) && has_more(&slot, 1, 1));
    for (uint32_t states = 2; states < 7; states++) CHECK(has_more(&slot, 1, states));
    CHECK(talusdish_explore_slice(&slot, 1, &found) == 0 && is_exploration(&found, TALUSDISH_CLEAN, 6, 0) && has_none(&slot));
    talusdish_close(&slot);
}

static uint8_t symbol(const uint8_t *file, size_t size, const char *name, uint32_t *value) {
    uint8_t *own = exact(name, strlen(name)), *bytes = exact(file, size);
    uint8_t answer = talusdish_symbol(bytes, size, own, strlen(name), value);
    free(own), free(bytes);
    return answer;
}

/* Labels: main at 80000200, last at 80000210. */
static void symbols(void) {
    talusdish_slot slot = {0};
    talusdish_fault fault;
    uint32_t value = 7, distance = 9;
    size_t size;
    CHECK(talusdish_nearest(&slot, (const uint8_t *)"", 0, 0, &distance) == TALUSDISH_NOTHING && distance == 9);
    CHECK(talusdish_open(&slot));
    CHECK(talusdish_assemble(&slot, (const uint8_t *)sum, strlen(sum), true, &fault) == 0);
    uint8_t *file = bytes_of(&slot, &size);
    CHECK(symbol(file, size, "main", &value) == 0 && value == 0x80000200);
    CHECK(symbol(file, size, "last", &value) == 0 && value == 0x80000210);
    value = 7;
    CHECK(symbol(file, size, "las", &value) == TALUSDISH_NO_SYMBOL && symbol(file, size, "", &value) == TALUSDISH_NO_SYMBOL && value == 7);
    CHECK(symbol(file, size, "\xff", &value) == TALUSDISH_BAD && symbol(file, 0, "main", &value) == TALUSDISH_NO_SYMBOL && value == 7);
    CHECK(talusdish_nearest(&slot, file, size, 0x8000020f, &distance) == 0 && distance == 15 && has_bytes(&slot, "main"));
    CHECK(talusdish_nearest(&slot, file, size, 0x80000210, &distance) == 0 && distance == 0 && has_bytes(&slot, "last"));
    CHECK(talusdish_nearest(&slot, file, size, UINT32_MAX, &distance) == 0 && distance == 0x7ffffdef && has_bytes(&slot, "last"));
    CHECK(talusdish_nearest(&slot, file, size, 0x800001ff, &distance) == TALUSDISH_NO_SYMBOL && distance == 0x7ffffdef && has_bytes(&slot, "last"));
    free(file);
    talusdish_close(&slot);
}

static uint8_t judge(talusdish_slot *slot, const uint8_t *file, size_t size, const goal_of_run *goal, talusdish_judgement *judgement) {
    const char *output = goal->output ? goal->output : "";
    uint8_t *keys = exact(goal->keys, strlen(goal->keys)), *sent = exact(output, strlen(output)), *own = exact(file, size);
    uint8_t *watches = exact(goal->watch, goal->watches * sizeof *goal->watch), *never = exact(goal->never, goal->nevers * sizeof *goal->never);
    uint8_t answer = talusdish_judge(slot, own, size, keys, strlen(goal->keys), (talusdish_watch *)(void *)watches, goal->watches,
                                     (uint32_t *)(void *)never, goal->nevers, goal->output != NULL, sent, strlen(output), judgement);
    free(keys), free(sent), free(own), free(watches), free(never);
    return answer;
}

static void judgements(void) {
    talusdish_slot slot = {0};
    talusdish_judgement found = {{9, 9, 9, 9, 9}, 9}, same = found;
    talusdish_watch watch = {63, 0xfffff, 0, 65532};
    goal_of_run goal = {"", NULL, {{64, 0, 0, 4}}, 0, {0x80000208, 4}, 0};
    talusdish_size short_log = {65536, 1, 2, false, false};
    uint32_t made;
    uint64_t many;
    size_t size;
    CHECK(talusdish_audit(&slot, &watch, 1, &found) == TALUSDISH_NOTHING && judge(&slot, NULL, 0, &goal, &found) == TALUSDISH_NOTHING);
    CHECK(talusdish_open(&slot));
    CHECK(talusdish_audit(&slot, &watch, 1, &found) == TALUSDISH_NOTHING && judge(&slot, NULL, 0, &goal, &found) == TALUSDISH_NOTHING);
    CHECK(boot(&slot, sum, small) == 0);
    CHECK(assemble(&slot, sum, &(talusdish_fault){0, 0}) == 0);
    uint8_t *file = bytes_of(&slot, &size);
    watch.done = 65536;
    CHECK(talusdish_audit(&slot, &watch, 1, &found) == TALUSDISH_BAD_WATCH && memcmp(&found, &same, sizeof found) == 0);
    watch.done = 65532;
    goal.watches = 1;
    CHECK(judge(&slot, file, size, &goal, &found) == TALUSDISH_BAD_WATCH && memcmp(&found, &same, sizeof found) == 0);
    goal.watches = 0;
    CHECK(judge(&slot, file, 51, &goal, &found) == 2 && memcmp(&found, &same, sizeof found) == 0);
    CHECK(talusdish_audit(&slot, &watch, 1, &found) == 0 && found.verdict.kind == TALUSDISH_VERDICT_NONE && found.events == 0);
    found = same;
    CHECK(judge(&slot, file, size, &goal, &found) == 0 && found.verdict.kind == TALUSDISH_VERDICT_NONE && found.events == 0);
    /* three events: not at its end, which is wrong where output is asked for */
    CHECK(talusdish_steps(&slot, 0, 3, &made) == 0);
    CHECK(judge(&slot, file, size, &goal, &found) == 0 && found.verdict.kind == TALUSDISH_VERDICT_NONE);
    goal.output = "";
    CHECK(judge(&slot, file, size, &goal, &found) == 0 && found.verdict.kind == TALUSDISH_VERDICT_END && found.events == 3);
    goal.nevers = 2;
    CHECK(judge(&slot, file, size, &goal, &found) == 0 && found.verdict.kind == TALUSDISH_VERDICT_REACHED && found.events == 3);
    CHECK(found.verdict.processor == 0 && found.verdict.address == 0x80000208 && found.verdict.row == 0 && found.verdict.other == 0);
    goal.nevers = 0;
    /* the fifth waits, and nothing is left to do, unless a key is; an idle Step behind it isn't needed */
    CHECK(talusdish_steps(&slot, 0, 3, &made) == 0);
    CHECK(judge(&slot, file, size, &goal, &found) == 0 && found.verdict.kind == TALUSDISH_VERDICT_NONE);
    goal.output = NULL;
    CHECK(judge(&slot, file, size, &goal, &found) == 0 && found.verdict.kind == TALUSDISH_VERDICT_STUCK && found.events == 5);
    goal.keys = "k";
    CHECK(judge(&slot, file, size, &goal, &found) == 0 && found.verdict.kind == TALUSDISH_VERDICT_NONE && talusdish_made(&slot) == 6);
    goal.keys = "";
    free(file);
    CHECK(boot(&slot, hi, small) == 0);
    CHECK(assemble(&slot, hi, &(talusdish_fault){0, 0}) == 0);
    file = bytes_of(&slot, &size);
    CHECK(talusdish_drive(&slot, &turns, (const uint8_t *)"", 0, 99, &many) == TALUSDISH_RUN_OFF);
    goal.output = "x";
    CHECK(judge(&slot, file, size, &goal, &found) == 0 && found.verdict.kind == TALUSDISH_VERDICT_OUTPUT && found.events == many);
    goal.output = "h";
    CHECK(judge(&slot, file, size, &goal, &found) == 0 && found.verdict.kind == TALUSDISH_VERDICT_NONE && found.events == 0);
    free(file);
    /* a log of two entries has two events, and no more */
    CHECK(boot(&slot, sum, short_log) == 0);
    CHECK(assemble(&slot, sum, &(talusdish_fault){0, 0}) == 0);
    file = bytes_of(&slot, &size);
    CHECK(talusdish_steps(&slot, 0, 2, &made) == 0 && talusdish_audit(&slot, &watch, 1, &found) == 0);
    CHECK(talusdish_steps(&slot, 0, 1, &made) == 0);
    found = same;
    CHECK(talusdish_audit(&slot, &watch, 1, &found) == TALUSDISH_DROPPED && judge(&slot, file, size, &goal, &found) == TALUSDISH_DROPPED);
    CHECK(memcmp(&found, &same, sizeof found) == 0);
    free(file);
    talusdish_close(&slot);
}

static uint8_t hung(talusdish_slot *slot, const uint8_t *file, size_t size, uint32_t few, const goal_of_run *goal, talusdish_judgement *judgement) {
    const char *output = goal->output ? goal->output : "";
    uint8_t *keys = exact(goal->keys, strlen(goal->keys)), *sent = exact(output, strlen(output)), *own = exact(file, size);
    uint8_t *watches = exact(goal->watch, goal->watches * sizeof *goal->watch), *never = exact(goal->never, goal->nevers * sizeof *goal->never);
    uint8_t answer = talusdish_hung(slot, own, size, few, keys, strlen(goal->keys), (talusdish_watch *)(void *)watches, goal->watches,
                                    (uint32_t *)(void *)never, goal->nevers, goal->output != NULL, sent, strlen(output), judgement);
    free(keys), free(sent), free(own), free(watches), free(never);
    return answer;
}

static uint8_t seeds(talusdish_slot *slot, const uint8_t *file, size_t size, const talusdish_order *order, uint64_t n, uint64_t count, uint32_t few,
                     const goal_of_run *goal, talusdish_sought *found) {
    const char *output = goal->output ? goal->output : "";
    uint8_t *keys = exact(goal->keys, strlen(goal->keys)), *sent = exact(output, strlen(output)), *own = exact(file, size);
    uint8_t *watches = exact(goal->watch, goal->watches * sizeof *goal->watch), *never = exact(goal->never, goal->nevers * sizeof *goal->never);
    uint8_t answer = talusdish_seeds(slot, own, size, order, n, count, few, keys, strlen(goal->keys), (talusdish_watch *)(void *)watches, goal->watches,
                                     (uint32_t *)(void *)never, goal->nevers, goal->output != NULL, sent, strlen(output), found);
    free(keys), free(sent), free(own), free(watches), free(never);
    return answer;
}

static uint8_t delays(talusdish_slot *slot, const uint8_t *file, size_t size, const talusdish_order *order, talusdish_class lists, uint64_t n,
                      uint32_t few, const goal_of_run *goal, talusdish_sought_list *found) {
    const char *output = goal->output ? goal->output : "";
    uint8_t *keys = exact(goal->keys, strlen(goal->keys)), *sent = exact(output, strlen(output)), *own = exact(file, size);
    uint8_t *watches = exact(goal->watch, goal->watches * sizeof *goal->watch), *never = exact(goal->never, goal->nevers * sizeof *goal->never);
    uint8_t answer = talusdish_delays(slot, own, size, order, &lists, n, few, keys, strlen(goal->keys), (talusdish_watch *)(void *)watches, goal->watches,
                                      (uint32_t *)(void *)never, goal->nevers, goal->output != NULL, sent, strlen(output), found);
    free(keys), free(sent), free(own), free(watches), free(never);
    return answer;
}

static uint8_t delays_from(talusdish_slot *slot, const uint8_t *file, size_t size, const talusdish_order *order, talusdish_class lists,
                           talusdish_list from, uint64_t most, uint64_t n, uint32_t few, const goal_of_run *goal, talusdish_sought_slice *slice) {
    const char *output = goal->output ? goal->output : "";
    uint8_t *keys = exact(goal->keys, strlen(goal->keys)), *sent = exact(output, strlen(output)), *own = exact(file, size);
    uint8_t *watches = exact(goal->watch, goal->watches * sizeof *goal->watch), *never = exact(goal->never, goal->nevers * sizeof *goal->never);
    uint8_t answer = talusdish_slice(slot, own, size, order, &lists, &from, most, n, few, keys, strlen(goal->keys),
                                           (talusdish_watch *)(void *)watches, goal->watches, (uint32_t *)(void *)never, goal->nevers,
                                           goal->output != NULL, sent, strlen(output), slice);
    free(keys), free(sent), free(own), free(watches), free(never);
    return answer;
}

/* The session's bytes are an ELF file: it is booted, and stays in the buffer. */
static uint8_t *boot_kept(talusdish_slot *slot, const char *text, talusdish_size conf, size_t *size) {
    talusdish_fault fault;
    CHECK(assemble(slot, text, &fault) == 0);
    uint8_t *file = bytes_of(slot, size);
    CHECK(talusdish_boot(slot, file, *size, &conf) == 0);
    return file;
}

/* What a search found has these numbers, and a verdict without others. */
static bool is_found(const talusdish_sought *found, uint32_t kind, uint64_t right, uint64_t cut, uint64_t events) {
    const talusdish_verdict *verdict = &found->verdict;
    return verdict->kind == kind && verdict->processor == 0 && verdict->address == 0 && verdict->row == 0 && verdict->other == 0 &&
           found->right == right && found->cut == cut && found->events == events;
}

static const char *spin = "here: beq $0, $0, here\n nop\n";

/* Why no run is made: nothing is changed or told. */
static void unsought(void) {
    talusdish_slot slot = {0};
    talusdish_sought found = {{9, 9, 9, 9, 9}, 9, 9, 9}, same = found;
    talusdish_judgement judgement = {{9, 9, 9, 9, 9}, 9}, alike = judgement;
    talusdish_order order = {9, 0, 0, 0, 0, 4, 0, false};
    goal_of_run goal = {"", NULL, {{64, 0, 0, 4}}, 1, {0, 0}, 0};
    talusdish_size short_log = {65536, 1, 2, false, false};
    size_t size;
    uint32_t made;
    CHECK(seeds(&slot, NULL, 0, &order, 9, 9, 9, &goal, &found) == TALUSDISH_NOTHING && hung(&slot, NULL, 0, 9, &goal, &judgement) == TALUSDISH_NOTHING);
    CHECK(talusdish_open(&slot));
    CHECK(seeds(&slot, NULL, 0, &order, 9, 9, 9, &goal, &found) == TALUSDISH_NOTHING && hung(&slot, NULL, 0, 9, &goal, &judgement) == TALUSDISH_NOTHING);
    uint8_t *file = boot_kept(&slot, sum, short_log, &size);
    CHECK(seeds(&slot, file, 51, &order, 9, 0, 9, &goal, &found) == TALUSDISH_BAD); /* the order comes first, then the file, then the watches */
    order.kind = TALUSDISH_TURNS;
    CHECK(seeds(&slot, file, 51, &order, 9, 0, 9, &goal, &found) == TALUSDISH_NO_TURN);
    order.kind = TALUSDISH_PRIORITIES;
    CHECK(seeds(&slot, file, 51, &order, 9, 0, 9, &goal, &found) == TALUSDISH_NO_STRETCH);
    order.within = 1;
    order.changes = 65;
    CHECK(seeds(&slot, file, 51, &order, 9, 0, 9, &goal, &found) == TALUSDISH_TOO_MANY_CHANGES);
    order.kind = TALUSDISH_RANDOM;
    CHECK(seeds(&slot, file, 51, &order, 9, 0, 9, &goal, &found) == 2 && hung(&slot, file, 51, 9, &goal, &judgement) == 2);
    CHECK(seeds(&slot, file, size, &order, 9, 0, 9, &goal, &found) == TALUSDISH_BAD_WATCH && hung(&slot, file, size, 9, &goal, &judgement) == TALUSDISH_BAD_WATCH);
    CHECK(talusdish_steps(&slot, 0, 3, &made) == 0 && hung(&slot, file, 51, 9, &goal, &judgement) == TALUSDISH_DROPPED);
    CHECK(memcmp(&found, &same, sizeof found) == 0 && memcmp(&judgement, &alike, sizeof judgement) == 0 && talusdish_length(&slot) == size);
    free(file);
    talusdish_close(&slot);
}

/* The same of a search by delays. */
static void unlisted(void) {
    talusdish_slot slot = {0};
    talusdish_sought_list found, same;
    memset(&found, 0x5a, sizeof found);
    memcpy(&same, &found, sizeof found);
    talusdish_order order = {TALUSDISH_RANDOM, 0, 0, 0, 0, 4, 0, false};
    talusdish_class many = {65, 0, 9}, lists = {64, 0, 9};
    goal_of_run goal = {"", NULL, {{64, 0, 0, 4}}, 1, {0, 0}, 0};
    size_t size;
    CHECK(delays(&slot, NULL, 0, &order, lists, 9, 9, &goal, &found) == TALUSDISH_NOTHING);
    CHECK(talusdish_open(&slot) && delays(&slot, NULL, 0, &order, lists, 9, 9, &goal, &found) == TALUSDISH_NOTHING);
    uint8_t *file = boot_kept(&slot, sum, small, &size);
    CHECK(delays(&slot, file, 51, &order, lists, 9, 9, &goal, &found) == TALUSDISH_BAD);
    order.kind = TALUSDISH_TURNS;
    CHECK(delays(&slot, file, 51, &order, many, 9, 9, &goal, &found) == TALUSDISH_BAD);
    CHECK(delays(&slot, file, 51, &order, lists, 9, 9, &goal, &found) == TALUSDISH_NO_TURN);
    order.turns = 1;
    CHECK(delays(&slot, file, 51, &order, lists, 9, 9, &goal, &found) == 2);
    CHECK(delays(&slot, file, size, &order, lists, 9, 9, &goal, &found) == TALUSDISH_BAD_WATCH);
    CHECK(memcmp(&found, &same, sizeof found) == 0 && talusdish_length(&slot) == size);
    free(file);
    talusdish_close(&slot);
}

/* What is expected is what `s161 search --delays` prints of these kernels. */
static void listed(void) {
    talusdish_slot slot = {0};
    talusdish_sought_list found;
    talusdish_order order = {TALUSDISH_TURNS, 50, 0, 0, 0, 4, 0, false};
    talusdish_size two = {65536, 2, 16, false, false};
    talusdish_class all = {2, 0, 16777216}, first = {2, 0, 9}, last = {2, 30, 16777216}, middle = {3, 12, 14}, none = {0, 0, 16777216};
    goal_of_run goal = {"", NULL, {{0, 0, 0, 0}}, 0, {0, 0}, 0};
    size_t size;
    CHECK(talusdish_open(&slot));
    uint8_t *file = boot_kept(&slot, race, two, &size);
    CHECK(delays(&slot, file, size, &order, all, 10000, 9999, &goal, &found) == 0 && found.verdict.kind == TALUSDISH_VERDICT_STUCK);
    CHECK(found.count == 1 && found.delays[0] == 11 && found.events == 39 && found.right == 0 && found.cut == 0);
    CHECK(has_events(&slot, "000000000001111111111111100000000000000") && talusdish_made(&slot) == 0);
    CHECK(delays(&slot, file, size, &order, middle, 10000, 9999, &goal, &found) == 0 && found.verdict.kind == TALUSDISH_VERDICT_STUCK);
    CHECK(found.count == 1 && found.delays[0] == 12 && found.events == 39 && has_events(&slot, "000000000000111111111111110000000000000"));
    CHECK(delays(&slot, file, size, &order, first, 10000, 9999, &goal, &found) == 0 && found.verdict.kind == TALUSDISH_VERDICT_NONE);
    CHECK(found.right == 4 && found.cut == 0 && found.count == 0 && found.events == 0 && has_events(&slot, ""));
    CHECK(delays(&slot, file, size, &order, last, 10000, 9999, &goal, &found) == 0 && found.verdict.kind == TALUSDISH_VERDICT_NONE && found.right == 1);
    CHECK(delays(&slot, file, size, &order, none, 10000, 9999, &goal, &found) == 0 && found.verdict.kind == TALUSDISH_VERDICT_NONE && found.right == 1);
    free(file);
    file = boot_kept(&slot, spin, small, &size);
    CHECK(delays(&slot, file, size, &order, all, 9, 2, &goal, &found) == 0 && found.verdict.kind == TALUSDISH_VERDICT_HUNG && found.events == 0);
    CHECK(delays(&slot, file, size, &order, all, 9, 1, &goal, &found) == 0 && found.verdict.kind == TALUSDISH_VERDICT_NONE);
    CHECK(found.right == 1 && found.cut == 1);
    goal.output = "x";
    CHECK(delays(&slot, file, size, &order, all, 9, 1, &goal, &found) == 0 && found.verdict.kind == TALUSDISH_VERDICT_END && found.events == 9);
    CHECK(found.count == 0 && has_events(&slot, "000000000"));
    free(file);
    talusdish_close(&slot);
}

/* Slices, of which none is made. */
static void unsliced(void) {
    talusdish_slot slot = {0};
    talusdish_sought_slice slice, same;
    memset(&slice, 0x5a, sizeof slice);
    memcpy(&same, &slice, sizeof slice);
    talusdish_order order = {TALUSDISH_RANDOM, 0, 0, 0, 0, 4, 0, false};
    talusdish_class many = {65, 0, 9}, lists = {64, 0, 9};
    talusdish_list none = {0, {0}}, long_one = {65, {0}};
    goal_of_run goal = {"", NULL, {{64, 0, 0, 4}}, 1, {0, 0}, 0};
    size_t size;
    CHECK(delays_from(&slot, NULL, 0, &order, lists, none, 9, 9, 9, &goal, &slice) == TALUSDISH_NOTHING);
    CHECK(talusdish_open(&slot) && delays_from(&slot, NULL, 0, &order, lists, none, 9, 9, 9, &goal, &slice) == TALUSDISH_NOTHING);
    uint8_t *file = boot_kept(&slot, sum, small, &size);
    CHECK(delays_from(&slot, file, 51, &order, lists, none, 9, 9, 9, &goal, &slice) == TALUSDISH_BAD);
    order.kind = TALUSDISH_TURNS;
    CHECK(delays_from(&slot, file, 51, &order, many, none, 9, 9, 9, &goal, &slice) == TALUSDISH_BAD);
    CHECK(delays_from(&slot, file, 51, &order, lists, long_one, 9, 9, 9, &goal, &slice) == TALUSDISH_BAD);
    CHECK(delays_from(&slot, file, 51, &order, lists, none, 9, 9, 9, &goal, &slice) == TALUSDISH_NO_TURN);
    order.turns = 1;
    CHECK(delays_from(&slot, file, 51, &order, lists, none, 9, 9, 9, &goal, &slice) == 2);
    CHECK(delays_from(&slot, file, size, &order, lists, none, 9, 9, 9, &goal, &slice) == TALUSDISH_BAD_WATCH);
    CHECK(memcmp(&slice, &same, sizeof slice) == 0 && talusdish_length(&slot) == size);
    free(file);
    talusdish_close(&slot);
}

/* Slices of so many runs, one behind the other, find what one call does, and the list is always a later one. */
static void sliced_as(talusdish_slot *slot, const uint8_t *file, size_t size, const talusdish_order *order, talusdish_class lists, uint64_t most,
                      uint64_t n, uint32_t few, const goal_of_run *goal) {
    talusdish_sought_list whole;
    talusdish_sought_slice slice;
    memset(&slice, 0, sizeof slice);
    CHECK(delays(slot, file, size, order, lists, n, few, goal, &whole) == 0);
    size_t long_one;
    uint8_t *wanted = bytes_of(slot, &long_one);
    uint64_t right = 0, cut = 0;
    do {
        talusdish_list from = slice.next;
        CHECK(delays_from(slot, file, size, order, lists, from, most, n, few, goal, &slice) == 0);
        right += slice.found.right, cut += slice.found.cut;
        if (slice.goes_on) {
            const talusdish_list *next = &slice.next;
            int differs = memcmp(from.delays, next->delays, sizeof from.delays);
            CHECK(slice.found.right == most && slice.found.verdict.kind == TALUSDISH_VERDICT_NONE && has_events(slot, ""));
            CHECK(next->count > from.count || (next->count == from.count && differs != 0));
        }
    } while (slice.goes_on);
    CHECK(slice.next.count == 0 && memcmp(&slice.found.verdict, &whole.verdict, sizeof whole.verdict) == 0);
    CHECK(slice.found.count == whole.count && memcmp(slice.found.delays, whole.delays, sizeof whole.delays) == 0 && slice.found.events == whole.events);
    CHECK(whole.verdict.kind != TALUSDISH_VERDICT_NONE || (right == whole.right && cut == whole.cut));
    size_t long_too;
    uint8_t *had = bytes_of(slot, &long_too);
    CHECK(long_one == long_too && memcmp(wanted, had, long_one) == 0);
    free(wanted), free(had);
}

static void sliced(void) {
    talusdish_slot slot = {0};
    talusdish_sought_slice slice;
    talusdish_order order = {TALUSDISH_TURNS, 50, 0, 0, 0, 4, 0, false};
    talusdish_size two = {65536, 2, 16, false, false};
    talusdish_class all = {2, 0, 16777216}, first = {3, 0, 9}, last = {2, 12, 16777216}, middle = {3, 12, 14}, none = {0, 0, 16777216};
    goal_of_run goal = {"", NULL, {{0, 0, 0, 0}}, 0, {0, 0}, 0};
    talusdish_list empty = {0, {0}}, behind = {1, {12}}, other = {2, {13, 2}};
    size_t size;
    CHECK(talusdish_open(&slot));
    uint8_t *file = boot_kept(&slot, race, two, &size);
    for (uint64_t most = 1; most < 7; most++) {
        sliced_as(&slot, file, size, &order, all, most, 10000, 9999, &goal);
        sliced_as(&slot, file, size, &order, first, most, 10000, 9999, &goal);
        sliced_as(&slot, file, size, &order, last, most, 10000, 9999, &goal);
        sliced_as(&slot, file, size, &order, middle, most, 10000, 9999, &goal);
        sliced_as(&slot, file, size, &order, none, most, 10000, 9999, &goal);
    }
    sliced_as(&slot, file, size, &order, all, 5, 30, 0, &goal);
    /* no run, and the first list; the four lists of no number and of one number below 9, and no more */
    CHECK(delays_from(&slot, file, size, &order, first, empty, 0, 10000, 9999, &goal, &slice) == 0 && slice.goes_on);
    CHECK(slice.next.count == 0 && slice.found.right == 0);
    CHECK(delays_from(&slot, file, size, &order, first, empty, UINT64_MAX, 10000, 9999, &goal, &slice) == 0 && !slice.goes_on);
    CHECK(slice.found.right == 4 && slice.found.cut == 0);
    /* from a list on, in the class or not, the first that goes wrong */
    CHECK(delays_from(&slot, file, size, &order, all, behind, 1, 10000, 9999, &goal, &slice) == 0 && slice.found.verdict.kind == TALUSDISH_VERDICT_STUCK);
    CHECK(slice.found.count == 1 && slice.found.delays[0] == 12 && has_events(&slot, "000000000000111111111111110000000000000"));
    CHECK(delays_from(&slot, file, size, &order, none, behind, 1, 10000, 9999, &goal, &slice) == 0 && !slice.goes_on && slice.found.right == 0);
    CHECK(delays_from(&slot, file, size, &order, all, other, 0, 10000, 9999, &goal, &slice) == 0 && slice.goes_on);
    CHECK(slice.next.count == 2 && slice.next.delays[0] >= 13);
    free(file);
    talusdish_close(&slot);
}

/* Runs that are cut, and hang or don't. */
static void hangs(void) {
    talusdish_slot slot = {0};
    talusdish_sought found;
    talusdish_judgement judgement;
    talusdish_order order = {TALUSDISH_RANDOM, 0, 5, 0, 0, 4, 0, false};
    goal_of_run goal = {"", NULL, {{0, 0, 0, 0}}, 0, {0, 0}, 0};
    size_t size;
    uint32_t made;
    CHECK(talusdish_open(&slot));
    /* spins for ever: there are two views, and no end; what the machine has done is no matter to a search */
    uint8_t *file = boot_kept(&slot, spin, small, &size);
    CHECK(talusdish_steps(&slot, 0, 9, &made) == 0);
    CHECK(seeds(&slot, file, size, &order, 50, 3, 2, &goal, &found) == 0 && is_found(&found, TALUSDISH_VERDICT_HUNG, 0, 0, 0) && has_events(&slot, ""));
    CHECK(seeds(&slot, file, size, &order, 50, 3, 1, &goal, &found) == 0 && is_found(&found, TALUSDISH_VERDICT_NONE, 3, 3, 0) && has_events(&slot, ""));
    CHECK(seeds(&slot, file, size, &order, 50, 3, 0, &goal, &found) == 0 && is_found(&found, TALUSDISH_VERDICT_NONE, 3, 3, 0));
    CHECK(seeds(&slot, file, size, &order, 50, 0, 2, &goal, &found) == 0 && is_found(&found, TALUSDISH_VERDICT_NONE, 0, 0, 0));
    CHECK(hung(&slot, file, size, 2, &goal, &judgement) == 0 && judgement.verdict.kind == TALUSDISH_VERDICT_HUNG && judgement.events == 0);
    CHECK(hung(&slot, file, size, 0, &goal, &judgement) == 0 && judgement.verdict.kind == TALUSDISH_VERDICT_NONE && judgement.events == 0);
    CHECK(hung(&slot, file, size, 1, &goal, &judgement) == 0 && judgement.verdict.kind == TALUSDISH_VERDICT_NONE);
    /* where output is asked for, `hung` comes before `end` */
    goal.output = "x";
    CHECK(seeds(&slot, file, size, &order, 50, 3, 2, &goal, &found) == 0 && is_found(&found, TALUSDISH_VERDICT_HUNG, 0, 0, 0));
    CHECK(seeds(&slot, file, size, &order, 7, 3, 1, &goal, &found) == 0 && is_found(&found, TALUSDISH_VERDICT_END, 0, 0, 7) && has_events(&slot, "0000000"));
    CHECK(hung(&slot, file, size, 2, &goal, &judgement) == 0 && judgement.verdict.kind == TALUSDISH_VERDICT_HUNG);
    CHECK(hung(&slot, file, size, 0, &goal, &judgement) == 0 && judgement.verdict.kind == TALUSDISH_VERDICT_END && judgement.events == 9);
    goal.nevers = 1;
    goal.never[0] = 0x80000204;
    CHECK(hung(&slot, file, size, 2, &goal, &judgement) == 0 && judgement.verdict.kind == TALUSDISH_VERDICT_REACHED && judgement.events == 2);
    CHECK(talusdish_made(&slot) == 9);
    goal.nevers = 0;
    free(file);
    /* goes off once a key is typed, and spins until then: as long as one is left, it can still end */
    file = boot_kept(&slot, " lui $8, 0xbfe0\nread: lw $9, 8($8)\n andi $9, $9, 2\n beq $9, $0, read\n nop\n lui $8, 0xbfff\n sw $0, 32264($8)\n nop\n", small, &size);
    goal.keys = "k";
    goal.output = NULL;
    talusdish_order typing = {TALUSDISH_TURNS, 1, 0, 0, 0, 4, 1000, true};
    CHECK(seeds(&slot, file, size, &typing, 100, 1, 9999, &goal, &found) == 0 && is_found(&found, TALUSDISH_VERDICT_NONE, 1, 1, 0));
    goal.keys = "";
    CHECK(seeds(&slot, file, size, &typing, 100, 1, 9999, &goal, &found) == 0 && is_found(&found, TALUSDISH_VERDICT_HUNG, 0, 0, 0));
    free(file);
    talusdish_close(&slot);
}

/* Two processors: which seed is wrong, call by call, and what its events do. */
static void seeks(void) {
    talusdish_slot slot = {0}, other = {0};
    talusdish_sought found, one;
    talusdish_order order = {TALUSDISH_RANDOM, 0, 0, 0, 0, 100, 0, false}, from = order;
    talusdish_size two = {65536, 2, 16, false, false};
    goal_of_run goal = {"", NULL, {{0, 0, 0, 0}}, 0, {0, 0}, 0};
    const uint8_t *none = (const uint8_t *)"";
    talusdish_goal end = {0x1000, 2};
    talusdish_outcome outcome;
    uint64_t right, made;
    size_t size, length;
    CHECK(talusdish_open(&slot));
    uint8_t *file = boot_kept(&slot, race, two, &size);
    CHECK(talusdish_search(&slot, &order, none, 0, 10000, 100, &end, &right) == 0);
    CHECK(seeds(&slot, file, size, &order, 10000, 100, 9999, &goal, &found) == 0);
    CHECK(is_found(&found, TALUSDISH_VERDICT_STUCK, right, 0, found.events) && found.events > 0);
    /* its events are those of a run by that seed, which stops behind them */
    uint8_t *events = bytes_of(&slot, &length);
    CHECK(length == found.events && talusdish_copy(&slot, &other) == 0);
    for (size_t k = 0; k < length; k++) CHECK(talusdish_step(&slot, events[k], &outcome) == 0);
    CHECK(talusdish_drive(&slot, &order, none, 0, 9, &made) == TALUSDISH_RUN_STUCK && made == 0);
    from.seed = found.right;
    CHECK(talusdish_drive(&other, &from, none, 0, 10000, &made) == TALUSDISH_RUN_STUCK && made == found.events);
    free(events);
    /* call by call, from any seed on */
    for (uint64_t k = 0; k <= found.right; k++) {
        from.seed = k;
        CHECK(seeds(&slot, file, size, &from, 10000, 1, 9999, &goal, &one) == 0);
        CHECK(k < found.right ? is_found(&one, TALUSDISH_VERDICT_NONE, 1, 0, 0) : is_found(&one, TALUSDISH_VERDICT_STUCK, 0, 0, found.events));
    }
    from.seed = UINT64_MAX;
    CHECK(seeds(&slot, file, size, &from, 10000, 100, 0, &goal, &one) == 0 && one.right <= found.right + 1);
    CHECK(seeds(&slot, file, size, &order, 10000, found.right, 0, &goal, &one) == 0 && is_found(&one, TALUSDISH_VERDICT_NONE, found.right, 0, 0));
    CHECK(has_events(&slot, "") && talusdish_made(&slot) == found.events);
    talusdish_close(&other);
    free(file);
    talusdish_close(&slot);
}

/* Links of ll, and a strict machine that stops at a row of the TLB that would overlap another one. */
static void links_and_conflicts(void) {
    static const char *text =
        " lui $8, 0x8000\n ll $9, 0x1004($8)\n lui $10, 0x0040\n mtc0 $10, $10\n ori $11, $0, 0x0300\n mtc0 $11, $0\n tlbwi\n"
        " ori $11, $0, 0x0500\n mtc0 $11, $0\n sw $0, 0x1004($8)\n tlbwi\n nop\n";
    talusdish_slot slot = {0};
    talusdish_outcome outcome;
    talusdish_conflict_view conflict = {7, 8, 9};
    uint32_t at = 5, made;
    talusdish_size conf = small;
    conf.strict = true;
    CHECK(talusdish_open(&slot));
    CHECK(boot(&slot, text, conf) == 0);
    CHECK(!talusdish_link(&slot, 0, &at) && at == 5);
    CHECK(talusdish_steps(&slot, 0, 2, &made) == 0 && talusdish_link(&slot, 0, &at) && at == 0x1004);
    at = 5;
    CHECK(!talusdish_link(&slot, 1, &at) && !talusdish_link(&slot, UINT32_MAX, &at) && at == 5);
    CHECK(talusdish_steps(&slot, 0, 8, &made) == 0 && made == 8 && !talusdish_link(&slot, 0, &at) && at == 5);
    CHECK(!talusdish_conflict(&slot, &conflict) && conflict.row == 8);
    CHECK(talusdish_step(&slot, 0, &outcome) == 0 && outcome.kind == TALUSDISH_CONFLICT && outcome.first == 5 && outcome.second == 3);
    CHECK(talusdish_conflict(&slot, &conflict) && conflict.processor == 0 && conflict.row == 5 && conflict.other == 3);
    CHECK(talusdish_step(&slot, 0, &outcome) == TALUSDISH_OFF);
    talusdish_close(&slot);
}

static void runs(void) {
    talusdish_slot slot = {0};
    talusdish_outcome outcome;
    uint64_t made;
    uint32_t few;
    CHECK(talusdish_open(&slot));
    CHECK(boot(&slot, hi, small) == 0);
    CHECK(talusdish_drive(&slot, &turns, (const uint8_t *)"", 0, 1000, &made) == TALUSDISH_RUN_OFF && made > 8 && made < 40);
    CHECK(talusdish_made(&slot) == made);
    CHECK(talusdish_output(&slot) == 0 && has_bytes(&slot, "h"));
    CHECK(talusdish_event(&slot, TALUSDISH_STEP, 0, &outcome) == TALUSDISH_OFF);
    CHECK(talusdish_steps(&slot, 0, 1, &few) == TALUSDISH_OFF && few == 0);
    CHECK(talusdish_drive(&slot, &turns, (const uint8_t *)"", 0, 9, &made) == TALUSDISH_RUN_OFF && made == 0);
    talusdish_close(&slot);
}

/* Plans outside their limits, and the other orders. */
static void orders(void) {
    talusdish_slot slot = {0};
    talusdish_order order = turns;
    uint64_t made;
    CHECK(talusdish_open(&slot));
    CHECK(boot(&slot, hi, small) == 0);
    order.turns = 0;
    CHECK(talusdish_drive(&slot, &order, (const uint8_t *)"", 0, 9, &made) == TALUSDISH_NO_TURN && made == 0);
    order.kind = TALUSDISH_PRIORITIES;
    CHECK(talusdish_drive(&slot, &order, (const uint8_t *)"", 0, 9, &made) == TALUSDISH_NO_STRETCH);
    order.within = 8;
    order.changes = 65;
    CHECK(talusdish_drive(&slot, &order, (const uint8_t *)"", 0, 9, &made) == TALUSDISH_TOO_MANY_CHANGES);
    order.kind = 3;
    CHECK(talusdish_drive(&slot, &order, (const uint8_t *)"", 0, 9, &made) == TALUSDISH_BAD);
    CHECK(talusdish_made(&slot) == 0);
    order.kind = TALUSDISH_PRIORITIES;
    order.changes = 2;
    CHECK(talusdish_drive(&slot, &order, (const uint8_t *)"", 0, 9, &made) == 0 && made == 9);
    order.kind = TALUSDISH_RANDOM;
    order.seed = 7;
    CHECK(talusdish_drive(&slot, &order, (const uint8_t *)"", 0, 1, &made) == 0 && made == 1 && talusdish_made(&slot) == 10);
    CHECK(talusdish_drive(&slot, &order, (const uint8_t *)"", 0, 0, &made) == 0 && made == 0);
    talusdish_close(&slot);
}

/* A sleeping machine, and keys. */
static void waits(void) {
    talusdish_slot slot = {0};
    talusdish_order order = turns;
    talusdish_processor_view processor;
    uint64_t made;
    CHECK(talusdish_open(&slot));
    CHECK(boot(&slot, sum, small) == 0);
    CHECK(talusdish_drive(&slot, &turns, (const uint8_t *)"", 0, 1000, &made) == TALUSDISH_RUN_STUCK && made == 5);
    CHECK(talusdish_processor(&slot, 0, &processor) && processor.state == 2);
    CHECK(boot(&slot, echo, small) == 0);
    order.gap = 50;
    order.gaps = true;
    uint8_t *keys = exact("ab!", 3);
    CHECK(talusdish_drive(&slot, &order, keys, 3, 400, &made) == 0 && made == 400);
    free(keys);
    CHECK(talusdish_output(&slot) == 0 && has_bytes(&slot, "ab!"));
    talusdish_close(&slot);
}

static void traces(void) {
    talusdish_slot slot = {0}, other = {0};
    talusdish_processor_view a, b;
    uint64_t made, as_many;
    CHECK(talusdish_open(&slot) && talusdish_open(&other));
    CHECK(talusdish_trace(&slot, &turns, (const uint8_t *)"", 0, false, 3, &made) == TALUSDISH_NOTHING && made == 0);
    CHECK(boot(&slot, sum, small) == 0 && boot(&other, sum, small) == 0);
    CHECK(talusdish_trace(&slot, &turns, (const uint8_t *)"", 0, false, 2, &made) == 0 && made == 2);
    CHECK(has_bytes(&slot, "0 0 80000200 24080005 addiu $8, $0, 5  r8=00000005\n1 0 80000204 25090007 addiu $9, $8, 7  r9=0000000c\n"));
    CHECK(talusdish_trace(&slot, &turns, (const uint8_t *)"", 0, true, 1, &made) == 0 && made == 1);
    CHECK(has_bytes(&slot, "2 0 80000208 3c0a8000 lui $t2, 0x8000  t2=80000000\n"));
    talusdish_order none = turns;
    none.turns = 0;
    CHECK(talusdish_trace(&slot, &none, (const uint8_t *)"", 0, true, 1, &made) == TALUSDISH_NO_TURN && made == 0);
    CHECK(talusdish_made(&slot) == 3);
    CHECK(talusdish_trace(&slot, &turns, (const uint8_t *)"", 0, false, 9, &made) == TALUSDISH_RUN_STUCK && made == 2);
    CHECK(talusdish_drive(&other, &turns, (const uint8_t *)"", 0, 100, &as_many) == TALUSDISH_RUN_STUCK && as_many == 5);
    memset(&a, 0, sizeof a);
    memset(&b, 0, sizeof b);
    CHECK(talusdish_processor(&slot, 0, &a) && talusdish_processor(&other, 0, &b));
    CHECK(memcmp(a.registers, b.registers, sizeof a.registers) == 0 && a.pc == b.pc && a.count == b.count);
    talusdish_close(&other);
    talusdish_close(&slot);
}

/* Loads the word of a label, and stores one more. */
static const char *counter =
    "main: lui $8, 0x8000\n lw $9, 0x21c($8)\n addiu $9, $9, 1\n sw $9, 0x21c($8)\nlast: wait\n beq $0, $0, last\n nop\ntotal: .word 5\n";

/* So many events of a machine that is newly booted from a file, and their lines. */
static bool has_lines(const uint8_t *file, size_t size, talusdish_style style, const uint8_t *named, size_t named_size, uint64_t n, const char *want) {
    talusdish_slot slot = {0};
    uint8_t *own = exact(named, named_size);
    uint64_t made = 0;
    CHECK(talusdish_open(&slot) && talusdish_boot(&slot, file, size, &small) == 0);
    bool same = talusdish_lines(&slot, &turns, (const uint8_t *)"", 0, &style, own, named_size, n, &made) == 0 && made == n && has_bytes(&slot, want);
    free(own);
    talusdish_close(&slot);
    return same;
}

/* The lines are those that s161 trace prints of this kernel with these options. */
static void lines(void) {
    talusdish_slot slot = {0};
    talusdish_order none = turns;
    talusdish_style all = {true, true, true}, by_symbols = {false, true, false}, by_loads = {false, false, true};
    size_t size;
    uint64_t made = 9;
    CHECK(talusdish_open(&slot));
    CHECK(talusdish_assemble(&slot, (const uint8_t *)counter, strlen(counter), true, &(talusdish_fault){0, 0}) == 0);
    uint8_t *file = bytes_of(&slot, &size);
    CHECK(talusdish_lines(&slot, &turns, (const uint8_t *)"", 0, &all, file, size, 9, &made) == TALUSDISH_NOTHING && made == 0);
    CHECK(has_lines(file, size, all, file, size, 4,
                    "0 0 80000200 <main> 3c088000 lui $t0, 0x8000  t0=80000000\n"
                    "1 0 80000204 <main+4> 8d09021c lw $t1, 540($t0)  (0000021c <total>)=00000005 t1=00000005\n"
                    "2 0 80000208 <main+8> 25290001 addiu $t1, $t1, 1  t1=00000006\n"
                    "3 0 8000020c <main+c> ad09021c sw $t1, 540($t0)  [0000021c <total>]=00000006\n"));
    CHECK(has_lines(file, size, by_symbols, file, size, 2,
                    "0 0 80000200 <main> 3c088000 lui $8, 0x8000  r8=80000000\n1 0 80000204 <main+4> 8d09021c lw $9, 540($8)  r9=00000005\n"));
    static const char *loads = "0 0 80000200 3c088000 lui $8, 0x8000  r8=80000000\n1 0 80000204 8d09021c lw $9, 540($8)  (0000021c)=00000005 r9=00000005\n";
    CHECK(has_lines(file, size, by_loads, file, size, 2, loads));
    CHECK(has_lines(file, size, by_loads, (const uint8_t *)"", 0, 2, loads));
    /* no table of symbols: no file at all, a text, a file that is cut off */
    static const char *bare = "0 0 80000200 3c088000 lui $8, 0x8000  r8=80000000\n1 0 80000204 8d09021c lw $9, 540($8)  r9=00000005\n";
    CHECK(has_lines(file, size, by_symbols, (const uint8_t *)"", 0, 2, bare));
    CHECK(has_lines(file, size, by_symbols, (const uint8_t *)counter, strlen(counter), 2, bare));
    CHECK(has_lines(file, size, by_symbols, file, size - 1, 2, bare));
    CHECK(has_lines(file, size, plain, file, size, 2, bare));
    /* refusals, each of which leaves the session */
    CHECK(talusdish_boot(&slot, file, size, &small) == 0);
    none.turns = 0;
    CHECK(talusdish_lines(&slot, &none, (const uint8_t *)"", 0, &all, file, size, 9, &made) == TALUSDISH_NO_TURN && made == 0);
    none.kind = 3;
    made = 9;
    CHECK(talusdish_lines(&slot, &none, (const uint8_t *)"", 0, &all, file, size, 9, &made) == TALUSDISH_BAD && made == 0);
    CHECK(talusdish_made(&slot) == 0 && talusdish_length(&slot) == size);
    CHECK(talusdish_lines(&slot, &turns, (const uint8_t *)"", 0, &all, file, size, 9, &made) == TALUSDISH_RUN_STUCK && made == 5 && talusdish_made(&slot) == 5);
    free(file);
    talusdish_close(&slot);
}

/* tlbwi writes EntryHi and EntryLo to the row that Index names; a byte is sent then. */
static const char *text_of_views =
    " lui $8, 0x0040\n ori $8, $8, 0x0140\n mtc0 $8, $10\n ori $9, $0, 0x5600\n mtc0 $9, $2\n"
    " ori $10, $0, 0x0300\n mtc0 $10, $0\n tlbwi\n mfc0 $11, $15\n lui $12, 0xbfe0\n ori $13, $0, 65\n sw $13, 0($12)\n nop\n";

static void views(void) {
    talusdish_slot slot = {0};
    talusdish_row_words row = {1, 2};
    talusdish_board_view board;
    talusdish_outcome outcome;
    uint32_t word = 5, made;
    CHECK(talusdish_open(&slot));
    CHECK(!talusdish_board(&slot, &board) && talusdish_log(&slot) == TALUSDISH_NOTHING);
    talusdish_size conf = small;
    conf.log = 3;
    CHECK(boot(&slot, text_of_views, conf) == 0);
    CHECK(talusdish_log(&slot) == 0 && has_bytes(&slot, "m161 log 2 word\n"));
    CHECK(talusdish_steps(&slot, 0, 3, &made) == 0);
    CHECK(talusdish_log(&slot) == 0 && has_bytes(&slot, "m161 log 2 word\ns 0 ran\ns 0 ran\ns 0 ran\n"));
    CHECK(talusdish_steps(&slot, 0, 5, &made) == 0);
    CHECK(talusdish_row(&slot, 0, 3, &row) && row.high == 0x00400140 && row.low == 0x5600);
    row.high = 1;
    CHECK(!talusdish_row(&slot, 0, 64, &row) && !talusdish_row(&slot, 1, 0, &row) && row.high == 1);
    CHECK(talusdish_cop(&slot, 0, 15, &word) && word == 0xa1);
    CHECK(talusdish_cop(&slot, 0, 10, &word) && word == 0x00400140);
    CHECK(!talusdish_cop(&slot, 0, 3, &word) && !talusdish_cop(&slot, 0, 32, &word) && !talusdish_cop(&slot, 1, 0, &word) && word == 0x00400140);
    CHECK(talusdish_board(&slot, &board) && !board.off && !board.sending && board.latch == 0 && board.waiting == 0);
    CHECK(talusdish_steps(&slot, 0, 4, &made) == 0 && talusdish_event(&slot, TALUSDISH_KEY, 66, &outcome) == 0);
    CHECK(talusdish_board(&slot, &board) && !board.off && board.sending && board.latch == 65 && board.waiting == 1);
    CHECK(talusdish_log(&slot) == 0 && has_bytes(&slot, "m161 tail 2 word 10\ns 0 ran\ns 0 ran\nk 42 taken\n"));
    talusdish_close(&slot);
}

/* A copy goes its own way. */
static void copies(void) {
    talusdish_slot slot = {0}, copy = {0};
    talusdish_outcome outcome;
    talusdish_processor_view a, b;
    uint32_t made;
    talusdish_size conf = small;
    conf.log = 3;
    CHECK(talusdish_open(&slot));
    CHECK(talusdish_copy(&slot, &copy) == 0 && copy.full && talusdish_length(&copy) == 0);
    CHECK(boot(&slot, text_of_views, conf) == 0);
    CHECK(talusdish_steps(&slot, 0, 12, &made) == 0 && talusdish_event(&slot, TALUSDISH_KEY, 66, &outcome) == 0 && talusdish_log(&slot) == 0);
    CHECK(talusdish_copy(&slot, &copy) == 0 && has_bytes(&copy, "m161 tail 2 word 10\ns 0 ran\ns 0 ran\nk 42 taken\n"));
    CHECK(talusdish_event(&copy, TALUSDISH_DONE, 0, &outcome) == 0 && talusdish_output(&copy) == 0 && has_bytes(&copy, "A"));
    CHECK(talusdish_output(&slot) == 0 && has_bytes(&slot, "") && talusdish_made(&slot) == 13 && talusdish_made(&copy) == 14);
    CHECK(talusdish_steps(&copy, 0, 1, &made) == 0);
    CHECK(talusdish_processor(&slot, 0, &a) && talusdish_processor(&copy, 0, &b) && a.count + 1 == b.count);
    CHECK(talusdish_copy(&slot, &copy) == 0 && talusdish_made(&copy) == 13);
    talusdish_close(&slot);
    CHECK(talusdish_made(&slot) == 0 && talusdish_made(&copy) == 13 && talusdish_event(&copy, TALUSDISH_DONE, 0, &outcome) == 0);
    CHECK(talusdish_copy(&slot, &copy) == TALUSDISH_NOTHING && talusdish_made(&copy) == 14);
    talusdish_close(&copy);
}

int main(void) {
    talusdish_slot slot = {0};
    on_empty(&slot);
    CHECK(talusdish_open(&slot) && slot.full && slot.at);
    CHECK(talusdish_open(&slot) && slot.full); /* frees the first one */
    talusdish_close(&slot);
    on_empty(&slot);
    talusdish_close(&slot);
    on_empty(&slot);
    faults();
    boots();
    events();
    single_events();
    searches();
    symbols();
    explorations();
    slices();
    judgements();
    unsought();
    unlisted();
    listed();
    unsliced();
    sliced();
    hangs();
    seeks();
    links_and_conflicts();
    runs();
    orders();
    waits();
    traces();
    lines();
    views();
    copies();
    printf("%d passed, %d failed\n", passed, failed);
    return failed != 0;
}
