/* compare FILE..: runs of the native library over these kernels, each as a line with a digest of all that is seen of it. compare.js
 * prints the same of a module; tests/web/run compares the two. Texts end in .s; other files are ELF files. */
#include "talusdish.h"

#include <errno.h>
#include <stdio.h>
#include <stdlib.h>
#include <string.h>

/* Requests of memory, of which one may be refused. */
static long requests, refuse_at;
static bool refused(void) { return ++requests == refuse_at; }
void *__real_malloc(size_t size);
void *__real_calloc(size_t count, size_t size);
void *__real_realloc(void *at, size_t size);
void *__real_aligned_alloc(size_t align, size_t size);
int __real_posix_memalign(void **at, size_t align, size_t size);
void *__wrap_malloc(size_t size) { return refused() ? NULL : __real_malloc(size); }
void *__wrap_calloc(size_t count, size_t size) { return refused() ? NULL : __real_calloc(count, size); }
void *__wrap_realloc(void *at, size_t size) { return refused() ? NULL : __real_realloc(at, size); }
void *__wrap_aligned_alloc(size_t align, size_t size) { return refused() ? NULL : __real_aligned_alloc(align, size); }
int __wrap_posix_memalign(void **at, size_t align, size_t size) { return refused() ? ENOMEM : __real_posix_memalign(at, align, size); }

/* The digest: two words of 32 bits. */
static uint32_t first, second;
static void begin(void) { first = 2166136261u; second = 40503u; }
static void byte(uint8_t b) {
    first = (first ^ b) * 16777619u;
    second = (second + b) * 2654435761u ^ second >> 15;
}
static void word(uint32_t w) { for (int k = 0; k < 4; k++) byte((uint8_t)(w >> 8 * k)); }
static void many(uint64_t n) { word((uint32_t)n); word((uint32_t)(n >> 32)); }

static uint8_t file[1 << 24], bytes[1 << 24], image[1 << 24];
static size_t size, image_size;
static void see_bytes(talusdish_slot *slot) {
    size_t n = talusdish_read(slot, 0, bytes, sizeof bytes);
    many(talusdish_length(slot));
    for (size_t k = 0; k < n; k++) byte(bytes[k]);
}
static void see_processor(talusdish_slot *slot, uint32_t p) {
    talusdish_processor_view it;
    talusdish_row_words row;
    uint32_t w;
    if (!talusdish_processor(slot, p, &it)) { byte(7); return; }
    for (int r = 0; r < 32; r++) word(it.registers[r]);
    word(it.hi), word(it.lo), word(it.pc), word(it.state), byte(it.in_slot), many(it.count);
    for (uint32_t n = 0; n < 32; n++) if (talusdish_cop(slot, p, n, &w)) word(w); else byte(3);
    for (uint32_t i = 0; i < 65; i++) if (talusdish_row(slot, p, i, &row)) word(row.high), word(row.low); else byte(4);
    if (talusdish_link(slot, p, &w)) word(w); else byte(5);
}
/* All that is seen of a session. */
static void see(talusdish_slot *slot) {
    talusdish_board_view board;
    talusdish_conflict_view conflict;
    talusdish_entry_view it;
    uint32_t w;
    many(talusdish_made(slot)), many(talusdish_entries(slot));
    for (uint32_t p = 0; p < 6; p++) see_processor(slot, p);
    if (talusdish_board(slot, &board)) byte(board.off), byte(board.sending), byte(board.latch), word(board.waiting), word(board.started); else byte(6);
    if (talusdish_conflict(slot, &conflict)) word(conflict.processor), word(conflict.row), word(conflict.other); else byte(8);
    for (size_t i = 0; i < 101; i++)
        if (talusdish_entry(slot, i, &it)) word(it.kind), word(it.value), word(it.outcome.kind), word(it.outcome.first), word(it.outcome.second); else byte(9);
    for (uint32_t at = 0; at < 65540; at += 4) if (talusdish_word(slot, at, &w)) word(w); else byte(1);
    byte(talusdish_output(slot)), see_bytes(slot), byte(talusdish_log(slot)), see_bytes(slot);
}
static void say(const char *what) { printf("%s %08x%08x\n", what, first, second); }

static const talusdish_order orders[] = {
    {TALUSDISH_TURNS, 1, 0, 0, 0, 100, 0, false},           {TALUSDISH_TURNS, 3, 0, 0, 0, 10, 50, true},
    {TALUSDISH_RANDOM, 0, 7, 0, 0, 100, 1000, true},        {TALUSDISH_RANDOM, 0, 123456789012345678u, 0, 0, 0, 0, false},
    {TALUSDISH_PRIORITIES, 0, 5, 3, 100, 100, 1000, true},
};
static const uint8_t typed[] = {'h', 'e', 'l', 'p', '\n', 's', 't', 'a', 'r', 't', '\n', 0, 255};

static talusdish_size size_of(bool text, uint32_t cpus, bool other) { return (talusdish_size){text ? 65536 : 1048576, cpus, 100, other, other}; }

/* Runs of an image: traced, then driven. */
static void runs(bool text) {
    char what[99];
    for (uint32_t cpus = 1; cpus <= 5; cpus += cpus == 1 ? 1 : 3)
        for (int k = 0; k < 5; k++) {
            talusdish_slot slot = {0};
            talusdish_size conf = size_of(text, cpus, k == 3);
            uint64_t made = 0, more = 0;
            begin(), talusdish_open(&slot);
            int booted = talusdish_boot(&slot, image, image_size, &conf);
            int traced = talusdish_trace(&slot, &orders[k], typed, sizeof typed, k & 1, 3000, &made);
            see_bytes(&slot);
            int driven = talusdish_drive(&slot, &orders[k], typed, sizeof typed, 20000, &more);
            see(&slot), talusdish_close(&slot);
            snprintf(what, sizeof what, "run %u %d boot %d trace %d %llu drive %d %llu", cpus, k, booted, traced, (unsigned long long)made, driven, (unsigned long long)more);
            say(what);
        }
}
/* Events of each kind, chosen by a small generator, on a machine and from the middle on a copy of it, too. */
static void events(bool text) {
    talusdish_slot slot = {0}, copy = {0};
    talusdish_size conf = size_of(text, 3, false);
    uint32_t g = 1, answers = 0, made = 0;
    begin(), talusdish_open(&slot), talusdish_open(&copy);
    talusdish_boot(&slot, image, image_size, &conf);
    for (int k = 0; k < 600; k++) {
        talusdish_outcome outcome = {0, 0, 0};
        g = g * 1664525u + 1013904223u;
        uint8_t kind = g >> 30 == 3 ? (uint8_t)(g >> 28 & 3) : 0;
        int answer = talusdish_event(&slot, kind, g >> 8 & (kind == 1 ? 255 : 3), &outcome);
        byte((uint8_t)answer), word(outcome.kind), word(outcome.first), word(outcome.second);
        answers += (uint32_t)answer;
        if (k == 300) byte(talusdish_copy(&slot, &copy));
        if (k > 300) byte(talusdish_steps(&copy, k % 3, 7, &made)), word(made);
    }
    see(&slot), see(&copy), talusdish_close(&slot), talusdish_close(&copy);
    char what[40];
    snprintf(what, sizeof what, "events %u", answers);
    say(what);
}
static void searches(bool text) {
    talusdish_slot slot = {0};
    talusdish_size conf = size_of(text, 2, false);
    talusdish_goal goal = {0x1000, 2};
    uint64_t right = 0;
    talusdish_open(&slot), talusdish_boot(&slot, image, image_size, &conf);
    for (int k = 2; k < 5; k++) {
        int answer = talusdish_search(&slot, &orders[k], typed, sizeof typed, 2000, 40, &goal, &right);
        printf("search %d answer %d right %llu\n", k, answer, (unsigned long long)right);
    }
    talusdish_close(&slot);
}

static void explorations(bool text) {
    static const uint32_t limits[] = {1, 40, 300};
    talusdish_size conf = size_of(text, 2, false);
    for (int k = 0; k < 3; k++) {
        talusdish_slot slot = {0};
        talusdish_exploration found = {0, 0, 0, {0, 0, 0, 0, 0}};
        talusdish_watch none = {0, 0, 0, 0};
        uint32_t never = 0;
        begin(), talusdish_open(&slot), talusdish_boot(&slot, image, image_size, &conf);
        int answer = talusdish_explore(&slot, limits[k], (const uint8_t *)"ab", 2, &none, 0, &never, 0, k == 2, (const uint8_t *)"hi", 2, &found);
        see_bytes(&slot);
        printf("explore %u answer %d kind %u states %u events %llu verdict %u", limits[k], answer, found.kind, found.states, (unsigned long long)found.events, found.verdict.kind), say("");
        talusdish_close(&slot);
    }
}

/* An exploration in slices of seven states: how many there are behind each, and what it finds. */
static void slices(bool text) {
    talusdish_slot slot = {0};
    talusdish_size conf = size_of(text, 2, false);
    talusdish_exploration found = {0, 0, 0, {0, 0, 0, 0, 0}};
    talusdish_watch none = {0, 0, 0, 0};
    uint32_t never = 0, answer;
    begin(), talusdish_open(&slot), talusdish_boot(&slot, image, image_size, &conf);
    byte(talusdish_explore_begin(&slot, 300, (const uint8_t *)"ab", 2, &none, 0, &never, 0, false, (const uint8_t *)"", 0));
    while ((answer = talusdish_explore_slice(&slot, 7, &found)) == TALUSDISH_MORE) word(found.kind), word(found.states);
    see_bytes(&slot), byte(talusdish_explore_slice(&slot, 7, &found));
    printf("slices answer %u kind %u states %u events %llu verdict %u", answer, found.kind, found.states, (unsigned long long)found.events, found.verdict.kind), say("");
    talusdish_close(&slot);
}

/* The calls of a session in which one request of memory is refused; how many requests they make. */
static long refuse(long at) {
    talusdish_slot slot = {0}, copy = {0};
    talusdish_fault fault = {0, 0};
    talusdish_size conf = {4096, 2, 50, false, false};
    talusdish_goal goal = {0x1000, 2};
    uint64_t made = 0;
    begin(), requests = 0, refuse_at = at;
    int answers[12], n = 0;
    answers[n++] = talusdish_open(&slot), answers[n++] = talusdish_open(&copy);
    answers[n++] = talusdish_assemble(&slot, file, size, true, &fault), see_bytes(&slot);
    answers[n++] = talusdish_boot(&slot, image, image_size, &conf);
    answers[n++] = talusdish_trace(&slot, &orders[0], typed, sizeof typed, true, 60, &made), many(made), see_bytes(&slot);
    answers[n++] = talusdish_drive(&slot, &orders[2], typed, sizeof typed, 3000, &made), many(made);
    answers[n++] = talusdish_copy(&slot, &copy);
    answers[n++] = talusdish_search(&slot, &orders[2], typed, sizeof typed, 500, 3, &goal, &made), many(made);
    long total = requests;
    refuse_at = 0;
    see(&slot), see(&copy), talusdish_close(&slot), talusdish_close(&copy);
    printf("refused %ld of %ld:", at, total);
    for (int k = 0; k < n; k++) printf(" %d", answers[k]);
    say("");
    return total;
}

static void assemble(const uint8_t *text, size_t n, const char *what) {
    talusdish_slot slot = {0};
    for (int symbols = 0; symbols < 2; symbols++) {
        talusdish_fault fault = {0, 0};
        begin(), talusdish_open(&slot);
        int answer = talusdish_assemble(&slot, text, n, symbols, &fault);
        see_bytes(&slot);
        printf("%s answer %d at %llu %llu", what, answer, (unsigned long long)fault.line, (unsigned long long)fault.column), say("");
        if (answer == 0) image_size = talusdish_read(&slot, 0, image, sizeof image);
        talusdish_close(&slot);
    }
}
/* What can't be assembled or booted. */
static void faults(void) {
    static const char *texts[] = {"\xff", "main: bogus $1", " addiu $8, $0, 99999", " j nowhere", "a:\na: nop", " lw $8, 4($9", " .org 0x80000300\n nop\n .org 0x80000300\n nop",
        " beq $0, $0, far\n .org 0x80100000\nfar: nop", " @", ""};
    for (size_t k = 0; k < sizeof texts / sizeof *texts; k++) assemble((const uint8_t *)texts[k], strlen(texts[k]), "text");
    for (size_t n = 0; n < 200; n += 9) {
        talusdish_slot slot = {0};
        talusdish_size conf = {n == 9 ? 4095 : 8192, n == 18 ? 33 : 1, n == 27 ? 0 : 1, false, false};
        talusdish_open(&slot);
        printf("boot %zu answer %d\n", n, talusdish_boot(&slot, image, n > 100 || n > image_size ? image_size : n, &conf));
        if (n < image_size) image[n] ^= 1; /* one bit after the other is wrong */
        talusdish_close(&slot);
    }
}

int main(int count, char **names) {
    for (int k = 1; k < count; k++) {
        FILE *from = fopen(names[k], "rb");
        bool text = strcmp(names[k] + strlen(names[k]) - 2, ".s") == 0;
        if (!from) { perror(names[k]); return 2; }
        size = fread(file, 1, sizeof file, from), fclose(from);
        printf("%s %zu\n", names[k], size);
        if (text) assemble(file, size, "file"); else memcpy(image, file, image_size = size);
        runs(text), events(text), searches(text), explorations(text), slices(text);
        if (k == 1) for (long at = 1, total = 0; at == 1 || total >= at - 1; at++) total = refuse(at);
    }
    faults();
}
