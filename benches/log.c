/* The log of a benchmark's run as text, to compare the machine's with: each entry's line printed by
 * fprintf into memory, and each line got by fgets and scanned by sscanf into an array. The argument
 * is the number of entries; all of them are Steps of processor 0 that ran. To standard output go
 * the length of the text and the number of the entries read back, to standard error the
 * nanoseconds that the writing took and that the reading took. */
#include <stdint.h>
#include <stdio.h>
#include <stdlib.h>
#include <string.h>
#include <time.h>

enum event { STEP, KEY, DONE };
enum outcome { TAKEN, RAN, TRAPPED, IDLE, OFF };

struct entry {
    uint8_t event, outcome;
    uint8_t code;    /* of a trap */
    uint8_t byte;    /* of a key */
    uint32_t number; /* of a step's processor */
    uint32_t vector; /* of a trap */
};

static void write_step(FILE *text, const struct entry *e) {
    switch (e->outcome) {
    case RAN: fprintf(text, "s %u ran\n", e->number); break;
    case TRAPPED: fprintf(text, "s %u trap %u %08x\n", e->number, e->code, e->vector); break;
    case IDLE: fprintf(text, "s %u idle\n", e->number); break;
    default: fprintf(text, "s %u off\n", e->number); break;
    }
}

static void write_entry(FILE *text, const struct entry *e) {
    switch (e->event) {
    case STEP: write_step(text, e); break;
    case KEY: fprintf(text, "k %02x taken\n", e->byte); break;
    default: fprintf(text, "o taken\n"); break;
    }
}

/* The text of a log, and its length. */
static char *write_log(const struct entry *entries, size_t count, size_t *length) {
    char *bytes = NULL;
    FILE *text = open_memstream(&bytes, length);
    if (!text)
        return NULL;
    fprintf(text, "m161 log 2 word\n");
    for (size_t i = 0; i < count; i++)
        write_entry(text, &entries[i]);
    return fclose(text) ? NULL : bytes;
}

/* The step of a line; 0 where it is none. */
static int read_step(const char *line, struct entry *e) {
    char word[6];
    unsigned code;
    int found = sscanf(line, "s %u %5s %u %8x", &e->number, word, &code, &e->vector);
    if (found == 4 && !strcmp(word, "trap")) {
        e->outcome = TRAPPED;
        e->code = code;
        return code < 13;
    }
    if (found != 2)
        return 0;
    e->outcome = !strcmp(word, "ran") ? RAN : !strcmp(word, "idle") ? IDLE : OFF;
    return e->outcome != OFF || !strcmp(word, "off");
}

/* The entry of a line; 0 where it is none. */
static int read_entry(const char *line, struct entry *e) {
    unsigned byte;
    memset(e, 0, sizeof *e);
    if (line[0] == 's')
        return read_step(line, e);
    e->outcome = TAKEN;
    if (!strcmp(line, "o taken\n")) {
        e->event = DONE;
        return 1;
    }
    e->event = KEY;
    if (sscanf(line, "k %2x taken", &byte) != 1)
        return 0;
    e->byte = byte;
    return 1;
}

/* The entries of a text, and how many they are. */
static struct entry *read_log(char *bytes, size_t length, size_t *count) {
    char line[64];
    size_t room = 16;
    struct entry *entries = malloc(room * sizeof *entries);
    FILE *text = fmemopen(bytes, length, "r");
    *count = 0;
    if (!entries || !text || !fgets(line, sizeof line, text) || strcmp(line, "m161 log 2 word\n"))
        return NULL;
    while (fgets(line, sizeof line, text)) {
        if (*count == room) {
            room *= 2;
            entries = realloc(entries, room * sizeof *entries);
            if (!entries)
                return NULL;
        }
        if (!read_entry(line, &entries[(*count)++]))
            return NULL;
    }
    return fclose(text) ? NULL : entries;
}

static long long now(void) {
    struct timespec t;
    clock_gettime(CLOCK_MONOTONIC, &t);
    return t.tv_sec * 1000000000LL + t.tv_nsec;
}

int main(int argc, char **argv) {
    size_t steps = argc > 1 ? strtoul(argv[1], NULL, 10) : 0, length, count;
    struct entry *entries = malloc(steps * sizeof *entries);
    if (!entries)
        return 1;
    for (size_t i = 0; i < steps; i++)
        entries[i] = (struct entry){.event = STEP, .outcome = RAN};
    long long start = now();
    char *text = write_log(entries, steps, &length);
    long long written = now();
    if (!text)
        return 1;
    struct entry *back = read_log(text, length, &count);
    long long read = now();
    if (!back || count != steps || memcmp(back, entries, count * sizeof *back))
        return 1;
    printf("%zu %zu\n", length, count);
    fprintf(stderr, "%lld %lld\n", written - start, read - written);
}
