/* How fast the library is: `speed steps N` makes N Steps of the loop in the file loop.elf (benches/loop.s) by talusdish_steps, with a
 * log that has room for them, and `speed copies N` makes N copies of a machine with 64 KiB of RAM and a log of 4,096 entries. Each
 * prints the nanoseconds of one. */
#include "talusdish.h"

#include <stdio.h>
#include <stdlib.h>
#include <string.h>
#include <time.h>

static double now(void) {
    struct timespec t;
    timespec_get(&t, TIME_UTC);
    return (double)t.tv_sec * 1e9 + (double)t.tv_nsec;
}

int main(int count, char **words) {
    static uint8_t file[1 << 20];
    talusdish_slot slot = {0}, other = {0};
    talusdish_size size = {65536, 1, 4096, false, false};
    uint32_t made;
    FILE *in = fopen("loop.elf", "rb");
    if (count != 3 || !in) return 2;
    if (strcmp(words[1], "steps") == 0) size.log = 1 << 24;
    size_t length = fread(file, 1, sizeof file, in);
    long n = atol(words[2]);
    if (!talusdish_open(&slot) || talusdish_boot(&slot, file, length, &size)) return 1;
    double start = now();
    if (strcmp(words[1], "steps") == 0) {
        if (talusdish_steps(&slot, 0, (uint32_t)n, &made) || made != (uint32_t)n) return 1;
    } else {
        for (long k = 0; k < n; k++)
            if (talusdish_copy(&slot, &other)) return 1;
    }
    printf("%.1f\n", (now() - start) / (double)n);
    talusdish_close(&other);
    talusdish_close(&slot);
    return 0;
}
