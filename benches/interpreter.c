/* A plain interpreter of the benchmark's loop, to compare the machine with: one switch on the
 * opcode and one on the function, addresses checked for alignment, for RAM and for user mode, one
 * delay slot, a test for an interrupt, a tick that may raise the timer, the links that a store
 * ends, the power switch, and a log entry written each step. What a trap, a wait or a link would
 * need ends the run, since the loop meets none. The arguments are a number of runs, unless it is
 * 1,000,000 the number of steps of each, and `sieve` for `sieve.s` in place of the loop. */
#include <stdint.h>
#include <stdio.h>
#include <stdlib.h>
#include <string.h>
#include <time.h>

#define RAM 65536u

struct cpu {
    uint32_t r[32], hi, lo, pc, next;
    int slot, waiting;
    uint32_t status, ip, mask; /* IP and, where interrupts are on, IM, in Cause's places */
    uint64_t count, fire;      /* the steps so far, and the one that raises the timer */
};

struct machine {
    struct cpu cpu;
    uint32_t lines; /* the bus's lines, in Cause's places */
    int off, linked;
    uint8_t *ram;
    uint32_t *log; /* four bytes an entry: the processor, and the outcome of its step */
    uint32_t log_len, log_room;
};

static const uint32_t program[] = {
    0x3c108000, 0x36101000, 0x8e080000, 0x01114821, 0x000950c0, 0x00095942, 0x014b4826,
    0xae090000, 0x920c0002, 0x26520001, 0x0189682a, 0xa20d0004, 0x1640fff5, 0x02328821,
};

static const uint32_t sieve[] = {
    0x3c108000, 0x36102000, 0x34120001, 0x34132000, 0x02004021, 0x02134821, 0xa1000000, 0x25080001,
    0x1509fffd, 0x00000000, 0x340a0002, 0x020a5821, 0x916c0000, 0x15800008, 0x014a6821, 0x26310001,
    0x01b3702b, 0x11c00004, 0x020d7821, 0xa1f20000, 0x08000090, 0x01aa6821, 0x254a0001, 0x1553fff3,
    0x00000000, 0x08000084, 0x00000000,
};

static uint32_t get_word(const uint8_t *p) {
    return (uint32_t)p[0] << 24 | (uint32_t)p[1] << 16 | (uint32_t)p[2] << 8 | p[3];
}

static void put_word(uint8_t *p, uint32_t w) {
    p[0] = w >> 24, p[1] = w >> 16, p[2] = w >> 8, p[3] = w;
}

/* The place in RAM of an access of `width` bytes, or -1. */
static int64_t place(const struct cpu *c, uint32_t address, uint32_t width) {
    if (address < 0x80000000u || address >= 0xc0000000u || address % width || c->status & 2)
        return -1;
    uint32_t at = address & 0x1fffffffu;
    return (uint64_t)at + width <= RAM ? (int64_t)at : -1;
}

/* One step; 0 where it would trap. */
static int step(struct machine *m) {
    struct cpu *c = &m->cpu;
    if (m->off || m->log_len >= m->log_room || c->waiting)
        return 0;
    if ((c->ip | m->lines) & c->mask)
        return 0;
    int64_t at = place(c, c->pc, 4);
    if (at < 0)
        return 0;
    uint32_t w = get_word(m->ram + at);
    uint32_t rs = w >> 21 & 31, rt = w >> 16 & 31, rd = w >> 11 & 31, sa = w >> 6 & 31;
    uint32_t s = c->r[rs], t = c->r[rt], i = w & 0xffff, si = (uint32_t)(int16_t)i;
    uint32_t target = c->next + 4, d = 0, value = 0;
    int slot = 0, taken;
    switch (w >> 26) {
    case 0:
        d = rd;
        switch (w & 63) {
        case 0: value = t << sa; break;
        case 2: value = t >> sa; break;
        case 3: value = (uint32_t)((int32_t)t >> sa); break;
        case 4: value = t << (s & 31); break;
        case 6: value = t >> (s & 31); break;
        case 7: value = (uint32_t)((int32_t)t >> (s & 31)); break;
        case 8: d = 0, target = s, slot = 1; break;
        case 9: value = c->pc + 8, target = s, slot = 1; break;
        case 15: d = 0; break;
        case 16: value = c->hi; break;
        case 17: d = 0, c->hi = s; break;
        case 18: value = c->lo; break;
        case 19: d = 0, c->lo = s; break;
        case 24: {
            uint64_t p = (uint64_t)((int64_t)(int32_t)s * (int32_t)t);
            d = 0, c->hi = p >> 32, c->lo = (uint32_t)p;
            break;
        }
        case 25: {
            uint64_t p = (uint64_t)s * t;
            d = 0, c->hi = p >> 32, c->lo = (uint32_t)p;
            break;
        }
        case 27:
            d = 0;
            if (t)
                c->lo = s / t, c->hi = s % t;
            else
                c->lo = 0xffffffffu, c->hi = s;
            break;
        case 33: value = s + t; break;
        case 35: value = s - t; break;
        case 36: value = s & t; break;
        case 37: value = s | t; break;
        case 38: value = s ^ t; break;
        case 39: value = ~(s | t); break;
        case 42: value = (int32_t)s < (int32_t)t; break;
        case 43: value = s < t; break;
        default: return 0;
        }
        break;
    case 2: target = (c->next & 0xf0000000u) | (w & 0x3ffffff) << 2, slot = 1; break;
    case 3: d = 31, value = c->pc + 8, target = (c->next & 0xf0000000u) | (w & 0x3ffffff) << 2, slot = 1; break;
    case 4: taken = s == t; goto branch;
    case 5: taken = s != t; goto branch;
    case 6: taken = (int32_t)s <= 0; goto branch;
    case 7: taken = (int32_t)s > 0;
    branch:
        slot = 1;
        if (taken)
            target = c->pc + 4 + (si << 2);
        break;
    case 9: d = rt, value = s + si; break;
    case 10: d = rt, value = (int32_t)s < (int32_t)si; break;
    case 11: d = rt, value = s < si; break;
    case 12: d = rt, value = s & i; break;
    case 13: d = rt, value = s | i; break;
    case 14: d = rt, value = s ^ i; break;
    case 15: d = rt, value = i << 16; break;
    case 32:
        if ((at = place(c, s + si, 1)) < 0)
            return 0;
        d = rt, value = (uint32_t)(int8_t)m->ram[at];
        break;
    case 33:
    case 37:
        if ((at = place(c, s + si, 2)) < 0)
            return 0;
        value = (uint32_t)m->ram[at] << 8 | m->ram[at + 1];
        if (w >> 26 == 33)
            value = (uint32_t)(int16_t)value;
        d = rt;
        break;
    case 35:
        if ((at = place(c, s + si, 4)) < 0)
            return 0;
        d = rt, value = get_word(m->ram + at);
        break;
    case 36:
        if ((at = place(c, s + si, 1)) < 0)
            return 0;
        d = rt, value = m->ram[at];
        break;
    case 40:
        if ((at = place(c, s + si, 1)) < 0)
            return 0;
        m->ram[at] = t;
        if (m->linked)
            return 0;
        break;
    case 41:
        if ((at = place(c, s + si, 2)) < 0)
            return 0;
        m->ram[at] = t >> 8, m->ram[at + 1] = t;
        if (m->linked)
            return 0;
        break;
    case 43:
        if ((at = place(c, s + si, 4)) < 0)
            return 0;
        put_word(m->ram + at, t);
        if (m->linked)
            return 0;
        break;
    default: return 0;
    }
    if (slot && c->slot)
        return 0;
    if (d)
        c->r[d] = value;
    c->pc = c->next;
    c->next = target;
    c->slot = slot;
    if (++c->count == c->fire)
        return 0;
    m->log[m->log_len++] = 0;
    return 1;
}

static int run(const uint32_t *words, size_t number, uint32_t room, uint32_t *word,
               uint64_t *steps) {
    struct machine *m = calloc(1, sizeof *m);
    if (!m)
        return 0;
    m->cpu.pc = 0x80000200u, m->cpu.next = 0x80000204u;
    m->log_room = room;
    m->ram = calloc(RAM, 1);
    m->log = malloc((size_t)room * sizeof *m->log);
    if (!m->ram || !m->log)
        return 0;
    for (size_t i = 0; i < number; i++)
        put_word(m->ram + 0x200 + 4 * i, words[i]);
    /* the machine is read and written elsewhere, for all that the compiler knows */
    __asm__ volatile("" : : "r"(m) : "memory");
    for (uint32_t i = 0; i < room; i++)
        if (!step(m))
            break;
    __asm__ volatile("" : : "r"(m) : "memory");
    *word += m->cpu.r[17];
    *steps += m->cpu.count;
    free(m->ram);
    free(m->log);
    free(m);
    return 1;
}

int main(int argc, char **argv) {
    struct timespec a, b;
    uint32_t word = 0;
    uint64_t steps = 0;
    long times = argc > 1 ? atol(argv[1]) : 0;
    uint32_t room = argc > 2 ? (uint32_t)atol(argv[2]) : 1000000;
    int sieves = argc > 3 && !strcmp(argv[3], "sieve");
    const uint32_t *words = sieves ? sieve : program;
    size_t number = (sieves ? sizeof sieve : sizeof program) / sizeof *program;
    clock_gettime(CLOCK_MONOTONIC, &a);
    for (long i = 0; i < times; i++)
        if (!run(words, number, room, &word, &steps))
            return 1;
    clock_gettime(CLOCK_MONOTONIC, &b);
    printf("%llu %08x\n", (unsigned long long)steps, word);
    fprintf(stderr, "%lld\n", (b.tv_sec - a.tv_sec) * 1000000000LL + (b.tv_nsec - a.tv_nsec));
    return 0;
}
