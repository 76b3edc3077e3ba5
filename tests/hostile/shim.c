// A library that is loaded before the program (LD_PRELOAD). It counts the program's requests for
// memory and for threads, and its calls that open, read and write, from the start of `main` on, and
// lets those fail that a plan names:
//
//     memory refuse FIRST LAST       malloc, calloc, realloc and their kin
//     thread refuse FIRST LAST       pthread_create
//     open fail FIRST LAST
//     read ACTION FIRST LAST WHICH   ACTION fail, again or short
//     read budget BYTES 0 WHICH      fails once so many bytes were read
//     write ACTION FIRST LAST WHICH  ACTION fail, full, pipe, again, none or short
//     write budget BYTES 0 WHICH
//
// The first request is 1; LAST 0 is for ever. WHICH is a descriptor 0, 1 or 2, 3 for all others, 4 for
// all. `again` is EINTR, `short` takes one byte, `none` writes nothing and says so, `budget` takes as
// many bytes as are left. The counts go into the file HOSTILE_REPORT, which is mapped, so that they
// are there however the program ends.
//
// With HOSTILE_SERVE the process stays at the start of `main`, and each plan that it reads from a pipe
// is that of a copy of it (fork), which goes on into `main`, over the files HOSTILE_INPUT,
// HOSTILE_OUTPUT and HOSTILE_ERRORS. So a run costs no start of a program. Its status is answered
// through another pipe.
#define _GNU_SOURCE
#include <dlfcn.h>
#include <errno.h>
#include <fcntl.h>
#include <pthread.h>
#include <stdarg.h>
#include <stdatomic.h>
#include <stddef.h>
#include <stdint.h>
#include <stdlib.h>
#include <string.h>
#include <sys/mman.h>
#include <sys/syscall.h>
#include <sys/time.h>
#include <sys/wait.h>
#include <unistd.h>

enum kind { MEMORY, THREAD, OPEN, READ, WRITE, KINDS };
enum action { REFUSE, FAIL, FULL, PIPE, AGAIN, NONE, SHORT, BUDGET, ACTIONS };

static const char *const kind_names[] = {"memory", "thread", "open", "read", "write"};
static const char *const action_names[] = {"refuse", "fail",  "full",  "pipe",
                                           "again",  "none", "short", "budget"};

// What tests/hostile/running.py reads: these numbers, and the name of the file of the first call
// that was disturbed, if it has one.
struct report {
    _Atomic uint64_t started;
    _Atomic uint64_t requests[KINDS];
    _Atomic uint64_t disturbed[KINDS];
    _Atomic uint64_t calls[2][4]; // that read and that write, of the descriptors 0, 1, 2 and others
    _Atomic uint64_t bytes[2][4]; // that were read and written
    _Atomic uint64_t unwatched;   // calls by which memory or bytes are had, and that nothing disturbs
    _Atomic uint64_t descriptor;  // of the first disturbed call, and 1
    _Atomic uint64_t place;       // how many bytes of descriptor 0 were read before the last one
    char name[256];
};

static struct report unread;
static struct report *report = &unread;
static _Atomic int armed;

static enum kind plan_kind = KINDS;
static enum action plan_action;
static uint64_t plan_first, plan_last, plan_which = 4;
static _Atomic uint64_t budget;

enum { NAMED = 64 };
static char names[NAMED][256];

void *__libc_malloc(size_t);
void *__libc_calloc(size_t, size_t);
void *__libc_realloc(void *, size_t);
void *__libc_memalign(size_t, size_t);

static int (*real_thread)(pthread_t *, const pthread_attr_t *, void *(*)(void *), void *);

static const char *word(const char *text, const char *const *table, int count, int *found) {
    for (int i = 0; i < count; i++) {
        size_t n = strlen(table[i]);
        if (strncmp(text, table[i], n) == 0 && text[n] == ' ') {
            *found = i;
            return text + n + 1;
        }
    }
    _exit(99);
}

static void follow(const char *text) {
    int kind, action;
    char *end;
    if (!*text)
        return;
    text = word(text, kind_names, KINDS, &kind);
    text = word(text, action_names, ACTIONS, &action);
    plan_first = strtoull(text, &end, 10);
    plan_last = strtoull(end, &end, 10);
    if (*end)
        plan_which = strtoull(end, &end, 10);
    if (plan_last == 0)
        plan_last = UINT64_MAX;
    plan_action = action;
    budget = plan_first;
    plan_kind = kind;
}

__attribute__((constructor)) static void start(void) {
    real_thread = dlsym(RTLD_NEXT, "pthread_create");
    const char *path = getenv("HOSTILE_REPORT");
    if (!path)
        return;
    int fd = syscall(SYS_openat, AT_FDCWD, path, O_RDWR | O_CLOEXEC, 0);
    long at = syscall(SYS_mmap, 0, sizeof *report, PROT_READ | PROT_WRITE, MAP_SHARED, fd, 0);
    if (at == -1)
        _exit(98);
    syscall(SYS_close, fd);
    report = (struct report *)at;
}

// The pipes of a process that serves, and what is asked through them.
enum { ASKED = 100, ANSWERED = 101 };
struct asked {
    char plan[96];
    uint64_t seconds; // after which the run is ended by SIGALRM
};

static void redirect(int fd, const char *name, int flags) {
    int file = syscall(SYS_openat, AT_FDCWD, getenv(name), flags, 0);
    if (file < 0 || dup2(file, fd) < 0)
        _exit(97);
    if (file != fd)
        syscall(SYS_close, file);
}

// Serves until no more is asked; returns in each copy.
static void serve(void) {
    struct asked asked;
    while (syscall(SYS_read, ASKED, &asked, sizeof asked) == sizeof asked) {
        memset((void *)report, 0, sizeof *report);
        pid_t child = fork();
        if (child == 0) {
            syscall(SYS_close, ASKED);
            syscall(SYS_close, ANSWERED);
            redirect(0, "HOSTILE_INPUT", O_RDONLY);
            redirect(1, "HOSTILE_OUTPUT", O_WRONLY | O_TRUNC);
            redirect(2, "HOSTILE_ERRORS", O_WRONLY | O_TRUNC);
            struct itimerval limit = {.it_value = {.tv_sec = (time_t)asked.seconds}};
            setitimer(ITIMER_REAL, &limit, NULL);
            follow(asked.plan);
            return;
        }
        int status = -1;
        if (child > 0)
            waitpid(child, &status, 0);
        syscall(SYS_write, ANSWERED, &status, sizeof status);
    }
    _exit(0);
}

static int (*real_main)(int, char **, char **);

static int armed_main(int argc, char **argv, char **envp) {
    if (getenv("HOSTILE_SERVE"))
        serve();
    report->started = 1;
    armed = 1;
    int status = real_main(argc, argv, envp);
    armed = 0;
    return status;
}

int __libc_start_main(int (*main)(int, char **, char **), int argc, char **argv, void (*init)(void),
                      void (*fini)(void), void (*rtld_fini)(void), void *stack_end) {
    int (*real)(int (*)(int, char **, char **), int, char **, void (*)(void), void (*)(void),
                void (*)(void), void *) = dlsym(RTLD_NEXT, "__libc_start_main");
    real_main = main;
    return real(armed_main, argc, argv, init, fini, rtld_fini, stack_end);
}

// Counts a request, and says whether it is one of the plan's.
static int is_chosen(enum kind kind, uint64_t which) {
    if (!armed)
        return 0;
    if (kind != plan_kind || (plan_which != 4 && plan_which != which)) {
        report->requests[kind]++;
        return 0;
    }
    uint64_t n = ++report->requests[kind];
    return plan_action == BUDGET || (plan_first <= n && n <= plan_last);
}

// Notes that a call was disturbed.
static void disturb(enum kind kind, int fd) {
    report->place = report->bytes[0][0];
    if (report->disturbed[kind]++ == 0) {
        report->descriptor = (uint64_t)(fd + 1);
        if (0 <= fd && fd < NAMED)
            memcpy(report->name, names[fd], sizeof report->name);
    }
}

static int is_refused(void) {
    if (!is_chosen(MEMORY, 4))
        return 0;
    disturb(MEMORY, -1);
    errno = ENOMEM;
    return 1;
}

void *malloc(size_t n) { return is_refused() ? NULL : __libc_malloc(n); }
void *calloc(size_t k, size_t n) { return is_refused() ? NULL : __libc_calloc(k, n); }
void *realloc(void *p, size_t n) { return is_refused() ? NULL : __libc_realloc(p, n); }
void *memalign(size_t a, size_t n) { return is_refused() ? NULL : __libc_memalign(a, n); }
void *aligned_alloc(size_t a, size_t n) { return memalign(a, n); }
void *valloc(size_t n) { return memalign(4096, n); }

void *reallocarray(void *p, size_t k, size_t n) {
    size_t size;
    if (__builtin_mul_overflow(k, n, &size)) {
        errno = ENOMEM;
        return NULL;
    }
    return realloc(p, size);
}

int posix_memalign(void **p, size_t a, size_t n) {
    void *got = memalign(a, n);
    if (!got)
        return ENOMEM;
    *p = got;
    return 0;
}

int pthread_create(pthread_t *thread, const pthread_attr_t *attributes, void *(*body)(void *),
                   void *argument) {
    if (is_chosen(THREAD, 4)) {
        disturb(THREAD, -1);
        return EAGAIN;
    }
    return real_thread(thread, attributes, body, argument);
}

static int opened(int at, const char *path, int flags, mode_t mode) {
    if (is_chosen(OPEN, 3)) {
        disturb(OPEN, -1);
        strncpy(report->name, path, sizeof report->name - 1);
        errno = EMFILE;
        return -1;
    }
    int fd = syscall(SYS_openat, at, path, flags, mode);
    if (0 <= fd && fd < NAMED)
        strncpy(names[fd], path, sizeof names[fd] - 1);
    return fd;
}

static mode_t mode_of(int flags, va_list rest) {
    return flags & (O_CREAT | O_TMPFILE) ? va_arg(rest, mode_t) : 0;
}

#define OPENED(name, parameters, at)                                                                \
    int name parameters {                                                                           \
        va_list rest;                                                                               \
        va_start(rest, flags);                                                                      \
        mode_t mode = mode_of(flags, rest);                                                         \
        va_end(rest);                                                                               \
        return opened(at, path, flags, mode);                                                       \
    }
OPENED(open, (const char *path, int flags, ...), AT_FDCWD)
OPENED(open64, (const char *path, int flags, ...), AT_FDCWD)
OPENED(openat, (int at, const char *path, int flags, ...), at)
OPENED(openat64, (int at, const char *path, int flags, ...), at)

// How many bytes a call may take, or -1 where it fails by errno.
static ssize_t room_of(enum kind kind, int fd, size_t n) {
    uint64_t which = fd < 3 ? (uint64_t)fd : 3;
    if (armed)
        report->calls[kind == WRITE][which]++;
    if (!is_chosen(kind, which))
        return (ssize_t)n;
    if (plan_action == BUDGET) {
        uint64_t left = budget;
        if (n == 0 || left > 0)
            return (ssize_t)(n <= left ? n : left);
    }
    if (plan_action == SHORT && n <= 1)
        return (ssize_t)n;
    disturb(kind, fd);
    switch (plan_action) {
    case SHORT:
        return 1;
    case NONE:
        return 0;
    case AGAIN:
        errno = EINTR;
        return -1;
    case FULL:
        errno = ENOSPC;
        return -1;
    case PIPE:
        errno = EPIPE;
        return -1;
    default:
        errno = EIO;
        return -1;
    }
}

// Notes what a call has done, and takes it off the budget, if it is of the plan's.
static ssize_t spend(enum kind kind, int fd, ssize_t done) {
    uint64_t which = fd < 3 ? (uint64_t)fd : 3;
    if (!armed || done <= 0)
        return done;
    report->bytes[kind == WRITE][which] += (uint64_t)done;
    if (plan_kind == kind && plan_action == BUDGET && (plan_which == 4 || plan_which == which))
        budget -= (uint64_t)done;
    return done;
}

ssize_t read(int fd, void *bytes, size_t n) {
    ssize_t room = room_of(READ, fd, n);
    if (room < 0 || (room == 0 && n > 0))
        return room;
    return spend(READ, fd, syscall(SYS_read, fd, bytes, (size_t)room));
}

ssize_t write(int fd, const void *bytes, size_t n) {
    ssize_t room = room_of(WRITE, fd, n);
    if (room < 0 || (room == 0 && n > 0))
        return room;
    return spend(WRITE, fd, syscall(SYS_write, fd, bytes, (size_t)room));
}

// Calls that could be had in place of those above. The program makes none; if it did, a sweep would be
// incomplete, and says so.
#define UNWATCHED(name, number)                                                                     \
    long unwatched_##name(long a, long b, long c, long d, long e, long f) __asm__(#name);           \
    long unwatched_##name(long a, long b, long c, long d, long e, long f) {                         \
        if (armed)                                                                                  \
            report->unwatched++;                                                                    \
        return syscall(number, a, b, c, d, e, f);                                                   \
    }
UNWATCHED(mmap, SYS_mmap)
UNWATCHED(mmap64, SYS_mmap)
UNWATCHED(mremap, SYS_mremap)
UNWATCHED(readv, SYS_readv)
UNWATCHED(writev, SYS_writev)
UNWATCHED(preadv, SYS_preadv)
UNWATCHED(pwritev, SYS_pwritev)
UNWATCHED(pread, SYS_pread64)
UNWATCHED(pread64, SYS_pread64)
UNWATCHED(pwrite, SYS_pwrite64)
UNWATCHED(pwrite64, SYS_pwrite64)
UNWATCHED(sendmsg, SYS_sendmsg)
UNWATCHED(recvmsg, SYS_recvmsg)
