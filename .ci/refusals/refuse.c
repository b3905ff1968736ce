// Preloaded into the program: counts its calls of one kind, and refuses one of them, or that one and all after it.
//
// REFUSE_KIND    memory, read, output (writes to standard output), errors (writes to standard error), or thread
// REFUSE_HOW     refused: null and ENOMEM; -1 and EIO; or EAGAIN for a thread
//                interrupted: -1 and EINTR, for reads and writes
//                short: one byte is read or written
//                cut: -1 and EIO, for reads and writes; the others of that kind read or write one byte each
//                unread: the signal SIGPIPE, -1 and EPIPE, for writes
// REFUSE_FIRST   the first call that is refused, from 1; REFUSE_LAST the last
// REFUSE_COUNTS  a file of 64-bit numbers, which get how many calls of each kind there were, how many were refused, and how
//                many bytes were read
//
// Calls of the dynamic linker before the program starts go through and aren't counted. Memory that the C library takes
// for the program, such as that of a thread which starts, counts as the program's.
#define _GNU_SOURCE
#include <dlfcn.h>
#include <errno.h>
#include <fcntl.h>
#include <pthread.h>
#include <signal.h>
#include <stdatomic.h>
#include <stdbool.h>
#include <stdlib.h>
#include <string.h>
#include <sys/mman.h>
#include <sys/syscall.h>
#include <unistd.h>

enum kind { MEMORY, READ, OUTPUT, ERRORS, THREAD, KINDS };
enum way { REFUSED, INTERRUPTED, SHORT, CUT, UNREAD, WAYS };

static const char *const kinds[] = {"memory", "read", "output", "errors", "thread"};
static const char *const ways[] = {"refused", "interrupted", "short", "cut", "unread"};

// How many calls there were of each kind, how many were refused, and how many bytes were read. Null until the program starts.
static _Atomic unsigned long *counts;
static int kind, way;
static unsigned long first, last;
static int (*start_thread)(pthread_t *, const pthread_attr_t *, void *(*)(void *), void *);

void *__libc_malloc(size_t);
void *__libc_calloc(size_t, size_t);
void *__libc_realloc(void *, size_t);
void *__libc_memalign(size_t, size_t);

static int place(const char *name, const char *const *names, int many) {
    const char *value = getenv(name);
    for (int i = 0; value && i < many; i++)
        if (!strcmp(value, names[i]))
            return i;
    _exit(99);
}

static unsigned long number(const char *name) {
    const char *value = getenv(name);
    return value ? strtoul(value, NULL, 10) : 0;
}

__attribute__((constructor)) static void begin(void) {
    size_t size = (KINDS + 2) * sizeof *counts;
    int file = open(getenv("REFUSE_COUNTS"), O_RDWR);
    void *shared = mmap(NULL, size, PROT_READ | PROT_WRITE, MAP_SHARED, file, 0);
    if (file < 0 || shared == MAP_FAILED)
        _exit(99);
    close(file);
    kind = place("REFUSE_KIND", kinds, KINDS);
    way = place("REFUSE_HOW", ways, WAYS);
    first = number("REFUSE_FIRST");
    last = number("REFUSE_LAST");
    start_thread = dlsym(RTLD_NEXT, "pthread_create");
    counts = shared;
}

// Counts a call, and says whether it is to be refused.
static bool refused(enum kind asked) {
    if (!counts)
        return false;
    unsigned long call = atomic_fetch_add(&counts[asked], 1) + 1;
    bool is_refused = (int)asked == kind && first <= call && call <= last;
    if (is_refused)
        atomic_fetch_add(&counts[KINDS], 1);
    return is_refused;
}

static bool lacks_memory(void) {
    if (!refused(MEMORY))
        return false;
    errno = ENOMEM;
    return true;
}

void *malloc(size_t size) { return lacks_memory() ? NULL : __libc_malloc(size); }

void *calloc(size_t many, size_t size) { return lacks_memory() ? NULL : __libc_calloc(many, size); }

void *realloc(void *old, size_t size) { return lacks_memory() ? NULL : __libc_realloc(old, size); }

void *aligned_alloc(size_t align, size_t size) { return lacks_memory() ? NULL : __libc_memalign(align, size); }

int posix_memalign(void **to, size_t align, size_t size) {
    void *got = lacks_memory() ? NULL : __libc_memalign(align, size);
    if (!got)
        return ENOMEM;
    *to = got;
    return 0;
}

// Reads or writes: all that was asked for, one byte, or nothing.
static ssize_t transfer(enum kind asked, long call, int file, const void *bytes, size_t size) {
    bool is_refused = refused(asked);
    if (is_refused && way == UNREAD)
        raise(SIGPIPE);
    if (is_refused && way != SHORT) {
        errno = way == UNREAD ? EPIPE : way == INTERRUPTED ? EINTR : EIO;
        return -1;
    }
    bool is_short = is_refused || (counts && way == CUT && (int)asked == kind);
    return syscall(call, file, bytes, is_short && size > 1 ? 1 : size);
}

ssize_t read(int file, void *bytes, size_t size) {
    ssize_t taken = transfer(READ, SYS_read, file, bytes, size);
    if (counts && taken > 0)
        atomic_fetch_add(&counts[KINDS + 1], taken);
    return taken;
}

ssize_t write(int file, const void *bytes, size_t size) {
    return transfer(file == STDERR_FILENO ? ERRORS : OUTPUT, SYS_write, file, bytes, size);
}

int pthread_create(pthread_t *thread, const pthread_attr_t *how, void *(*work)(void *), void *of) {
    return refused(THREAD) ? EAGAIN : start_thread(thread, how, work, of);
}
