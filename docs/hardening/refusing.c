/* A library to be preloaded: it counts a program's allocations, its reads of standard input, its writes to standard output and
   the threads that it starts, and refuses the call of one kind that the environment names.

   REFUSING_KIND    allocation, read, write or thread; none where it is absent
   REFUSING_AT      the number of the call, counted from 1
   REFUSING_HOW     once: that call fails; stretch: that call and the next 999 of its kind; short: it gives or takes one byte
   REFUSING_MOST    so many bytes at most for each read and each write; 0 for no limit
   REFUSING_COUNTS  a file of 40 bytes: five numbers of 8 bytes, the calls by kind in that order, and the calls that were refused

   Made by: cc -shared -fPIC -O2 -o refusing.so refusing.c -ldl */
#define _GNU_SOURCE
#include <dlfcn.h>
#include <errno.h>
#include <fcntl.h>
#include <pthread.h>
#include <stdlib.h>
#include <string.h>
#include <sys/mman.h>
#include <sys/syscall.h>
#include <sys/uio.h>
#include <unistd.h>

enum kind { ALLOCATION, READ, WRITE, THREAD, KINDS };

enum how { ONCE, STRETCH, SHORT };

#define STRETCH_CALLS 1000

static const char *const kind_names[KINDS] = {"allocation", "read", "write", "thread"};

/* The calls by kind, and behind them those refused. Nothing is counted before the library is ready. */
static unsigned long *counts;
static int chosen = KINDS;
static enum how how;
static unsigned long at;
static size_t most;

typedef int start_thread(pthread_t *, const pthread_attr_t *, void *(*)(void *), void *);
static start_thread *start_next;

extern void *__libc_malloc(size_t);
extern void *__libc_calloc(size_t, size_t);
extern void *__libc_realloc(void *, size_t);
extern void *__libc_memalign(size_t, size_t);

static unsigned long number_in(const char *name) {
    const char *text = getenv(name);
    return text ? strtoul(text, NULL, 10) : 0;
}

__attribute__((constructor)) static void get_ready(void) {
    const char *kind = getenv("REFUSING_KIND");
    const char *way = getenv("REFUSING_HOW");
    const char *file = getenv("REFUSING_COUNTS");
    start_next = (start_thread *)dlsym(RTLD_NEXT, "pthread_create");
    at = number_in("REFUSING_AT");
    most = number_in("REFUSING_MOST");
    how = way && !strcmp(way, "stretch") ? STRETCH : way && !strcmp(way, "short") ? SHORT : ONCE;
    for (int k = 0; kind && k < KINDS; k++)
        if (!strcmp(kind, kind_names[k])) chosen = k;
    int opened = file ? open(file, O_RDWR) : -1;
    if (opened < 0) return;
    void *shared = mmap(NULL, (KINDS + 1) * sizeof(long), PROT_READ | PROT_WRITE, MAP_SHARED, opened, 0);
    close(opened);
    if (shared != MAP_FAILED) counts = shared;
}

/* Counts a call, and tells whether it is the one that the environment names. */
static int is_named(enum kind kind) {
    if (!counts) return 0;
    unsigned long number = __atomic_add_fetch(&counts[kind], 1, __ATOMIC_RELAXED);
    unsigned long last = how == STRETCH ? at + STRETCH_CALLS - 1 : at;
    if ((int)kind != chosen || number < at || number > last) return 0;
    __atomic_add_fetch(&counts[KINDS], 1, __ATOMIC_RELAXED);
    return 1;
}

static void *no_memory(void) {
    errno = ENOMEM;
    return NULL;
}

void *malloc(size_t size) { return is_named(ALLOCATION) ? no_memory() : __libc_malloc(size); }

void *calloc(size_t count, size_t size) { return is_named(ALLOCATION) ? no_memory() : __libc_calloc(count, size); }

void *realloc(void *old, size_t size) { return is_named(ALLOCATION) ? no_memory() : __libc_realloc(old, size); }

void *aligned_alloc(size_t align, size_t size) {
    return is_named(ALLOCATION) ? no_memory() : __libc_memalign(align, size);
}

void *memalign(size_t align, size_t size) { return aligned_alloc(align, size); }

int posix_memalign(void **made, size_t align, size_t size) {
    void *block = aligned_alloc(align, size);
    if (!block) return ENOMEM;
    *made = block;
    return 0;
}

/* How many of so many bytes a call of this kind may move, or -1 where it is to fail. */
static ssize_t allowed(enum kind kind, size_t size) {
    size_t room = most && most < size ? most : size;
    if (!is_named(kind)) return room;
    if (how == SHORT) return room ? 1 : 0;
    errno = EIO;
    return -1;
}

ssize_t read(int stream, void *bytes, size_t size) {
    ssize_t room = stream == 0 ? allowed(READ, size) : (ssize_t)size;
    return room < 0 ? -1 : syscall(SYS_read, stream, bytes, room);
}

ssize_t write(int stream, const void *bytes, size_t size) {
    ssize_t room = stream == 1 ? allowed(WRITE, size) : (ssize_t)size;
    return room < 0 ? -1 : syscall(SYS_write, stream, bytes, room);
}

/* To standard output only the first part that isn't empty goes, as a system may do it. */
ssize_t writev(int stream, const struct iovec *parts, int count) {
    if (stream != 1) return syscall(SYS_writev, stream, parts, count);
    while (count > 1 && parts->iov_len == 0) parts++, count--;
    return count > 0 ? write(stream, parts->iov_base, parts->iov_len) : 0;
}

int pthread_create(pthread_t *thread, const pthread_attr_t *attributes, void *(*body)(void *), void *argument) {
    return is_named(THREAD) ? EAGAIN : start_next(thread, attributes, body, argument);
}
