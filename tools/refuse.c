/* A library that is loaded before the C library, by LD_PRELOAD, and that refuses one call of the program it is loaded with. Only calls
   from the program's own code count, not those of the C library itself. `refused-growths.py` builds it, and says what for.

   REFUSE_GROWTH=N    the Nth growth, a call of malloc or realloc, gives no memory
   REFUSE_GROWTHS=N   so do the Nth and all after it
   REFUSE_CALL=N      the Nth opening, read, write, sync, renaming or removal of a file fails, for the reason of the number
                      REFUSE_REASON
   REFUSE_BYTES=N     the Nth read or write of more than one byte moves one byte
   REFUSE_THREAD=N    the Nth thread is not started
   REFUSE_COUNTS=FILE the file gets how many there were of each: growths; calls; reads and writes of more than one byte; threads; and
                      the greatest number of bytes that a growth asked for */
#define _GNU_SOURCE
#include <dlfcn.h>
#include <errno.h>
#include <fcntl.h>
#include <link.h>
#include <pthread.h>
#include <stdarg.h>
#include <stdlib.h>
#include <sys/mman.h>
#include <unistd.h>

enum kind { GROWTH, CALL, BYTES, THREAD, KINDS };

/* After the counts of each kind stands the greatest growth. */
enum { GREATEST = KINDS, COUNTS };

static void *(*real_malloc)(size_t);
static void *(*real_realloc)(void *, size_t);
static ssize_t (*real_read)(int, void *, size_t);
static ssize_t (*real_write)(int, const void *, size_t);
static ssize_t (*real_pread)(int, void *, size_t, off_t);
static ssize_t (*real_pwrite)(int, const void *, size_t, off_t);
static int (*real_fsync)(int);
static int (*real_fdatasync)(int);
static int (*real_rename)(const char *, const char *);
static int (*real_unlink)(const char *);
static int (*real_open)(const char *, int, ...);
static int (*real_create)(pthread_t *, const pthread_attr_t *, void *(*)(void *), void *);

static long counts_here[COUNTS];
static long *counts = counts_here;
static long refused[KINDS];
static int lasts;
static int reason;
static unsigned long begin, end;
static int is_ready;

/* The first object that is named is the program: keeps where its code and data lie. */
static int keep_program(struct dl_phdr_info *info, size_t size, void *data) {
    (void)size;
    (void)data;
    begin = ~0ul;
    for (int k = 0; k < info->dlpi_phnum; k++) {
        if (info->dlpi_phdr[k].p_type == PT_LOAD) {
            unsigned long from = info->dlpi_addr + info->dlpi_phdr[k].p_vaddr;
            unsigned long to = from + info->dlpi_phdr[k].p_memsz;
            if (from < begin)
                begin = from;
            if (to > end)
                end = to;
        }
    }
    return 1;
}

static long number_in(const char *name) {
    const char *text = getenv(name);
    return text ? atol(text) : 0;
}

/* The program may end by _exit, so the counts stand in a file that is mapped. */
static void map_counts(const char *path) {
    int file = real_open(path, O_RDWR | O_CREAT | O_TRUNC, 0644);
    if (file >= 0 && ftruncate(file, sizeof counts_here) == 0) {
        void *mapped = mmap(0, sizeof counts_here, PROT_READ | PROT_WRITE, MAP_SHARED, file, 0);
        if (mapped != MAP_FAILED)
            counts = mapped;
    }
    close(file);
}

__attribute__((constructor)) static void start(void) {
    real_malloc = dlsym(RTLD_NEXT, "malloc");
    real_realloc = dlsym(RTLD_NEXT, "realloc");
    real_read = dlsym(RTLD_NEXT, "read");
    real_write = dlsym(RTLD_NEXT, "write");
    real_pread = dlsym(RTLD_NEXT, "pread");
    real_pwrite = dlsym(RTLD_NEXT, "pwrite");
    real_fsync = dlsym(RTLD_NEXT, "fsync");
    real_fdatasync = dlsym(RTLD_NEXT, "fdatasync");
    real_rename = dlsym(RTLD_NEXT, "rename");
    real_unlink = dlsym(RTLD_NEXT, "unlink");
    real_open = dlsym(RTLD_NEXT, "open");
    real_create = dlsym(RTLD_NEXT, "pthread_create");
    dl_iterate_phdr(keep_program, 0);
    refused[GROWTH] = number_in("REFUSE_GROWTH");
    if (number_in("REFUSE_GROWTHS")) {
        refused[GROWTH] = number_in("REFUSE_GROWTHS");
        lasts = 1;
    }
    refused[CALL] = number_in("REFUSE_CALL");
    refused[BYTES] = number_in("REFUSE_BYTES");
    refused[THREAD] = number_in("REFUSE_THREAD");
    reason = number_in("REFUSE_REASON");
    const char *path = getenv("REFUSE_COUNTS");
    if (path)
        map_counts(path);
    is_ready = 1;
}

/* Whether this call was made by the program itself. */
#define IS_OWN \
    (is_ready && (unsigned long)__builtin_return_address(0) >= begin && (unsigned long)__builtin_return_address(0) < end)

/* Counts a call of this kind, and says whether it is refused. */
static int is_refused(enum kind kind) {
    long number = __atomic_add_fetch(&counts[kind], 1, __ATOMIC_SEQ_CST);
    return refused[kind] && (number == refused[kind] || (lasts && number > refused[kind]));
}

/* The same of a growth to so many bytes. */
static int is_refused_growth(size_t size) {
    long greatest = __atomic_load_n(&counts[GREATEST], __ATOMIC_SEQ_CST);
    while ((long)size > greatest && !__atomic_compare_exchange_n(&counts[GREATEST], &greatest, (long)size, 0, __ATOMIC_SEQ_CST, __ATOMIC_SEQ_CST)) {
    }
    return is_refused(GROWTH);
}

void *malloc(size_t size) {
    if (!real_malloc)
        start();
    if (IS_OWN && is_refused_growth(size)) {
        errno = ENOMEM;
        return 0;
    }
    return real_malloc(size);
}

void *realloc(void *old, size_t size) {
    if (!real_realloc)
        start();
    if (IS_OWN && is_refused_growth(size)) {
        errno = ENOMEM;
        return 0;
    }
    return real_realloc(old, size);
}

/* The head of a call that moves so many bytes, or that moves none. */
#define REFUSE(length)                        \
    if (IS_OWN) {                             \
        if (is_refused(CALL)) {               \
            errno = reason;                   \
            return -1;                        \
        }                                     \
        if ((length) > 1 && is_refused(BYTES)) \
            (length) = 1;                     \
    }

ssize_t read(int file, void *bytes, size_t length) {
    REFUSE(length)
    return real_read(file, bytes, length);
}

ssize_t write(int file, const void *bytes, size_t length) {
    REFUSE(length)
    return real_write(file, bytes, length);
}

ssize_t pread(int file, void *bytes, size_t length, off_t at) {
    REFUSE(length)
    return real_pread(file, bytes, length, at);
}

ssize_t pwrite(int file, const void *bytes, size_t length, off_t at) {
    REFUSE(length)
    return real_pwrite(file, bytes, length, at);
}

int fsync(int file) {
    size_t none = 0;
    REFUSE(none)
    return real_fsync(file);
}

int fdatasync(int file) {
    size_t none = 0;
    REFUSE(none)
    return real_fdatasync(file);
}

int rename(const char *from, const char *to) {
    size_t none = 0;
    REFUSE(none)
    return real_rename(from, to);
}

int unlink(const char *path) {
    size_t none = 0;
    REFUSE(none)
    return real_unlink(path);
}

int open(const char *path, int flags, ...) {
    size_t none = 0;
    va_list rest;
    va_start(rest, flags);
    int mode = va_arg(rest, int);
    va_end(rest);
    REFUSE(none)
    return real_open(path, flags, mode);
}

int pthread_create(pthread_t *thread, const pthread_attr_t *attributes, void *(*body)(void *), void *argument) {
    if (IS_OWN && is_refused(THREAD))
        return EAGAIN;
    return real_create(thread, attributes, body, argument);
}
