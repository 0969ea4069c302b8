/* The calls of POSIX over the kernel's: descriptors, files, maps of files, processes, and time. A comment says only what differs from
   POSIX. docs/ABI.md has what cannot be had, and why. */
#define _DEFAULT_SOURCE
#include <errno.h>
#include <fcntl.h>
#include <malloc.h>
#include <signal.h>
#include <stdarg.h>
#include <stdio.h>
#include <stdlib.h>
#include <string.h>
#include <sys/stat.h>
#include <sys/time.h>
#include <sys/times.h>
#include <unistd.h>
#include "calls.h"
#include "posix/sys/mman.h"
#include "posix/sys/uio.h"

/* A program may have its own function of such a name. */
#define WEAK __attribute__((weak))

/* What sysconf says of a page. A library that works in pages fits more of them into a file if they are smaller. */
#ifndef PAGE_BYTES
#define PAGE_BYTES 4096
#endif

enum { DESCRIPTORS = 16, MAPS = 8, SECTOR = 512, LONGEST_FILE = 16384, NONE = -1 };

/* An open file. Several descriptors stand for it after dup, and its maps do. */
struct file {
    int users;             /* how many these are; 0 if there is no such file */
    int reader, writer;    /* descriptors of the kernel, or NONE. A file that is written has both: its end is found by reading */
    mode_t mode;           /* as fstat has it */
    int flags;             /* as open had them */
    int place;             /* where it is read or written next */
    int end;               /* where it ended when that was last looked up */
    int maker;             /* the process that made this tmpfile, or 0 */
    char name[LONGEST_NAME + 1];
};

static struct file closed = {.reader = NONE, .writer = NONE};
static struct file tape = {.users = 1, .reader = 0, .writer = NONE, .mode = S_IFIFO};
static struct file terminal = {.users = 2, .reader = NONE, .writer = 1, .mode = S_IFCHR, .flags = O_WRONLY};
static struct file files[DESCRIPTORS + MAPS];

/* What each descriptor stands for, and the stream that fopen made of it. */
static struct file *open_files[DESCRIPTORS] = {&tape, &terminal, &terminal};
static FILE *streams[DESCRIPTORS];

/* What mmap gave. Without a file: memory alone, or a private copy of a file. */
static struct map {
    char *at;
    int length, offset;
    struct file *file;
    int is_written;   /* what is stored there goes to the file */
} maps[MAPS];

/* A negative reply of the kernel is an errno. */
static int answer(int reply)
{
    if (reply >= 0)
        return reply;
    errno = -reply;
    return -1;
}

static struct file *file_of(int descriptor)
{
    return descriptor >= 0 && descriptor < DESCRIPTORS && open_files[descriptor] ? open_files[descriptor] : &closed;
}

static int least(size_t n, int most)
{
    return n < (size_t)most ? (int)n : most;
}

/* There is one directory, the root, and it is the current one. */
static const char *name_of(const char *path)
{
    while (*path == '/' || (*path == '.' && (path[1] == '/' || !path[1])))
        path++;
    return path;
}

/* No name that the kernel takes has a slash, or over 32 bytes. */
static int name_error(const char *name)
{
    return strlen(name) > LONGEST_NAME ? -ENAMETOOLONG : strchr(name, '/') || !*name ? -ENOENT : 0;
}

static int open_by_kernel(const char *name, int mode)
{
    int error = name_error(name);
    return error ? error : sys_open(name, mode);
}

static void close_by_kernel(int descriptor)
{
    if (descriptor != NONE)
        sys_close(descriptor);
}

/* The end of a file, of which only what lies past the last known one is read. */
static int end_of(struct file *file)
{
    static char bytes[MOST_BYTES];
    int n = sys_seek(file->reader, file->end > 0 ? file->end - 1 : 0);
    if (n < 0)
        return n;
    if (file->end > 0 && sys_read(file->reader, bytes, 1) < 1) {
        sys_seek(file->reader, 0);   /* it was emptied meanwhile */
        file->end = 0;
    }
    while ((n = sys_read(file->reader, bytes, sizeof bytes)) > 0)
        file->end += n;
    return n < 0 ? n : file->end;
}

/* Of a file all n bytes are read, up to its end; of a tape or a pipe those that one call gives. */
static int read_at(struct file *file, char *bytes, size_t n, int place)
{
    int is_file = S_ISREG(file->mode), done = 0, reply = is_file ? sys_seek(file->reader, place) : 0;
    if (reply < 0)
        return reply;
    do {
        reply = sys_read(file->reader, bytes + done, least(n - done, MOST_BYTES));
        done += reply > 0 ? reply : 0;
    } while (is_file && reply > 0 && (size_t)done < n);
    return done > 0 ? done : reply;
}

static int is_same(const struct file *file, const struct file *other)
{
    return file == other || (other && *file->name && !strcmp(file->name, other->name));
}

/* Maps of a file have what is written to it. */
static void show_in_maps(const struct file *file, const char *bytes, int n, int place)
{
    struct map *map;
    for (map = maps; map < maps + MAPS; map++) {
        int from = place > map->offset ? place : map->offset;
        int to = place + n < map->offset + map->length ? place + n : map->offset + map->length;
        if (map->at && is_same(file, map->file) && from < to)
            memmove(map->at + from - map->offset, bytes + from - place, to - from);
    }
}

/* Writes all n bytes: as one change of a file for each 1,024 of them. */
static int write_at(struct file *file, const char *bytes, size_t n, int place)
{
    int done = 0, reply = S_ISREG(file->mode) ? sys_seek(file->writer, place) : 0;
    if (reply < 0)
        return reply;
    do {
        reply = sys_write(file->writer, bytes + done, least(n - done, MOST_BYTES));
        done += reply > 0 ? reply : 0;
    } while (reply > 0 && (size_t)done < n);
    if (S_ISREG(file->mode))
        show_in_maps(file, bytes, done, place);
    if (file->flags & O_SYNC && done > 0)
        sys_sync();
    return done > 0 ? done : reply;
}

/* ---- descriptors */

/* The least free descriptor from one on stands for a file, which has one user more. */
static int stand_for(struct file *file, int descriptor)
{
    while (descriptor < DESCRIPTORS && open_files[descriptor])
        descriptor++;
    if (descriptor >= DESCRIPTORS)
        return -EMFILE;
    file->users++;
    open_files[descriptor] = file;
    return descriptor;
}

static void leave(struct file *file)
{
    if (--file->users > 0)
        return;
    close_by_kernel(file->reader);
    close_by_kernel(file->writer);
    if (file->maker && file->maker == sys_getpid())
        sys_unlink(file->name);   /* without a name nobody could read it, so it had one until now */
}

/* A descriptor of an open file. If none is free, the kernel's are closed. */
static int new_file(int reader, int writer, mode_t mode, int flags, const char *name)
{
    struct file *file = files;
    int descriptor;
    while (file->users)
        file++;
    *file = (struct file){.reader = reader, .writer = writer, .mode = mode, .flags = flags};
    strcpy(file->name, name);
    descriptor = stand_for(file, 0);
    if (descriptor < 0) {
        file->users = 1;
        leave(file);
    }
    return descriptor;
}

/* A file that is written takes two descriptors of the kernel, of which there are 14. O_EXCL is no lock: between its test and the making
   another process may make the file. */
WEAK int open(const char *path, int flags, ...)
{
    const char *name = name_of(path);
    int writes = (flags & O_ACCMODE) != O_RDONLY, reader, writer = NONE, is_new;
    if (!*name)
        return answer(writes ? -EISDIR : new_file(NONE, NONE, S_IFDIR, flags, ""));
    reader = open_by_kernel(name, READ_FILE);
    is_new = reader == -ENOENT && flags & O_CREAT && !name_error(name);
    if (reader >= 0 && flags & O_CREAT && flags & O_EXCL) {
        sys_close(reader);
        return answer(-EEXIST);
    }
    if (is_new || (reader >= 0 && (writes || flags & O_TRUNC))) {
        writer = sys_open(name, is_new || flags & O_TRUNC ? NEW_FILE : WRITE_FILE);
        if (writer < 0) {
            close_by_kernel(is_new ? NONE : reader);
            return answer(writer);
        }
        if (is_new)
            reader = sys_open(name, READ_FILE);
    }
    if (reader < 0 || !writes) {
        close_by_kernel(writer);
        writer = NONE;
    }
    return answer(reader < 0 ? reader : new_file(reader, writer, S_IFREG, flags, name));
}

WEAK int close(int descriptor)
{
    struct file *file = file_of(descriptor);
    if (!file->users)
        return answer(-EBADF);
    open_files[descriptor] = NULL;
    streams[descriptor] = NULL;
    leave(file);
    return 0;
}

/* In the process alone: after a fork each has a place of its own, and a program that exec starts knows 0, 1 and 2. */
WEAK int fcntl(int descriptor, int command, ...)
{
    struct file *file = file_of(descriptor);
    va_list words;
    int word;
    if (!file->users)
        return answer(-EBADF);
    va_start(words, command);
    word = command == F_DUPFD || command == F_SETFL ? va_arg(words, int) : 0;
    va_end(words);
    switch (command) {
    case F_DUPFD:
        return answer(word < 0 || word >= DESCRIPTORS ? -EINVAL : stand_for(file, word));
    case F_GETFL:
        return file->flags & (O_ACCMODE | O_APPEND | O_SYNC);
    case F_SETFL:
        file->flags = (file->flags & ~O_APPEND) | (word & O_APPEND);
        return 0;
    case F_GETFD:
    case F_SETFD:
        return 0;
    default:
        return answer(-EINVAL);   /* locks too: there are none */
    }
}

WEAK int dup(int descriptor)
{
    struct file *file = file_of(descriptor);
    return answer(file->users ? stand_for(file, 0) : -EBADF);
}

/* The streams stdin, stdout and stderr stay with the tape and the terminal. */
WEAK int dup2(int descriptor, int other)
{
    struct file *file = file_of(descriptor);
    if (!file->users || other < 0 || other >= DESCRIPTORS)
        return answer(-EBADF);
    if (descriptor != other) {
        if (open_files[other])
            close(other);
        stand_for(file, other);
    }
    return other;
}

WEAK int pipe(int ends[2])
{
    int own[2], reply = sys_pipe(own);
    if (reply < 0)
        return answer(reply);
    ends[0] = new_file(own[0], NONE, S_IFIFO, O_RDONLY, "");
    ends[1] = ends[0] < 0 ? ends[0] : new_file(NONE, own[1], S_IFIFO, O_WRONLY, "");
    if (ends[0] < 0)
        sys_close(own[1]);
    else if (ends[1] < 0)
        close(ends[0]);
    return answer(ends[1] < 0 ? ends[1] : 0);
}

WEAK int isatty(int descriptor)
{
    struct file *file = file_of(descriptor);
    if (S_ISCHR(file->mode))
        return 1;
    errno = file->users ? ENOTTY : EBADF;
    return 0;
}

/* ---- reads and writes */

static int read_file(struct file *file, void *bytes, size_t n, int place)
{
    return file->flags & O_WRONLY ? -EBADF : S_ISDIR(file->mode) ? -EISDIR : read_at(file, bytes, n, place);
}

WEAK ssize_t read(int descriptor, void *bytes, size_t n)
{
    struct file *file = file_of(descriptor);
    int reply = read_file(file, bytes, n, file->place);
    file->place += reply > 0 ? reply : 0;
    return answer(reply);
}

/* O_APPEND finds the end, and then writes: if another process appends between the two, bytes are lost. */
WEAK ssize_t write(int descriptor, const void *bytes, size_t n)
{
    struct file *file = file_of(descriptor);
    int place = file->flags & O_APPEND && S_ISREG(file->mode) ? end_of(file) : file->place;
    int reply = place < 0 ? place : write_at(file, bytes, n, place);
    if (reply > 0)
        file->place = place + reply;
    return answer(reply);
}

static int is_pipe(const struct file *file)
{
    return S_ISFIFO(file->mode) || S_ISCHR(file->mode);
}

WEAK ssize_t pread(int descriptor, void *bytes, size_t n, off_t place)
{
    struct file *file = file_of(descriptor);
    return answer(is_pipe(file) ? -ESPIPE : read_file(file, bytes, n, place));
}

WEAK ssize_t pwrite(int descriptor, const void *bytes, size_t n, off_t place)
{
    struct file *file = file_of(descriptor);
    return answer(is_pipe(file) ? -ESPIPE : write_at(file, bytes, n, place));
}

/* The parts one after the other, up to the first that is not whole. */
static ssize_t each_part(int descriptor, const struct iovec *parts, int count, int is_write)
{
    ssize_t done = 0, n = 0;
    int i;
    for (i = 0; i < count && (i == 0 || n == (ssize_t)parts[i - 1].iov_len); i++) {
        n = is_write ? write(descriptor, parts[i].iov_base, parts[i].iov_len) : read(descriptor, parts[i].iov_base, parts[i].iov_len);
        done += n > 0 ? n : 0;
    }
    return done > 0 ? done : n;
}

WEAK ssize_t readv(int descriptor, const struct iovec *parts, int count)
{
    return each_part(descriptor, parts, count, 0);
}

WEAK ssize_t writev(int descriptor, const struct iovec *parts, int count)
{
    return each_part(descriptor, parts, count, 1);
}

/* A place is at most 16,384. */
WEAK off_t lseek(int descriptor, off_t offset, int whence)
{
    struct file *file = file_of(descriptor);
    int from = whence == SEEK_CUR ? file->place : 0, reply;
    if (!S_ISREG(file->mode))
        return answer(file->users ? -ESPIPE : -EBADF);
    if (whence == SEEK_END)
        from = end_of(file);
    reply = from < 0 ? from : whence < 0 || whence > SEEK_END ? -EINVAL : sys_seek(file->reader, from + offset);
    if (reply >= 0)
        file->place = reply;
    return answer(reply);
}

/* ---- files */

/* Writes the sectors of a map that differ from those of its file, up to the file's end. */
static int write_map(struct map *map)
{
    char sector[SECTOR];
    int end = end_of(map->file), at, reply = end < 0 ? end : 0;
    for (at = 0; reply >= 0 && at < map->length && map->offset + at < end; at += SECTOR) {
        int n = read_at(map->file, sector, least(map->length - at, SECTOR), map->offset + at);
        if (n > 0 && memcmp(sector, map->at + at, n))
            reply = write_at(map->file, map->at + at, n, map->offset + at);
    }
    return reply < 0 ? reply : 0;
}

static int write_maps(const struct file *file)
{
    struct map *map;
    int reply = 0;
    for (map = maps; map < maps + MAPS && reply >= 0; map++)
        if (map->at && map->is_written && (!file || is_same(file, map->file)))
            reply = write_map(map);
    return reply;
}

/* Of all files, and of their names. */
WEAK void sync(void)
{
    write_maps(NULL);
    sys_sync();
}

/* The kernel's sync: of all files, too. */
WEAK int fsync(int descriptor)
{
    struct file *file = file_of(descriptor);
    int reply = file->users ? write_maps(file) : -EBADF;
    return answer(reply < 0 ? reply : sys_sync());
}

WEAK int fdatasync(int descriptor)
{
    return fsync(descriptor);
}

/* A number of a file, by its name; a renaming changes it. */
static ino_t number_of(const char *name)
{
    unsigned number = 5381;
    while (*name)
        number = number * 33 + (unsigned char)*name++;
    return (ino_t)(number | 1);
}

WEAK int fstat(int descriptor, struct stat *found)
{
    struct file *file = file_of(descriptor);
    int end = S_ISREG(file->mode) ? end_of(file) : 0;
    if (!file->users || end < 0)
        return answer(end < 0 ? end : -EBADF);
    memset(found, 0, sizeof *found);
    found->st_mode = file->mode | (S_ISDIR(file->mode) ? 0755 : 0644);
    found->st_ino = number_of(file->name);
    found->st_nlink = 1;
    found->st_size = end;
    found->st_blksize = SECTOR;
    found->st_blocks = (end + SECTOR - 1) / SECTOR;
    return 0;
}

WEAK int stat(const char *path, struct stat *found)
{
    int descriptor = open(path, O_RDONLY), reply = descriptor < 0 ? -1 : fstat(descriptor, found);
    if (descriptor >= 0)
        close(descriptor);
    return reply;
}

WEAK int lstat(const char *path, struct stat *found)
{
    return stat(path, found);
}

/* Whether it is there: there are no permissions. */
WEAK int access(const char *path, int mode)
{
    struct stat found;
    (void)mode;
    return stat(path, &found);
}

/* There are no permissions to change. */
WEAK mode_t umask(mode_t mode)
{
    (void)mode;
    return 0;
}

WEAK int fchmod(int descriptor, mode_t mode)
{
    (void)mode;
    return answer(file_of(descriptor)->users ? 0 : -EBADF);
}

WEAK int chmod(const char *path, mode_t mode)
{
    return access(path, (int)mode);
}

/* A file becomes shorter by being emptied, and written anew up to the length: a crash may leave less of it than on Linux. To 0, and to
   more, is one change. */
WEAK int ftruncate(int descriptor, off_t length)
{
    static char kept[LONGEST_FILE];
    struct file *file = file_of(descriptor);
    int end = file->writer == NONE || !S_ISREG(file->mode) ? -EINVAL : end_of(file), reply = 0;
    if (end < 0)
        return answer(end);
    if (length < 0 || length > LONGEST_FILE)
        return answer(length < 0 ? -EINVAL : -EFBIG);
    if (length > end)
        reply = write_at(file, "", 1, length - 1);
    if (length < end) {
        read_at(file, kept, length, 0);
        reply = sys_open(file->name, NEW_FILE);
        close_by_kernel(reply < 0 ? NONE : reply);
        if (reply >= 0 && length > 0)
            reply = write_at(file, kept, length, 0);
    }
    return answer(reply < 0 ? reply : 0);
}

WEAK int truncate(const char *path, off_t length)
{
    int descriptor = open(path, O_WRONLY), reply = descriptor < 0 ? -1 : ftruncate(descriptor, length);
    if (descriptor >= 0)
        close(descriptor);
    return reply;
}

static void rename_open(const char *from, const char *to)
{
    struct file *file;
    for (file = files; file < files + DESCRIPTORS + MAPS; file++)
        if (file->users && !strcmp(file->name, from))
            strcpy(file->name, to);
}

/* A file that is open can then no longer be read or written. */
WEAK int unlink(const char *path)
{
    const char *name = name_of(path);
    int error = name_error(name);
    error = error ? error : sys_unlink(name);
    if (!error)
        rename_open(name, "");
    return answer(error);
}

/* The same holds of the file that had the new name. */
WEAK int rename(const char *from, const char *to)
{
    int error = name_error(from = name_of(from));
    error = error ? error : name_error(to = name_of(to));
    error = error ? error : sys_rename(from, to);
    if (!error && strcmp(from, to)) {
        rename_open(to, "");
        rename_open(from, to);
    }
    return answer(error);
}

WEAK FILE *tmpfile(void)
{
    char name[] = "TXXXXXX";
    int descriptor = mkstemp(name);
    if (descriptor < 0)
        return NULL;
    file_of(descriptor)->maker = sys_getpid();
    return fdopen(descriptor, "w+");
}

/* By --wrap fopen makes a stream here. What is held back of it is written at exit, as C has it. */
FILE *__real_fdopen(int descriptor, const char *mode);
FILE *__wrap_fdopen(int descriptor, const char *mode)
{
    FILE *stream = __real_fdopen(descriptor, mode);
    if (stream)
        streams[descriptor] = stream;
    return stream;
}

__attribute__((destructor(101))) static void end_files(void)
{
    int descriptor;
    for (descriptor = 0; descriptor < DESCRIPTORS; descriptor++) {
        if (streams[descriptor])
            fflush(streams[descriptor]);
        if (file_of(descriptor)->maker)
            close(descriptor);
    }
    write_maps(NULL);
}

/* ---- maps */

/* A copy of the file: a store is seen by reads of the file, and by other processes, after msync, fsync, munmap or exit. What this process
   writes to the file is seen in the map. */
WEAK void *mmap(void *at, size_t length, int protection, int flags, int descriptor, off_t offset)
{
    struct file *file = flags & MAP_ANONYMOUS ? NULL : file_of(descriptor);
    struct map *map = maps;
    int is_shared = file && flags & MAP_SHARED, is_written = is_shared && protection & PROT_WRITE, error = 0;
    (void)at;
    while (map < maps + MAPS && map->at)
        map++;
    if (length == 0 || flags & MAP_FIXED || offset % PAGE_BYTES != 0)
        error = -EINVAL;
    else if (file && !S_ISREG(file->mode))
        error = file->users ? -ENODEV : -EBADF;
    else if (file && (file->flags & O_WRONLY || (is_written && file->writer == NONE)))
        error = -EACCES;
    else if (map == maps + MAPS || !(map->at = memalign(PAGE_BYTES, length)))
        error = -ENOMEM;
    if (error) {
        answer(error);
        return MAP_FAILED;
    }
    memset(map->at, 0, length);
    if (file)
        read_at(file, map->at, length, offset);
    map->length = length;
    map->offset = offset;
    map->is_written = is_written;
    map->file = is_shared ? file : NULL;
    if (is_shared)
        file->users++;
    return map->at;
}

/* Of each map that has one of these bytes all is written. */
WEAK int msync(void *at, size_t length, int flags)
{
    char *from = at;
    struct map *map;
    int reply = -ENOMEM;
    for (map = maps; map < maps + MAPS; map++)
        if (map->at && from < map->at + map->length && map->at < from + length)
            reply = map->is_written ? write_map(map) : 0;
    if (flags & MS_SYNC)
        sys_sync();
    return answer(reply);
}

/* A whole map, not a part of one. */
WEAK int munmap(void *at, size_t length)
{
    struct map *map = maps;
    int reply;
    while (map < maps + MAPS && (!at || map->at != at))
        map++;
    if (map == maps + MAPS || length != (size_t)map->length)
        return answer(-EINVAL);
    reply = map->is_written ? write_map(map) : 0;
    free(map->at);
    map->at = NULL;
    if (map->file)
        leave(map->file);
    return answer(reply);
}

WEAK long sysconf(int name)
{
    return name == _SC_PAGESIZE ? PAGE_BYTES : name == _SC_OPEN_MAX ? DESCRIPTORS : answer(-EINVAL);
}

/* ---- processes and time */

WEAK pid_t getpid(void)
{
    return sys_getpid();
}

WEAK pid_t fork(void)
{
    return answer(sys_fork());
}

/* A trap is a signal, as Linux has it. */
static int status_of(int status)
{
    static const char signals[] = {SIGILL, SIGBUS, SIGBUS, SIGSEGV, SIGSEGV, SIGTRAP};
    return status < 256 ? status << 8 : status <= 262 ? signals[status - 257] : SIGKILL;
}

WEAK pid_t wait(int *status)
{
    int ended, child = sys_wait(&ended);
    if (child >= 0 && status)
        *status = status_of(ended);
    return answer(child);
}

/* There is no clock: each look at the time is a second after the last one, from 1 on. */
WEAK int gettimeofday(struct timeval *now, void *zone)
{
    static int seconds;
    (void)zone;
    now->tv_sec = ++seconds;
    now->tv_usec = 0;
    return 0;
}

/* The same in ticks. */
WEAK clock_t times(struct tms *now)
{
    static clock_t ticks;
    memset(now, 0, sizeof *now);
    return now->tms_utime = ++ticks;
}

/* A signal that a program raises and does not catch ends it; others are not sent. */
WEAK int kill(pid_t process, int signal)
{
    if (process != sys_getpid())
        return answer(-EPERM);
    _exit(128 + signal);
}
