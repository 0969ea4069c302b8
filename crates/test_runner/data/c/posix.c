/* What posix.c of examples/c does: a line for each call, as on Linux. builds.sh compares the two. */
#define _DEFAULT_SOURCE
#include <errno.h>
#include <fcntl.h>
#include <stdio.h>
#include <stdlib.h>
#include <string.h>
#include <sys/mman.h>
#include <sys/stat.h>
#include <sys/time.h>
#include <sys/uio.h>
#include <sys/wait.h>
#include <unistd.h>

static const char *name_of(int error)
{
    switch (error) {
    case 0: return "";
    case EACCES: return " EACCES";
    case EBADF: return " EBADF";
    case ECHILD: return " ECHILD";
    case EEXIST: return " EEXIST";
    case EINVAL: return " EINVAL";
    case EISDIR: return " EISDIR";
    case ENODEV: return " ENODEV";
    case ENOENT: return " ENOENT";
    case ENOTTY: return " ENOTTY";
    case ESPIPE: return " ESPIPE";
    default: return " another";
    }
}

/* A result, and the error if there was one. */
static void say(const char *what, long result)
{
    printf("%s: %ld%s\n", what, result, name_of(errno));
    errno = 0;
}

static char bytes[4000];

/* The first bytes of a file, and its length. */
static void show(const char *name)
{
    int file = open(name, O_RDONLY);
    long n = read(file, bytes, sizeof bytes), i;
    printf("%s has %ld bytes: ", name, n);
    for (i = 0; i < n && i < 24; i++)
        putchar(bytes[i] < ' ' ? '.' : bytes[i]);
    putchar('\n');
    close(file);
    errno = 0;
}

static void try_open(void)
{
    int file = open("f", O_RDWR | O_CREAT | O_EXCL, 0600), other;
    say("a new file", file);
    say("again", open("f", O_RDWR | O_CREAT | O_EXCL, 0600));
    say("no such file", open("none", O_RDWR));
    say("no such folder", open("none/f", O_RDWR | O_CREAT, 0600));
    say("a folder to write", open(".", O_WRONLY));
    say("by another path", other = open("./f", O_WRONLY));
    say("write", write(other, "some words", 10));
    say("read of one to write", read(other, bytes, 1));
    say("read", read(file, bytes, 4));
    say("read on", read(file, bytes, sizeof bytes));
    say("at the end", read(file, bytes, sizeof bytes));
    say("write there", write(file, ", more", 6));
    say("place", lseek(file, 0, SEEK_CUR));
    say("end", lseek(file, 0, SEEK_END));
    say("before", lseek(file, -6, SEEK_CUR));
    say("before the file", lseek(file, -60, SEEK_CUR));
    say("read", read(file, bytes, 6));
    say("by no such rule", lseek(file, 0, 77));
    say("close", close(other));
    say("again", close(other));
    say("no descriptor", write(other, "x", 1));
    show("f");
    say("to read", other = open("f", O_RDONLY));
    say("write of one to read", write(other, "x", 1));
    close(other);
    say("emptied", other = open("f", O_WRONLY | O_TRUNC));
    say("read past its end", read(file, bytes, 6));
    say("all bytes", write(other, memset(bytes, 'b', 3000), 3000));
    say("all bytes", pread(file, bytes, sizeof bytes, 0));
    close(other);
    close(file);
    say("access", access("f", F_OK));
    say("none", access("none", R_OK));
}

static void try_places(void)
{
    int file = open("p", O_RDWR | O_CREAT, 0600), ends[2];
    struct iovec parts[3] = {{"one", 3}, {"", 0}, {" two", 4}};
    say("pwrite past the end", pwrite(file, "end", 3, 8));
    say("pwrite", pwrite(file, "begin", 5, 0));
    show("p");
    say("place", lseek(file, 0, SEEK_CUR));
    say("writev", writev(file, parts, 3));
    show("p");
    say("pread", pread(file, bytes, 100, 4));
    say("past the end", pread(file, bytes, 100, 40));
    lseek(file, 0, SEEK_SET);
    parts[0].iov_base = bytes, parts[2].iov_base = bytes + 100, parts[2].iov_len = 100;
    say("readv", readv(file, parts, 3));
    say("its last part", memcmp(bytes + 100, " two", 4));
    close(file);
    say("pipe", pipe(ends));
    say("a place in it", lseek(ends[0], 0, SEEK_CUR));
    say("pread of it", pread(ends[0], bytes, 1, 0));
    say("write", write(ends[1], bytes, 3000));
    say("read", read(ends[0], bytes, 4000) > 0);
    say("write of the end to read", write(ends[0], bytes, 1));
    close(ends[0]);
    close(ends[1]);
}

static void try_append(void)
{
    int first = open("a", O_WRONLY | O_CREAT | O_APPEND, 0600), second = open("a", O_RDWR | O_APPEND), status;
    write(first, "one ", 4);
    write(second, "two ", 4);
    write(first, "three ", 6);
    show("a");
    close(open("a", O_WRONLY | O_TRUNC));
    write(second, "4 ", 2);
    write(first, "5 ", 2);
    fflush(stdout);
    if (fork() == 0) {
        write(first, "child ", 6);
        _exit(7);
    }
    say("wait", wait(&status) > 0);
    say("status", WIFEXITED(status) ? WEXITSTATUS(status) : -1);
    write(second, "parent ", 7);
    show("a");
    close(first);
    close(second);
    say("no child", wait(&status));
}

static void try_streams(void)
{
    FILE *file = fopen("s", "w+");
    int place;
    fputs("first\nsecond\n", file);
    rewind(file);
    say("w+", fgets(bytes, 80, file) ? (int)strlen(bytes) : -1);
    fclose(file);
    file = fopen("s", "r+");
    fputs("FIRST", file);
    fseek(file, 0, SEEK_END);
    place = ftell(file);
    fclose(file);
    say("r+", place);
    file = fopen("s", "a+");
    fputs("third\n", file);
    fflush(file);
    rewind(file);
    say("a+", fread(bytes, 1, 80, file));
    fclose(file);
    show("s");
    file = tmpfile();
    fputs("gone", file);
    rewind(file);
    errno = 0;
    say("tmpfile", fread(bytes, 1, 80, file));
    fclose(file);
    errno = 0;
}

static void try_stat(void)
{
    struct stat found, other;
    int file = open("s", O_RDWR), folder = open(".", O_RDONLY);
    say("fstat", fstat(file, &found));
    say("its length", found.st_size);
    say("a file", S_ISREG(found.st_mode) != 0);
    say("stat", stat("s", &other));
    say("the same", found.st_ino == other.st_ino && found.st_dev == other.st_dev);
    say("stat", stat("p", &other));
    say("another", found.st_ino != other.st_ino);
    say("none", stat("none", &found));
    say("of a folder", fstat(folder, &found));
    say("a folder", S_ISDIR(found.st_mode) != 0);
    say("read of it", read(folder, bytes, 1));
    say("fsync of it", fsync(folder));
    say("fdatasync", fdatasync(file));
    say("of no descriptor", fsync(77));
    say("isatty", isatty(file));
    say("of no descriptor", isatty(77));
    say("shorter", ftruncate(file, 5));
    show("s");
    say("longer", ftruncate(file, 2000));
    say("its end", lseek(file, 0, SEEK_END));
    say("truncate", truncate("s", 0));
    say("its end", lseek(file, 0, SEEK_END));
    say("below 0", ftruncate(file, -1));
    say("of one to read", ftruncate(folder, 0));
    close(file);
    close(folder);
}

static void try_dup(void)
{
    int file = open("p", O_RDWR), other = dup(file), third;
    say("dup", other - file);
    say("read", read(file, bytes, 3));
    say("place of the other", lseek(other, 0, SEEK_CUR));
    say("dup2", dup2(file, 9));
    close(file);
    say("read", read(9, bytes, 3));
    say("place of the other", lseek(other, 0, SEEK_CUR));
    say("F_DUPFD", third = fcntl(other, F_DUPFD, 5));
    say("F_GETFL", fcntl(third, F_GETFL) & O_ACCMODE);
    say("of none", dup(77));
    close(9);
    close(other);
    say("the last", read(third, bytes, 1));
    close(third);
    say("closed", read(third, bytes, 1));
}

static void try_names(void)
{
    int file = open("p", O_RDWR), other;
    say("rename", rename("p", "q"));
    say("write", pwrite(file, "END", 3, 8));
    say("shorter", ftruncate(file, 11));
    say("its old name", access("p", F_OK));
    show("q");
    close(file);
    other = open("over", O_WRONLY | O_CREAT, 0600);
    close(other);
    say("over another", rename("q", "over"));
    show("over");
    say("no such file", rename("q", "r"));
    say("to itself", rename("over", "over"));
    say("unlink", unlink("over"));
    say("again", unlink("over"));
}

static void try_maps(void)
{
    int file = open("m", O_RDWR | O_CREAT, 0600), reader;
    char *map, *other;
    memset(bytes, 'm', 1500);
    write(file, bytes, 1500);
    map = mmap(NULL, 4096, PROT_READ | PROT_WRITE, MAP_SHARED, file, 0);
    say("mapped", map != MAP_FAILED && map[1499] == 'm' && map[1500] == 0);
    say("write", pwrite(file, "seen", 4, 600));
    say("in the map", memcmp(map + 600, "seen", 4));
    reader = open("m", O_RDONLY);
    other = mmap(NULL, 4096, PROT_READ, MAP_SHARED, reader, 0);
    say("to be written", mmap(NULL, 4096, PROT_READ | PROT_WRITE, MAP_SHARED, reader, 0) == MAP_FAILED);
    close(reader);
    close(file);
    memcpy(map + 510, "stored", 6);
    map[1600] = 'x';
    say("msync", msync(map, 4096, MS_SYNC));
    say("in the other", memcmp(other + 510, "stored", 6));
    say("munmap", munmap(map, 4096));
    say("munmap", munmap(other, 4096));
    file = open("m", O_RDWR);
    say("in the file", pread(file, bytes, sizeof bytes, 0));
    say("its bytes", memcmp(bytes + 510, "stored", 6) || memcmp(bytes + 600, "seen", 4) || bytes[509] != 'm' || bytes[516] != 'm');
    map = mmap(NULL, 1500, PROT_READ | PROT_WRITE, MAP_PRIVATE, file, 0);
    map[0] = 'X';
    say("munmap", munmap(map, 1500));
    say("a private copy", pread(file, bytes, 1, 0) == 1 && bytes[0] == 'm');
    say("at no page", mmap(NULL, 100, PROT_READ, MAP_SHARED, file, 7) == MAP_FAILED);
    say("of nothing", mmap(NULL, 0, PROT_READ, MAP_SHARED, file, 0) == MAP_FAILED);
    say("of no file", mmap(NULL, 100, PROT_READ, MAP_SHARED, 77, 0) == MAP_FAILED);
    map = mmap(NULL, 8192, PROT_READ | PROT_WRITE, MAP_PRIVATE | MAP_ANONYMOUS, -1, 0);
    say("of memory", map != MAP_FAILED && map[8191] == 0);
    say("munmap", munmap(map, 8192));
    close(file);
}

int main(void)
{
    struct timeval before, after;
    try_open();
    try_places();
    try_append();
    try_streams();
    try_stat();
    try_dup();
    try_names();
    try_maps();
    gettimeofday(&before, NULL);
    gettimeofday(&after, NULL);
    say("time goes on", after.tv_sec >= before.tv_sec);
    say("a page", sysconf(_SC_PAGESIZE));
    return 0;
}
