/* The calls of the kernel, for C. A negative answer is an error. A name is a text that ends with a 0. */
#ifndef CALLS_H
#define CALLS_H

enum { READ_FILE, WRITE_FILE, NEW_FILE };   /* how sys_open opens: to read, to write, to write anew */

enum { LONGEST_NAME = 32, MOST_BYTES = 1024 };   /* of a name; of one read or write */

/* Other numbers of these three calls may be defined, as Linux has them. Where there is no call of such a number, the one here is made. */
enum { NO_SUCH_CALL = -38 };
#ifndef CALL_EXIT
enum { CALL_EXIT = 1, CALL_WRITE = 2, CALL_READ = 3 };
#endif

/* A call: the number in a7, the arguments in a0 to a2, the reply in a0. */
static __inline__ int call(int number, int first, int second, int third)
{
    register int a0 __asm__("a0") = first;
    register int a1 __asm__("a1") = second;
    register int a2 __asm__("a2") = third;
    register int a7 __asm__("a7") = number;
    __asm__ volatile("ecall" : "+r"(a0) : "r"(a1), "r"(a2), "r"(a7) : "memory");
    return a0;
}

/* How many bytes stand before the first 0. */
static __inline__ int length_of(const char *text)
{
    int n = 0;
    while (text[n])
        n++;
    return n;
}

/* Ends the process with a status, modulo 256. */
static __inline__ __attribute__((noreturn)) void sys_exit(int status)
{
    for (;;) {
        call(CALL_EXIT, status, 0, 0);
        if (CALL_EXIT != 1)
            call(1, status, 0, 0);
    }
}

/* Writes n bytes, at most 1,024; answers how many were written. */
static __inline__ int sys_write(int descriptor, const void *bytes, int n)
{
    int reply = call(CALL_WRITE, descriptor, (int)bytes, n);
    return CALL_WRITE != 2 && reply == NO_SUCH_CALL ? call(2, descriptor, (int)bytes, n) : reply;
}

/* Reads up to n bytes, at most 1,024; answers how many, and 0 at the end. */
static __inline__ int sys_read(int descriptor, void *bytes, int n)
{
    int reply = call(CALL_READ, descriptor, (int)bytes, n);
    return CALL_READ != 3 && reply == NO_SUCH_CALL ? call(3, descriptor, (int)bytes, n) : reply;
}

/* Opens a file; answers its descriptor. */
static __inline__ int sys_open(const char *name, int mode)
{
    return call(4, (int)name, length_of(name), mode);
}

static __inline__ int sys_close(int descriptor)
{
    return call(5, descriptor, 0, 0);
}

/* Makes a pipe: ends[0] is to be read, ends[1] to be written. */
static __inline__ int sys_pipe(int ends[2])
{
    return call(6, (int)ends, 0, 0);
}

/* Answers the child's number, and 0 in the child. */
static __inline__ int sys_fork(void)
{
    return call(7, 0, 0, 0);
}

/* Waits for a child that has ended; answers its number. The status may be left out, by 0. */
static __inline__ int sys_wait(int *status)
{
    return call(8, (int)status, 0, 0);
}

static __inline__ int sys_getpid(void)
{
    return call(9, 0, 0, 0);
}

/* Sets the place at which a file is read or written next. */
static __inline__ int sys_seek(int descriptor, int offset)
{
    return call(10, descriptor, offset, 0);
}

static __inline__ int sys_sync(void)
{
    return call(11, 0, 0, 0);
}

static __inline__ int sys_unlink(const char *name)
{
    return call(12, (int)name, length_of(name), 0);
}

/* Gives the file of the first name the second one, whose file loses it. */
static __inline__ int sys_rename(const char *from, const char *to)
{
    char names[2 * LONGEST_NAME];
    int n = length_of(from), m = length_of(to), i;
    if (n > LONGEST_NAME || m > LONGEST_NAME)
        return call(13, 0, n, m);   /* which refuses such a name */
    for (i = 0; i < n; i++)
        names[i] = from[i];
    for (i = 0; i < m; i++)
        names[n + i] = to[i];
    return call(13, (int)names, n, m);
}

/* Goes on in the program of a file; comes back only with an error. */
static __inline__ int sys_exec(const char *name)
{
    return call(14, (int)name, length_of(name), 0);
}

#endif
