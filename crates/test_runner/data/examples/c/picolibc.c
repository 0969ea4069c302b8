/* What Debian's picolibc leaves to its user: the streams, the end of a program, and room for malloc. posix.c has files and the rest. */
#include <stdio.h>
#include <stdlib.h>
#include <unistd.h>
#include "calls.h"

/* A program may have its own function of such a name. */
#define WEAK __attribute__((weak))

/* Room for malloc, 24 pages if not said otherwise. It is left out where nothing calls malloc. */
#ifndef HEAP_BYTES
#define HEAP_BYTES 98304
#endif
#define TEXT_OF(number) #number
#define HEAP_OF(bytes)                                                                                                       \
    ".pushsection .bss.heap, \"aw\", @nobits\n.balign 16\n.globl __heap_start, __heap_end\n__heap_start: .space " TEXT_OF(bytes) \
    "\n__heap_end:\n.size __heap_start, " TEXT_OF(bytes) "\n.popsection\n"
__asm__(HEAP_OF(HEAP_BYTES));

/* Bytes that were printed and not yet written. */
static char held[MOST_BYTES];
static int count;

static int flush(FILE *stream)
{
    int from = 0;
    (void)stream;
    while (from < count) {
        int n = sys_write(1, held + from, count - from);
        if (n <= 0)
            break;
        from += n;
    }
    count = 0;
    return 0;
}

/* A line is written as soon as it ends, as C has it for a terminal. */
static int put(char byte, FILE *stream)
{
    held[count++] = byte;
    if (byte == '\n' || count == sizeof held)
        flush(stream);
    return (unsigned char)byte;
}

/* Bytes that were read and not yet taken. */
static int get(FILE *stream)
{
    static unsigned char had[MOST_BYTES];
    static int place, end;
    if (place == end) {
        int n;
        flush(stream);   /* a question shows before its answer is waited for */
        n = sys_read(0, had, sizeof had);
        if (n <= 0)
            return n == 0 ? _FDEV_EOF : _FDEV_ERR;
        place = 0;
        end = n;
    }
    return had[place++];
}

static FILE out = FDEV_SETUP_STREAM(put, NULL, flush, _FDEV_SETUP_WRITE);
static FILE in = FDEV_SETUP_STREAM(NULL, get, NULL, _FDEV_SETUP_READ);
FILE *const stdout = &out, *const stderr = &out, *const stdin = &in;

/* A line of a stream. picolibc 1.8's own loses the last one where no line feed ends it. */
WEAK char *fgets(char *line, int size, FILE *stream)
{
    int byte = 0, n = 0;
    while (n + 1 < size && byte != '\n' && (byte = getc(stream)) != EOF)
        line[n++] = (char)byte;
    if (size < 1 || (n == 0 && byte == EOF))
        return NULL;
    line[n] = 0;
    return line;
}

__attribute__((noreturn)) void _exit(int status)
{
    flush(&out);
    sys_exit(status);
}

/* 134 is what a shell shows of a program that aborts. */
__attribute__((noreturn)) void abort(void)
{
    _exit(134);
}
