/* Does to files what its tape says, a step a line. F and G are names of one letter, B is a byte, N and AT are numbers.
   new F: it is made, or emptied; add F N B: N times B at its end; put F AT N B: the same at a place; name F G: a renaming;
   gone F: a removal; sync; say B: B on the terminal. */
#include "calls.h"

static char tape[4096], bytes[MOST_BYTES], *at = tape;

/* The next word; none at the end of the tape. */
static char *word(void)
{
    char *begin;
    while (*at == ' ' || *at == '\n')
        at++;
    for (begin = at; *at > ' '; at++)
        ;
    if (*at)
        *at++ = 0;
    return begin;
}

static int number(void)
{
    const char *digits = word();
    int n = 0;
    while (*digits)
        n = n * 10 + *digits++ - '0';
    return n;
}

static void write_bytes(int file, int n)
{
    char byte = *word();
    for (int i = 0; i < n; i++)
        bytes[i] = byte;
    sys_write(file, bytes, n);
    sys_close(file);
}

/* Opens a file to be written at its end. */
static int open_end(const char *name)
{
    int file = sys_open(name, READ_FILE), length = 0, n;
    while ((n = sys_read(file, bytes, MOST_BYTES)) > 0)
        length += n;
    sys_close(file);
    file = sys_open(name, WRITE_FILE);
    sys_seek(file, length);
    return file;
}

int main(void)
{
    int n, used = 0;
    while (used + MOST_BYTES < (int)sizeof tape && (n = sys_read(0, tape + used, MOST_BYTES)) > 0)
        used += n;
    for (char *step = word(); *step; step = word()) {
        const char *name = *step == 's' && step[1] == 'y' ? "" : word();
        if (*step == 'a') {
            n = number();
            write_bytes(open_end(name), n);
        } else if (*step == 'p') {
            int file = sys_open(name, WRITE_FILE);
            sys_seek(file, number());
            n = number();
            write_bytes(file, n);
        } else if (*step == 'n' && step[1] == 'e') {
            sys_close(sys_open(name, NEW_FILE));
        } else if (*step == 'n') {
            sys_rename(name, word());
        } else if (*step == 'g') {
            sys_unlink(name);
        } else if (*step == 's' && step[1] == 'a') {
            sys_write(1, name, 1);
        } else {
            sys_sync();
        }
    }
    return 0;
}
