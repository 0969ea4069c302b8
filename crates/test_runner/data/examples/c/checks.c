/* The recovery of wal.c, and its check, also for rename.c. It applies the log's record, if that is whole. Then each value has to be
   whole, and no older than what its tape says was answered. It ends with 0, or says what is wrong and ends with 1.
   Planted mistakes: -DNO_LENGTH and -DNO_SUM (the length or the sum of the record is not looked at). */
#include "wal.h"

static char answers[1024], told[KEYS];

/* Reads up to n bytes, at most 1,024, from a place on. */
static int read_at(const char *name, int at, void *bytes, int n)
{
    int file = sys_open(name, READ_FILE);
    if (file < 0)
        return -1;
    sys_seek(file, at);
    n = sys_read(file, bytes, n);
    sys_close(file);
    return n;
}

/* Reads the log, and says whether its record is whole. */
static int is_logged(void)
{
    int head = read_at("log", 0, &record, HEAD), length = read_at("log", HEAD, record.value, VALUE);
    if (head < 0)
        return 0;
#ifndef NO_LENGTH
    if (head < HEAD || record.length != VALUE || length != VALUE)
        return 0;
#endif
#ifndef NO_SUM
    if (record.sum != sum_of_record())
        return 0;
#endif
    return record.key >= 0 && record.key < KEYS;
}

static void fail(const char *why)
{
    sys_write(1, why, length_of(why));
    sys_exit(1);
}

/* Checks the value of a key: nothing, or only zeros, where none was answered; or whole, and not older. */
static void check(int key)
{
    int n = read_at("db", key * VALUE, record.value, VALUE), i;
    if (n <= 0 && told[key])
        fail("lost\n");
    if (n <= 0)
        return;
    if (n < VALUE)
        fail("short\n");
    for (i = 1; i < VALUE; i++)
        if (record.value[i] != record.value[0])
            fail("torn\n");
    if (record.value[0] < told[key])
        fail("old\n");
}

int main(void)
{
    int n = sys_read(0, answers, sizeof answers), i;
    for (i = 0; i + 7 <= n; i += 7)
        told[answers[i + 3] - '0'] = answers[i + 5];
    if (is_logged()) {
        apply();
        sys_sync();
    }
    for (i = 0; i < KEYS; i++)
        check(i);
    return 0;
}
