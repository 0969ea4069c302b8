/* A store of values of 1,024 bytes, under the keys 0 to 3, in the file `db`, and its log: one record in the file `log`. */
#include "calls.h"

enum { KEYS = 4, VALUE = 1024, HEAD = 12 };

static struct {
    int key, length, sum;
    char value[VALUE];
} record;

/* A checksum of the record's value. */
static int sum_of_record(void)
{
    int sum = 0, i;
    for (i = 0; i < record.length && i < VALUE; i++)
        sum = sum * 31 + record.value[i];
    return sum;
}

/* Writes the record's value to its place in `db`. */
static void apply(void)
{
    int file = sys_open("db", WRITE_FILE);
    if (file < 0)
        file = sys_open("db", NEW_FILE);
    sys_seek(file, record.key * VALUE);
    sys_write(file, record.value, VALUE);
    sys_close(file);
}
