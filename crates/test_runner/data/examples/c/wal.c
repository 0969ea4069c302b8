/* Sets three values by a write-ahead log. The record is on the disk before the value is changed in place, and the value before the next
   record takes the log. What it answers is true after any crash, also where a disk keeps no order but that of sync.
   Planted mistakes: -DNO_LOG, -DEARLY (the log is emptied too early). checks.c is its recovery. */
#include "wal.h"

static void write_log(void)
{
    int file = sys_open("log", NEW_FILE);
    record.length = VALUE;
    record.sum = sum_of_record();
    sys_write(file, &record, HEAD);
    sys_write(file, record.value, VALUE);
    sys_close(file);
}

static void set(int key, char byte)
{
    char answer[] = "ok 0 A\n";
    int i;
    record.key = key;
    for (i = 0; i < VALUE; i++)
        record.value[i] = byte;
#ifndef NO_LOG
    write_log();
    sys_sync();
#endif
    apply();
#ifdef EARLY
    sys_close(sys_open("log", NEW_FILE));
#endif
    sys_sync();
    answer[3] = '0' + key;
    answer[5] = byte;
    sys_write(1, answer, 7);
}

int main(void)
{
    set(0, 'A');
    set(1, 'B');
    set(0, 'C');
    return 0;
}
