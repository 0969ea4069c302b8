/* Sets one value three times, each time in a new file that is then renamed. checks.c is its check.
   Planted mistakes: -DNO_SYNC_BEFORE and -DNO_SYNC_AFTER the renaming. */
#include "wal.h"

static void set(char byte)
{
    char answer[] = "ok 0 A\n";
    int file = sys_open("db.new", NEW_FILE), i;
    for (i = 0; i < VALUE; i++)
        record.value[i] = byte;
    sys_write(file, record.value, VALUE);
    sys_close(file);
#ifndef NO_SYNC_BEFORE
    sys_sync();
#endif
    sys_rename("db.new", "db");
#ifndef NO_SYNC_AFTER
    sys_sync();
#endif
    answer[5] = byte;
    sys_write(1, answer, 7);
}

int main(void)
{
    set('A');
    set('B');
    set('C');
    return 0;
}
