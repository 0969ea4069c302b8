/* Writes eight stars, and has a fault on purpose: fill() goes one past its end. docs/GDB.md finds it by going back. */
#include "calls.h"

static struct { char row[8]; int length; } line = { "", 8 };
struct point { int x, y; };
static struct point origin = { 3, 4 };

static void fill(char *at, int n, char with)
{
    for (int i = 0; i <= n; i++)
        at[i] = with;
}

static int square(int n)
{
    return n * n;
}

int main(void)
{
    int sum = 0;
    for (int i = 0; i < 5; i++)
        sum += square(i);
    origin.x = sum;
    fill(line.row, line.length, '*');
    sys_write(1, line.row, line.length);
    sys_write(1, "\n", 1);
    return sum;
}
