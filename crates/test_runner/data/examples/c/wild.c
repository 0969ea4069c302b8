/* Writes a line, and then stores through a pointer that nobody has set. */
#include "calls.h"

static int *volatile place;

int main(void)
{
    sys_write(1, "hi\n", 3);
    *place = 1;
    return 0;
}
