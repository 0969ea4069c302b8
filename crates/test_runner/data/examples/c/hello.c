/* Writes one line to the terminal, and ends with status 0. */
#include "calls.h"

static const char text[] = "hello from C\n";

int main(void)
{
    sys_write(1, text, sizeof text - 1);
    return 0;
}
