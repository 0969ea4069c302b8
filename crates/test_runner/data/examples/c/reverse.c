/* A stage of a pipeline: each line comes backwards. */
#include "stage.h"

int main(void)
{
    static char line[256];
    int in = reader(), out = writer(), n = 0, i;
    char c;
    while (sys_read(in, &c, 1) == 1) {
        if (c != '\n' && n < (int)sizeof line - 1) {
            line[n++] = c;
            continue;
        }
        for (i = 0; i < n / 2; i++) {
            char last = line[n - 1 - i];
            line[n - 1 - i] = line[i];
            line[i] = last;
        }
        line[n++] = '\n';
        put(out, line, n);
        n = 0;
    }
    return 0;
}
