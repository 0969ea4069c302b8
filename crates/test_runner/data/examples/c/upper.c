/* A stage of a pipeline: small letters become capitals. */
#include "stage.h"

int main(void)
{
    static char bytes[MOST_BYTES];
    int in = reader(), out = writer(), n, i;
    while ((n = sys_read(in, bytes, sizeof bytes)) > 0) {
        for (i = 0; i < n; i++)
            if ('a' <= bytes[i] && bytes[i] <= 'z')
                bytes[i] += 'A' - 'a';
        put(out, bytes, n);
    }
    return 0;
}
