/* A stage of a pipeline: there is no dup, so a stage reads through the first descriptor that may be read, and writes through the first
   that may be written. A read or a write of no bytes says which these are. */
#include "calls.h"

static inline int reader(void)
{
    int descriptor = 0;
    while (descriptor < 16 && sys_read(descriptor, 0, 0) < 0)
        descriptor++;
    return descriptor;
}

static inline int writer(void)
{
    int descriptor = 0;
    while (descriptor < 16 && sys_write(descriptor, 0, 0) < 0)
        descriptor++;
    return descriptor;
}

/* Writes all n bytes. */
static inline void put(int descriptor, const char *bytes, int n)
{
    while (n > 0) {
        int m = sys_write(descriptor, bytes, n < MOST_BYTES ? n : MOST_BYTES);
        if (m <= 0)
            sys_exit(1);
        bytes += m;
        n -= m;
    }
}
