/* Reads and writes of several places at once. */
#ifndef SYS_UIO_H
#define SYS_UIO_H
#include <stddef.h>
#include <sys/types.h>

struct iovec {
    void *iov_base;
    size_t iov_len;
};

#ifdef __cplusplus
extern "C" {
#endif
ssize_t readv(int descriptor, const struct iovec *parts, int count);
ssize_t writev(int descriptor, const struct iovec *parts, int count);
#ifdef __cplusplus
}
#endif
#endif
