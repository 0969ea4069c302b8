/* Maps of files, as copies; posix.c says how they differ from POSIX. */
#ifndef SYS_MMAN_H
#define SYS_MMAN_H
#include <stddef.h>
#include <sys/types.h>

enum { PROT_NONE, PROT_READ, PROT_WRITE, PROT_EXEC = 4 };
enum { MAP_SHARED = 1, MAP_PRIVATE = 2, MAP_FIXED = 16, MAP_ANONYMOUS = 32, MAP_ANON = MAP_ANONYMOUS };
enum { MS_ASYNC = 1, MS_INVALIDATE = 2, MS_SYNC = 4 };
#define MAP_FAILED ((void *)-1)

#ifdef __cplusplus
extern "C" {
#endif
void *mmap(void *at, size_t length, int protection, int flags, int descriptor, off_t offset);
int msync(void *at, size_t length, int flags);
int munmap(void *at, size_t length);
#ifdef __cplusplus
}
#endif
#endif
