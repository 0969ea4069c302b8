/* Threads of a process that has one: it never waits for a lock, and a key has one value. pthread_create cannot be had. */
#ifndef PTHREAD_H
#define PTHREAD_H
#include <errno.h>
#include <stdlib.h>
#include <sys/types.h>

typedef int pthread_t, pthread_attr_t, pthread_mutexattr_t, pthread_mutex_t, pthread_rwlockattr_t, pthread_rwlock_t, pthread_condattr_t,
    pthread_cond_t, pthread_once_t;
typedef struct {
    const void *value;
} *pthread_key_t;

enum { PTHREAD_PROCESS_PRIVATE, PTHREAD_PROCESS_SHARED, PTHREAD_MUTEX_RECURSIVE };
#define PTHREAD_MUTEX_INITIALIZER 0
#define PTHREAD_RWLOCK_INITIALIZER 0
#define PTHREAD_COND_INITIALIZER 0
#define PTHREAD_ONCE_INIT 0

#define PTHREAD_DOES_NOTHING(name, type)                \
    static __inline__ int pthread_##name(type *what)    \
    {                                                   \
        (void)what;                                     \
        return 0;                                       \
    }
PTHREAD_DOES_NOTHING(mutex_lock, pthread_mutex_t)
PTHREAD_DOES_NOTHING(mutex_trylock, pthread_mutex_t)
PTHREAD_DOES_NOTHING(mutex_unlock, pthread_mutex_t)
PTHREAD_DOES_NOTHING(mutex_destroy, pthread_mutex_t)
PTHREAD_DOES_NOTHING(mutexattr_init, pthread_mutexattr_t)
PTHREAD_DOES_NOTHING(mutexattr_destroy, pthread_mutexattr_t)
PTHREAD_DOES_NOTHING(rwlock_rdlock, pthread_rwlock_t)
PTHREAD_DOES_NOTHING(rwlock_wrlock, pthread_rwlock_t)
PTHREAD_DOES_NOTHING(rwlock_unlock, pthread_rwlock_t)
PTHREAD_DOES_NOTHING(rwlock_destroy, pthread_rwlock_t)
PTHREAD_DOES_NOTHING(cond_signal, pthread_cond_t)
PTHREAD_DOES_NOTHING(cond_broadcast, pthread_cond_t)
PTHREAD_DOES_NOTHING(cond_destroy, pthread_cond_t)

static __inline__ int pthread_mutex_init(pthread_mutex_t *mutex, const pthread_mutexattr_t *how)
{
    (void)mutex, (void)how;
    return 0;
}

static __inline__ int pthread_mutexattr_setpshared(pthread_mutexattr_t *how, int shared)
{
    (void)how, (void)shared;
    return 0;
}

static __inline__ int pthread_mutexattr_settype(pthread_mutexattr_t *how, int type)
{
    (void)how, (void)type;
    return 0;
}

static __inline__ int pthread_rwlock_init(pthread_rwlock_t *lock, const pthread_rwlockattr_t *how)
{
    (void)lock, (void)how;
    return 0;
}

static __inline__ int pthread_cond_init(pthread_cond_t *condition, const pthread_condattr_t *how)
{
    (void)condition, (void)how;
    return 0;
}

static __inline__ pthread_t pthread_self(void)
{
    return 1;
}

static __inline__ int pthread_equal(pthread_t first, pthread_t second)
{
    return first == second;
}

static __inline__ int pthread_once(pthread_once_t *once, void (*begin)(void))
{
    if (!*once) {
        *once = 1;
        begin();
    }
    return 0;
}

/* A destructor would run at the end of a thread, and there is none. */
static __inline__ int pthread_key_create(pthread_key_t *key, void (*end)(void *))
{
    (void)end;
    *key = (pthread_key_t)calloc(1, sizeof **key);
    return *key ? 0 : ENOMEM;
}

static __inline__ int pthread_key_delete(pthread_key_t key)
{
    free(key);
    return 0;
}

static __inline__ void *pthread_getspecific(pthread_key_t key)
{
    return (void *)key->value;
}

static __inline__ int pthread_setspecific(pthread_key_t key, const void *value)
{
    key->value = value;
    return 0;
}

#ifdef __cplusplus
extern "C" {
#endif
/* These cannot be had: the linker names them. */
int pthread_create(pthread_t *thread, const pthread_attr_t *how, void *(*begin)(void *), void *with);
int pthread_join(pthread_t thread, void **result);
int pthread_cond_wait(pthread_cond_t *condition, pthread_mutex_t *mutex);
#ifdef __cplusplus
}
#endif
#endif
