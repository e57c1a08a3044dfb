/* Loaded before the C library: from the thread with the number FAILING_THREAD on, from 1, none is made. */
#define _GNU_SOURCE
#include <dlfcn.h>
#include <errno.h>
#include <pthread.h>
#include <stdlib.h>

static long asked;

int pthread_create(pthread_t *thread, const pthread_attr_t *with, void *(*run)(void *), void *given)
{
    static int (*next)(pthread_t *, const pthread_attr_t *, void *(*)(void *), void *);
    const char *wanted = getenv("FAILING_THREAD");
    if (wanted && ++asked >= atol(wanted))
        return EAGAIN;
    if (!next)
        next = (int (*)(pthread_t *, const pthread_attr_t *, void *(*)(void *), void *))dlsym(RTLD_NEXT, "pthread_create");
    return next(thread, with, run, given);
}
