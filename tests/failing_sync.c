/* Loaded before the C library: the sync with the number FAILING_SYNC, from 1, fails, as on a disk that breaks. */
#define _GNU_SOURCE
#include <dlfcn.h>
#include <errno.h>
#include <stdlib.h>

static long made;

int fdatasync(int file)
{
    static int (*next)(int);
    const char *wanted = getenv("FAILING_SYNC");
    if (wanted && ++made == atol(wanted)) {
        errno = EIO;
        return -1;
    }
    if (!next)
        next = (int (*)(int))dlsym(RTLD_NEXT, "fdatasync");
    return next(file);
}
