/* Loaded before the C library: each sync takes SLOW_SYNC milliseconds longer, as on a slow disk. */
#define _GNU_SOURCE
#include <dlfcn.h>
#include <stdlib.h>
#include <unistd.h>

int fdatasync(int file)
{
    static int (*next)(int);
    const char *wanted = getenv("SLOW_SYNC");
    if (wanted)
        usleep(1000 * atol(wanted));
    if (!next)
        next = (int (*)(int))dlsym(RTLD_NEXT, "fdatasync");
    return next(file);
}
