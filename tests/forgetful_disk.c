/* Loaded before the C library: a disk below a file whose write-back fails once. The file FORGETFUL_DISK is what the disk
 * has. A sync puts there what was written since the last one; the one with the number FAILING_SYNC, from 1, fails, and what
 * it should have put there counts as written from then on, as in a kernel's memory. What memory holds is dropped by
 * posix_fadvise: the file has then what the disk has. */
#define _GNU_SOURCE
#include <dlfcn.h>
#include <errno.h>
#include <fcntl.h>
#include <stdlib.h>
#include <sys/stat.h>
#include <unistd.h>

#define MOST 64

static struct { off_t at; size_t length; } written[MOST];
static int count, has_changed;
static long made;

static ssize_t (*next_write)(int, const void *, size_t, off_t);

static int disk(void)
{
    return open(getenv("FORGETFUL_DISK"), O_RDWR | O_CREAT, 0600);
}

static void copy(int from, int to, off_t at, size_t length)
{
    char piece[4096];
    while (length > 0) {
        ssize_t got = pread(from, piece, length < sizeof piece ? length : sizeof piece, at);
        if (got <= 0 || next_write(to, piece, got, at) != got)
            return;
        at += got, length -= got;
    }
}

static int sync_to_disk(int file)
{
    struct stat found;
    if (fstat(file, &found) || !S_ISREG(found.st_mode))
        return 0;
    const char *failing = getenv("FAILING_SYNC");
    if (failing && ++made == atol(failing)) {
        count = has_changed = 0;
        errno = EIO;
        return -1;
    }
    int to = disk();
    for (int i = 0; i < count; i++)
        copy(file, to, written[i].at, written[i].length);
    if (has_changed && ftruncate(to, found.st_size))
        return -1;
    close(to);
    count = has_changed = 0;
    return 0;
}

ssize_t pwrite64(int file, const void *bytes, size_t length, off_t at)
{
    if (!next_write)
        next_write = (ssize_t (*)(int, const void *, size_t, off_t))dlsym(RTLD_NEXT, "pwrite64");
    if (count == MOST)
        abort();
    written[count].at = at, written[count++].length = length, has_changed = 1;
    return next_write(file, bytes, length, at);
}

ssize_t pwrite(int file, const void *bytes, size_t length, off_t at)
{
    return pwrite64(file, bytes, length, at);
}

static int cut(int file, off_t length)
{
    static int (*next)(int, off_t);
    if (!next)
        next = (int (*)(int, off_t))dlsym(RTLD_NEXT, "ftruncate64");
    return next(file, length);
}

int ftruncate64(int file, off_t length)
{
    has_changed = 1;
    return cut(file, length);
}

int fdatasync(int file)
{
    return sync_to_disk(file);
}

int fsync(int file)
{
    return sync_to_disk(file);
}

int posix_fadvise(int file, off_t at, off_t length, int advice)
{
    (void)at, (void)length;
    if (advice == POSIX_FADV_DONTNEED) {
        struct stat found;
        int from = disk();
        if (fstat(from, &found) || cut(file, 0))
            return EIO;
        if (!next_write)
            next_write = (ssize_t (*)(int, const void *, size_t, off_t))dlsym(RTLD_NEXT, "pwrite64");
        copy(from, file, 0, found.st_size);
        close(from);
    }
    return 0;
}

int posix_fadvise64(int file, off_t at, off_t length, int advice)
{
    return posix_fadvise(file, at, length, advice);
}
