/* Put before a program by LD_PRELOAD, it counts the program's allocations (its calls of malloc, calloc,
 * realloc, aligned_alloc and posix_memalign, from its start) and has one of them fail.
 *
 * FAIL_AT      the allocation that fails, counted from 1; 0 or absent: none
 * FAIL_REPORT  the number of an open descriptor of a file of 16 bytes, mapped while the program runs,
 *              so that it is right however the program ends: how many allocations there were and how
 *              many failed, each a 64-bit number of this machine
 *
 * Only calls from the program's own code count. What the C library, the loader or another shared
 * object asks for is given, so buffers of stdio and the like never fail. */
#define _GNU_SOURCE
#include <errno.h>
#include <link.h>
#include <stdint.h>
#include <stdlib.h>
#include <sys/mman.h>
#include <unistd.h>

extern void *__libc_malloc(size_t);
extern void *__libc_calloc(size_t, size_t);
extern void *__libc_realloc(void *, size_t);
extern void *__libc_memalign(size_t, size_t);

struct report {
    uint64_t allocations;
    uint64_t failed;
};

static struct report *report;
static uint64_t failing_one;
static uintptr_t code_start = UINTPTR_MAX;
static uintptr_t code_end;

/* The first object that the loader names is the program: note where it lies. */
static int note_program(struct dl_phdr_info *object, size_t size, void *unused) {
    (void)size;
    (void)unused;
    for (int i = 0; i < object->dlpi_phnum; i++) {
        const ElfW(Phdr) *part = &object->dlpi_phdr[i];
        uintptr_t start = object->dlpi_addr + part->p_vaddr;
        if (part->p_type != PT_LOAD || !(part->p_flags & PF_X)) continue;
        if (start < code_start) code_start = start;
        if (start + part->p_memsz > code_end) code_end = start + part->p_memsz;
    }
    return 1;
}

/* A run whose report cannot be kept shows nothing, so it does not begin. */
static void stop(const char *why, size_t length) {
    (void)!write(2, why, length);
    _exit(99);
}

__attribute__((constructor)) static void begin(void) {
    static const char no_report[] = "failing.c: FAIL_REPORT is no file to keep a report in\n";
    const char *at = getenv("FAIL_AT"), *number = getenv("FAIL_REPORT");
    int file = number ? atoi(number) : -1;
    void *made = mmap(NULL, sizeof(struct report), PROT_READ | PROT_WRITE, MAP_SHARED, file, 0);
    if (made == MAP_FAILED) stop(no_report, sizeof no_report - 1);
    close(file);
    failing_one = at ? strtoull(at, NULL, 10) : 0;
    dl_iterate_phdr(note_program, NULL);
    report = made;
}

/* Counts an allocation that the given code asks for, and returns whether it is the one that fails. */
static int fails(void *caller) {
    uintptr_t address = (uintptr_t)caller;
    if (!report || address < code_start || address >= code_end) return 0;
    if (__atomic_add_fetch(&report->allocations, 1, __ATOMIC_SEQ_CST) != failing_one) return 0;
    __atomic_add_fetch(&report->failed, 1, __ATOMIC_SEQ_CST);
    errno = ENOMEM;
    return 1;
}

#define FAILS fails(__builtin_return_address(0))

void *malloc(size_t size) {
    return FAILS ? NULL : __libc_malloc(size);
}

void *calloc(size_t count, size_t size) {
    return FAILS ? NULL : __libc_calloc(count, size);
}

void *realloc(void *old, size_t size) {
    return FAILS ? NULL : __libc_realloc(old, size);
}

void *aligned_alloc(size_t alignment, size_t size) {
    return FAILS ? NULL : __libc_memalign(alignment, size);
}

int posix_memalign(void **result, size_t alignment, size_t size) {
    if (FAILS) return ENOMEM;
    void *made = __libc_memalign(alignment, size);
    if (!made) return ENOMEM;
    *result = made;
    return 0;
}
