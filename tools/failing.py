"""Programs whose allocations fail: a library that is loaded before their own."""
import os
import subprocess

SHIM = r"""
#define _GNU_SOURCE
#include <dlfcn.h>
#include <errno.h>
#include <fcntl.h>
#include <stdlib.h>
#include <sys/mman.h>
#include <unistd.h>

static long counted, *seen = &counted, failing = -1;

static void begin(void) {
    const char *number = getenv("FAIL_ALLOCATION"), *path = getenv("ALLOCATIONS_SEEN");
    failing = number ? atol(number) : 0;
    if (!path) return;
    int file = open(path, O_RDWR | O_CREAT | O_TRUNC, 0600);
    if (ftruncate(file, sizeof *seen) == 0) {
        void *at = mmap(NULL, sizeof *seen, PROT_READ | PROT_WRITE, MAP_SHARED, file, 0);
        if (at != MAP_FAILED) seen = at;
    }
    close(file);
}

/* whether this call is the one that fails; the first comes before there are threads */
static int fails(void) {
    if (failing < 0) begin();
    return __atomic_add_fetch(seen, 1, __ATOMIC_SEQ_CST) == failing;
}

void *malloc(size_t size) {
    static void *(*next)(size_t);
    if (!next) next = dlsym(RTLD_NEXT, "malloc");
    if (fails()) { errno = ENOMEM; return NULL; }
    return next(size);
}

void *realloc(void *old, size_t size) {
    static void *(*next)(void *, size_t);
    if (!next) next = dlsym(RTLD_NEXT, "realloc");
    if (fails()) { errno = ENOMEM; return NULL; }
    return next(old, size);
}

void *aligned_alloc(size_t align, size_t size) {
    static void *(*next)(size_t, size_t);
    if (!next) next = dlsym(RTLD_NEXT, "aligned_alloc");
    if (fails()) { errno = ENOMEM; return NULL; }
    return next(align, size);
}

int posix_memalign(void **out, size_t align, size_t size) {
    static int (*next)(void **, size_t, size_t);
    if (!next) next = dlsym(RTLD_NEXT, "posix_memalign");
    if (fails()) return ENOMEM;
    return next(out, align, size);
}
"""


def built(folder):
    """The library."""
    source, shim = os.path.join(folder, "shim.c"), os.path.join(folder, "shim.so")
    with open(source, "w", encoding="ascii") as file:
        file.write(SHIM)
    subprocess.run(["cc", "-O1", "-shared", "-fPIC", "-o", shim, source, "-ldl"], check=True)
    return shim


def environment(shim, number, seen=None):
    """That of a program of which this allocation fails, or none where it is 0. How many there were stands in the file `seen`."""
    there = dict(os.environ, LD_PRELOAD=shim, FAIL_ALLOCATION=str(number))
    return dict(there, ALLOCATIONS_SEEN=seen) if seen else there


def count(seen):
    with open(seen, "rb") as file:
        return int.from_bytes(file.read(), "little")
