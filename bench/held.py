"""The most bytes that `rerun` holds at once."""
import atexit
import functools
import os
import shutil
import subprocess
import tempfile

# counts what is held; the input's text, the first block of its size that is given back, is not in it
SHIM = r"""
#define _GNU_SOURCE
#include <dlfcn.h>
#include <malloc.h>
#include <stdio.h>
#include <stdlib.h>
#include <sys/syscall.h>
#include <unistd.h>

static long held, most, before, text;

static void *taken(void *block) {
    held += block ? malloc_usable_size(block) : 0;
    most = held > most ? held : most;
    return block;
}

static void given(void *block) {
    long size = block ? malloc_usable_size(block) : 0;
    held -= size;
    if (!text) text = atol(getenv("TEXT_SIZE"));
    if (size >= text && !before) {
        before = most - size;
        most = before > held ? before : held;
    }
}

void *malloc(size_t size) {
    static void *(*next)(size_t);
    if (!next) next = dlsym(RTLD_NEXT, "malloc");
    return taken(next(size));
}

void *realloc(void *old, size_t size) {
    static void *(*next)(void *, size_t);
    if (!next) next = dlsym(RTLD_NEXT, "realloc");
    held -= old ? malloc_usable_size(old) : 0;
    return taken(next(old, size));
}

void *aligned_alloc(size_t align, size_t size) {
    static void *(*next)(size_t, size_t);
    if (!next) next = dlsym(RTLD_NEXT, "aligned_alloc");
    return taken(next(align, size));
}

void free(void *block) {
    static void (*next)(void *);
    if (!next) next = dlsym(RTLD_NEXT, "free");
    given(block);
    next(block);
}

__attribute__((destructor)) static void tell(void) {
    FILE *file = fopen(getenv("MOST_HELD"), "w");
    fprintf(file, "%ld", most);
    fclose(file);
}

/* a program with threads ends so, without destructors */
void _exit(int status) {
    tell();
    syscall(SYS_exit_group, status);
    __builtin_unreachable();
}
"""


def measured():
    """Whether this machine has what this wants."""
    return shutil.which("cc") is not None


@functools.lru_cache(maxsize=None)
def shim():
    folder = tempfile.mkdtemp()
    atexit.register(shutil.rmtree, folder)
    source, library = os.path.join(folder, "held.c"), os.path.join(folder, "held.so")
    with open(source, "w", encoding="ascii") as file:
        file.write(SHIM)
    subprocess.run(["cc", "-O1", "-shared", "-fPIC", "-o", library, source, "-ldl"], check=True)
    return library


def most_held(program, journal):
    """The most bytes that `rerun` of a journal holds at once, but for the journal's text."""
    text = journal.text()
    with tempfile.NamedTemporaryFile(suffix=".journal") as file, tempfile.NamedTemporaryFile() as told:
        file.write(text)
        file.flush()
        file.seek(0)
        env = dict(os.environ, LD_PRELOAD=shim(), MOST_HELD=told.name, TEXT_SIZE=str(len(text)))
        subprocess.run([program, "rerun"], stdin=file, stdout=subprocess.DEVNULL, env=env, check=True)
        return int(told.read())
