"""Refuses a program memory and threads: what `memory` and `memory-edits` have in common.

A library that is loaded before the others (LD_PRELOAD; gcc makes it) counts the program's own calls of malloc, calloc, realloc, aligned_alloc
and posix_memalign, its growths, and of pthread_create, its starts. It refuses those whose numbers it is told.
"""
import os
import shutil
import struct
import subprocess
import sys
import tempfile

# A number past all others.
ALL = 1 << 62

# How the library is told: numbers of the first and of the last growth and start that are refused, and a file for four counts.
LIBRARY = r"""
#define _GNU_SOURCE
#include <dlfcn.h>
#include <errno.h>
#include <fcntl.h>
#include <link.h>
#include <pthread.h>
#include <stdatomic.h>
#include <stdint.h>
#include <stdlib.h>
#include <sys/mman.h>
#include <unistd.h>

extern void *__libc_malloc(size_t), *__libc_calloc(size_t, size_t), *__libc_realloc(void *, size_t), *__libc_memalign(size_t, size_t);

struct counted { atomic_ulong calls, refused; };
static struct counted without_file[2], *counts = without_file;
static unsigned long first[2], last[2];
static uintptr_t begins, ends;
static int (*start)(pthread_t *, const pthread_attr_t *, void *(*)(void *), void *);

static unsigned long number(const char *name) {
    const char *word = getenv(name);
    return word ? strtoul(word, 0, 10) : 0;
}

/* The program is the first of all objects; its code is where it is to be run. */
static int see_program(struct dl_phdr_info *info, size_t size, void *data) {
    (void)size, (void)data;
    for (int at = 0; at < info->dlpi_phnum; at++)
        if (info->dlpi_phdr[at].p_type == PT_LOAD && info->dlpi_phdr[at].p_flags & PF_X) {
            begins = info->dlpi_addr + info->dlpi_phdr[at].p_vaddr;
            ends = begins + info->dlpi_phdr[at].p_memsz;
        }
    return 1;
}

__attribute__((constructor)) static void begin(void) {
    const char *name = getenv("REFUSE_COUNTS");
    int file = name ? open(name, O_RDWR) : -1;
    start = (int (*)(pthread_t *, const pthread_attr_t *, void *(*)(void *), void *))dlsym(RTLD_NEXT, "pthread_create");
    if (file >= 0) {
        void *page = mmap(0, sizeof without_file, PROT_READ | PROT_WRITE, MAP_SHARED, file, 0);
        if (page != MAP_FAILED)
            counts = page;
        close(file);
    }
    first[0] = number("REFUSE_GROWTH"), last[0] = number("REFUSE_GROWTH_TO");
    first[1] = number("REFUSE_START"), last[1] = number("REFUSE_START_TO");
    dl_iterate_phdr(see_program, 0);
}

static int refuses(int what, void *caller) {
    if ((uintptr_t)caller < begins || (uintptr_t)caller >= ends)
        return 0;
    unsigned long its = atomic_fetch_add(&counts[what].calls, 1) + 1;
    if (!first[what] || its < first[what] || its > last[what])
        return 0;
    atomic_fetch_add(&counts[what].refused, 1);
    return 1;
}

#define REFUSE(else_) (refuses(0, __builtin_return_address(0)) ? (errno = ENOMEM, (void *)0) : (else_))

void *malloc(size_t size) { return REFUSE(__libc_malloc(size)); }
void *calloc(size_t count, size_t size) { return REFUSE(__libc_calloc(count, size)); }
void *realloc(void *old, size_t size) { return REFUSE(__libc_realloc(old, size)); }
void *aligned_alloc(size_t align, size_t size) { return REFUSE(__libc_memalign(align, size)); }

int posix_memalign(void **to, size_t align, size_t size) {
    if (refuses(0, __builtin_return_address(0)))
        return ENOMEM;
    void *made = __libc_memalign(align, size);
    if (!made)
        return ENOMEM;
    *to = made;
    return 0;
}

int pthread_create(pthread_t *thread, const pthread_attr_t *how, void *(*call)(void *), void *with) {
    return refuses(1, __builtin_return_address(0)) ? EAGAIN : start(thread, how, call, with);
}
"""


def content(path):
    with open(path, "rb") as file:
        return file.read()


def put(path, data):
    with open(path, "wb") as file:
        file.write(data)


def refused(what, first, last):
    """How the library is told that the growths (GROWTH), or the starts of threads (START), from a first number to a last one are refused."""
    return {f"REFUSE_{what}": str(first), f"REFUSE_{what}_TO": str(last)}


class Tried:
    """What came of one command: its number, its text and what it told, and how many growths and starts it made and had refused."""

    def __init__(self, ran, counts):
        self.number, self.text, self.told = ran.returncode, ran.stdout, ran.stderr
        self.growths, self.growths_refused, self.starts, self.starts_refused = counts


class Refusing:
    """The library, made in a folder."""

    def __init__(self, top):
        if not shutil.which("gcc"):
            sys.exit(f"{os.path.basename(sys.argv[0])}: it needs gcc")
        self.path = os.path.join(top, "refuse.so")
        put(os.path.join(top, "refuse.c"), LIBRARY.encode())
        compiled = ["gcc", "-O1", "-Wall", "-Wextra", "-shared", "-fPIC", "-o", self.path, os.path.join(top, "refuse.c"), "-ldl"]
        subprocess.run(compiled, check=True)

    def run(self, words, room, settings, seconds):
        """Runs a command in a room; nothing where it hasn't ended in time."""
        with tempfile.NamedTemporaryFile() as counts:
            counts.write(bytes(32))
            counts.flush()
            how = {**os.environ, "LD_PRELOAD": self.path, "REFUSE_COUNTS": counts.name, **settings}
            try:
                ran = subprocess.run(words, cwd=room, env=how, capture_output=True, check=False, timeout=seconds)
            except subprocess.TimeoutExpired:
                return None
            return Tried(ran, struct.unpack("4Q", content(counts.name)))
