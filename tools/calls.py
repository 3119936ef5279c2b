"""A library that stands before the C library of a program: one of its growths, reads, writes, threads or accepts fails, a read gives few
bytes, or another port is listened on.

A growth is a call that asks for memory, a read one of standard input, a write one of standard output, a thread one that is to be started,
an accept one that takes a connection. They are counted from 1, those of all threads together.
"""
import os
import subprocess
import tempfile

CODE = r"""
#define _GNU_SOURCE
#include <arpa/inet.h>
#include <dlfcn.h>
#include <errno.h>
#include <pthread.h>
#include <stdio.h>
#include <stdlib.h>
#include <sys/socket.h>
#include <sys/syscall.h>
#include <unistd.h>

extern void *__libc_malloc(size_t), *__libc_calloc(size_t, size_t), *__libc_realloc(void *, size_t), *__libc_memalign(size_t, size_t);

static long growth, input, output, thread, taken, most;  /* which call fails, and the most bytes of a read; 0: none */
static long growths, inputs, outputs, threads, accepts;
static int (*start)(pthread_t *, const pthread_attr_t *, void *(*)(void *), void *);

static long number(const char *name) { const char *text = getenv(name); return text ? atol(text) : 0; }

__attribute__((constructor)) static void begin(void) {
    *(void **)&start = dlsym(RTLD_NEXT, "pthread_create");
    thread = number("FAILS_THREAD"); taken = number("FAILS_ACCEPT");
    growth = number("FAILS_GROWTH"); input = number("FAILS_READ"); output = number("FAILS_WRITE"); most = number("MOST_READ");
    growths = 0;
}
__attribute__((destructor)) static void end(void) {
    if (number("TELLS")) dprintf((int)number("TELLS"), "%ld %ld %ld\n", growths, inputs, outputs);
}
/* (a program may end without a destructor) */
void _exit(int status) { end(); syscall(SYS_exit_group, status); __builtin_unreachable(); }
void _Exit(int status) { _exit(status); }
static int refused(void) { if (__sync_add_and_fetch(&growths, 1) != growth) return 0; errno = ENOMEM; return 1; }

void *malloc(size_t size) { return refused() ? NULL : __libc_malloc(size); }
void *calloc(size_t count, size_t size) { return refused() ? NULL : __libc_calloc(count, size); }
void *realloc(void *old, size_t size) { return refused() ? NULL : __libc_realloc(old, size); }
void *aligned_alloc(size_t align, size_t size) { return refused() ? NULL : __libc_memalign(align, size); }
int posix_memalign(void **out, size_t align, size_t size) {
    if (refused()) return ENOMEM;
    *out = __libc_memalign(align, size);
    return *out ? 0 : ENOMEM;
}
ssize_t read(int file, void *bytes, size_t count) {
    if (file == 0) {
        if (++inputs == input) { errno = EIO; return -1; }
        if (most && count > (size_t)most) count = most;
    }
    return syscall(SYS_read, file, bytes, count);
}
ssize_t write(int file, const void *bytes, size_t count) {
    if (file == 1 && ++outputs == output) { errno = EIO; return -1; }
    return syscall(SYS_write, file, bytes, count);
}
int pthread_create(pthread_t *made, const pthread_attr_t *how, void *(*run)(void *), void *given) {
    return __sync_add_and_fetch(&threads, 1) == thread ? EAGAIN : start(made, how, run, given);
}
int accept4(int file, struct sockaddr *from, socklen_t *size, int flags) {
    if (__sync_add_and_fetch(&accepts, 1) == taken) { errno = EMFILE; return -1; }
    return syscall(SYS_accept4, file, from, size, flags);
}
int accept(int file, struct sockaddr *from, socklen_t *size) { return accept4(file, from, size, 0); }
/* The port that is asked for is told, and LISTENS_AT taken. */
int bind(int file, const struct sockaddr *at, socklen_t size) {
    struct sockaddr_in other;
    if (number("LISTENS_AT") && size == sizeof other && at->sa_family == AF_INET) {
        other = *(const struct sockaddr_in *)at;
        dprintf((int)number("TELLS"), "%s %d\n", inet_ntoa(other.sin_addr), ntohs(other.sin_port));
        other.sin_port = htons((unsigned short)number("LISTENS_AT"));
        at = (const struct sockaddr *)&other;
    }
    return syscall(SYS_bind, file, at, size);
}
"""


def library(folder):
    """Builds the library in a folder, and gives its path."""
    source, built = f"{folder}/calls.c", f"{folder}/calls.so"
    with open(source, "w", encoding="utf-8") as file:
        file.write(CODE)
    subprocess.run([os.environ.get("CC", "cc"), "-O2", "-fno-builtin", "-shared", "-fPIC", "-o", built, source, "-ldl"], check=True)
    return built


def surroundings(built, **numbers):
    """The environment of a program with these numbers: FAILS_GROWTH, FAILS_READ, FAILS_WRITE, FAILS_THREAD, FAILS_ACCEPT, MOST_READ, LISTENS_AT, TELLS."""
    return {**os.environ, "LD_PRELOAD": built, **{name: str(number) for name, number in numbers.items()}}


def counted(built, words, given, **numbers):
    """How many growths, reads and writes a run makes that nothing fails, and what it writes."""
    with tempfile.TemporaryFile() as told:
        around = surroundings(built, TELLS=told.fileno(), **numbers)
        done = subprocess.run(words, input=given, capture_output=True, env=around, pass_fds=[told.fileno()], check=True)
        told.seek(0)
        return [int(word) for word in told.read().split()], done.stdout
