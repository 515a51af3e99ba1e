// A library for LD_PRELOAD that makes one of a program's calls fail, or all of a kind. Each option is a word of the
// environment; the calls of each kind are counted from 1.
//
//     FAIL_ALLOC=N  FAIL_OPEN=N  FAIL_READ=N  FAIL_THREAD=N   the Nth such call fails
//     FAIL_WRITE=N KEPT=K     the Nth write puts K bytes and fails
//     SHORT=1                 each read and write of several bytes moves one
//     INTERRUPT=1             each open, read and write is interrupted once, and then made
//     CHANGE=NAME CHANGE_AT=N CHANGE_HOW=cut|write|replace CHANGE_TO=OTHER
//                             before the Nth read of the file NAME it is made empty, or is written anew with the bytes of OTHER,
//                             or OTHER is put in its place
//     FAILED=FILE             this file is made where a call fails, and gets a byte for each thread that is started after that
#define _GNU_SOURCE
#include <dlfcn.h>
#include <errno.h>
#include <fcntl.h>
#include <pthread.h>
#include <stdarg.h>
#include <stdatomic.h>
#include <stdio.h>
#include <stdlib.h>
#include <string.h>
#include <sys/syscall.h>
#include <unistd.h>

extern void *__libc_malloc(size_t);
extern void *__libc_realloc(void *, size_t);

enum kind { ALLOC, OPEN, READ, WRITE, THREAD, KINDS };
static const char *const words[KINDS] = {"FAIL_ALLOC", "FAIL_OPEN", "FAIL_READ", "FAIL_WRITE", "FAIL_THREAD"};
static long failing[KINDS];
static atomic_long calls[KINDS], change_reads;
static atomic_int has_failed;
static long kept, change_at;
static int is_short, interrupts, changed_file = -1;
static __thread int was_interrupted;
static const char *failed, *change, *change_how, *change_to;
static int (*real_thread)(pthread_t *, const pthread_attr_t *, void *(*)(void *), void *);

static long number(const char *word) {
    const char *value = getenv(word);
    return value ? atol(value) : 0;
}

__attribute__((constructor)) static void begin(void) {
    for (int kind = 0; kind < KINDS; kind++) failing[kind] = number(words[kind]);
    kept = number("KEPT");
    is_short = number("SHORT");
    interrupts = number("INTERRUPT");
    change_at = number("CHANGE_AT");
    failed = getenv("FAILED");
    change = getenv("CHANGE");
    change_how = getenv("CHANGE_HOW");
    change_to = getenv("CHANGE_TO");
    real_thread = dlsym(RTLD_NEXT, "pthread_create");
}

// Makes the file FAILED, or puts so many bytes at its end.
static void note(size_t bytes) {
    if (!failed) return;
    int file = syscall(SYS_openat, AT_FDCWD, failed, O_CREAT | O_WRONLY | O_APPEND, 0666);
    syscall(SYS_write, file, "t", bytes);
    syscall(SYS_close, file);
}

static int fails(enum kind kind) {
    if (atomic_fetch_add(&calls[kind], 1) + 1 != failing[kind]) return 0;
    note(0);
    has_failed = 1;
    return 1;
}

// Whether this call is the first of two.
static int interrupted(void) {
    was_interrupted = interrupts && !was_interrupted;
    if (was_interrupted) errno = EINTR;
    return was_interrupted;
}

void *malloc(size_t size) {
    if (fails(ALLOC)) return errno = ENOMEM, NULL;
    return __libc_malloc(size);
}

void *realloc(void *old, size_t size) {
    if (fails(ALLOC)) return errno = ENOMEM, NULL;
    return __libc_realloc(old, size);
}

int open(const char *name, int flags, ...) {
    va_list rest;
    va_start(rest, flags);
    int mode = va_arg(rest, int);
    va_end(rest);
    if (interrupted()) return -1;
    if (fails(OPEN)) return errno = EIO, -1;
    int file = syscall(SYS_openat, AT_FDCWD, name, flags, mode);
    if (change && strcmp(name, change) == 0) changed_file = file;
    return file;
}

static void write_anew(void) {
    char bytes[1 << 16];
    int from = syscall(SYS_openat, AT_FDCWD, change_to, O_RDONLY, 0), to = syscall(SYS_openat, AT_FDCWD, change, O_WRONLY, 0);
    long size;
    while ((size = syscall(SYS_read, from, bytes, sizeof bytes)) > 0) syscall(SYS_write, to, bytes, size);
    syscall(SYS_close, from);
    syscall(SYS_close, to);
}

static void change_file(void) {
    if (strcmp(change_how, "cut") == 0) truncate(change, 0);
    else if (strcmp(change_how, "write") == 0) write_anew();
    else rename(change_to, change);
}

ssize_t read(int file, void *bytes, size_t size) {
    if (interrupted()) return -1;
    if (fails(READ)) return errno = EIO, -1;
    if (change && file == changed_file && atomic_fetch_add(&change_reads, 1) + 1 == change_at) change_file();
    return syscall(SYS_read, file, bytes, is_short && size ? 1 : size);
}

static ssize_t put(int file, const void *bytes, size_t size) {
    if (interrupted()) return -1;
    if (fails(WRITE)) {
        syscall(SYS_write, file, bytes, (size_t)kept < size ? (size_t)kept : size);
        return errno = EIO, -1;
    }
    return syscall(SYS_write, file, bytes, is_short && size ? 1 : size);
}

ssize_t write(int file, const void *bytes, size_t size) { return put(file, bytes, size); }

ssize_t __write(int file, const void *bytes, size_t size) { return put(file, bytes, size); }

int pthread_create(pthread_t *thread, const pthread_attr_t *how, void *(*what)(void *), void *with) {
    if (fails(THREAD)) return EAGAIN;
    if (has_failed) note(1);
    return real_thread(thread, how, what, with);
}
