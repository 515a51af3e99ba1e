// What faults.c asks of the system that a port is for: numbers among the words of the environment, a note where a call
// fails, and the place of an error's number. WRAPPED declares a call as the linker's --wrap names it, and REAL is the call itself.
#pragma once

#if defined(_WIN32)
#include <stdlib.h>
#include "../windows/edge.h"
#define WRAPPED(kind, name, given) SYSTEM_V kind __real_port_##name given; SYSTEM_V kind __wrap_port_##name given
#define REAL(name) __real_port_##name
SYSTEM_V int *port___errno_location(void);

static void set_error(int error)
{
    *port___errno_location() = error;
}

static const char *option(const char *name, char room[260])
{
    DWORD length = GetEnvironmentVariableA(name, room, 260);
    return length && length < 260 ? room : NULL;
}

static void put(const char *path, unsigned bytes)
{
    HANDLE file = CreateFileA(path, FILE_APPEND_DATA, FILE_SHARE_READ | FILE_SHARE_WRITE, NULL, OPEN_ALWAYS, 0, NULL);
    DWORD done;
    WriteFile(file, "t", bytes, &done, NULL);
    CloseHandle(file);
}
#elif defined(__wasm__)
typedef unsigned long long uint64_t;
typedef long long int64_t;
#define WRAPPED(kind, name, given) kind __real_##name given; kind __wrap_##name given
#define REAL(name) __real_##name
#define HOST(name) __attribute__((import_module("host"), import_name(#name)))
// The number that a word of the environment has, else 0; and a note of a failure with so many bytes (faults.mjs).
HOST(option) int64_t host_option(const char *word, uint64_t length);
HOST(note) void note(unsigned bytes);
void rattle_set_errno(int error);

static void set_error(int error)
{
    rattle_set_errno(error);
}

static long number(const char *word)
{
    uint64_t length = 0;
    while (word[length])
        length++;
    return (long)host_option(word, length);
}
#else
#include <errno.h>
#include <fcntl.h>
#include <stdint.h>
#include <stdlib.h>
#include <unistd.h>
#define WRAPPED(kind, name, given) kind __real_##name given; kind __wrap_##name given
#define REAL(name) __real_##name
int __real_open(const char *name, int flags, ...);
int64_t __real_write(int file, const void *bytes, uint64_t size);

static void set_error(int error)
{
    errno = error;
}

static const char *option(const char *name, char room[260])
{
    (void)room;
    return getenv(name);
}

static void put(const char *path, unsigned bytes)
{
    int file = __real_open(path, O_CREAT | O_WRONLY | O_APPEND, 0666);
    __real_write(file, "t", bytes);
    close(file);
}
#endif

#ifndef __wasm__
static long number(const char *word)
{
    char room[260];
    const char *text = option(word, room);
    return text ? atol(text) : 0;
}

static void note(unsigned bytes)
{
    char room[260];
    const char *path = option("FAILED", room);
    if (path)
        put(path, bytes);
}
#endif
