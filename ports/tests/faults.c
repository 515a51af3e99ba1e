// Makes one of a port's calls fail, or all of a kind. For tests alone: ports/test links it into a port of its own, whose
// calls go to it by the linker's --wrap. The words of the environment are those of preload.c beside the scripts that try
// the program, so that these scripts try a port, too; the calls of each kind are counted from 1.
//
//     FAIL_ALLOC=N  FAIL_OPEN=N  FAIL_READ=N  FAIL_THREAD=N   the Nth such call fails
//     FAIL_WRITE=N KEPT=K     the Nth write puts K bytes and fails
//     SHORT=1                 each read and write of several bytes moves one
//     INTERRUPT=1             each open, read and write is interrupted once, and then made
//     FAILED=FILE             this file is made where a call fails, and gets a byte for each thread that is started after that
#include "faults_system.h"

enum { INTERRUPTED = 4, FAULT = 5, AGAIN = 11, NO_MEMORY = 12 };
enum kind { ALLOC, OPEN, READ, WRITE, THREAD, KINDS };
static const char *const words[KINDS] = {"FAIL_ALLOC", "FAIL_OPEN", "FAIL_READ", "FAIL_WRITE", "FAIL_THREAD"};
static long calls[KINDS], has_failed;

static int fails(enum kind kind)
{
    if (__sync_add_and_fetch(&calls[kind], 1) != number(words[kind]))
        return 0;
    note(0);
    has_failed = 1;
    return 1;
}

static int failed_with(int error)
{
    set_error(error);
    return -1;
}

// Whether this call is the first of two; the program makes one at a time of those that are interrupted.
static int interrupted(void)
{
    static int was;
    was = !was && number("INTERRUPT");
    return was;
}

static uint64_t moved(uint64_t size)
{
    return size && number("SHORT") ? 1 : size;
}

WRAPPED(void *, malloc, (uint64_t size))
{
    if (!fails(ALLOC))
        return REAL(malloc)(size);
    failed_with(NO_MEMORY);
    return 0;
}

WRAPPED(void *, realloc, (void *block, uint64_t size))
{
    if (!fails(ALLOC))
        return REAL(realloc)(block, size);
    failed_with(NO_MEMORY);
    return 0;
}

WRAPPED(int, open, (const char *name, int flags, ...))
{
    if (interrupted())
        return failed_with(INTERRUPTED);
    return fails(OPEN) ? failed_with(FAULT) : REAL(open)(name, flags);
}

WRAPPED(int64_t, read, (int file, void *room, uint64_t size))
{
    if (interrupted())
        return failed_with(INTERRUPTED);
    return fails(READ) ? failed_with(FAULT) : REAL(read)(file, room, moved(size));
}

WRAPPED(int64_t, write, (int file, const void *bytes, uint64_t size))
{
    if (interrupted())
        return failed_with(INTERRUPTED);
    if (!fails(WRITE))
        return REAL(write)(file, bytes, moved(size));
    uint64_t kept = number("KEPT");
    if (kept)
        REAL(write)(file, bytes, kept < size ? kept : size);
    return failed_with(FAULT);
}

WRAPPED(int, pthread_create, (void *made, const void *how, void *body, void *given))
{
    if (fails(THREAD))
        return AGAIN;
    if (has_failed)
        note(1);
    return REAL(pthread_create)(made, how, body, given);
}
