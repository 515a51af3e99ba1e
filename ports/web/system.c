// Files, words, the process, and what there is none of: threads. What the program reads and writes goes through the
// functions of the host, which host.mjs has. Nothing proves this file.
#include "edge.h"

#define HOST(name) __attribute__((import_module("host"), import_name(#name)))
// The number of an open file of this name, from 3 on, or -1.
HOST(open) int host_open(const char *name, u64 length);
// How many of a file's next bytes it put in the room, 0 at its end, or -1.
HOST(read) i64 host_read(int file, void *room, u64 size);
// How many of these bytes it took for standard output (1) or standard error (2), or -1.
HOST(write) i64 host_write(int file, const void *bytes, u64 size);
HOST(close) int host_close(int file);
// As rattle_arg.
HOST(word) i64 host_word(u64 number, void *room, u64 size);
// Ends the run.
HOST(end) _Noreturn void host_end(int status);

enum { NO_SUCH_FILE = 2, INPUT_OUTPUT = 5, TRY_AGAIN = 11, WRITES_OR_MAKES = 3 | 0100 | 01000 | 02000, NO_ACCESS = 13 };

static int last_error;
static char no_block;

struct tried {
    u64 ok;
    void *p;
};

static struct tried tried(void *block)
{
    return (struct tried){block != 0, block ? block : &no_block};
}

// A block of at least `size` bytes, or none. `align` is at most 16.
struct tried rattle_alloc(u64 size, u64 align)
{
    return tried(malloc(size ? size : align));
}

// A block that begins with the `kept` first bytes of the old one, in its place; or none, and the old one is as it was.
struct tried rattle_realloc(void *block, u64 kept, u64 size, u64 align)
{
    (void)kept;
    return tried(realloc(block, size ? size : align));
}

void rattle_dealloc(void *block)
{
    free(block);
}

// Puts a word of the command at the start of `room` and returns its length; -1 where there is no such word, -2 where it
// doesn't fit, and then the room is full.
i64 rattle_arg(u64 number, void *room, u64 size)
{
    return host_word(number, room, size);
}

// The last error.
int rattle_errno(void)
{
    return last_error;
}

void rattle_set_errno(int number)
{
    last_error = number;
}

static i64 or_failed(i64 returned, int error)
{
    if (returned < 0)
        last_error = error;
    return returned;
}

// Stand for open, read, write and close. No file is made or changed.
int open(const char *name, int flags, ...)
{
    u64 length = 0;
    if (flags & WRITES_OR_MAKES)
        return (int)or_failed(-1, NO_ACCESS);
    while (name[length])
        length++;
    return (int)or_failed(host_open(name, length), NO_SUCH_FILE);
}

i64 read(int file, void *room, u64 size)
{
    return or_failed(host_read(file, room, size), INPUT_OUTPUT);
}

i64 write(int file, const void *bytes, u64 size)
{
    return or_failed(host_write(file, bytes, size), INPUT_OUTPUT);
}

i64 __write(int file, const void *bytes, u64 size)
{
    return write(file, bytes, size);
}

int close(int file)
{
    return host_close(file);
}

// Stand for _exit and abort.
_Noreturn void _exit(int status)
{
    host_end(status);
}

_Noreturn void abort(void)
{
    __builtin_trap();
}

// There are no signals, and nothing of an x86-64 processor is needed.
i64 __sysv_signal(int number, i64 handler)
{
    (void)number, (void)handler;
    return 0;
}

const u32 *__x86_get_cpuid_feature_leaf(u32 leaf)
{
    static const u32 all[8] = {~0u, ~0u, ~0u, ~0u, ~0u, ~0u, ~0u, ~0u};
    (void)leaf;
    return all;
}

// Threads: each start of one fails, and the program then does the work by itself. So none is joined or detached, and
// nothing is waited for.
int pthread_create(void *made, const void *attributes, void *body, void *given)
{
    (void)made, (void)attributes, (void)body, (void)given;
    return TRY_AGAIN;
}

int pthread_attr_init(void *attributes)
{
    (void)attributes;
    return 0;
}

int pthread_attr_setguardsize(void *attributes, u64 size)
{
    (void)attributes, (void)size;
    return 0;
}

int pthread_attr_destroy(void *attributes)
{
    (void)attributes;
    return 0;
}

u64 pthread_self(void)
{
    return 0;
}

int pthread_join(u64 made, void *returned)
{
    (void)made, (void)returned;
    __builtin_trap();
}

int pthread_detach(u64 made)
{
    (void)made;
    __builtin_trap();
}

int sched_yield(void)
{
    return 0;
}

i64 syscall(i64 number, void *at, i64 call, i64 value, void *time, ...)
{
    (void)number, (void)at, (void)call, (void)value, (void)time;
    __builtin_trap();
}

int main(void);

__attribute__((export_name("start"))) int start(void)
{
    return main();
}
