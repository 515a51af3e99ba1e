// The edge of dist/heads-linux-aarch64: what the program, compiled from its LLVM module for ARM64, calls and the C library
// (musl) hasn't. On x86-64 the kit's own C objects have these functions. Nothing proves this file. All other functions
// that the program calls are the C library's own, whose constants are the same on ARM64 but for the number of a call.
#include <errno.h>
#include <signal.h>
#include <stdint.h>
#include <stdlib.h>
#include <sys/types.h>
#include <unistd.h>

// A block of memory, or that there is none.
struct tried {
    uint64_t ok;
    void *p;
};

static char no_block;
static int count;
static char **words;

static struct tried tried(void *block)
{
    return (struct tried){block != NULL, block ? block : &no_block};
}

// A block of at least `size` bytes, from a multiple of 16 on, that no other block shares a byte with; or none. `align` is
// at most 16.
struct tried rattle_alloc(size_t size, size_t align)
{
    return tried(malloc(size ? size : align));
}

// A block that begins with the `kept` first bytes of the old one, in its place; or none, and the old one is as it was.
struct tried rattle_realloc(void *block, size_t kept, size_t size, size_t align)
{
    (void)kept;
    return tried(realloc(block, size ? size : align));
}

// Frees what one of the two returned.
void rattle_dealloc(void *block)
{
    free(block);
}

// Puts a word of the command at the start of `room` and returns its length; -1 where there is no such word, -2 where it
// doesn't fit, and then the room is full.
ssize_t rattle_arg(size_t number, char *room, size_t size)
{
    if (number >= (size_t)count || !words[number])
        return -1;
    const char *word = words[number];
    for (size_t at = 0; at < size; at++) {
        if (!word[at])
            return (ssize_t)at;
        room[at] = word[at];
    }
    return word[size] ? -2 : (ssize_t)size;
}

// The calling thread's last error.
int rattle_errno(void)
{
    return errno;
}

void rattle_set_errno(int number)
{
    errno = number;
}

// Stands for glibc's __sysv_signal. The program calls it once, to have SIGPIPE ignored, and takes no answer.
int64_t __sysv_signal(int number, int64_t handler)
{
    return (int64_t)signal(number, (void (*)(int))handler);
}

// Stands for glibc's __write, which is write under another name. The program calls it once, to say that the processor is too
// old for code of x86-64.
ssize_t __write(int file, const void *bytes, size_t size)
{
    return write(file, bytes, size);
}

// Stands for glibc's __x86_get_cpuid_feature_leaf, which the program asks what an x86-64 processor has. Code for ARM64 needs
// none of it: all is said to be there.
const uint32_t *__x86_get_cpuid_feature_leaf(unsigned leaf)
{
    static const uint32_t all[8] = {~0u, ~0u, ~0u, ~0u, ~0u, ~0u, ~0u, ~0u};
    (void)leaf;
    return all;
}

// Stands for syscall. The program makes one call by it, FUTEX_WAIT on a word that nobody changes, to wait for ever. The
// number is that of x86-64, which means another call here, so none is made.
int64_t syscall(int64_t number, ...)
{
    (void)number;
    for (;;)
        pause();
}

// The linker has the start call this in place of the program's main, which takes no words: they are kept first.
int __real_main(void);

int __wrap_main(int given, char **list)
{
    count = given;
    words = list;
    return __real_main();
}
