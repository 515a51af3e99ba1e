// The edge of dist/heads-linux-x86_64: what stands between the program's pages and the C library (musl) that this file
// is linked with. Nothing proves this file. All other functions that the program calls are the C library's own: the
// linker puts their addresses where the loader of Linux would.
#include <cpuid.h>
#include <signal.h>
#include <stdint.h>
#include <string.h>
#include <unistd.h>

// The program's own code, in the pages. `heads_keep` is handed the command's words by the program's start on Linux, and
// keeps them; `heads_main` is C's main. It doesn't return: it ends by _exit.
void heads_keep(int count, char **words, char **environment);
int heads_main(int count, char **words, char **environment);

enum { ENDED_BY_RETURN = 70 };

// Stands for glibc's __sysv_signal. The program calls it once, to have SIGPIPE ignored, and takes no answer: a write to
// a closed pipe then fails with EPIPE.
void *port___sysv_signal(int number, void *handler)
{
    return (void *)signal(number, (void (*)(int))handler);
}

// Stands for glibc's __write, which is write under another name: it returns how many bytes were taken, or -1 and an
// error's number. The program calls it once, to say that the processor is too old.
ssize_t port___write(int file, const void *bytes, size_t size)
{
    return write(file, bytes, size);
}

// Stands for glibc's __x86_get_cpuid_feature_leaf. It returns eight words: EAX, EBX, ECX and EDX as the instruction CPUID
// puts them, and the same four again as what the system lets a program use. The program asks for leaf 0 (CPUID 1) and
// leaf 2 (CPUID 0x80000001), and of each reads the seventh word for instructions that need nothing of the system (SSE3 to
// SSE4.2, CMPXCHG16B, POPCNT, LAHF). Of any other leaf it says that the processor has nothing.
const uint32_t *port___x86_get_cpuid_feature_leaf(unsigned leaf)
{
    static const uint32_t numbers[] = {1, 0, 0x80000001};
    static uint32_t found[3][8], nothing[8];
    if (leaf != 0 && leaf != 2)
        return nothing;
    uint32_t *words = found[leaf];
    if (!__get_cpuid(numbers[leaf], words, words + 1, words + 2, words + 3))
        return nothing;
    memcpy(words + 4, words, 4 * sizeof *words);
    return words;
}

int main(int count, char **words, char **environment)
{
    heads_keep(count, words, environment);
    heads_main(count, words, environment);
    return ENDED_BY_RETURN;
}
