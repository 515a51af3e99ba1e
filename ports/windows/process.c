// The process: its start, its words, its end. Nothing proves this file.
#include "edge.h"
#include <cpuid.h>
#include <string.h>

enum { OUT_OF_MEMORY_STATUS = 7, ENDED_BY_RETURN = 70, ABORTED = 134 };

// The program's own code, in the pages. `heads_keep` is handed the command's words by the program's start on Linux, and
// keeps them; `heads_main` is C's main. It doesn't return: it ends by port__exit.
SYSTEM_V void heads_keep(int count, char **words, char **environment);
SYSTEM_V int heads_main(int count, char **words, char **environment);

// The start-up code of mingw parts the command into words, and leaves `*` and `?` in them as they are.
int _dowildcard = 0;

static _Noreturn void end(UINT status)
{
    for (;;)
        TerminateProcess(GetCurrentProcess(), status);
}

// Stands for _exit: the process ends at once with the status, whatever its threads do. What writes took is written.
PORT void port__exit(int status)
{
    end((UINT)status & 255);
}

// Stands for abort: the process ends at once, with a status that the program has for nothing else.
PORT void port_abort(void)
{
    end(ABORTED);
}

// Stands for glibc's __sysv_signal. The program calls it once, to have SIGPIPE ignored; Windows has no such signal.
PORT void *port___sysv_signal(int number, void *handler)
{
    (void)number, (void)handler;
    return NULL;
}

// Stands for glibc's __x86_get_cpuid_feature_leaf. It returns eight words: EAX, EBX, ECX and EDX as the instruction CPUID
// puts them, and the same four again as what the system lets a program use. The program asks for leaf 0 (CPUID 1) and
// leaf 2 (CPUID 0x80000001), and of each reads the seventh word for instructions that need nothing of the system (SSE3 to
// SSE4.2, CMPXCHG16B, POPCNT, LAHF). Of any other leaf it says that the processor has nothing.
PORT const uint32_t *port___x86_get_cpuid_feature_leaf(unsigned leaf)
{
    static const uint32_t numbers[] = {1, 0, 0x80000001};
    static uint32_t found[3][8], nothing[8];
    if (leaf != 0 && leaf != 2)
        return nothing;
    uint32_t *words = found[leaf];
    if (!__get_cpuid(numbers[leaf], words, words + 1, words + 2, words + 3))
        return nothing;
    memcpy(words + 4, words, 4 * sizeof *words);
    return words;
}

// Not inlined: gcc 12 fails to compile wmain with a call by the other convention in it.
#define APART __attribute__((noinline))

// A word as UTF-8. One that is no text becomes a byte that is no UTF-8, which the program refuses. NULL without memory.
static char *utf8_of(const WCHAR *wide)
{
    int size = WideCharToMultiByte(CP_UTF8, WC_ERR_INVALID_CHARS, wide, -1, NULL, 0, NULL, NULL);
    char *word = port_malloc(size ? size : 2);
    if (word && size)
        WideCharToMultiByte(CP_UTF8, WC_ERR_INVALID_CHARS, wide, -1, word, size, NULL, NULL);
    else if (word)
        strcpy(word, "\xff");
    return word;
}

static APART char **words_of(int count, WCHAR **wide)
{
    char **words = port_malloc((count + 1) * sizeof *words);
    for (int at = 0; words && at < count; at++)
        if (!(words[at] = utf8_of(wide[at])))
            return NULL;
    if (words)
        words[count] = NULL;
    return words;
}

static APART void run(int count, char **words)
{
    static char *environment[] = {NULL};
    heads_keep(count, words, environment);
    heads_main(count, words, environment);
}

int wmain(int count, WCHAR **wide)
{
    char **words = begin_threads() ? words_of(count, wide) : NULL;
    if (!words)
        return OUT_OF_MEMORY_STATUS;
    run(count, words);
    return ENDED_BY_RETURN;
}
