// Starts a port by the program that stands for its system: STARTS is a list of words, as "/usr/lib/wine/wine64",
// "dist/heads.exe", and KEPT the folder in which wine keeps its settings. It is linked statically, so that LD_PRELOAD, which
// the scripts that try the program set, doesn't reach it, and it takes the word away from the program that it starts.
#include <stdlib.h>
#include <unistd.h>

int main(int count, char **words)
{
    char *starts[] = {STARTS}, *given[sizeof starts / sizeof *starts + count];
    size_t size = 0;
    for (; size < sizeof starts / sizeof *starts; size++)
        given[size] = starts[size];
    for (int at = 1; at <= count; at++)
        given[size++] = words[at];
    unsetenv("LD_PRELOAD");
    setenv("WINEDEBUG", "-all", 1);
    setenv("WINEPREFIX", KEPT, 1);
    setenv("PATH", "/usr/bin:/bin", 0);
    execv(starts[0], given);
    return 126;
}
