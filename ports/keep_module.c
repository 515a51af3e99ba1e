// Stands for the kit's clang while ports/module builds: copies the LLVM module that it is handed, module.bc, to KEPT, and then
// is CLANG under the name that it was called by, since clang is the kit's linker and its nm, too. A module of fewer than a
// million bytes is not the program's.
#include <stdio.h>
#include <string.h>
#include <unistd.h>

enum { LEAST_BYTES = 1000000 };

static void copy(const char *from, const char *to)
{
    static char bytes[1 << 16];
    FILE *source = fopen(from, "rb");
    if (!source)
        return;
    fseek(source, 0, SEEK_END);
    if (ftell(source) >= LEAST_BYTES) {
        FILE *target = fopen(to, "wb");
        rewind(source);
        for (size_t size; target && (size = fread(bytes, 1, sizeof bytes, source)) > 0;)
            fwrite(bytes, 1, size, target);
        if (target)
            fclose(target);
    }
    fclose(source);
}

int main(int count, char **words)
{
    for (int at = 1; at < count; at++)
        if (strcmp(words[at], "module.bc") == 0)
            copy(words[at], KEPT);
    execv(CLANG, words);
    return 127;
}
