// Memory, from the heap of the process. Nothing proves this file.
#include "edge.h"
#include <string.h>

// Stands for malloc. A block of at least `size` bytes, from a multiple of 16 on, that no other block shares a byte with;
// or NULL.
PORT void *port_malloc(uint64_t size)
{
    return HeapAlloc(GetProcessHeap(), 0, size ? size : 1);
}

// Stands for realloc. A block that begins with the bytes of the old one, as far as both reach, in place of the old one;
// or NULL, and the old one is as it was.
PORT void *port_realloc(void *block, uint64_t size)
{
    return block ? HeapReAlloc(GetProcessHeap(), 0, block, size ? size : 1) : port_malloc(size);
}

// Stands for free. Of NULL it does nothing.
PORT void port_free(void *block)
{
    if (block)
        HeapFree(GetProcessHeap(), 0, block);
}

// Stand for memcpy, memmove and memset, and are those of msvcrt. The first two take blocks that overlap.
PORT void *port_memcpy(void *to, const void *from, uint64_t size)
{
    return memmove(to, from, size);
}

PORT void *port_memmove(void *to, const void *from, uint64_t size)
{
    return memmove(to, from, size);
}

PORT void *port_memset(void *to, int byte, uint64_t size)
{
    return memset(to, byte, size);
}
