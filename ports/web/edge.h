// What the files of this folder share. They are the edge of heads.html: what stands between the program, compiled to
// WebAssembly from its LLVM module, and the page. Nothing proves them.
#pragma once

typedef unsigned long long u64;
typedef long long i64;
typedef unsigned int u32;

enum { PAGE = 65536 };

// A block of at least `bytes` bytes, from a multiple of 16 on, that no other block shares a byte with; or none.
void *malloc(u64 bytes);

// A block that begins with the bytes of the old one, as far as both reach, in place of the old one; or none, and the old
// one is as it was.
void *realloc(void *block, u64 bytes);

// Gives a block back, for blocks of any size. Of none it does nothing.
void free(void *block);

#ifdef __wasm__
extern unsigned char __heap_base;

static inline unsigned char *heap_begin(void)
{
    return &__heap_base;
}

static inline u64 memory_pages(void)
{
    return __builtin_wasm_memory_size(0);
}

static inline int more_pages(u64 count)
{
    return (u32)__builtin_wasm_memory_grow(0, count) != ~0u;
}
#else
// In tests/memory_test.c.
unsigned char *heap_begin(void);
u64 memory_pages(void);
int more_pages(u64 count);
#endif
