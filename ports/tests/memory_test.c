// Tries web/memory.c: blocks are made, changed and given back at random, in a memory that ends. No two blocks share a
// byte, each keeps what was written into it, each begins at a multiple of 16, and once all are given back, one free block
// is left, which a request of its size gets. It prints how many calls it made, and ends with 1 where one is wrong.
#include <stdio.h>
#include <stdlib.h>
#include <string.h>

#define malloc wide_malloc
#define realloc wide_realloc
#define free wide_free
#include "../web/memory.c"
#undef malloc
#undef realloc
#undef free

enum { CALLS = 300000, BLOCKS = 700, MOST_PAGES = 256 };
static unsigned char room[MOST_PAGES * PAGE + PAGE] __attribute__((aligned(65536)));
static u64 pages = 2, state = 88172645463325252u, refused;
static struct { unsigned char *at; u64 size; unsigned char mark; } kept[BLOCKS];

// The heap counts addresses from 0 as WebAssembly does, so the pages here are counted from the room's own address.
unsigned char *heap_begin(void) { return room + 1000; }
u64 memory_pages(void) { return (u64)room / PAGE + pages; }
int more_pages(u64 count) { return pages + count > MOST_PAGES ? 0 : (pages += count, 1); }

static u64 next(void)
{
    state ^= state << 13;
    state ^= state >> 7;
    return state ^= state << 17;
}

static void fail(const char *said)
{
    printf("memory_test: %s\n", said);
    exit(1);
}

static void check(int n, u64 size)
{
    for (u64 at = 0; at < size; at += at < 64 || at + 64 > size ? 1 : 61)
        if (kept[n].at[at] != kept[n].mark)
            fail("a block's bytes were changed");
}

// The row of blocks from the first to the last: sizes fit, and no two free blocks are neighbours.
static u64 walk(void)
{
    u64 count = 0, size_before = 0;
    int was_free = 0;
    for (struct block *block = (struct block *)whole((u64)heap_begin(), HEAD); block != last; block = after(block)) {
        if (block->before != size_before)
            fail("a block doesn't know the one before");
        if (was_free && !is_used(block))
            fail("two free blocks are neighbours");
        was_free = !is_used(block);
        size_before = size_of(block);
        count++;
    }
    return count;
}

static u64 any_size(void)
{
    u64 size = next() % 100;
    return next() % 50 ? size << next() % 10 : next() % (MOST_PAGES * PAGE / 8);
}

static void change(int n)
{
    u64 size = any_size();
    if (kept[n].at && next() % 2) {
        check(n, kept[n].size);
        wide_free(kept[n].at);
        kept[n].at = 0;
        return;
    }
    unsigned char *at = wide_realloc(kept[n].at, size);
    if (!at) {
        refused++;
        return;
    }
    if ((u64)at % 16)
        fail("a block doesn't begin at a multiple of 16");
    u64 same = kept[n].at ? (kept[n].size < size ? kept[n].size : size) : 0;
    kept[n].at = at;
    check(n, same);
    kept[n].size = size;
    kept[n].mark = (unsigned char)next();
    memset(at, kept[n].mark, size);
}

int main(void)
{
    for (int call = 0; call < CALLS; call++) {
        change((int)(next() % BLOCKS));
        if (call % 10000 == 0)
            walk();
    }
    for (int n = 0; n < BLOCKS; n++) {
        if (kept[n].at)
            check(n, kept[n].size);
        wide_free(kept[n].at);
    }
    if (walk() != 1)
        fail("blocks that were given back weren't joined");
    u64 all = size_of((struct block *)whole((u64)heap_begin(), HEAD)) - HEAD;
    u64 had = pages;
    if (!wide_malloc(all) || pages != had)
        fail("the joined block isn't found");
    printf("memory_test: %d calls, %llu refused, %llu pages\n", CALLS, refused, pages);
    return 0;
}
