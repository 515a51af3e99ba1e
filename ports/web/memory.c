// Memory for the program in WebAssembly. Nothing proves this file; tests/memory_test.c tries it.
//
// The heap is a row of blocks, each with a head of 16 bytes and a size that is a multiple of 16, up to a last block
// without bytes. Two free blocks are never neighbours: a block that is freed is joined with those beside it. Free blocks
// are kept in lists by size, four lists to each doubling. The heap grows where no free block is large enough.
#include "edge.h"

enum { HEAD = 16, LEAST = 32, LISTS = 192, USED = 1 };

struct block {
    u64 before;             // the size of the block before, 0 of the first
    u64 size;               // with the head, plus USED while it is in use
    struct block *next;     // in its list, while it is free
    struct block *previous;
};

static struct block *lists[LISTS];
static u64 filled[LISTS / 64];
static struct block *last;

static u64 size_of(const struct block *block)
{
    return block->size & ~(u64)USED;
}

static int is_used(const struct block *block)
{
    return block->size & USED;
}

static struct block *after(struct block *block)
{
    return (struct block *)((char *)block + size_of(block));
}

static struct block *before(struct block *block)
{
    return (struct block *)((char *)block - block->before);
}

// The list of blocks of this size: the sizes of a later list are greater than all of an earlier one.
static int list_of(u64 size)
{
    int bits = 63 - __builtin_clzll(size);
    return 4 * (bits - 5) + (int)(size >> (bits - 2) & 3);
}

static void keep(struct block *block)
{
    int list = list_of(block->size);
    block->previous = 0;
    block->next = lists[list];
    if (block->next)
        block->next->previous = block;
    lists[list] = block;
    filled[list / 64] |= (u64)1 << list % 64;
}

static void take(struct block *block)
{
    int list = list_of(block->size);
    if (block->next)
        block->next->previous = block->previous;
    if (block->previous)
        block->previous->next = block->next;
    else
        lists[list] = block->next;
    if (!lists[list])
        filled[list / 64] &= ~((u64)1 << list % 64);
}

// A free block of at least this size: the first that fits of its own list, else any of a later list; or none.
static struct block *fitting(u64 size)
{
    int list = list_of(size);
    for (struct block *block = lists[list]; block; block = block->next)
        if (block->size >= size)
            return block;
    for (int word = ++list / 64; word < LISTS / 64; word++, list = word * 64) {
        u64 found = filled[word] >> list % 64;
        if (found)
            return lists[list + __builtin_ctzll(found)];
    }
    return 0;
}

// Makes a block that is in no list free, and joins it with the free blocks beside it.
static struct block *set_free(struct block *block)
{
    struct block *next = after(block);
    u64 size = size_of(block);
    if (!is_used(next)) {
        take(next);
        size += next->size;
    }
    if (block->before && !is_used(before(block))) {
        block = before(block);
        take(block);
        size += block->size;
    }
    block->size = size;
    after(block)->before = size;
    keep(block);
    return block;
}

// Cuts a block in use down to this size, where what is left is a block.
static void cut(struct block *block, u64 size)
{
    u64 left = size_of(block) - size;
    if (left < LEAST)
        return;
    block->size = size | USED;
    struct block *rest = after(block);
    rest->before = size;
    rest->size = left | USED;
    after(rest)->before = left;
    set_free(rest);
}

static u64 whole(u64 size, u64 unit)
{
    return (size + unit - 1) / unit * unit;
}

// Has the heap end with a free block of at least this size. Whether there was memory.
static int grow(u64 size)
{
    u64 begin = last ? (u64)last : whole((u64)heap_begin(), HEAD);
    u64 wanted = begin + size + HEAD, have = memory_pages() * PAGE;
    if (wanted > have) {
        u64 more = whole(wanted - have, PAGE) / PAGE, ahead = have / PAGE / 8;
        if (!more_pages(more + ahead) && !more_pages(more))
            return 0;
    }
    u64 end = memory_pages() * PAGE - HEAD;
    struct block *block = (struct block *)begin;
    if (!last)
        block->before = 0;
    block->size = (end - begin) | USED;
    last = (struct block *)end;
    last->before = end - begin;
    last->size = USED;
    set_free(block);
    return 1;
}

void *malloc(u64 bytes)
{
    if (bytes >> 40)
        return 0;
    u64 size = whole(bytes + HEAD, HEAD);
    if (size < LEAST)
        size = LEAST;
    struct block *block = fitting(size);
    if (!block) {
        if (!grow(size))
            return 0;
        block = fitting(size);
    }
    take(block);
    block->size |= USED;
    cut(block, size);
    return (char *)block + HEAD;
}

void free(void *given)
{
    if (given)
        set_free((struct block *)((char *)given - HEAD));
}

void *realloc(void *given, u64 bytes)
{
    if (!given)
        return malloc(bytes);
    struct block *block = (struct block *)((char *)given - HEAD), *next = after(block);
    u64 have = size_of(block), size = whole(bytes + HEAD, HEAD);
    if (bytes >> 40)
        return 0;
    if (size < LEAST)
        size = LEAST;
    if (have < size && !is_used(next) && have + next->size >= size) {
        take(next);
        have += next->size;
        block->size = have | USED;
        after(block)->before = have;
    }
    if (have >= size) {
        cut(block, size);
        return given;
    }
    void *more = malloc(bytes);
    if (!more)
        return 0;
    __builtin_memcpy(more, given, have - HEAD);
    free(given);
    return more;
}
