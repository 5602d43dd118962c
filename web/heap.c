/* heap.c - the memory of zkit.wasm: the three functions of zkit_heap.h, and room for what a page passes to a call.
 * SPDX-License-Identifier: MIT OR Apache-2.0
 *
 * Blocks lie one after the other from where the memory ended at first. Free ones are in a list by their address, and
 * two that touch are made one: where no block is in use, all is one free block again. One thread uses it. */
#include <stddef.h>
#include <stdint.h>

#include "zkit_heap.h"

/* The linker's --max-memory bounds the memory; no request can be larger. LEAST_PAGES: so that it seldom grows. */
enum { PAGE = 65536, LEAST_PAGES = 16, UNIT = 16, LARGEST = 64 << 20 };

/* What stands before the bytes of a block. It takes one unit. */
struct block {
    size_t size;        /* of all of the block, in bytes: whole units */
    struct block *next; /* where it is free: the next free one */
};

static struct block free_blocks; /* the list's head, which is no block */
static uint8_t nothing;          /* what a request points to that has failed */

static uint8_t *end_of(struct block *block) {
    return (uint8_t *)block + block->size;
}

/* The last free block before an address, or the list's head. */
static struct block *free_before(const void *at) {
    struct block *before = &free_blocks;
    while (before->next && (const void *)before->next < at)
        before = before->next;
    return before;
}

/* Makes a free block and the next one into one where they touch. */
static void join(struct block *block) {
    struct block *next = block->next;
    if (next && end_of(block) == (uint8_t *)next) {
        block->size += next->size;
        block->next = next->next;
    }
}

static void make_free(struct block *block) {
    struct block *before = free_before(block);
    block->next = before->next;
    before->next = block;
    join(block);
    if (before != &free_blocks)
        join(before);
}

/* Leaves a block so many bytes, and makes the rest of it free. */
static void cut(struct block *block, size_t size) {
    size_t left = block->size - size;
    if (left == 0)
        return;
    block->size = size;
    struct block *rest = (struct block *)end_of(block);
    rest->size = left;
    make_free(rest);
}

/* Takes the first free block that is large enough out of the list; null where there is none. */
static struct block *take_free(size_t size) {
    struct block *before = &free_blocks;
    while (before->next && before->next->size < size)
        before = before->next;
    struct block *found = before->next;
    if (found) {
        before->next = found->next;
        cut(found, size);
    }
    return found;
}

/* How many free bytes there are at the end of the memory. */
static size_t free_at_end(void) {
    uint8_t *end = (uint8_t *)(__builtin_wasm_memory_size(0) * PAGE);
    struct block *last = free_before(end);
    return last != &free_blocks && end_of(last) == end ? last->size : 0;
}

/* Lets the memory grow so that a block fits at its end, and says whether it did. Where it can't grow, the answer is -1,
 * of which the lowering to a memory of 32 bits leaves the low half. */
static int grow(size_t size) {
    size_t pages = (size - free_at_end() + PAGE - 1) / PAGE;
    if (pages < LEAST_PAGES)
        pages = LEAST_PAGES;
    size_t before = __builtin_wasm_memory_grow(0, pages);
    if ((uint32_t)before == UINT32_MAX)
        return 0;
    struct block *more = (struct block *)(before * PAGE);
    more->size = pages * PAGE;
    make_free(more);
    return 1;
}

/* The size of a block with so many bytes. */
static size_t block_size(size_t size) {
    return UNIT + (size + UNIT - 1) / UNIT * UNIT;
}

static struct block *block_of(void *at) {
    return (struct block *)at - 1;
}

/* Room for so many bytes, or null. Any size may be asked for. */
void *zkit_take(size_t size) {
    if (size > LARGEST)
        return NULL;
    struct block *block = take_free(block_size(size));
    if (!block && grow(block_size(size)))
        block = take_free(block_size(size));
    return block ? block + 1 : NULL;
}

/* Gives back what zkit_take has answered. Null is nothing. */
void zkit_give(void *at) {
    if (at)
        make_free(block_of(at));
}

static struct rattle_block answer(void *at) {
    struct rattle_block block = {at != NULL, at ? at : &nothing};
    return block;
}

struct rattle_block rattle_alloc(size_t size, size_t alignment) {
    return answer(zkit_take(size > 0 ? size : alignment));
}

struct rattle_block rattle_realloc(void *at, size_t kept, size_t size, size_t alignment) {
    size_t wanted = size > 0 ? size : alignment;
    if (wanted <= LARGEST && block_size(wanted) <= block_of(at)->size) {
        cut(block_of(at), block_size(wanted));
        return answer(at);
    }
    void *moved = zkit_take(wanted);
    if (moved) {
        __builtin_memcpy(moved, at, kept);
        zkit_give(at);
    }
    return answer(moved);
}

void rattle_dealloc(void *at) {
    zkit_give(at);
}
