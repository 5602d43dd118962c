/* heap_test.c - tests of heap.c on the machine that builds it. Its memory here is a piece of this program's.
 * SPDX-License-Identifier: MIT OR Apache-2.0
 *
 *     cc -I../include -fsanitize=address,undefined heap_test.c && ./a.out */
#include <stdio.h>
#include <stdlib.h>
#include <string.h>

#define __builtin_wasm_memory_size(number) memory_size(number)
#define __builtin_wasm_memory_grow(number, pages) memory_grow(number, pages)

enum { MOST_PAGES = 1024, FIRST_PAGES = 18 };

static unsigned char *memory;
static size_t pages_there;

/* The module has one memory, whose number is 0. */
static size_t memory_size(int number) {
    if (number != 0)
        abort();
    return (size_t)memory / 65536 + pages_there;
}

/* As the lowered module has it: what fails answers the low half of -1. */
static size_t memory_grow(int number, size_t pages) {
    size_t before = memory_size(number);
    if (pages > MOST_PAGES - pages_there)
        return 0xffffffff;
    pages_there += pages;
    return before;
}

#include "heap.c"

enum { SLOTS = 64, ROUNDS = 50000 };

/* A block that is in use: each of its bytes is `mark`. */
struct used {
    uint8_t *at;
    size_t size;
    uint8_t mark;
};

static struct used slots[SLOTS];
static uint64_t random_state = 1;

static void want(int holds, const char *what) {
    if (holds)
        return;
    fprintf(stderr, "heap_test: %s\n", what);
    exit(1);
}

static uint32_t random_below(uint32_t limit) {
    random_state = random_state * 6364136223846793005u + 1442695040888963407u;
    return (uint32_t)(random_state >> 33) % limit;
}

/* A size: mostly small, at times some pages, seldom megabytes. */
static size_t random_size(void) {
    uint32_t kind = random_below(100);
    return random_below(kind < 80 ? 300 : kind < 99 ? 200000 : 9000000);
}

/* Looks through the list: by address, no two blocks touch, all lie in the memory. Answers the sum of their sizes. */
static size_t look_at_free(void) {
    size_t sum = 0;
    uint8_t *last = memory + FIRST_PAGES * PAGE - 1;
    for (struct block *block = free_blocks.next; block; block = block->next) {
        want((uint8_t *)block > last, "free blocks lie by their address, and touch nowhere");
        want(block->size >= UNIT && block->size % UNIT == 0, "a free block has whole units");
        want(end_of(block) <= memory + pages_there * PAGE, "a free block ends in the memory");
        last = end_of(block);
        sum += block->size;
    }
    return sum;
}

static size_t sum_of_used(void) {
    size_t sum = 0;
    for (int i = 0; i < SLOTS; i++)
        if (slots[i].at)
            sum += block_of(slots[i].at)->size;
    return sum;
}

/* Free blocks and those in use are all that the memory has grown by: no byte is lost, and none is there twice. */
static void look_at_all(void) {
    want(look_at_free() + sum_of_used() == (pages_there - FIRST_PAGES) * PAGE, "each byte is free or in use");
}

static int has_mark(const struct used *used, size_t size) {
    return size == 0 || (used->at[0] == used->mark && memcmp(used->at, used->at + 1, size - 1) == 0);
}

static void fill(struct used *used, struct rattle_block block, size_t size) {
    want(((size_t)block.at & 15) == 0, "a block is aligned to 16 bytes");
    used->at = block.at;
    used->size = size;
    used->mark = (uint8_t)random_below(256);
    memset(used->at, used->mark, size);
}

static void give(struct used *used) {
    want(has_mark(used, used->size), "nobody else has written to a block");
    rattle_dealloc(used->at);
    used->at = NULL;
}

static void resize(struct used *used) {
    size_t size = random_size();
    size_t kept = size < used->size ? size : used->size;
    struct rattle_block block = rattle_realloc(used->at, kept, size, 1);
    if (block.is_there)
        used->at = block.at;
    want(has_mark(used, block.is_there ? kept : used->size), "a block that is made another size keeps its bytes");
    if (block.is_there)
        fill(used, block, size);
}

static void take(struct used *used) {
    size_t size = random_size();
    struct rattle_block block = rattle_alloc(size, 1);
    want(block.at != NULL, "what failed points to something");
    if (block.is_there)
        fill(used, block, size);
}

static void give_all(void) {
    for (int i = 0; i < SLOTS; i++)
        if (slots[i].at)
            give(&slots[i]);
}

static void look_at_one_free(void) {
    want(free_blocks.next && !free_blocks.next->next, "where no block is in use there is one free block");
    look_at_all();
}

static void random_rounds(void) {
    for (int round = 0; round < ROUNDS; round++) {
        struct used *used = &slots[random_below(SLOTS)];
        if (!used->at)
            take(used);
        else if (random_below(3) == 0)
            resize(used);
        else
            give(used);
        if (round % 16 == 0)
            look_at_all();
    }
    give_all();
    look_at_one_free();
}

/* Whether what is refused leaves the memory as it was. */
static void refused(size_t size) {
    size_t there = pages_there;
    struct rattle_block block = rattle_alloc(size, 1);
    want(!block.is_there && block.at != NULL, "too large a size is refused");
    want(zkit_take(size) == NULL, "too much room is refused");
    want(pages_there == there, "what is refused lets nothing grow");
}

static void refused_again(size_t size) {
    struct rattle_block block = rattle_alloc(5, 1);
    memcpy(block.at, "lamp", 5);
    struct rattle_block other = rattle_realloc(block.at, 5, size, 1);
    want(!other.is_there && other.at != NULL, "too large a new size is refused");
    want(strcmp(block.at, "lamp") == 0, "what is refused leaves the block");
    rattle_dealloc(block.at);
}

static void large_sizes(void) {
    static const size_t sizes[] = {64 << 20, (64 << 20) + 1, (size_t)1 << 32, (size_t)1 << 48, ((size_t)1 << 63) - 1,
                                   ((size_t)1 << 63) - 16, (size_t)-1, (size_t)-16, (size_t)-32};
    for (size_t i = 0; i < sizeof sizes / sizeof sizes[0]; i++) {
        refused(sizes[i]);
        refused_again(sizes[i]);
    }
    look_at_all();
}

static void no_bytes(void) {
    struct rattle_block one = rattle_alloc(0, 16), other = rattle_alloc(0, 16);
    want(one.is_there && other.is_there && one.at != other.at, "no bytes are a block of their own");
    memset(one.at, 7, 16);
    struct rattle_block none = rattle_realloc(other.at, 0, 0, 16);
    want(none.is_there, "a block may get no bytes");
    rattle_dealloc(none.at);
    rattle_dealloc(one.at);
    void *room = zkit_take(0);
    want(room != NULL, "there is room for no bytes");
    zkit_give(room);
    zkit_give(NULL);
    look_at_all();
}

/* Takes blocks of a size until there is no memory, gives all of them back, and answers how many there were. */
static size_t fill_with(size_t size) {
    static void *taken[1 << 20];
    size_t count = 0;
    while (count < sizeof taken / sizeof taken[0]) {
        struct rattle_block block = rattle_alloc(size, 1);
        if (!block.is_there)
            break;
        taken[count++] = block.at;
    }
    for (size_t i = 0; i < count; i++)
        rattle_dealloc(taken[(i * 7919) % count]);
    return count;
}

/* What was one size's is another's afterwards. */
static void other_sizes(void) {
    size_t most = (size_t)(MOST_PAGES - FIRST_PAGES - LEAST_PAGES) * PAGE;
    want(fill_with(10007) * 10016 > most - PAGE, "small blocks take nearly all of the memory");
    look_at_one_free();
    want(fill_with(most) == 1, "one block takes it all after them");
    look_at_one_free();
    want(fill_with(1000003) * 1000032 > most - 1000032, "and large ones after that");
    look_at_one_free();
    want(pages_there <= MOST_PAGES, "the memory has its bound");
}

/* A block that grows where nothing else is taken is not in the way of itself for ever. */
static void growing(void) {
    struct rattle_block block = rattle_alloc(1, 1);
    for (size_t size = 2; size <= 16 << 20; size *= 2) {
        block = rattle_realloc(block.at, size / 2, size, 1);
        want(block.is_there, "a block grows up to a quarter of the memory");
    }
    block = rattle_realloc(block.at, 1, 1, 1);
    want(block.is_there, "a block may shrink");
    want(look_at_free() + 2 * UNIT == (pages_there - FIRST_PAGES) * PAGE, "what shrinks frees its rest");
    rattle_dealloc(block.at);
    look_at_one_free();
}

/* The memory grows by the pages that a block lacks, less what is free at its end, and by nothing else. */
static void grows_by(size_t size, size_t pages) {
    size_t there = pages_there;
    void *at = zkit_take(size);
    want(at != NULL && pages_there == there + pages, "the memory grows by the pages that a block lacks");
    zkit_give(at);
}

static void exact_growth(void) {
    size_t free_pages = look_at_free() / PAGE;
    void *low = zkit_take((free_pages - 2) * PAGE), *high = zkit_take(2 * PAGE - 2 * UNIT);
    want(!free_blocks.next, "both take all that is free");
    zkit_give(low);
    grows_by((free_pages + 20) * PAGE - UNIT, free_pages + 20);
    zkit_give(high);
    look_at_one_free();
}

/* Where no memory is left, a block may still keep its size or shrink: it stays where it is. */
static void shrinking(void) {
    struct rattle_block block = rattle_alloc(1000, 1);
    void *rest[99];
    size_t count = 0, size = 32 << 20;
    while ((rest[count] = zkit_take(size)) != NULL || size > 0)
        if (rest[count])
            count++;
        else
            size /= 2;
    want(!free_blocks.next, "all memory is taken");
    static const size_t sizes[] = {1000, 1001, 1008, 500, 1, 0};
    for (size_t i = 0; i < sizeof sizes / sizeof sizes[0]; i++) {
        struct rattle_block same = rattle_realloc(block.at, 1 < sizes[i] ? 1 : sizes[i], sizes[i], 16);
        want(same.is_there && same.at == block.at, "a block that gets no larger stays where it is");
    }
    want(!rattle_realloc(block.at, 0, 2000, 1).is_there, "one that gets larger is refused where no memory is left");
    rattle_dealloc(block.at);
    while (count > 0)
        zkit_give(rest[--count]);
    look_at_one_free();
}

/* The memory grows seldom, and by no more than has to be there. */
static void first_blocks(void) {
    rattle_dealloc(rattle_alloc(1, 1).at);
    want(pages_there == FIRST_PAGES + LEAST_PAGES, "the memory grows by some pages at least");
    void *all = zkit_take((size_t)LEAST_PAGES * PAGE - UNIT);
    want(all != NULL && pages_there == FIRST_PAGES + LEAST_PAGES, "a block takes all that is free");
    zkit_give(all);
    exact_growth();
    zkit_give(zkit_take(40 << 20));
    void *more = zkit_take(60 << 20);
    want(more != NULL, "what is free at the end is counted where the memory grows");
    zkit_give(more);
    look_at_one_free();
}

int main(void) {
    memory = aligned_alloc(PAGE, (size_t)MOST_PAGES * PAGE);
    want(memory != NULL, "there is memory for the test");
    pages_there = FIRST_PAGES;
    first_blocks();
    large_sizes();
    no_bytes();
    growing();
    random_rounds();
    other_sizes();
    shrinking();
    random_rounds();
    free(memory);
    puts("heap_test: all is as it should be");
    return 0;
}
