/* heap.c - what zkit_heap.h declares, over malloc, realloc and free.
 * SPDX-License-Identifier: MIT OR Apache-2.0 */
#include <stddef.h>
#include <stdlib.h>

#include "zkit_heap.h"

/* What a request points to that has failed. */
static unsigned char nothing;

static struct rattle_block answer(void *at) {
    struct rattle_block block = {1, at};
    if (at == NULL) {
        block.is_there = 0;
        block.at = &nothing;
    }
    return block;
}

struct rattle_block rattle_alloc(size_t size, size_t alignment) {
    return answer(malloc(size > 0 ? size : alignment));
}

struct rattle_block rattle_realloc(void *block, size_t kept, size_t size, size_t alignment) {
    (void)kept; /* realloc keeps them all */
    return answer(realloc(block, size > 0 ? size : alignment));
}

void rattle_dealloc(void *block) {
    free(block);
}
