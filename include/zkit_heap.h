/* zkit_heap.h - the three functions by which the library takes its memory.
 * SPDX-License-Identifier: MIT OR Apache-2.0
 *
 * Most programs need nothing of this: libzkit.a and libzkit.so.1 have these functions, over malloc, realloc and free. A
 * program with an allocator of its own defines all three and links libzkit.a after its own objects: then the linker
 * leaves out those of the archive. The shared object has them inside, and takes no others.
 *
 * What they owe, and nothing tests:
 *
 * - A block overlaps no other one that is not given back, and nobody else writes to it.
 * - A block of `size` bytes is aligned to each power of two up to 16 that divides `size`, as to 8 for 24 bytes.
 * - All three are of one allocator, and work in each thread that plays a game: a block may be given back by another
 *   thread than the one that took it, if the program moves a game between threads.
 * - They call no function of zkit.h, and return: no longjmp, no exception.
 *
 * Where there is no memory they say so; then the function of zkit.h that has asked answers ZKIT_NO_MEMORY or the like,
 * and each block that is left stays as it was. */
#ifndef ZKIT_HEAP_H
#define ZKIT_HEAP_H

#include <stddef.h>

#ifdef __cplusplus
extern "C" {
#endif

/* What comes of a request. */
struct rattle_block {
    unsigned char is_there; /* 1 where there is a block, else 0 */
    void *at;               /* the block; where there is none, any pointer that is not null, as that to a static byte */
};

/* Takes a new block of size bytes, or of alignment bytes where size is 0. Alignment is 1, 2, 4, 8 or 16 and, where size
 * is not 0, divides it; size is less than 2^63. Nothing is asked of the bytes in it. */
struct rattle_block rattle_alloc(size_t size, size_t alignment);

/* Makes a block one of size bytes, or of alignment bytes where size is 0, with the first `kept` bytes as they were;
 * kept is no more than either size. It may move: then the old block is given back. Where there is no memory, the block
 * is as it was. */
struct rattle_block rattle_realloc(void *block, size_t kept, size_t size, size_t alignment);

/* Gives back a block that one of the two has answered. It is never null. */
void rattle_dealloc(void *block);

#ifdef __cplusplus
}
#endif

#endif
