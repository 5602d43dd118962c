/* stdlib.h - what the library's C names of it, for the toolchain's compiler, which has no headers. */
#ifndef STDLIB_H
#define STDLIB_H

#include <stddef.h>

void *malloc(size_t size);
void *realloc(void *block, size_t size);
void free(void *block);

#endif
