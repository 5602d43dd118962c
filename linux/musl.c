/* musl.c - what glibc has and musl lacks: statx, which musl has from 1.2.5 on, and a second name of write.
 * SPDX-License-Identifier: MIT OR Apache-2.0 */
#include <stddef.h>

/* of x86-64; Linux has it from 4.11 on */
#define NUMBER_OF_STATX 332L

long syscall(long number, ...);
ptrdiff_t write(int file, const void *bytes, size_t length);

int statx(int folder, const char *path, int flags, unsigned mask, void *found);
int statx(int folder, const char *path, int flags, unsigned mask, void *found) {
    return (int)syscall(NUMBER_OF_STATX, (long)folder, path, (long)flags, (long)mask, found);
}

ptrdiff_t __write(int file, const void *bytes, size_t length);
ptrdiff_t __write(int file, const void *bytes, size_t length) {
    return write(file, bytes, length);
}
