/* Counts the allocations from `main` on, refuses the one whose number REFUSED says, and leaves their count in the file
 * ASKED. conformance/failures.py loads it before the program. */
#define _GNU_SOURCE
#include <dlfcn.h>
#include <errno.h>
#include <fcntl.h>
#include <stdlib.h>
#include <unistd.h>

void *__libc_malloc(size_t size);
void *__libc_calloc(size_t count, size_t size);
void *__libc_realloc(void *block, size_t size);
void *__libc_memalign(size_t step, size_t size);

typedef int main_function(int, char **, char **);
typedef int start_function(main_function *, int, char **, void (*)(void), void (*)(void), void (*)(void), void *);

static main_function *real_main;
static long refused, asked;
static int counts;

static int refuses(void) {
    if (!counts || ++asked != refused) return 0;
    errno = ENOMEM;
    return 1;
}

void *malloc(size_t size) { return refuses() ? 0 : __libc_malloc(size); }
void *calloc(size_t count, size_t size) { return refuses() ? 0 : __libc_calloc(count, size); }
void *realloc(void *block, size_t size) { return refuses() ? 0 : __libc_realloc(block, size); }
void *memalign(size_t step, size_t size) { return refuses() ? 0 : __libc_memalign(step, size); }
void *aligned_alloc(size_t step, size_t size) { return refuses() ? 0 : __libc_memalign(step, size); }

int posix_memalign(void **block, size_t step, size_t size) {
    void *made = refuses() ? 0 : __libc_memalign(step, size);
    if (!made) return ENOMEM;
    *block = made;
    return 0;
}

static int counted_main(int count, char **words, char **variables) {
    counts = 1;
    return real_main(count, words, variables);
}

int __libc_start_main(main_function *main, int count, char **words, void (*begin)(void), void (*end)(void),
                      void (*unload)(void), void *stack) {
    const char *number = getenv("REFUSED");
    refused = number ? atol(number) : 0;
    real_main = main;
    start_function *start = dlsym(RTLD_NEXT, "__libc_start_main");
    return start(counted_main, count, words, begin, end, unload, stack);
}

__attribute__((destructor)) static void tell(void) {
    const char *path = getenv("ASKED");
    int file = path ? creat(path, 0600) : -1;
    if (file < 0 || write(file, &asked, sizeof asked) < 0) _exit(99);
    close(file);
}
