/* host.c - what the program asks of C beside the heap: the words that it is started with, the variables of its
 * environment, open folders, and the number of the last error.
 * SPDX-License-Identifier: MIT OR Apache-2.0
 *
 * The toolchain has this for x86-64 and glibc alone; its os/src/c.rt declares these functions. */
#include <stddef.h>

int *__errno_location(void);
char *getenv(const char *name);
int openat(int folder, const char *path, int flags, ...);

/* O_DIRECTORY, O_NOFOLLOW and O_CLOEXEC of Linux, whose numbers depend on the processor */
#ifdef __aarch64__
#define A_FOLDER (0x4000 | 0x8000 | 0x80000)
#else
#define A_FOLDER (0x10000 | 0x20000 | 0x80000)
#endif

/* --wrap=main has the start code call the second of these two, and names the program's own main as the first. */
int __real_main(int count, char **words, char **variables);
int __wrap_main(int count, char **words, char **variables);

static size_t count_of_words;
static char **all_words;

int __wrap_main(int count, char **words, char **variables) {
    count_of_words = (size_t)count;
    all_words = words;
    return __real_main(count, words, variables);
}

/* Copies a text, without its last 0, and answers its length; -1 where there is none; -2 where it does not fit: then the
 * buffer is full. */
static ptrdiff_t copied(const char *text, unsigned char *buffer, size_t room) {
    if (text == NULL) return -1;
    size_t length = 0;
    for (; text[length] != 0; length++) {
        if (length == room) return -2;
        buffer[length] = (unsigned char)text[length];
    }
    return (ptrdiff_t)length;
}

/* Copies the word of a number. */
ptrdiff_t rattle_arg(size_t number, unsigned char *buffer, size_t room);
ptrdiff_t rattle_arg(size_t number, unsigned char *buffer, size_t room) {
    return copied(number < count_of_words ? all_words[number] : NULL, buffer, room);
}

/* Copies the value of a variable of the environment. */
ptrdiff_t rattle_env(const unsigned char *name, unsigned char *buffer, size_t room);
ptrdiff_t rattle_env(const unsigned char *name, unsigned char *buffer, size_t room) {
    return copied(getenv((const char *)name), buffer, room);
}

/* Opens a folder that a path leads to from another one, and that is no link, for reading. */
int rattle_open_dir_at(int folder, const unsigned char *path);
int rattle_open_dir_at(int folder, const unsigned char *path) {
    return openat(folder, (const char *)path, A_FOLDER);
}

int rattle_errno(void);
int rattle_errno(void) {
    return *__errno_location();
}

void rattle_set_errno(int number);
void rattle_set_errno(int number) {
    *__errno_location() = number;
}
