/* Refuses the call of the system with the number that REFUSED says, of those that a save makes, and writes its name to
 * a file `refused`. With CALLS it writes the names of all these calls to a file `calls`. conformance/program.py loads
 * it before the program. */
#define _GNU_SOURCE
#include <dlfcn.h>
#include <errno.h>
#include <fcntl.h>
#include <stdlib.h>
#include <string.h>
#include <sys/file.h>
#include <sys/stat.h>
#include <unistd.h>

static long asked;

#define REALLY(name) ((__typeof__(&name))dlsym(RTLD_NEXT, #name))

/* Adds a line to a file. */
static void note(const char *path, const char *line) {
    int file = REALLY(open)(path, O_CREAT | O_APPEND | O_WRONLY, 0600);
    ssize_t written = REALLY(write)(file, line, strlen(line));
    (void)(written + REALLY(write)(file, "\n", 1));
    close(file);
}

static int refuses(const char *name) {
    const char *number = getenv("REFUSED");
    if (getenv("CALLS")) note("calls", name);
    if (!number || ++asked != atol(number)) return 0;
    note("refused", name);
    errno = EIO;
    return 1;
}

int open(const char *path, int flags, ...) {
    __builtin_va_list rest;
    __builtin_va_start(rest, flags);
    mode_t mode = flags & O_CREAT ? __builtin_va_arg(rest, mode_t) : 0;
    __builtin_va_end(rest);
    return refuses("open") ? -1 : REALLY(open)(path, flags, mode);
}
ssize_t write(int file, const void *bytes, size_t count) {
    return refuses("write") ? -1 : REALLY(write)(file, bytes, count);
}
int fsync(int file) { return refuses("fsync") ? -1 : REALLY(fsync)(file); }
int rename(const char *from, const char *to) { return refuses("rename") ? -1 : REALLY(rename)(from, to); }
int unlink(const char *path) { return refuses("unlink") ? -1 : REALLY(unlink)(path); }
int fchown(int file, uid_t owner, gid_t group) {
    return refuses("fchown") ? -1 : REALLY(fchown)(file, owner, group);
}
int flock(int file, int how) { return refuses("flock") ? -1 : REALLY(flock)(file, how); }
int fchmod(int file, mode_t mode) { return refuses("fchmod") ? -1 : REALLY(fchmod)(file, mode); }
int stat(const char *path, struct stat *found) { return refuses("stat") ? -1 : REALLY(stat)(path, found); }
int lstat(const char *path, struct stat *found) { return refuses("lstat") ? -1 : REALLY(lstat)(path, found); }
ssize_t readlink(const char *path, char *text, size_t size) {
    return refuses("readlink") ? -1 : REALLY(readlink)(path, text, size);
}
char *realpath(const char *path, char *real) { return refuses("realpath") ? 0 : REALLY(realpath)(path, real); }
