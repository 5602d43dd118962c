/* Tells the program which plant is on, by ZKIT_PLANT, and marks in the file ZKIT_REACHED which places of plants it has
 * come to. It makes no call that refused_calls.c or refused_memory.c counts. conformance/plant.py builds it. */
#include <fcntl.h>
#include <stdlib.h>
#include <sys/mman.h>
#include <sys/syscall.h>
#include <unistd.h>

enum { PLACES = 65536 };

static int known;
static unsigned number;
static volatile unsigned char *reached;

static void begin(void) {
    const char *plant = getenv("ZKIT_PLANT"), *path = getenv("ZKIT_REACHED");
    number = plant ? (unsigned)strtoul(plant, 0, 10) : 0;
    known = 1;
    if (!path) return;
    long file = syscall(SYS_open, path, O_RDWR, 0);
    if (file < 0) return;
    void *made = mmap(0, PLACES, PROT_READ | PROT_WRITE, MAP_SHARED, (int)file, 0);
    if (made != MAP_FAILED) reached = made;
    syscall(SYS_close, file);
}

/* The number of the test that is run in place of the program, by ZKIT_TEST; 0 for none. */
unsigned test_asked(void) {
    const char *test = getenv("ZKIT_TEST");
    return test ? (unsigned)strtoul(test, 0, 10) : 0;
}

unsigned turned_at(unsigned place) {
    if (!known) begin();
    if (reached && place < PLACES) reached[place] = 1;
    return number;
}
