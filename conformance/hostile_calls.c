/* Asks for the status line and for each listing of a story of conformance/hostile.py, and tells what each call took.
 *
 *     cc -O1 -Iinclude conformance/hostile_calls.c dist/libzkit.a -o hostile_calls
 *
 *     hostile_calls STORY       a line for each call: its name, what it answered, how many bytes it made, and the
 *                               milliseconds of its thread
 *     hostile_calls STORY NAME  makes that call alone, by the function `measured`, which
 *                               `valgrind --tool=callgrind --toggle-collect=measured` counts
 */
#include <stdint.h>
#include <stdio.h>
#include <stdlib.h>
#include <string.h>
#include <time.h>

#include "zkit.h"

enum { LONGEST_STORY = 524289, MOST = 1 << 20, STATUS = -1 };

struct call {
    const char *name;
    int listing;
};

static const struct call calls[] = {
    {"status", STATUS},
    {"header", ZKIT_LIST_HEADER},
    {"map", ZKIT_LIST_MAP},
    {"abbreviations", ZKIT_LIST_ABBREVIATIONS},
    {"dictionary", ZKIT_LIST_DICTIONARY},
    {"objects", ZKIT_LIST_OBJECTS},
    {"tree", ZKIT_LIST_TREE},
    {"ifid", ZKIT_LIST_IFID},
    {"code", ZKIT_LIST_CODE},
    {"findings", ZKIT_LIST_FINDINGS},
    {"strings", ZKIT_LIST_STRINGS},
    {"properties", ZKIT_LIST_PROPERTIES},
    {"globals", ZKIT_LIST_GLOBALS},
    {"alphabets", ZKIT_LIST_ALPHABETS},
    {"extension", ZKIT_LIST_EXTENSION},
};

static uint8_t story[LONGEST_STORY];

static uint32_t status(zkit *game) {
    zkit_figures figures = {.size = sizeof figures};
    zkit_status_line(game, &figures);
    return figures.kind;
}

/* The status line, or a listing of at most MOST bytes. */
__attribute__((noinline)) uint32_t measured(zkit *game, const struct call *call) {
    return call->listing == STATUS ? status(game) : zkit_list_within(game, (uint32_t)call->listing, MOST);
}

/* How many bytes a call has made. */
static size_t bytes_of(zkit *game, const struct call *call) {
    static uint8_t buffer[MOST];
    return call->listing == STATUS ? zkit_status_name(game, buffer, MOST) : zkit_listing(game, buffer, MOST);
}

static double milliseconds(void) {
    struct timespec now;
    clock_gettime(CLOCK_THREAD_CPUTIME_ID, &now);
    return 1e3 * (double)now.tv_sec + 1e-6 * (double)now.tv_nsec;
}

static void tell(zkit *game, const struct call *call) {
    double start = milliseconds();
    uint32_t answer = measured(game, call);
    double took = milliseconds() - start;
    printf("%s %u %zu %.3f\n", call->name, (unsigned)answer, bytes_of(game, call), took);
}

int main(int count, char **words) {
    FILE *file = count > 1 ? fopen(words[1], "rb") : NULL;
    zkit *game = file ? zkit_open(story, fread(story, 1, sizeof story, file), NULL, NULL) : NULL;
    if (!game)
        return 1;
    for (size_t i = 0; i < sizeof calls / sizeof *calls; i++)
        if (count == 2 || strcmp(words[2], calls[i].name) == 0)
            tell(game, &calls[i]);
    zkit_close(game);
    return 0;
}
