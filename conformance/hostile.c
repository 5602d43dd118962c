/* Plays a story of conformance/hostile.py in turns of one instruction, and tells how long the slowest call took.
 *
 *     cc -O1 -Iinclude conformance/hostile.c dist/libzkit.a -o hostile
 *
 *     hostile STORY         the number of the slowest call, and the milliseconds of its thread
 *     hostile STORY NUMBER  makes the calls before that one, and then that one by the function `measured`, which
 *                           `valgrind --tool=callgrind --toggle-collect=measured` counts
 */
#include <stdint.h>
#include <stdio.h>
#include <stdlib.h>
#include <time.h>

#include "zkit.h"

enum { LONGEST_STORY = 524289, MOST_CALLS = 100000 };

static uint8_t story[LONGEST_STORY];

/* A turn of one instruction. */
__attribute__((noinline)) uint32_t measured(zkit *game) {
    return zkit_turn_for(game, 1);
}

/* Takes all text. */
static void take(zkit *game) {
    static uint8_t buffer[65536];
    while (zkit_text(game, buffer, sizeof buffer) > 0)
        continue;
    while (zkit_transcript(game, buffer, sizeof buffer) > 0)
        continue;
}

static double milliseconds(void) {
    struct timespec now;
    clock_gettime(CLOCK_THREAD_CPUTIME_ID, &now);
    return 1e3 * (double)now.tv_sec + 1e-6 * (double)now.tv_nsec;
}

/* Whether a turn can be followed by another one. */
static int goes_on(uint32_t asked) {
    return asked == ZKIT_AWAITS_TIME || asked == ZKIT_AWAITS_ROOM;
}

static void find_slowest(zkit *game) {
    double slowest = 0;
    int number = 0, calls = 0;
    uint32_t asked;
    do {
        double start = milliseconds();
        asked = zkit_turn_for(game, 1);
        double took = milliseconds() - start;
        if (took > slowest) {
            slowest = took;
            number = calls;
        }
        take(game);
    } while (goes_on(asked) && ++calls < MOST_CALLS);
    printf("%d %.3f\n", number, slowest);
}

int main(int count, char **words) {
    FILE *file = count > 1 ? fopen(words[1], "rb") : NULL;
    zkit *game = file ? zkit_open(story, fread(story, 1, sizeof story, file), NULL, NULL) : NULL;
    if (!game)
        return 1;
    if (count == 2) {
        find_slowest(game);
    } else {
        for (int i = atoi(words[2]); i > 0; i--) {
            zkit_turn_for(game, 1);
            take(game);
        }
        measured(game);
    }
    zkit_close(game);
    return 0;
}
