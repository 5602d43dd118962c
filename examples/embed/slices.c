/* Plays a story in slices, as a program does that has other things to do meanwhile or does not trust the story: so many
 * instructions at a time, and so many bytes of text.
 *
 *     slices INSTRUCTIONS BYTES STORY [SECONDS] <LINES
 *
 * The lines of standard input answer the story, and its text goes to standard output, as by `zkit play`; it saves
 * nothing. With SECONDS the game is closed once so much processor time has gone by, wherever it is. Standard error gets
 * a line: what the last turn awaited, the status, the reason, and the most memory of the process, in KB. */
#define _XOPEN_SOURCE 700
#include <stdio.h>
#include <stdlib.h>
#include <sys/resource.h>
#include <time.h>

#include "zkit.h"

enum { LONGEST_STORY = 524289, LONGEST_LINE = 65535 };

static uint8_t story[LONGEST_STORY];
static uint8_t line[LONGEST_LINE];

/* Reads the file, and says its length; 0 where it can't be read. */
static size_t read_story(const char *path) {
    FILE *file = fopen(path, "rb");
    size_t length = file ? fread(story, 1, sizeof story, file) : 0;
    if (file)
        fclose(file);
    return length;
}

static void show_text(zkit *game) {
    uint8_t buffer[32];
    size_t count;
    while ((count = zkit_text(game, buffer, sizeof buffer)) > 0)
        fwrite(buffer, 1, count, stdout);
    while (zkit_transcript(game, buffer, sizeof buffer) > 0) {
    }
}

/* Reads a line without its end, and says whether there was one. */
static int read_line(size_t *length) {
    int byte;
    *length = 0;
    while ((byte = getchar()) != EOF && byte != '\n')
        if (*length < LONGEST_LINE)
            line[(*length)++] = (uint8_t)byte;
    return byte != EOF || *length > 0;
}

/* Answers what the story asks for, and says whether there was an answer. A key is the first byte of a line. */
static int answer(zkit *game, uint32_t asked) {
    size_t length = 0;
    if (asked == ZKIT_AWAITS_SAVE)
        return zkit_saved(game, 0) == ZKIT_DONE;
    if (asked == ZKIT_AWAITS_RESTORE)
        return zkit_restore_none(game) == ZKIT_DONE;
    if (asked == ZKIT_AWAITS_MEMORY || !read_line(&length))
        return 0;
    if (asked == ZKIT_AWAITS_LINE)
        return zkit_line(game, line, length) == ZKIT_DONE;
    return zkit_character(game, length > 0 ? line[0] : 10) == ZKIT_DONE;
}

static int is_late(const char *seconds) {
    return seconds && (double)clock() / CLOCKS_PER_SEC > atof(seconds);
}

/* Plays, and tells what was awaited in the end. */
static uint32_t play(zkit *game, uint32_t steps, const char *seconds) {
    uint32_t asked = ZKIT_AWAITS_TIME;
    int goes_on = 1;
    while (goes_on && asked != ZKIT_STOPPED && !is_late(seconds)) {
        asked = zkit_turn_for(game, steps);
        show_text(game);
        if (asked != ZKIT_AWAITS_TIME && asked != ZKIT_AWAITS_ROOM && asked != ZKIT_STOPPED)
            goes_on = answer(game, asked);
    }
    return asked;
}

int main(int count, char **words) {
    zkit_options options = {.size = sizeof options};
    struct rusage usage;
    if (count < 4 || count > 5) {
        fprintf(stderr, "usage: slices INSTRUCTIONS BYTES STORY [SECONDS] <LINES\n");
        return 2;
    }
    zkit_defaults(&options);
    options.steps = 1000000000;
    options.room = (uint32_t)strtoul(words[2], NULL, 10);
    zkit *game = zkit_open(story, read_story(words[3]), &options, NULL);
    if (!game)
        return 1;
    uint32_t asked = play(game, (uint32_t)strtoul(words[1], NULL, 10), words[4]);
    getrusage(RUSAGE_SELF, &usage);
    fprintf(stderr, "awaits %u status %u reason %u memory %ld\n", (unsigned)asked, (unsigned)zkit_status(game),
            (unsigned)zkit_reason(game), usage.ru_maxrss);
    zkit_close(game);
    return 0;
}
