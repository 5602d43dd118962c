/* Plays a story turn by turn, in one of the ways in which a program can hold its games.
 *
 *     many_games one|clone|snapshot LINES TURNS STORY
 *     many_games clones|snapshots LINES GAMES STORY
 *
 * The lines of LINES are typed one after another, again and again; the text is counted. With `clone` each turn is that
 * of a new clone of the game before, with `snapshot` that of a game that goes on from its snapshot: all three play the
 * same. `clones` and `snapshots` hold so many games that each have played all lines once, and write how many bytes of
 * memory the process holds for each, and the microseconds of processor time that one turn of each takes; a snapshot is
 * opened for that, and taken again. The status is 1 where something can't be done. */
#define _XOPEN_SOURCE 700
#include <stdio.h>
#include <stdlib.h>
#include <string.h>
#include <time.h>
#include <unistd.h>

#include "zkit.h"

enum { LONGEST_STORY = 524289, LONGEST_SNAPSHOT = 4194304, MOST_LINES = 100, UNDO_BYTES = 3145728 };

typedef struct {
    uint8_t *bytes;
    size_t length;
} kept;

static uint8_t story[LONGEST_STORY], snapshot[LONGEST_SNAPSHOT];
static char lines[MOST_LINES][256];
static size_t count_of_lines, at, shown;
static zkit_shared *opened;

static void must(int holds, const char *words) {
    if (holds)
        return;
    fprintf(stderr, "many_games: %s\n", words);
    exit(1);
}

static void read_lines(const char *path) {
    FILE *file = fopen(path, "r");
    must(file != NULL, "the lines can't be read");
    while (count_of_lines < MOST_LINES && fgets(lines[count_of_lines], sizeof lines[0], file)) {
        char *line = lines[count_of_lines++];
        line[strcspn(line, "\n")] = 0;
    }
    fclose(file);
    must(count_of_lines > 0, "there are no lines");
}

/* Goes on to the next read. */
static void go_on(zkit *game) {
    uint8_t text[4096];
    size_t length;
    must(zkit_turn(game) == ZKIT_AWAITS_LINE, "the story awaits something other than a line");
    while ((length = zkit_text(game, text, sizeof text)) > 0)
        shown += length;
}

/* Types the next line. */
static void take_turn(zkit *game) {
    const char *line = lines[at++ % count_of_lines];
    must(zkit_line(game, (const uint8_t *)line, strlen(line)) == ZKIT_DONE, "a line is refused");
    go_on(game);
}

static zkit *cloned(const zkit *game) {
    zkit *made = zkit_clone(game, NULL);
    must(made != NULL, "there is no memory for a clone");
    return made;
}

static size_t taken(zkit *game) {
    size_t length;
    must(zkit_snapshot_with_undo(game, UNDO_BYTES, snapshot, sizeof snapshot, &length) == ZKIT_DONE, "no snapshot");
    return length;
}

static zkit *resumed(const uint8_t *bytes, size_t length) {
    zkit *made = zkit_story_resume(opened, bytes, length, NULL, NULL);
    must(made != NULL, "a snapshot is not opened");
    return made;
}

/* The game that goes on from another one, which is closed. */
static zkit *next_of(zkit *game, const char *way) {
    zkit *next = game;
    if (strcmp(way, "clone") == 0)
        next = cloned(game);
    else if (strcmp(way, "snapshot") == 0)
        next = resumed(snapshot, taken(game));
    if (next != game)
        zkit_close(game);
    return next;
}

/* The bytes of memory that the process holds. */
static long held(void) {
    long all = 0, pages = 0;
    FILE *file = fopen("/proc/self/statm", "r");
    must(file && fscanf(file, "%ld %ld", &all, &pages) == 2, "/proc/self/statm can't be read");
    fclose(file);
    return pages * sysconf(_SC_PAGESIZE);
}

static double microseconds(void) {
    struct timespec now;
    clock_gettime(CLOCK_PROCESS_CPUTIME_ID, &now);
    return 1e6 * (double)now.tv_sec + 1e-3 * (double)now.tv_nsec;
}

static void tell(long bytes, double time, size_t number) {
    printf("%ld bytes, %.1f microseconds\n", bytes / (long)number, time / (double)number);
}

static void hold_clones(zkit *game, size_t number) {
    zkit **games = malloc(number * sizeof *games);
    must(games != NULL, "no memory");
    long before = held();
    for (size_t i = 0; i < number; i++)
        games[i] = cloned(game);
    long bytes = held() - before;
    double begun = microseconds();
    for (size_t i = 0; i < number; i++)
        take_turn(games[i]);
    tell(bytes, microseconds() - begun, number);
    for (size_t i = 0; i < number; i++)
        zkit_close(games[i]);
    free(games);
}

static void keep(kept *one, size_t length) {
    free(one->bytes);
    one->bytes = malloc(length);
    must(one->bytes != NULL, "no memory");
    one->length = length;
    memcpy(one->bytes, snapshot, length);
}

static void hold_snapshots(zkit *game, size_t number) {
    kept *games = calloc(number, sizeof *games);
    must(games != NULL, "no memory");
    long before = held();
    for (size_t i = 0; i < number; i++)
        keep(&games[i], taken(game));
    long bytes = held() - before;
    double begun = microseconds();
    for (size_t i = 0; i < number; i++) {
        zkit *one = resumed(games[i].bytes, games[i].length);
        take_turn(one);
        keep(&games[i], taken(one));
        zkit_close(one);
    }
    tell(bytes, microseconds() - begun, number);
    for (size_t i = 0; i < number; i++)
        free(games[i].bytes);
    free(games);
}

int main(int count, char **words) {
    must(count == 5, "usage: many_games one|clone|snapshot|clones|snapshots LINES NUMBER STORY");
    const char *way = words[1];
    size_t number = (size_t)strtoul(words[3], NULL, 10);
    FILE *file = fopen(words[4], "rb");
    must(file && number > 0, "the story can't be read, or the number is 0");
    size_t length = fread(story, 1, sizeof story, file);
    fclose(file);
    read_lines(words[2]);
    opened = zkit_story_open(story, length, NULL);
    zkit *game = opened ? zkit_story_game(opened, NULL, NULL) : NULL;
    must(game != NULL, "the story is not opened");
    go_on(game);
    if (way[strlen(way) - 1] == 's') {
        for (size_t i = 0; i < count_of_lines; i++)
            take_turn(game);
        (strcmp(way, "clones") == 0 ? hold_clones : hold_snapshots)(game, number);
    } else {
        for (size_t i = 0; i < number; i++) {
            game = next_of(game, way);
            take_turn(game);
        }
        printf("%zu bytes of text\n", shown);
    }
    zkit_close(game);
    zkit_story_close(opened);
    return 0;
}
