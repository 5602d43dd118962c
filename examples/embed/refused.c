/* Plays a story with each of its requests for memory refused once: the first, in another play the second, and so on up
 * to a play in which all are met. Then it plays it once more, where a turn's requests are refused from its first on,
 * those of the next from its second on, and so on, until it no longer awaits memory. The lines of standard input answer
 * the story.
 *
 *     refused STORY <LINES
 *
 * A call that says that there is no memory is made again, and so is a turn that awaits memory. So each play shows the
 * same text to its end, none stops for lack of memory, and in the end no block is left. Where that is so the
 * status is 0. */
#include <stdio.h>
#include <stdlib.h>
#include <string.h>

#include "zkit.h"
#include "zkit_heap.h"

enum { LONGEST_STORY = 524289, MOST = 1 << 20 };

struct bytes {
    uint8_t at[MOST];
    size_t length;
};

static uint8_t story[LONGEST_STORY];
static size_t story_length;
static struct bytes input, first_text, text;

/* How many turns have awaited memory, and whether few requests are met while the story runs. */
static long waits;
static int is_poor;

/* ---- the heap: it counts its blocks, and refuses one request, or all once so many were met */

static long blocks, requests, refused_request, left = -1;

static int is_refused(void) {
    if (++requests == refused_request || left == 0)
        return 1;
    left -= left > 0;
    return 0;
}

static struct rattle_block refusal(void) {
    static unsigned char nothing;
    struct rattle_block block = {0, &nothing};
    return block;
}

static struct rattle_block got(void *at) {
    struct rattle_block block = {1, at};
    return at ? block : refusal();
}

struct rattle_block rattle_alloc(size_t size, size_t alignment) {
    if (is_refused())
        return refusal();
    struct rattle_block block = got(malloc(size > 0 ? size : alignment));
    blocks += block.is_there;
    return block;
}

struct rattle_block rattle_realloc(void *block, size_t kept, size_t size, size_t alignment) {
    (void)kept;
    if (is_refused())
        return refusal();
    return got(realloc(block, size > 0 ? size : alignment));
}

void rattle_dealloc(void *block) {
    blocks--;
    free(block);
}

/* ---- a play */

/* Opens the story, at the second try if memory is refused, and says whether it was. */
static zkit *open_game(void) {
    uint32_t reason = ZKIT_OPENED;
    zkit *game = zkit_open(story, story_length, NULL, &reason);
    if (!game && reason == ZKIT_OPEN_NO_MEMORY)
        game = zkit_open(story, story_length, NULL, &reason);
    return game;
}

static void take_text(zkit *game) {
    size_t count;
    while ((count = zkit_text(game, text.at + text.length, MOST - text.length)) > 0)
        text.length += count;
    while ((count = zkit_transcript(game, text.at + text.length, MOST - text.length)) > 0)
        text.length += count;
}

/* Lists something of the story, at the second try if memory is refused. Then nothing is left of an earlier listing. */
static void list(zkit *game, uint32_t listing) {
    uint8_t byte;
    zkit_list(game, ZKIT_LIST_IFID);
    if (zkit_list(game, listing) != ZKIT_NO_MEMORY)
        return;
    if (zkit_listing(game, &byte, 1) > 0)
        text.length = MOST;
    zkit_list(game, listing);
}

/* Lists all that there is of the story, as long as it is there. */
static void take_listings(zkit *game) {
    for (uint32_t listing = ZKIT_LIST_HEADER; listing <= ZKIT_LIST_EXTENSION; listing++) {
        size_t count;
        list(game, listing);
        while ((count = zkit_listing(game, text.at + text.length, MOST - text.length)) > 0)
            text.length += count;
    }
}

/* Puts the saved game into its place. */
static void keep(zkit *game, struct bytes *saved) {
    size_t needed = 0;
    uint32_t came = zkit_image(game, saved->at, MOST, &needed);
    if (came == ZKIT_NO_MEMORY)
        came = zkit_image(game, saved->at, MOST, &needed);
    saved->length = needed;
    zkit_saved(game, came == ZKIT_DONE);
}

/* Answers a read by the next line, and says whether there was one. */
static int answer_read(zkit *game, uint32_t asked, size_t *at) {
    const uint8_t *line = input.at + *at;
    const uint8_t *end = memchr(line, '\n', input.length - *at);
    if (!end)
        return 0;
    *at += (size_t)(end - line) + 1;
    if (asked == ZKIT_AWAITS_LINE)
        zkit_line(game, line, (size_t)(end - line));
    else
        zkit_character(game, line[0]);
    return 1;
}

/* Plays the story to its end. */
static void play(zkit *game) {
    static struct bytes saved;
    size_t at = 0;
    long tries = 0;
    int goes_on = 1;
    saved.length = 0;
    while (goes_on) {
        left = is_poor ? tries : -1;
        uint32_t asked = zkit_turn(game);
        left = -1;
        tries = asked == ZKIT_AWAITS_MEMORY ? tries + 1 : 0;
        waits += asked == ZKIT_AWAITS_MEMORY;
        take_text(game);
        if (asked == ZKIT_STOPPED)
            break;
        if (asked == ZKIT_AWAITS_SAVE)
            keep(game, &saved);
        else if (asked == ZKIT_AWAITS_RESTORE)
            zkit_restore(game, saved.at, saved.length);
        else if (asked != ZKIT_AWAITS_ROOM && asked != ZKIT_AWAITS_MEMORY)
            goes_on = answer_read(game, asked, &at);
    }
}

/* Goes on from a snapshot where the story's first read is, each call at the second try if memory is refused. */
static zkit *from_snapshot(zkit *game) {
    static uint8_t kept[MOST];
    size_t size = 0;
    uint32_t reason = ZKIT_OPENED, asked = zkit_turn(game);
    if (asked == ZKIT_AWAITS_MEMORY)
        asked = zkit_turn(game);
    take_text(game);
    if (asked != ZKIT_AWAITS_LINE && asked != ZKIT_AWAITS_CHARACTER)
        return game;
    if (zkit_snapshot_with_undo(game, sizeof kept, kept, sizeof kept, &size) == ZKIT_NO_MEMORY)
        zkit_snapshot_with_undo(game, sizeof kept, kept, sizeof kept, &size);
    zkit_close(game);
    game = zkit_open_snapshot(story, story_length, kept, size, NULL, &reason);
    if (!game && reason == ZKIT_OPEN_NO_MEMORY)
        game = zkit_open_snapshot(story, story_length, kept, size, NULL, &reason);
    return game;
}

/* Says whether the play is as it should be; the first one, in which nothing is refused, tells how its text is. */
static int is_right(void) {
    if (refused_request == 0 && !is_poor)
        first_text = text;
    return blocks == 0 && text.length == first_text.length && memcmp(text.at, first_text.at, text.length) == 0;
}

/* Plays once, and says whether all was right. */
static int plays(void) {
    requests = 0;
    text.length = 0;
    zkit *game = open_game();
    if (!game)
        return 0;
    take_listings(game);
    game = from_snapshot(game);
    if (!game)
        return 0;
    play(game);
    zkit_close(game);
    return is_right();
}

int main(int count, char **words) {
    FILE *file = count == 2 ? fopen(words[1], "rb") : NULL;
    if (!file)
        return 2;
    story_length = fread(story, 1, sizeof story, file);
    fclose(file);
    input.length = fread(input.at, 1, sizeof input.at, stdin);
    for (refused_request = 0; refused_request == 0 || requests >= refused_request; refused_request++)
        if (!plays()) {
            printf("request %ld refused: not as it should be\n", refused_request);
            return 1;
        }
    long refused_requests = refused_request - 1, once = waits;
    is_poor = 1;
    refused_request = 0;
    if (!plays() || waits == once) {
        printf("few requests met: not as it should be\n");
        return 1;
    }
    printf("requests that were refused: %ld; turns that awaited memory: %ld, and %ld where few were met\n",
           refused_requests, once, waits - once);
    return 0;
}
