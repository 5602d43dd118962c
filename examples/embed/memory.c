/* Tells how much memory and stack a game takes: the lines of standard input answer its story, and its text is dropped.
 *
 *     memory STORY [FRAMES WORDS UNDO ROOM] <LINES
 *
 * It writes the bytes that the library has asked for and not given back: after the game is opened, at most while it is
 * played, at most while all listings are made after that, and after it is closed; and the bytes of the stack that a
 * thread has used which does nothing else. */
#define _XOPEN_SOURCE 700
#include <pthread.h>
#include <stdio.h>
#include <stdlib.h>
#include <string.h>

#include "zkit.h"
#include "zkit_heap.h"

enum { LONGEST_STORY = 524289, LONGEST_LINE = 65535, STACK = 1 << 20, PAINT = 0xa5 };

static uint8_t story[LONGEST_STORY], image[LONGEST_STORY], line[LONGEST_LINE];
static size_t story_length, image_length;
static zkit_options options = {.size = sizeof options};

/* ---- the heap: before each block stands its size */

static size_t bytes_now, bytes_most, opened, played, listed;

static struct rattle_block block_at(size_t *at, size_t size) {
    static unsigned char nothing;
    struct rattle_block block = {at != NULL, at ? (void *)(at + 2) : &nothing};
    if (at) {
        *at = size;
        bytes_now += size;
        bytes_most = bytes_now > bytes_most ? bytes_now : bytes_most;
    }
    return block;
}

struct rattle_block rattle_alloc(size_t size, size_t alignment) {
    size = size > 0 ? size : alignment;
    return block_at(malloc(size + 2 * sizeof(size_t)), size);
}

struct rattle_block rattle_realloc(void *block, size_t kept, size_t size, size_t alignment) {
    size_t *at = (size_t *)block - 2, *moved, before = *at;
    (void)kept;
    size = size > 0 ? size : alignment;
    moved = realloc(at, size + 2 * sizeof(size_t));
    bytes_now -= moved ? before : 0;
    return block_at(moved, size);
}

void rattle_dealloc(void *block) {
    bytes_now -= ((size_t *)block)[-2];
    free((size_t *)block - 2);
}

/* ---- the play */

static void drop_text(zkit *game) {
    uint8_t buffer[4096];
    while (zkit_text(game, buffer, sizeof buffer) > 0 || zkit_transcript(game, buffer, sizeof buffer) > 0) {
    }
}

static void drop_listings(zkit *game) {
    uint8_t buffer[4096];
    for (uint32_t listing = ZKIT_LIST_HEADER; listing <= ZKIT_LIST_EXTENSION; listing++) {
        zkit_list(game, listing);
        while (zkit_listing(game, buffer, sizeof buffer) > 0) {
        }
    }
}

/* Reads a line, and says whether there was one. */
static int read_line(size_t *length) {
    if (!fgets((char *)line, sizeof line, stdin))
        return 0;
    *length = strcspn((const char *)line, "\n");
    return 1;
}

/* Answers what the story asks for, and says whether there was an answer. */
static int answer(zkit *game, uint32_t asked) {
    size_t length = 0;
    if (asked == ZKIT_AWAITS_ROOM)
        return 1;
    if (asked == ZKIT_AWAITS_MEMORY)
        return 0;
    if (asked == ZKIT_AWAITS_SAVE)
        return zkit_saved(game, zkit_image(game, image, sizeof image, &image_length) == ZKIT_DONE) == ZKIT_DONE;
    if (asked == ZKIT_AWAITS_RESTORE)
        return zkit_restore(game, image, image_length) == ZKIT_DONE;
    if (!read_line(&length))
        return 0;
    if (asked == ZKIT_AWAITS_LINE)
        return zkit_line(game, line, length) == ZKIT_DONE;
    return zkit_character(game, length > 0 ? line[0] : 10) == ZKIT_DONE;
}

static void *play(void *unused) {
    uint32_t asked;
    zkit *game = zkit_open(story, story_length, &options, NULL);
    opened = bytes_now;
    if (!game)
        return unused;
    do {
        asked = zkit_turn(game);
        drop_text(game);
    } while (asked != ZKIT_STOPPED && answer(game, asked));
    played = bytes_most;
    bytes_most = bytes_now;
    drop_listings(game);
    listed = bytes_most;
    zkit_close(game);
    return unused;
}

/* Plays in a thread of its own, whose stack was painted, and says how much of it is painted over. */
static size_t stack_of_play(void) {
    pthread_attr_t attributes;
    pthread_t thread;
    size_t painted = 0;
    void *block = NULL;
    if (posix_memalign(&block, 4096, STACK) != 0)
        return 0;
    uint8_t *stack = memset(block, PAINT, STACK);
    pthread_attr_init(&attributes);
    pthread_attr_setstack(&attributes, stack, STACK);
    pthread_create(&thread, &attributes, play, NULL);
    pthread_join(thread, NULL);
    while (painted < STACK && stack[painted] == PAINT)
        painted++;
    free(block);
    return STACK - painted;
}

static uint32_t number(const char *word) {
    return (uint32_t)strtoul(word, NULL, 10);
}

int main(int count, char **words) {
    FILE *file = count == 2 || count == 6 ? fopen(words[1], "rb") : NULL;
    if (!file) {
        fprintf(stderr, "usage: memory STORY [FRAMES WORDS UNDO ROOM] <LINES\n");
        return 2;
    }
    story_length = fread(story, 1, sizeof story, file);
    fclose(file);
    zkit_defaults(&options);
    options.steps = 1000000000;
    if (count == 6) {
        options.frames = number(words[2]);
        options.words = number(words[3]);
        options.undo = number(words[4]);
        options.room = number(words[5]);
    }
    size_t stack = stack_of_play();
    printf("opened %zu, played %zu, listed %zu, closed %zu, stack %zu\n", opened, played, listed, bytes_now, stack);
    return 0;
}
