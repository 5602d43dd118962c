/* Plays games of one story in threads of their own at a time, each to the end of the lines, and clones of these too:
 * clones of one game, and games that the threads open themselves. All come to the same end as the first game, which is
 * played and closed meanwhile.
 *
 *     threads STORY THREADS <LINES */
#define _POSIX_C_SOURCE 200809L
#include <pthread.h>
#include <stdio.h>
#include <stdlib.h>

#include "zkit.h"

enum { LONGEST_STORY = 524289, MOST = 1 << 20, MOST_THREADS = 256 };

static uint8_t story[LONGEST_STORY], lines[MOST];
static size_t story_length, lines_length;
static zkit_shared *opened;

struct play {
    pthread_t thread;
    zkit *game;
    uint64_t hash;
};

static uint64_t hash_on(uint64_t hash, const uint8_t *bytes, size_t length) {
    for (size_t i = 0; i < length; i++)
        hash = (hash ^ bytes[i]) * 1099511628211u;
    return hash;
}

/* Runs a game up to its next read or its stop, and adds its text to a hash. */
static uint32_t run(zkit *game, uint64_t *hash) {
    uint8_t buffer[4096];
    uint32_t asked;
    size_t count;
    do {
        asked = zkit_turn_for(game, 5000);
        while ((count = zkit_text(game, buffer, sizeof buffer)) > 0)
            *hash = hash_on(*hash, buffer, count);
    } while (asked == ZKIT_AWAITS_TIME || asked == ZKIT_AWAITS_ROOM || asked == ZKIT_AWAITS_MEMORY);
    return asked;
}

/* Plays all lines; a clone takes the place of the game after each tenth one. */
static uint64_t played(zkit *game) {
    uint64_t hash = 14695981039346656037u;
    uint32_t asked = ZKIT_AWAITS_LINE;
    size_t from = 0;
    for (int turn = 1; asked == ZKIT_AWAITS_LINE && from < lines_length; turn++) {
        size_t end = from;
        while (end < lines_length && lines[end] != '\n')
            end++;
        zkit_line(game, lines + from, end - from);
        from = end + 1;
        asked = run(game, &hash);
        zkit *clone = turn % 10 == 0 ? zkit_clone(game, NULL) : NULL;
        if (clone) {
            zkit_close(game);
            game = clone;
        }
    }
    hash = hash_on(hash, (uint8_t *)&asked, sizeof asked);
    zkit_close(game);
    return hash;
}

static void *in_thread(void *it) {
    struct play *play = it;
    uint64_t opening = 0;
    if (!play->game) {
        play->game = zkit_story_game(opened, NULL, NULL);
        if (!play->game || run(play->game, &opening) != ZKIT_AWAITS_LINE)
            return NULL;
    }
    play->hash = played(play->game);
    return NULL;
}

int main(int count, char **words) {
    static struct play plays[MOST_THREADS];
    FILE *file = count == 3 ? fopen(words[1], "rb") : NULL;
    int threads = count == 3 ? atoi(words[2]) : 0, differ = 0;
    uint64_t hash = 0;
    if (!file || threads < 1 || threads > MOST_THREADS) {
        fprintf(stderr, "usage: threads STORY THREADS <LINES, at most %d\n", MOST_THREADS);
        return 2;
    }
    story_length = fread(story, 1, sizeof story, file);
    fclose(file);
    lines_length = fread(lines, 1, sizeof lines, stdin);
    opened = zkit_story_open(story, story_length, NULL);
    zkit *game = opened ? zkit_story_game(opened, NULL, NULL) : NULL;
    if (!game || run(game, &hash) != ZKIT_AWAITS_LINE)
        return 1;
    for (int i = 0; i < threads; i += 2)
        if (!(plays[i].game = zkit_clone(game, NULL)))
            return 1;
    for (int i = 0; i < threads; i++)
        if (pthread_create(&plays[i].thread, NULL, in_thread, &plays[i]) != 0)
            return 1;
    hash = played(game);
    for (int i = 0; i < threads; i++) {
        pthread_join(plays[i].thread, NULL);
        differ += plays[i].hash != hash;
    }
    /* The story's file goes with its last owner. That is this one, since a thread sanitizer does not see the count of
     * owners by which another thread may free it. */
    zkit_story_close(opened);
    printf("%d threads, %d differ\n", threads, differ);
    return differ != 0;
}
