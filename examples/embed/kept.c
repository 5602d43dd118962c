/* Plays a story a line at a time, each by a process of its own, as a server or a chat does that keeps no game in
 * memory.
 *
 *     kept STORY SNAPSHOT [LINE]
 *
 * Without a file SNAPSHOT the story begins; else it goes on from there, and LINE answers it. What it shows up to the
 * next read goes to standard output, and SNAPSHOT is written anew, with the newest states for the story's UNDO. Once
 * the story has stopped SNAPSHOT is removed, and the status is 3. Nothing is saved, and nothing restored. The status is
 * 1 where a file can't be read or is refused. */
#include <stdio.h>
#include <stdlib.h>
#include <string.h>

#include "zkit.h"

enum { LONGEST_STORY = 524289, LONGEST_SNAPSHOT = 4194304, UNDO_BYTES = 3145728 };

static uint8_t story[LONGEST_STORY];
static uint8_t snapshot[LONGEST_SNAPSHOT];

/* Reads a file, and says its length; 0 where it can't be read. */
static size_t read_file(const char *path, uint8_t *bytes, size_t longest) {
    FILE *file = fopen(path, "rb");
    size_t length = file ? fread(bytes, 1, longest, file) : 0;
    if (file)
        fclose(file);
    return length;
}

static int write_file(const char *path, size_t length) {
    FILE *file = fopen(path, "wb");
    if (!file)
        return 0;
    size_t count = fwrite(snapshot, 1, length, file);
    return fclose(file) == 0 && count == length;
}

static void show_text(zkit *game) {
    uint8_t buffer[256];
    size_t count;
    while ((count = zkit_text(game, buffer, sizeof buffer)) > 0)
        fwrite(buffer, 1, count, stdout);
}

/* Plays up to the next read or the end, and tells which. */
static uint32_t play(zkit *game) {
    for (;;) {
        uint32_t asked = zkit_turn(game);
        show_text(game);
        if (asked == ZKIT_AWAITS_SAVE)
            zkit_saved(game, 0);
        else if (asked == ZKIT_AWAITS_RESTORE)
            zkit_restore_none(game);
        else if (asked != ZKIT_AWAITS_ROOM && asked != ZKIT_AWAITS_TIME)
            return asked;
    }
}

/* Answers a line, or a character by the first byte of a line. */
static int answer(zkit *game, const char *line) {
    if (zkit_turn(game) == ZKIT_AWAITS_LINE)
        return zkit_line(game, (const uint8_t *)line, strlen(line)) == ZKIT_DONE;
    return zkit_character(game, line[0] ? (uint8_t)line[0] : 10) == ZKIT_DONE;
}

/* Begins the story, or goes on from the snapshot. */
static zkit *opened(const char *path, size_t length) {
    uint32_t refusal = 0;
    size_t size = read_file(path, snapshot, sizeof snapshot);
    zkit *game = size ? zkit_open_snapshot(story, length, snapshot, size, NULL, &refusal)
                      : zkit_open(story, length, NULL, &refusal);
    if (!game)
        fprintf(stderr, "refused: %u\n", (unsigned)refusal);
    return game;
}

int main(int count, char **words) {
    size_t length;
    if (count < 3 || count > 4) {
        fprintf(stderr, "usage: kept STORY SNAPSHOT [LINE]\n");
        return 2;
    }
    zkit *game = opened(words[2], read_file(words[1], story, sizeof story));
    if (!game || (count == 4 && !answer(game, words[3])))
        return 1;
    if (play(game) == ZKIT_STOPPED) {
        remove(words[2]);
        zkit_close(game);
        return 3;
    }
    if (zkit_snapshot_with_undo(game, UNDO_BYTES, snapshot, sizeof snapshot, &length) != ZKIT_DONE
        || !write_file(words[2], length))
        return 1;
    zkit_close(game);
    return 0;
}
