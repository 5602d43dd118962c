/* Plays a story: the lines of standard input answer it, its text goes to standard output. The last saved game is kept
 * in memory.
 *
 *     play STORY <LINES
 *
 * The status is that of `zkit play`. */
#include <stdio.h>
#include <stdlib.h>

#include "zkit.h"

enum { LONGEST_STORY = 524289, LONGEST_LINE = 65535 };

/* What comes of what the story asks for. */
enum { ANSWERED, NO_MORE_INPUT, NOT_READ, NO_MEMORY };

struct saved {
    uint8_t *bytes;
    size_t length;
};

/* The bytes of a file, or null. */
static uint8_t *read_story(const char *path, size_t *length) {
    FILE *file = fopen(path, "rb");
    uint8_t *bytes = malloc(LONGEST_STORY);
    if (file && bytes)
        *length = fread(bytes, 1, LONGEST_STORY, file);
    if (!file || ferror(file)) {
        free(bytes);
        bytes = NULL;
    }
    if (file)
        fclose(file);
    return bytes;
}

static void show_text(zkit *game) {
    uint8_t buffer[4096];
    size_t count;
    while ((count = zkit_text(game, buffer, sizeof buffer)) > 0)
        fwrite(buffer, 1, count, stdout);
    fflush(stdout);
}

/* Reads a line without its end, and says its length. */
static int read_line(uint8_t *line, size_t *length) {
    int byte;
    *length = 0;
    while ((byte = getchar()) != EOF && byte != '\n') {
        if (*length == LONGEST_LINE)
            return NOT_READ;
        line[(*length)++] = (uint8_t)byte;
    }
    if (ferror(stdin))
        return NOT_READ;
    if (byte == EOF && *length == 0)
        return NO_MORE_INPUT;
    if (byte == '\n' && *length > 0 && line[*length - 1] == '\r')
        --*length;
    return ANSWERED;
}

/* The number of the first character of a line of UTF-8, and 10 where it has none. */
static uint32_t first_character(const uint8_t *bytes, size_t length) {
    if (length == 0)
        return 10;
    if (bytes[0] < 0x80)
        return bytes[0];
    size_t count = bytes[0] < 0xe0 ? 2 : bytes[0] < 0xf0 ? 3 : 4;
    uint32_t character = bytes[0] & (0x7f >> count);
    for (size_t i = 1; i < count && i < length; i++)
        character = character << 6 | (bytes[i] & 0x3f);
    return character;
}

/* Keeps the saved game that waits for it, and tells whether it is kept. */
static void keep(zkit *game, struct saved *saved) {
    size_t length = 0;
    uint32_t kept = 0;
    if (zkit_image(game, NULL, 0, &length) == ZKIT_NO_ROOM) {
        uint8_t *bytes = malloc(length);
        if (bytes && zkit_image(game, bytes, length, &length) == ZKIT_DONE) {
            free(saved->bytes);
            saved->bytes = bytes;
            saved->length = length;
            kept = 1;
        } else {
            free(bytes);
        }
    }
    zkit_saved(game, kept);
}

/* Answers a read by the next line of the input. */
static int answer_read(zkit *game, uint32_t asked) {
    static uint8_t line[LONGEST_LINE];
    size_t length = 0;
    int came = read_line(line, &length);
    if (came != ANSWERED)
        return came;
    if (asked == ZKIT_AWAITS_LINE)
        zkit_line(game, line, length);
    else
        zkit_character(game, first_character(line, length));
    return ANSWERED;
}

/* Gives the story the saved game, if there is one. */
static void restore(zkit *game, const struct saved *saved) {
    if (saved->bytes)
        zkit_restore(game, saved->bytes, saved->length);
    else
        zkit_restore_none(game);
}

/* Answers what the story asks for. Room for text it has again, now that its text was taken. */
static int answer(zkit *game, uint32_t asked, struct saved *saved) {
    if (asked == ZKIT_AWAITS_LINE || asked == ZKIT_AWAITS_CHARACTER)
        return answer_read(game, asked);
    if (asked == ZKIT_AWAITS_MEMORY)
        return NO_MEMORY;
    if (asked == ZKIT_AWAITS_SAVE)
        keep(game, saved);
    if (asked == ZKIT_AWAITS_RESTORE)
        restore(game, saved);
    return ANSWERED;
}

/* Plays a story up to its stop, or as far as there is input. */
static int play(zkit *game) {
    struct saved saved = {NULL, 0};
    int came = ANSWERED;
    while (came == ANSWERED) {
        uint32_t asked = zkit_turn(game);
        show_text(game);
        if (asked == ZKIT_STOPPED)
            break;
        came = answer(game, asked, &saved);
    }
    free(saved.bytes);
    return came;
}

/* Tells why the story has stopped, and answers the status of `zkit play`. */
static int report(const zkit *game, int came) {
    uint8_t words[256];
    uint32_t status = zkit_status(game);
    if (came == NOT_READ) {
        fprintf(stderr, "play: read failed\n");
        return 4;
    }
    if (came == NO_MEMORY) {
        fprintf(stderr, "play: out of memory\n");
        return ZKIT_OUT_OF_MEMORY;
    }
    if (status != ZKIT_RUNS && status != ZKIT_QUIT) {
        size_t count = zkit_text_of_reason(status, zkit_reason(game), words, sizeof words);
        fprintf(stderr, "play: %.*s, at %05x\n", (int)count, (const char *)words, (unsigned)zkit_address(game));
    }
    return status == ZKIT_QUIT ? 0 : (int)status;
}

/* Tells why the story is not opened, and answers the status of `zkit play`. */
static int refuse(uint32_t reason) {
    uint8_t words[256];
    size_t count = zkit_text_of_open(reason, words, sizeof words);
    fprintf(stderr, "play: not opened: %.*s\n", (int)count, (const char *)words);
    return 1;
}

int main(int count, char **words) {
    size_t length = 0;
    uint32_t reason = ZKIT_OPENED;
    uint8_t *story = count == 2 ? read_story(words[1], &length) : NULL;
    if (!story) {
        fprintf(stderr, "usage: play STORY <LINES\n");
        return 4;
    }
    zkit *game = zkit_open(story, length, NULL, &reason);
    free(story);
    if (!game)
        return refuse(reason);
    int status = report(game, play(game));
    zkit_close(game);
    return status;
}
