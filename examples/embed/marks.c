/* Plays a story with the lines of standard input, each turn in slices, and writes the addresses of the instructions
 * that were carried out, as the file of `zkit play --cover` has them.
 *
 *     marks STORY <LINES */
#include <stdio.h>
#include <string.h>

#include "zkit.h"

enum { LONGEST_STORY = 524289, LONGEST_LINE = 1024 };

static uint8_t story[LONGEST_STORY], marks[LONGEST_STORY];

/* Answers what the story awaits, and says whether there is an answer. */
static int answer(zkit *game, uint32_t asked) {
    char line[LONGEST_LINE];
    if (asked == ZKIT_AWAITS_TIME || asked == ZKIT_AWAITS_ROOM)
        return 1;
    if (asked == ZKIT_AWAITS_SAVE)
        return zkit_saved(game, 0) == ZKIT_DONE;
    if (asked == ZKIT_AWAITS_RESTORE)
        return zkit_restore_none(game) == ZKIT_DONE;
    if (asked == ZKIT_STOPPED || !fgets(line, sizeof line, stdin))
        return 0;
    if (asked == ZKIT_AWAITS_CHARACTER)
        return zkit_character(game, (uint8_t)line[0]) == ZKIT_DONE;
    return zkit_line(game, (uint8_t *)line, strcspn(line, "\n")) == ZKIT_DONE;
}

int main(int count, char **words) {
    static uint8_t text[4096];
    zkit_options options = {.size = sizeof options};
    FILE *file = count == 2 ? fopen(words[1], "rb") : NULL;
    if (!file) {
        fprintf(stderr, "usage: marks STORY <LINES\n");
        return 2;
    }
    size_t length = fread(story, 1, sizeof story, file);
    fclose(file);
    zkit_defaults(&options);
    options.coverage = 1;
    zkit *game = zkit_open(story, length, &options, NULL);
    if (!game)
        return 1;
    uint32_t asked;
    do {
        asked = zkit_turn_for(game, 1000);
        while (zkit_text(game, text, sizeof text) > 0)
            ;
    } while (answer(game, asked));
    length = zkit_coverage(game, 0, marks, sizeof marks);
    for (size_t address = 0; address < length; address++)
        if (marks[address])
            printf("%05zx\n", address);
    zkit_close(game);
    return 0;
}
