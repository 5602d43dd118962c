/* What is kept of a story from one time to the next: the play at each read, so that it can go on where the reader was,
 * as a snapshot, the seed and the last text; and the lines that were typed. */
#ifndef KEPT_H
#define KEPT_H

#include <stdbool.h>
#include <stddef.h>
#include <stdint.h>

#include "files.h"
#include "line.h"
#include "text.h"
#include "zkit.h"

struct kept {
    uint64_t seed;
    const uint8_t *text;     /* four bytes for each character: its number, and its style in the last byte */
    size_t text_length;
    const uint8_t *snapshot;
    size_t snapshot_length;
};

/* The path of the file for a story with an ending: in $XDG_STATE_HOME/zkit, or ~/.local/state/zkit, by the story's
 * release, serial number and checksum, and a sum of all its bytes. Makes the folder. Answers whether there is one. */
bool kept_path(char path[LONGEST_PATH], const zkit_story *about, const uint8_t *story, size_t length,
               const char *ending);

/* The bytes of such a file, with the last text from a place on; null if there is no memory. */
uint8_t *kept_bytes(uint64_t seed, const struct text *text, place from, const uint8_t *snapshot, size_t snapshot_length,
                    size_t *length);

/* Finds the parts of such a file, and answers whether it is one. */
bool kept_parts(const uint8_t *bytes, size_t length, struct kept *kept);

/* Adds its text. */
void kept_text(const struct kept *kept, struct text *text);

/* The bytes of a file of lines; null if there is no memory. */
uint8_t *kept_lines(const struct history *lines, size_t *length);

/* Reads such a file. Answers whether it is one, and whole: else there are no lines. */
bool kept_history(const uint8_t *bytes, size_t length, struct history *lines);

#endif
