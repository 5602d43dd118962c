/* The story's text: its newest lines, each character with its style, and how they are wrapped into rows. */
#ifndef TEXT_H
#define TEXT_H

#include <stdbool.h>
#include <stddef.h>
#include <stdint.h>
#include <wchar.h>

enum {
    TEXT_LINES = 10000 /* at least so many lines are kept, unless they have more characters than there is room for */
};

/* A place in the text: how many characters were added before it, also those that are no longer kept. */
typedef size_t place;

struct text {
    wchar_t *characters;
    uint8_t *styles;
    size_t length;    /* how many characters are kept */
    place first;      /* the place of the first one */
    size_t lines;     /* how many of them end a line */
    size_t column;    /* how many follow the last of these */
    wchar_t part;     /* a character whose last bytes are still missing */
    int missing;      /* how many these are */
};

bool text_open(struct text *text);
void text_close(struct text *text);

/* The place after the last character. */
place text_end(const struct text *text);

void text_add(struct text *text, wchar_t character, uint8_t style);

/* Adds UTF-8. The last bytes may be a part of a character: the next ones go on with it. */
void text_add_bytes(struct text *text, const uint8_t *bytes, size_t count, uint8_t style);
void text_add_words(struct text *text, const char *words);

/* Forgets what stands from a place on. */
void text_cut(struct text *text, place end);

wchar_t text_character(const struct text *text, place at);
uint8_t text_style(const struct text *text, place at);

/* How many columns a character takes: 0, 1 or 2. */
int width_of(wchar_t character);

/* Where the row ends that starts here: behind the last space before the screen's edge, or at the edge in a word that is
 * longer than a row. Spaces at the edge hang over it. */
size_t end_of_row(const wchar_t *characters, size_t start, size_t end, int columns);

/* Where the row begins that has a place, on a screen of so many columns. */
place text_row_of(const struct text *text, place at, int columns);

/* Where the rows after and before the one that begins here do: the same place, if there is none. */
place text_next_row(const struct text *text, place row, int columns);
place text_previous_row(const struct text *text, place row, int columns);

/* Goes down some rows, or up, as far as there are any. */
place text_rows_on(const struct text *text, place row, int rows, int columns);

/* Reads UTF-8 into so many wide characters at most, and answers how many. Bytes that are none are read as `?`. */
size_t wide_of(const char *bytes, size_t count, wchar_t *characters, size_t most);

/* The bytes of wide characters as UTF-8, with a 0 at their end; four for each character are enough. */
size_t bytes_of(const wchar_t *characters, size_t length, char *bytes);

#endif
