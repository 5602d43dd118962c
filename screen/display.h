/* What stands on the screen: the status line and the upper window at the top, and the text below them. */
#ifndef DISPLAY_H
#define DISPLAY_H

#include <stdbool.h>

#include "text.h"
#include "zkit.h"

/* What the lower part shows of the text, from a row on. */
struct shown {
    place top;
    place end;              /* what stands from here on is not shown */
    place cursor;
    uint32_t keyed;         /* in so many rows of the upper window a key was read, and they are no box when they go */
    const char *mark;       /* words in the last rows, or null */
    bool is_asking;         /* the cursor stands behind these words */
    bool is_back;           /* earlier text is shown, without the box and the cursor of the story */
};

/* Whether no styles are shown but reverse. */
void display_set_plain(bool is_plain);

/* How many rows of text there is room for, above some words or, for null, without any. */
int display_rows(const zkit *game, const char *mark);
int display_columns(void);

void display_draw(const zkit *game, const struct text *text, const struct shown *shown);

/* Draws the rows of a table in place of all, as many as there is room for and one at least, and some words in the last
 * rows: `last` if these are all. Answers how many they are. */
size_t display_table(const char *const *rows, size_t count, const char *more, const char *last);

/* The words on the screen, without a mark: how many characters. */
size_t display_words(wchar_t *words, size_t most);

#endif
