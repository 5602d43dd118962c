/* Rows of the upper window and of a box, as they are drawn. */
#ifndef GRID_H
#define GRID_H

#include <stdbool.h>
#include <stddef.h>
#include <stdint.h>
#include <wchar.h>

#include "zkit.h"

enum { WIDEST = ZKIT_MOST_COLUMNS };

/* A row of the grid: characters, each with its style and the column that it has in the grid. */
struct row {
    wchar_t at[WIDEST];
    uint8_t styles[WIDEST];
    int from[WIDEST];
    int length;
};

/* Reads UTF-8, as the library gives it, into a row. */
void grid_text(struct row *row, const uint8_t *bytes, size_t count);

/* Reads a row of the upper window, or of the tallest grid: its text, and the styles of its cells, which may be more. */
void grid_row(struct row *row, const zkit *game, uint32_t number, bool is_tallest);

/* Makes a row fit a screen that is narrower than the grid: takes spaces out of its widest gaps, as long as one is left
 * in each. */
void grid_squeeze(struct row *row, int columns);

/* The column of the screen in which a column of the grid stands, both from 0 on. */
int grid_column(const struct row *row, int column);

/* Whether a cell of a row is seen: a character is, and so is a space in reverse, if not the text alone is meant. */
bool grid_is_seen(const struct row *row, int cell, bool is_text);

#endif
