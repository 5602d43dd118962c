#include "grid.h"
#include "text.h"

#include <string.h>

void grid_text(struct row *row, const uint8_t *bytes, size_t count) {
    row->length = (int)wide_of((const char *)bytes, count, row->at, WIDEST);
    for (int i = 0; i < WIDEST; i++)
        row->from[i] = i;
    memset(row->styles, 0, sizeof row->styles);
}

void grid_row(struct row *row, const zkit *game, uint32_t number, bool is_tallest) {
    uint8_t bytes[3 * WIDEST];
    grid_text(row, bytes, (is_tallest ? zkit_tallest_row : zkit_row)(game, number, bytes, sizeof bytes));
    size_t cells = (is_tallest ? zkit_tallest_row_styles : zkit_row_styles)(game, number, row->styles, WIDEST);
    while ((size_t)row->length < cells)
        row->at[row->length++] = L' ';
}

/* Finds the last cell of the longest run of spaces of one style, of the last one of several: 0 if all are single. */
static int widest_gap(const struct row *row) {
    int found = 0, longest = 2, length = 0;
    for (int i = 0; i < row->length; i++) {
        if (row->at[i] != L' ' || (i > 0 && row->styles[i] != row->styles[i - 1]))
            length = 0;
        length += row->at[i] == L' ';
        if (length >= longest) {
            longest = length;
            found = i;
        }
    }
    return found;
}

void grid_squeeze(struct row *row, int columns) {
    for (int gap; row->length > columns && (gap = widest_gap(row)) > 0;) {
        size_t behind = (size_t)(--row->length - gap);
        memmove(row->at + gap, row->at + gap + 1, behind * sizeof *row->at);
        memmove(row->styles + gap, row->styles + gap + 1, behind * sizeof *row->styles);
        memmove(row->from + gap, row->from + gap + 1, behind * sizeof *row->from);
    }
}

int grid_column(const struct row *row, int column) {
    int drawn = 0, behind = row->length > 0 ? row->from[row->length - 1] + 1 : 0;
    while (drawn < row->length && row->from[drawn] < column)
        drawn++;
    return drawn < row->length ? drawn : drawn + column - behind;
}

bool grid_is_seen(const struct row *row, int cell, bool is_text) {
    return row->at[cell] != L' ' || (!is_text && row->styles[cell] & ZKIT_REVERSE);
}
