#include "screen.h"

#include "display.h"
#include "grid.h"

#include <stdio.h>
#include <string.h>

enum { LONGEST_MARK = 512 };

static bool is_plain;
static int words_rows; /* how many rows have no mark */

void display_set_plain(bool plain) {
    is_plain = plain;
}

int display_columns(void) {
    return COLS;
}

/* ---- styles */

/* How a terminal shows a style. One without italic letters underlines them. */
static attr_t look_of(uint8_t style) {
    attr_t look = style & ZKIT_REVERSE ? A_REVERSE : A_NORMAL;
    if (is_plain)
        return look;
    if (style & ZKIT_ITALIC)
        look |= termattrs() & A_ITALIC ? A_ITALIC : A_UNDERLINE;
    return style & ZKIT_BOLD ? look | A_BOLD : look;
}

/* Draws characters from a place of the screen on, each part in its style. */
static void draw_styled(int at, int column, const wchar_t *characters, const uint8_t *styles, size_t count) {
    move(at, column);
    for (size_t start = 0, next = 0; start < count; start = next) {
        while (next < count && styles[next] == styles[start])
            next++;
        attrset(look_of(styles[start]));
        addnwstr(characters + start, (int)(next - start));
    }
    attrset(A_NORMAL);
}

static void draw_spaces(int at, int column, int count, attr_t look) {
    attrset(look);
    mvhline(at, column, ' ', count);
    attrset(A_NORMAL);
}

/* ---- the upper window */

/* Draws a row of a grid of so many columns. If it is in reverse up to the last one, it is up to the screen's edge. */
static void draw_row(int at, const struct row *row, uint32_t columns) {
    int last = row->length - 1, count = row->length < COLS ? row->length : COLS;
    draw_styled(at, 0, row->at, row->styles, (size_t)count);
    if (last >= 0 && row->from[last] == (int)columns - 1 && row->styles[last] & ZKIT_REVERSE && count < COLS)
        draw_spaces(at, count, COLS - count, A_REVERSE);
}

/* Where the upper part ends: how many rows it takes of those that are there. The text has one at least. */
static int upper_rows(const zkit *game) {
    zkit_window window = {.size = sizeof window};
    zkit_figures figures = {.size = sizeof figures};
    zkit_window_of(game, &window);
    zkit_status_line(game, &figures);
    int rows = (int)window.height + (figures.kind != ZKIT_NO_STATUS);
    return rows < LINES - 2 ? rows : LINES > 2 ? LINES - 2 : 0;
}

/* Writes the figures of a status line, in short where a name of so many columns leaves no room for the words. */
static void write_figures(const zkit_figures *it, int name, char *figures, size_t most) {
    if (it->kind == ZKIT_TIME)
        snprintf(figures, most, "%d:%02d ", (int)it->first, (int)it->second);
    else
        snprintf(figures, most, "Score: %d  Turns: %d ", (int)it->first, (int)it->second);
    if (it->kind == ZKIT_SCORE && name + 2 + (int)strlen(figures) > COLS)
        snprintf(figures, most, "%d/%d ", (int)it->first, (int)it->second);
}

/* Draws the status line of version 3: the name on the left, cut where it must be, and the figures on the right. */
static int draw_status_line(const zkit *game) {
    zkit_figures it = {.size = sizeof it};
    uint8_t name[3 * WIDEST];
    struct row row;
    char figures[60];
    zkit_status_line(game, &it);
    if (it.kind == ZKIT_NO_STATUS || upper_rows(game) == 0)
        return 0;
    grid_text(&row, name, zkit_status_name(game, name, sizeof name));
    write_figures(&it, row.length, figures, sizeof figures);
    int column = COLS - (int)strlen(figures);
    int length = row.length < column - 2 || column < 4 ? row.length : column - 2;
    draw_spaces(0, 0, COLS, A_REVERSE);
    attrset(A_REVERSE);
    mvaddnwstr(0, 0, row.at, length < COLS ? length : COLS);
    if (column >= 0)
        mvaddstr(0, column, figures);
    attrset(A_NORMAL);
    return 1;
}

/* Draws the upper window below some rows, and notes where its cursor stands. */
static void draw_window(const zkit *game, const zkit_window *window, int top, int *cursor_row, int *cursor_column) {
    struct row row;
    int last = upper_rows(game);
    *cursor_row = top + (int)window->row - 1;
    *cursor_column = (int)window->column - 1;
    for (uint32_t i = 1; i <= window->height && top < last; i++, top++) {
        grid_row(&row, game, i, false);
        grid_squeeze(&row, COLS);
        draw_row(top, &row, window->width);
        if (i == window->row)
            *cursor_column = grid_column(&row, *cursor_column);
    }
    *cursor_row = *cursor_row < LINES ? *cursor_row : LINES - 1;
    *cursor_column = *cursor_column < COLS ? *cursor_column : COLS - 1;
}

/* ---- a box */

/* Where a box stands in the grid: the rows in which something is seen, and the columns. */
struct box {
    uint32_t first, last;
    int left, right;
};

static void widen(struct box *box, uint32_t number, const struct row *row, bool is_text) {
    int left = 0, right = row->length;
    while (left < row->length && !grid_is_seen(row, left, is_text))
        left++;
    if (left == row->length)
        return;
    while (!grid_is_seen(row, right - 1, is_text))
        right--;
    box->first = box->first ? box->first : number;
    box->last = number;
    box->left = left < box->left ? left : box->left;
    box->right = right > box->right ? right : box->right;
}

/* Finds the rows that the story took away again before it reads, without those in which it read a key: all that is seen
 * there, or the text alone. */
static struct box find_box(const zkit *game, const zkit_window *window, uint32_t keyed, bool is_text) {
    struct box box = {0, 0, WIDEST, 0};
    struct row row;
    uint32_t above = window->height > keyed ? window->height : keyed;
    for (uint32_t i = above + 1; i <= window->tallest; i++) {
        grid_row(&row, game, i, true);
        widen(&box, i, &row, is_text);
    }
    return box;
}

/* Where so many rows from a row on are drawn between two rows of the screen, so that they do not hide the cursor. */
static int beside_cursor(int at, int rows, int top, int bottom, int cursor) {
    if (cursor < at || cursor >= at + rows)
        return at;
    if (cursor + rows < bottom)
        return cursor + 1;
    return cursor - rows > top ? cursor - rows : top;
}

/* Draws a box over the text: a quotation. It stands in the middle, as it does in the grid, with a space on both sides
 * if there is room. */
static void draw_box(const zkit *game, const struct box *box, int columns, int at, int bottom) {
    struct row row;
    int width = box->right - box->left, margin = width + 2 <= COLS, whole = width + 2 * margin;
    int column = box->left - margin + (COLS - columns) / 2;
    column = column + whole > COLS ? COLS - whole : column;
    column = column > 0 ? column : 0;
    width = width < COLS ? width : COLS;
    for (uint32_t i = box->first; i <= box->last && at < bottom; i++, at++) {
        grid_row(&row, game, i, true);
        int length = row.length - box->left;
        draw_spaces(at, column, whole < COLS ? whole : COLS, A_NORMAL);
        if (length > 0)
            draw_styled(at, column + margin, row.at + box->left, row.styles + box->left,
                        (size_t)(length < width ? length : width));
    }
}

/* Draws the box, if there is one, between two rows of the screen and beside the cursor. A screen that is too narrow for
 * all of it shows its text. */
static void draw_any_box(const zkit *game, const zkit_window *window, uint32_t keyed, int top, int bottom, int cursor) {
    struct box box = find_box(game, window, keyed, false);
    if (box.right - box.left > COLS)
        box = find_box(game, window, keyed, true);
    if (box.first == 0)
        return;
    int at = top + (int)(box.first - window->height) - 1, rows = (int)(box.last - box.first) + 1;
    draw_box(game, &box, (int)window->width, beside_cursor(at, rows, top, bottom, cursor), bottom);
}

/* ---- the text */

/* Draws a row of the text, without the spaces and the new line at its end. */
static void draw_text_row(const struct text *text, int at, place start, place end) {
    while (end > start && (text_character(text, end - 1) == L'\n' || text_character(text, end - 1) == L' '))
        end--;
    if (end > start)
        draw_styled(at, 0, text->characters + (start - text->first), text->styles + (start - text->first), end - start);
}

/* Draws the rows of the text between two rows of the screen, and notes where the cursor stands. */
static void draw_text(const struct text *text, const struct shown *shown, int top, int bottom, int *cursor_row,
                      int *cursor_column) {
    place row = shown->top;
    *cursor_row = top;
    *cursor_column = 0;
    for (int at = top; at < bottom; at++) {
        place next = text_next_row(text, row, COLS), end = next == row ? text_end(text) : next;
        place shown_end = end < shown->end ? end : shown->end;
        draw_text_row(text, at, row, shown_end);
        if (row <= shown->cursor) {
            *cursor_row = at;
            *cursor_column = 0;
            for (place i = row; i < shown->cursor && i < end; i++)
                *cursor_column += width_of(text_character(text, i));
        }
        if (next == row)
            break;
        row = next;
    }
    *cursor_column = *cursor_column < COLS ? *cursor_column : COLS - 1;
}

/* ---- words in the last rows */

/* Words, and where each row of them ends. */
struct mark {
    wchar_t words[LONGEST_MARK];
    size_t ends[LONGEST_MARK];
    int rows;
};

/* Reads words and wraps them into so many rows at most. What is left then is not shown. */
static void read_mark(struct mark *mark, const char *words, int most) {
    size_t length = wide_of(words, strlen(words), mark->words, LONGEST_MARK), start = 0;
    for (mark->rows = 0; start < length && mark->rows < most; mark->rows++)
        mark->ends[mark->rows] = start = end_of_row(mark->words, start, length, COLS);
}

/* How many rows are left for words, below the upper part and a row of text. */
static int most_mark_rows(const zkit *game) {
    int most = LINES - upper_rows(game) - 1;
    return most > 1 ? most : 1;
}

int display_rows(const zkit *game, const char *words) {
    struct mark mark = {.rows = 0};
    if (words)
        read_mark(&mark, words, most_mark_rows(game));
    int rows = LINES - upper_rows(game) - mark.rows;
    return rows > 1 ? rows : 1;
}

/* Draws words into the last rows, and leaves the cursor behind them. */
static void draw_mark(const struct mark *mark) {
    size_t start = 0;
    for (int i = 0; i < mark->rows; i++) {
        int at = LINES - mark->rows + i, columns = (int)(mark->ends[i] - start);
        draw_spaces(at, 0, COLS, A_NORMAL);
        attrset(A_REVERSE);
        mvaddnwstr(at, 0, mark->words + start, columns < COLS ? columns : COLS);
        attrset(A_NORMAL);
        start = mark->ends[i];
    }
    if (getcury(stdscr) != LINES - 1 || getcurx(stdscr) >= COLS)
        move(LINES - 1, COLS - 1);
}

/* ---- a table */

/* Draws a row of a table above some row of the screen, wrapped. Answers where the next one begins. */
static int draw_table_row(const char *words, int at, int bottom) {
    struct mark row;
    read_mark(&row, words, LONGEST_MARK);
    for (size_t i = 0, start = 0; i < (size_t)row.rows; start = row.ends[i++], at++)
        if (at < bottom)
            mvaddnwstr(at, 0, row.words + start, (int)(row.ends[i] - start));
    return at;
}

/* How many rows of a table there is room for above some words: one at least. */
static size_t rows_above(const char *const *rows, size_t count, const struct mark *mark) {
    size_t fitting = 0;
    for (int at = 0; fitting < count && (at = draw_table_row(rows[fitting], at, 0)) <= LINES - mark->rows;)
        fitting++;
    return fitting > 0 ? fitting : 1;
}

size_t display_table(const char *const *rows, size_t count, const char *more, const char *last) {
    struct mark mark;
    read_mark(&mark, last, LINES);
    size_t shown = rows_above(rows, count, &mark);
    if (shown < count) {
        read_mark(&mark, more, LINES);
        shown = rows_above(rows, count, &mark);
    }
    int at = 0;
    erase();
    for (size_t i = 0; i < shown; i++)
        at = draw_table_row(rows[i], at, LINES - mark.rows);
    draw_mark(&mark);
    refresh();
    return shown;
}

/* ---- all of it */

void display_draw(const zkit *game, const struct text *text, const struct shown *shown) {
    zkit_window window = {.size = sizeof window};
    struct mark mark = {.rows = 0};
    int top = upper_rows(game), row, column, upper_row, upper_column;
    if (shown->mark)
        read_mark(&mark, shown->mark, most_mark_rows(game));
    words_rows = LINES - mark.rows;
    zkit_window_of(game, &window);
    erase();
    draw_window(game, &window, draw_status_line(game), &upper_row, &upper_column);
    draw_text(text, shown, top, words_rows, &row, &column);
    if (!shown->is_back)
        draw_any_box(game, &window, shown->keyed, top, words_rows, row);
    draw_mark(&mark);
    if (!shown->is_asking && window.selected && !shown->is_back)
        move(upper_row, upper_column);
    else if (!shown->is_asking)
        move(row, column);
    refresh();
}

size_t display_words(wchar_t *words, size_t most) {
    size_t count = 0;
    wchar_t row[1024];
    for (int at = 0; at < words_rows; at++) {
        int length = mvinnwstr(at, 0, row, COLS < 1023 ? COLS : 1023);
        if (length < 0 || count + (size_t)length + 1 > most)
            break;
        memcpy(words + count, row, (size_t)length * sizeof *row);
        count += (size_t)length;
        words[count++] = L'\n';
    }
    return count;
}
