/* Tries the parts of the screen that have no terminal: the text, the line, files and the play that is kept. A test that
 * fails ends the program; screen/test builds it with sanitizers, where the compiler has them. */
#ifndef _XOPEN_SOURCE
#define _XOPEN_SOURCE 700
#endif
#include "files.h"
#include "grid.h"
#include "kept.h"
#include "line.h"
#include "text.h"

#include <locale.h>
#include <stdio.h>
#include <fcntl.h>
#include <stdlib.h>
#include <string.h>
#include <sys/stat.h>

static int tries;

static void try_that(bool is_so, const char *words, int line) {
    tries++;
    if (!is_so) {
        fprintf(stderr, "refused: screen/tests/parts.c:%d: %s\n", line, words);
        exit(1);
    }
}

#define TRY(words) try_that(words, #words, __LINE__)

/* Writes the rows of a text with bars between them. */
static const char *rows_of(const struct text *text, int columns) {
    static char rows[1000];
    size_t count = 0;
    place row = text->first;
    for (;;) {
        place next = text_next_row(text, row, columns), end = next == row ? text_end(text) : next;
        for (place i = row; i < end; i++)
            count += bytes_of(text->characters + (i - text->first), 1, rows + count);
        rows[count++] = '|';
        rows[count] = 0;
        if (next == row)
            return rows;
        row = next;
    }
}

static void wrapped(const char *words, int columns, const char *wanted) {
    struct text text;
    TRY(text_open(&text));
    text_add_words(&text, words);
    TRY(strcmp(rows_of(&text, columns), wanted) == 0);
    /* from each place the row before the next one is the same row */
    for (place at = text.first; at <= text_end(&text); at++) {
        place row = text_row_of(&text, at, columns), next = text_next_row(&text, row, columns);
        TRY(row <= at && (next == row || next > at));
        TRY(next == row || text_previous_row(&text, next, columns) == row);
    }
    text_close(&text);
}

static void try_wrapping(void) {
    wrapped("", 5, "|");
    wrapped("one two", 7, "one two|");
    wrapped("one two", 6, "one |two|");
    wrapped("one  two", 4, "one  |two|");
    wrapped("abcdefgh ij", 3, "abc|def|gh |ij|");
    wrapped("a\n\nb\n", 9, "a\n|\n|b\n||");
    wrapped("日本語", 4, "日本|語|");
    wrapped("日", 1, "日|");
    wrapped("ae\xcc\x81" "e\xcc\x81 b", 3, "ae\xcc\x81" "e\xcc\x81 |b|");
}

/* Lines are dropped from 11,000 on, and places stay what they are; a cut text is as before. */
static void try_bounds(void) {
    struct text text;
    char line[20];
    TRY(text_open(&text));
    for (int i = 1; i <= 11001; i++) {
        snprintf(line, sizeof line, "%05d\n", i);
        text_add_words(&text, line);
    }
    TRY(text.lines == 10001 && text.first == 6000 && text_end(&text) == 66006);
    TRY(text_character(&text, 6000) == L'0' && text_character(&text, 6004) == L'1');
    TRY(text_row_of(&text, 0, 80) == 6000 && text_rows_on(&text, 66006, -20000, 80) == 6000);
    text_cut(&text, 66003);
    TRY(text_end(&text) == 66003 && text.column == 3 && text.lines == 10000);
    text_cut(&text, 0);
    TRY(text_end(&text) == 6000 && text.lines == 0 && text.column == 0);
    for (int i = 0; i < 3 << 20; i++)
        text_add(&text, L'x', 0);
    TRY(text.length <= 1 << 20 && text_end(&text) == 6000 + (3 << 20) + (3 << 20) / 4096 - 1);
    text_close(&text);
}

static void try_bytes(void) {
    struct text text;
    char bytes[20];
    TRY(text_open(&text));
    for (const char *at = "a\xc3\xa4\xe2\x82\xac\xf0\x9f\x98\x80"; *at; at++)
        text_add_bytes(&text, (const uint8_t *)at, 1, 3);
    TRY(text.length == 4 && text.characters[1] == 0xe4);
    TRY(text.characters[2] == 0x20ac && text.characters[3] == 0x1f600);
    TRY(text_style(&text, 3) == 3);
    TRY(bytes_of(text.characters, 4, bytes) == 10 && strcmp(bytes, "a\xc3\xa4\xe2\x82\xac\xf0\x9f\x98\x80") == 0);
    text_close(&text);
}

static void try_history(void) {
    static struct history history;
    struct line line = {.at = L"a", .length = 0};
    history_add(&history, &line);
    TRY(history.count == 0);
    line.length = 1;
    history_add(&history, &line);
    history_add(&history, &line);
    TRY(history.count == 1);
    history_add(&history, &(struct line){L"b", 1});
    history_add(&history, &(struct line){L"bb", 2});
    history_add(&history, &line);
    TRY(history.count == 4 && history.lines[3].at[0] == L'a');
    history.count = 0;
    for (int i = 0; i < MOST_LINES + 3; i++) {
        line.at[0] = (wchar_t)(0x100 + i);
        history_add(&history, &line);
    }
    TRY(history.count == MOST_LINES && history.lines[0].at[0] == 0x103);
    TRY(history.lines[MOST_LINES - 1].at[0] == 0x100 + MOST_LINES + 2);
}

static void try_names(void) {
    char name[LONGEST_NAME], long_name[LONGEST_NAME + 1];
    memset(long_name, 'x', LONGEST_NAME);
    long_name[LONGEST_NAME] = 0;
    TRY(name_of_save(name, "a b", ".qzl") && strcmp(name, "a b.qzl") == 0);
    TRY(name_of_save(name, "a.sav", ".qzl") && strcmp(name, "a.sav") == 0);
    TRY(!name_of_save(name, "", ".qzl") && !name_of_save(name, ".a", ".qzl"));
    TRY(!name_of_save(name, "a/b", ".qzl"));
    TRY(!name_of_save(name, long_name, ".qzl") && !name_of_save(name, long_name + 2, ".qzl"));
    TRY(name_of_save(name, long_name + 5, ".qzl"));
}

static void try_files(const char *folder) {
    char path[LONGEST_PATH], inner[LONGEST_PATH];
    size_t length;
    TRY(path_of(path, folder, "file") && path_of(inner, folder, "one/two/three"));
    TRY(!file_is_there(path) && file_write(path, (const uint8_t *)"one", 3) && file_is_there(path));
    TRY(file_write(path, (const uint8_t *)"three", 5));
    uint8_t *bytes = file_read(path, 5, &length);
    TRY(bytes && length == 5 && memcmp(bytes, "three", 5) == 0);
    free(bytes);
    TRY(!file_read(path, 4, &length) && !file_read(folder, 100, &length) && !file_read("/dev/null", 100, &length));
    TRY(folder_make(inner) && folder_make(inner) && !folder_make(path));
    TRY(path_of(path, folder, "nowhere/file") && !file_write(path, (const uint8_t *)"one", 3));
}

/* A file keeps its rights when it is replaced, but for one that nobody else may read. */
static void try_rights(const char *folder) {
    char path[LONGEST_PATH];
    struct stat status;
    umask(022);
    TRY(path_of(path, folder, "rights") && file_write(path, (const uint8_t *)"one", 3));
    TRY(stat(path, &status) == 0 && (status.st_mode & 0777) == 0644);
    TRY(chmod(path, 0664) == 0 && file_write(path, (const uint8_t *)"two", 3));
    TRY(stat(path, &status) == 0 && (status.st_mode & 0777) == 0664);
    TRY(file_write_private(path, (const uint8_t *)"three", 5));
    TRY(stat(path, &status) == 0 && (status.st_mode & 0777) == 0600 && status.st_size == 5);
}

/* Of 25 saved games the 20 newest are listed, the newest first, and those of one time by their names. */
static void try_saves(const char *folder) {
    static const zkit_story story = {.release = 0x102, .checksum = 0x304, .serial = "261130"};
    static const zkit_story without_sum = {.release = 0x102, .serial = "261130"};
    static const uint8_t bytes[34] = "FORM....IFZSIFhd\0\0\0\r\1\2""261130\3\4";
    static const int listed[] = {24, 22, 23, 20, 18, 19, 16, 17, 14, 15, 12, 13, 10, 11, 8, 9, 6, 7, 4, 5};
    static struct saved saves[MOST_SAVES];
    char path[LONGEST_PATH], name[20];
    for (int i = 0; i < 25; i++) {
        int number = i * 7 % 25;
        struct timespec times[2] = {{1000 + number / 2, 0}, {1000 + number / 2, 0}};
        snprintf(name, sizeof name, "%02d.qzl", number);
        TRY(path_of(path, folder, name) && file_write(path, bytes, sizeof bytes - (number == 21)));
        TRY(utimensat(AT_FDCWD, path, times, 0) == 0);
    }
    /* 21.qzl is too short to be one */
    TRY(saves_in(folder, &story, saves) == 20);
    for (int i = 0; i < 20; i++) {
        snprintf(name, sizeof name, "%02d.qzl", listed[i]);
        TRY(strcmp(saves[i].name, name) == 0 && saves[i].time == 1000 + listed[i] / 2);
    }
    for (int i = 16; i < 34; i++) {
        uint8_t other[34];
        memcpy(other, bytes, sizeof other);
        other[i]++;
        TRY(is_save_of(other, sizeof other, &story) == (i < 20 || i > 29));
    }
    TRY(is_save_of(bytes, 34, &without_sum));
    TRY(is_save_of(bytes, 34, &story) && !is_save_of(bytes, 33, &story) && saves_in("nowhere", &story, saves) == 0);
}

/* What is kept is found again; each part of it, and each with a changed byte, is refused or has its parts in it. */
static void try_kept(void) {
    struct text text, again;
    struct kept kept;
    size_t length;
    TRY(text_open(&text) && text_open(&again));
    text_add_words(&text, "gone\nkept\n");
    text_add(&text, 0x1f600, ZKIT_BOLD);
    uint8_t *bytes = kept_bytes(UINT64_MAX - 1, &text, 5, (const uint8_t *)"snapshot", 8, &length);
    TRY(bytes && kept_parts(bytes, length, &kept) && kept.seed == UINT64_MAX - 1 && kept.text_length == 6);
    TRY(kept.snapshot_length == 8 && memcmp(kept.snapshot, "snapshot", 8) == 0);
    kept_text(&kept, &again);
    TRY(again.length == 6 && again.characters[5] == 0x1f600 && again.styles[5] == ZKIT_BOLD && again.styles[4] == 0);
    for (size_t part = 0; part <= length; part++) {
        uint8_t *copy = malloc(part + 1);
        memcpy(copy, bytes, part);
        for (int change = 0; part == length ? change < 256 * (int)length : change < 1; change++) {
            uint8_t before = part == length ? copy[change / 256] : 0;
            if (part == length)
                copy[change / 256] = (uint8_t)change;
            if (kept_parts(copy, part, &kept)) {
                TRY(kept.snapshot + kept.snapshot_length == copy + part);
                kept_text(&kept, &again);
            }
            if (part == length)
                copy[change / 256] = before;
        }
        free(copy);
    }
    free(bytes);
    text_close(&text);
    text_close(&again);
}

/* Says whether a history has so many lines, and the last one is this. */
static bool has_lines(const struct history *lines, size_t count, const wchar_t *last) {
    const struct line *it = &lines->lines[count > 0 ? count - 1 : 0];
    size_t length = count > 0 ? it->length : 0;
    return lines->count == count && length == wcslen(last) && wmemcmp(it->at, last, length) == 0;
}

/* Lines are found again, the longest ones too; a file of which a byte is missing or changed has none. */
static void try_lines(void) {
    static struct history lines, again;
    struct line line = {.length = LONGEST_LINE};
    size_t length;
    for (int i = 0; i < LONGEST_LINE; i++)
        line.at[i] = 0x1f600;
    for (int i = 0; i < MOST_LINES; i++) {
        line.at[7] = L'\U0001f600' + i;
        history_add(&lines, &line);
    }
    uint8_t *bytes = kept_lines(&lines, &length);
    TRY(bytes && length == 16 + MOST_LINES * (4 * LONGEST_LINE + 1) && kept_history(bytes, length, &again));
    TRY(again.count == MOST_LINES && again.lines[0].length == LONGEST_LINE && again.lines[0].at[254] == 0x1f600);
    free(bytes);
    lines.count = 0;
    bytes = kept_lines(&lines, &length);
    TRY(bytes && kept_history(bytes, length, &again) && has_lines(&again, 0, L""));
    free(bytes);
    history_add(&lines, &(struct line){L"look", 4});
    history_add(&lines, &(struct line){L"l\u00e4s \u20ac\033\177", 7});
    bytes = kept_lines(&lines, &length);
    TRY(bytes && kept_history(bytes, length, &again) && has_lines(&again, 2, L"l\u00e4s \u20ac??"));
    for (size_t part = 0; part < length; part++) {
        uint8_t *copy = malloc(part + 1);
        memcpy(copy, bytes, part);
        TRY(!kept_history(copy, part, &again) && has_lines(&again, 0, L""));
        free(copy);
        for (int change = 1; change < 256; change++) {
            bytes[part] ^= (uint8_t)change;
            TRY(!kept_history(bytes, length, &again) && has_lines(&again, 0, L""));
            bytes[part] ^= (uint8_t)change;
        }
    }
    free(bytes);
}

/* ---- rows of the upper window, from a game of one row */

static const char *told_text;
static const uint8_t *told_styles;
static size_t told_count;

size_t zkit_row(const zkit *game, uint32_t row, uint8_t *buffer, size_t length) {
    TRY(!game && row == 7 && strlen(told_text) <= length);
    memcpy(buffer, told_text, strlen(told_text));
    return strlen(told_text);
}

size_t zkit_row_styles(const zkit *game, uint32_t row, uint8_t *buffer, size_t length) {
    TRY(!game && row == 7 && told_count <= length);
    memcpy(buffer, told_styles, told_count);
    return told_count;
}

size_t zkit_tallest_row(const zkit *game, uint32_t row, uint8_t *buffer, size_t length) {
    TRY(!game && row == 8 && length > 0);
    buffer[0] = 't';
    return 1;
}

size_t zkit_tallest_row_styles(const zkit *game, uint32_t row, uint8_t *buffer, size_t length) {
    TRY(!game && row == 8 && length > 0);
    buffer[0] = ZKIT_BOLD;
    return 1;
}

/* Reads a row of some text and styles, each a digit, and squeezes it. */
static void squeezed(struct row *row, const char *text, const char *styles, int columns) {
    uint8_t numbers[WIDEST];
    told_text = text;
    told_styles = numbers;
    told_count = strlen(styles);
    for (size_t i = 0; i < told_count; i++)
        numbers[i] = (uint8_t)(styles[i] - '0');
    grid_row(row, NULL, 7, false);
    grid_squeeze(row, columns);
}

/* Says whether a row has these characters and styles. */
static bool has(const struct row *row, const wchar_t *characters, const char *styles) {
    bool is_so = (size_t)row->length == wcslen(characters) && (size_t)row->length == strlen(styles);
    for (int i = 0; is_so && i < row->length; i++)
        is_so = row->at[i] == characters[i] && row->styles[i] == styles[i] - '0';
    return is_so;
}

/* Bytes that are no UTF-8 are read as question marks, and no more characters are read than there is room for. */
static void try_wide(void) {
    wchar_t read[4] = L"....";
    TRY(wide_of("\303\251\377a", 4, read, 4) == 3 && wcsncmp(read, L"\u00e9?a.", 4) == 0);
    TRY(wide_of("\200\303", 2, read, 4) == 2 && wcsncmp(read, L"??a.", 4) == 0);
    TRY(wide_of("b\0cd", 4, read, 3) == 3 && wmemcmp(read, L"b\0c.", 4) == 0);
    TRY(wide_of("", 0, read, 3) == 0 && read[0] == L'b');
}

/* A row has as many cells as styles are told; its widest gap of one style is made smaller, and of two the last. */
static void try_grid(void) {
    struct row row;
    squeezed(&row, "\303\251\346\227\245 a", "11025", 80);
    TRY(has(&row, L"\u00e9\u65e5 a ", "11025") && row.from[4] == 4);
    squeezed(&row, "ab", "1", 80);
    TRY(has(&row, L"ab", "10"));
    squeezed(&row, "", "", 80);
    TRY(row.length == 0 && grid_column(&row, 0) == 0 && grid_column(&row, 9) == 9);
    grid_row(&row, NULL, 8, true);
    TRY(has(&row, L"t", "2") && grid_column(&row, 0) == 0 && grid_column(&row, 1) == 1 && grid_column(&row, 5) == 5);
    squeezed(&row, " a    b  c", "1111111111", 7);
    TRY(has(&row, L" a  b c", "1111111"));
    TRY(grid_column(&row, 1) == 1 && grid_column(&row, 6) == 4);
    TRY(grid_column(&row, 9) == 6 && grid_column(&row, 12) == 9);
    squeezed(&row, "a      b", "01110000", 6);
    TRY(has(&row, L"a    b", "011000"));
    squeezed(&row, "a  b c", "000000", 3);
    TRY(has(&row, L"a b c", "00000"));
    squeezed(&row, "  a", "000", 2);
    TRY(has(&row, L" a", "00"));
    squeezed(&row, "   a", "0111", 3);
    TRY(has(&row, L"  a", "011"));
    char longest[301];
    memset(longest, 'a', 300);
    longest[300] = 0;
    squeezed(&row, longest, "", 80);
    TRY(row.length == WIDEST && row.at[WIDEST - 1] == L'a' && row.from[WIDEST - 1] == WIDEST - 1);
    squeezed(&row, "a", "001", 80);
    TRY(grid_is_seen(&row, 0, false) && !grid_is_seen(&row, 1, false) && grid_is_seen(&row, 2, false));
    TRY(grid_is_seen(&row, 0, true) && !grid_is_seen(&row, 1, true) && !grid_is_seen(&row, 2, true));
}

int main(int count, char **words) {
    if (count != 2 || !setlocale(LC_ALL, "C.UTF-8"))
        return 2;
    try_wrapping();
    try_bounds();
    try_bytes();
    try_history();
    try_names();
    try_files(words[1]);
    try_rights(words[1]);
    try_saves(words[1]);
    try_kept();
    try_lines();
    try_wide();
    try_grid();
    printf("%d tries\n", tries);
    return 0;
}
