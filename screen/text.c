#ifndef _XOPEN_SOURCE
#define _XOPEN_SOURCE 700
#endif
#include "text.h"

#include <stdlib.h>
#include <string.h>

enum {
    ROOM = 1 << 20,      /* so many characters are kept at most */
    DROPPED_LINES = 1000, /* so many lines go at once, since the others are moved then */
    LONGEST = 4096       /* a line of more characters is broken, so that wrapping looks at few of them */
};

bool text_open(struct text *text) {
    memset(text, 0, sizeof *text);
    text->characters = malloc(ROOM * sizeof *text->characters);
    text->styles = malloc(ROOM);
    return text->characters && text->styles;
}

void text_close(struct text *text) {
    free(text->characters);
    free(text->styles);
    memset(text, 0, sizeof *text);
}

place text_end(const struct text *text) {
    return text->first + text->length;
}

/* Drops the oldest lines. */
static void drop(struct text *text) {
    size_t count = 0, lines = 0;
    while (lines < DROPPED_LINES && count < ROOM / 4)
        lines += text->characters[count++] == L'\n';
    text->length -= count;
    text->lines -= lines;
    text->first += count;
    memmove(text->characters, text->characters + count, text->length * sizeof *text->characters);
    memmove(text->styles, text->styles + count, text->length);
}

static void put(struct text *text, wchar_t character, uint8_t style) {
    if (text->length == ROOM || text->lines == TEXT_LINES + DROPPED_LINES)
        drop(text);
    text->characters[text->length] = character;
    text->styles[text->length++] = style;
    text->column = character == L'\n' ? 0 : text->column + 1;
    text->lines += character == L'\n';
}

void text_add(struct text *text, wchar_t character, uint8_t style) {
    if (text->column == LONGEST && character != L'\n')
        put(text, L'\n', style);
    put(text, character, style);
}

void text_add_bytes(struct text *text, const uint8_t *bytes, size_t count, uint8_t style) {
    for (size_t i = 0; i < count; i++) {
        int more = bytes[i] >= 0xf0 ? 3 : bytes[i] >= 0xe0 ? 2 : bytes[i] >= 0xc0 ? 1 : 0;
        bool goes_on = (bytes[i] & 0xc0) == 0x80;
        if (goes_on)
            text->part = text->part << 6 | (bytes[i] & 0x3f);
        else
            text->part = more ? bytes[i] & (0x3f >> more) : bytes[i];
        text->missing = goes_on ? text->missing - 1 : more;
        if (text->missing == 0)
            text_add(text, text->part, style);
    }
}

void text_add_words(struct text *text, const char *words) {
    text_add_bytes(text, (const uint8_t *)words, strlen(words), 0);
}

void text_cut(struct text *text, place end) {
    size_t left = end > text->first ? end - text->first : 0;
    while (text->length > left)
        text->lines -= text->characters[--text->length] == L'\n';
    text->column = 0;
    while (text->column < text->length && text->characters[text->length - text->column - 1] != L'\n')
        text->column++;
}

wchar_t text_character(const struct text *text, place at) {
    return text->characters[at - text->first];
}

uint8_t text_style(const struct text *text, place at) {
    return text->styles[at - text->first];
}

int width_of(wchar_t character) {
    int width = wcwidth(character);
    return width > 0 ? width : 0;
}

size_t end_of_row(const wchar_t *characters, size_t start, size_t end, int columns) {
    size_t after_space = start;
    int column = 0;
    for (size_t i = start; i < end; i++) {
        column += width_of(characters[i]);
        if (characters[i] == L'\n')
            return i + 1;
        if (column > columns && characters[i] != L' ')
            return after_space > start ? after_space : i > start ? i : i + 1;
        if (characters[i] == L' ')
            after_space = i + 1;
    }
    return end;
}

place text_next_row(const struct text *text, place row, int columns) {
    size_t end = end_of_row(text->characters, row - text->first, text->length, columns);
    bool is_last = end == text->length && (end == 0 || text->characters[end - 1] != L'\n');
    return is_last || end == row - text->first ? row : text->first + end;
}

place text_row_of(const struct text *text, place at, int columns) {
    place row = at < text->first ? text->first : at > text_end(text) ? text_end(text) : at;
    at = row;
    while (row > text->first && text_character(text, row - 1) != L'\n')
        row--;
    for (;;) {
        place next = text_next_row(text, row, columns);
        if (next == row || next > at)
            return row;
        row = next;
    }
}

place text_previous_row(const struct text *text, place row, int columns) {
    return row > text->first ? text_row_of(text, row - 1, columns) : text->first;
}

place text_rows_on(const struct text *text, place row, int rows, int columns) {
    for (; rows > 0; rows--)
        row = text_next_row(text, row, columns);
    for (; rows < 0; rows++)
        row = text_previous_row(text, row, columns);
    return row;
}

size_t wide_of(const char *bytes, size_t count, wchar_t *characters, size_t most) {
    size_t length = 0;
    for (size_t i = 0; i < count && length < most; length++) {
        mbstate_t state = {0};
        size_t taken = mbrtowc(&characters[length], bytes + i, count - i, &state);
        if (taken > count)
            characters[length] = L'?';
        i += taken > 0 && taken <= count ? taken : 1;
    }
    return length;
}

size_t bytes_of(const wchar_t *characters, size_t length, char *bytes) {
    size_t count = 0;
    for (size_t i = 0; i < length; i++) {
        unsigned long it = (unsigned long)characters[i];
        int more = it < 0x80 ? 0 : it < 0x800 ? 1 : it < 0x10000 ? 2 : 3;
        bytes[count++] = (char)(more ? (0xf00 >> (more + 1) & 0xff) | it >> 6 * more : it);
        while (more-- > 0)
            bytes[count++] = (char)(0x80 | (it >> 6 * more & 0x3f));
    }
    bytes[count] = 0;
    return count;
}
