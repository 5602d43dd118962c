#ifndef _XOPEN_SOURCE
#define _XOPEN_SOURCE 700
#endif
#include "line.h"

#include <string.h>
#include <wctype.h>

static bool is_newest(const struct history *history, const struct line *line) {
    const struct line *newest = &history->lines[history->count > 0 ? history->count - 1 : 0];
    return history->count > 0 && newest->length == line->length && wmemcmp(newest->at, line->at, line->length) == 0;
}

void history_add(struct history *history, const struct line *line) {
    if (line->length == 0 || is_newest(history, line))
        return;
    if (history->count == MOST_LINES)
        memmove(history->lines, history->lines + 1, --history->count * sizeof *history->lines);
    history->lines[history->count++] = *line;
}

void editor_begin(struct editor *editor, const struct history *history, size_t longest) {
    memset(editor, 0, sizeof *editor);
    editor->history = history;
    editor->longest = longest < LONGEST_LINE ? longest : LONGEST_LINE;
    editor->recalled = history->count;
}

/* ---- places in a line. A character that takes no column stands on the one before it, and goes with it. */

static size_t before(const struct line *line, size_t at) {
    while (at > 0 && wcwidth(line->at[--at]) == 0) {
    }
    return at;
}

static size_t behind(const struct line *line, size_t at) {
    if (at < line->length)
        at++;
    while (at < line->length && wcwidth(line->at[at]) == 0)
        at++;
    return at;
}

static size_t word_before(const struct line *line, size_t at) {
    while (at > 0 && line->at[at - 1] == L' ')
        at--;
    while (at > 0 && line->at[at - 1] != L' ')
        at--;
    return at;
}

/* ---- changes */

static void erase(struct editor *editor, size_t start, size_t end) {
    struct line *line = &editor->line;
    memmove(line->at + start, line->at + end, (line->length - end) * sizeof *line->at);
    line->length -= end - start;
    editor->cursor = start;
}

static void insert(struct editor *editor, wchar_t character) {
    struct line *line = &editor->line;
    if (line->length >= editor->longest)
        return;
    wchar_t *cursor = line->at + editor->cursor++;
    memmove(cursor + 1, cursor, (line->length + 1 - editor->cursor) * sizeof *cursor);
    *cursor = character;
    line->length++;
}

/* Goes to another line of the history, or behind its last one to what was typed before. */
static void recall(struct editor *editor, bool is_older) {
    size_t count = editor->history->count;
    if (is_older ? editor->recalled == 0 : editor->recalled == count)
        return;
    if (editor->recalled == count)
        editor->draft = editor->line;
    editor->recalled = is_older ? editor->recalled - 1 : editor->recalled + 1;
    editor->line = editor->recalled == count ? editor->draft : editor->history->lines[editor->recalled];
    if (editor->line.length > editor->longest)
        editor->line.length = editor->longest;
    editor->cursor = editor->line.length;
}

static void press(struct editor *editor, key pressed) {
    struct line *line = &editor->line;
    size_t cursor = editor->cursor;
    switch (pressed) {
    case PRESS_LEFT: editor->cursor = before(line, cursor); break;
    case PRESS_RIGHT: editor->cursor = behind(line, cursor); break;
    case PRESS_HOME: editor->cursor = 0; break;
    case PRESS_END: editor->cursor = line->length; break;
    case PRESS_UP: recall(editor, true); break;
    case PRESS_DOWN: recall(editor, false); break;
    case PRESS_BACKSPACE: erase(editor, before(line, cursor), cursor); break;
    case PRESS_DELETE: erase(editor, cursor, behind(line, cursor)); break;
    case PRESS_ERASE_TO_END: erase(editor, cursor, line->length); break;
    case PRESS_ERASE_TO_START: erase(editor, 0, cursor); break;
    case PRESS_ERASE_WORD: erase(editor, word_before(line, cursor), cursor); break;
    default:
        if (pressed >= L' ')
            insert(editor, (wchar_t)pressed);
    }
}

void editor_press(struct editor *editor, key pressed) {
    press(editor, pressed);
    editor->tabs = 0;
}

/* ---- completion */

static bool is_in_word(wchar_t character) {
    return iswalnum((wint_t)character) || character == L'\'' || character == L'-';
}

/* Compares characters, whatever their case. */
static bool are_same(const wchar_t *one, const wchar_t *other, size_t count) {
    for (size_t i = 0; i < count; i++)
        if (towlower((wint_t)one[i]) != towlower((wint_t)other[i]))
            return false;
    return true;
}

/* Finds the last word before an end: where it starts, and its length. Answers whether there is one. */
static bool last_word(const wchar_t *words, size_t end, size_t *start, size_t *length) {
    while (end > 0 && !iswalnum((wint_t)words[end - 1]))
        end--;
    *start = end;
    while (*start > 0 && is_in_word(words[*start - 1]))
        --*start;
    *length = end - *start;
    return *length > 0;
}

/* Says whether a word stands among the words between two places. */
static bool stands_in(const wchar_t *words, size_t from, size_t end, const wchar_t *word, size_t word_length) {
    size_t start, length;
    for (; end > from && last_word(words, end, &start, &length); end = start)
        if (start >= from && length == word_length && are_same(words + start, word, length))
            return true;
    return false;
}

/* Finds a word that begins as a stem does and is longer: the one of this number from the end, from 1 on. */
static size_t find_word(const wchar_t *words, size_t end, const wchar_t *stem, size_t stem_length, size_t number,
                        const wchar_t **found) {
    size_t start, length, whole = end;
    for (; last_word(words, end, &start, &length); end = start) {
        if (length <= stem_length || !are_same(words + start, stem, stem_length)
            || stands_in(words, start + length, whole, words + start, length))
            continue;
        *found = words + start;
        if (--number == 0)
            return length;
    }
    return 0;
}

bool editor_complete(struct editor *editor, const wchar_t *words, size_t length) {
    const wchar_t *found = NULL;
    if (editor->tabs == 0) {
        editor->stem = editor->stem_end = editor->cursor;
        while (editor->stem > 0 && is_in_word(editor->line.at[editor->stem - 1]))
            editor->stem--;
    }
    size_t stem_length = editor->stem_end - editor->stem;
    erase(editor, editor->stem_end, editor->cursor);
    if (stem_length == 0)
        return false;
    size_t count = find_word(words, length, editor->line.at + editor->stem, stem_length, editor->tabs + 1, &found);
    for (size_t i = stem_length; i < count; i++)
        insert(editor, (wchar_t)towlower((wint_t)found[i]));
    editor->tabs = count > 0 ? editor->tabs + 1 : 0;
    return count > 0;
}
