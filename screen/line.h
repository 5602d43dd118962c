/* A line that is edited, the history of lines, and the completion of words. */
#ifndef LINE_H
#define LINE_H

#include <stdbool.h>
#include <stddef.h>
#include <wchar.h>

#include "keys.h"

enum { LONGEST_LINE = 255, MOST_LINES = 200 };

struct line {
    wchar_t at[LONGEST_LINE + 1];
    size_t length;
};

/* The newest line is the last one. */
struct history {
    struct line lines[MOST_LINES];
    size_t count;
};

struct editor {
    struct line line;
    size_t cursor;
    size_t longest;         /* the most characters that the line may have */
    const struct history *history;
    size_t recalled;        /* which line of the history is edited: the count of lines, if it is none of them */
    struct line draft;      /* what was typed before one was recalled */
    size_t stem;            /* where the word begins that is completed, */
    size_t stem_end;        /* where what was typed of it ends, */
    size_t tabs;            /* and how often Tab was pressed for it: 0 if it is not completed */
    bool is_for_story;      /* a key may end it that means something to the story */
};

/* Adds a line, if it is not empty and not the newest one once more. */
void history_add(struct history *history, const struct line *line);

void editor_begin(struct editor *editor, const struct history *history, size_t longest);

/* Does what a key means in a line: nothing, if it is no key for a line. Tab is a matter of editor_complete. */
void editor_press(struct editor *editor, key pressed);

/* Completes the word before the cursor by the next one of some words that begins in the same way, from the last word to
 * the first, and by what was typed after the last such word. Answers whether there was one. */
bool editor_complete(struct editor *editor, const wchar_t *words, size_t length);

#endif
