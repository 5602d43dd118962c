#include "display.h"
#include "play.h"
#include "terminal.h"

#include <stdarg.h>
#include <string.h>

static const char *const help[] = {
    "Enter      ends the line",
    "Up, Down   bring back earlier lines",
    "Tab        completes words on the screen",
    "Ctrl-A, E  go to the start, to the end",
    "Ctrl-U, K  erase what is before, behind",
    "Ctrl-W     erases the word before",
    "PgUp, PgDn show earlier, later text",
    "Alt-U      takes back the last turn",
    "Alt-S      shows the seed",
    "Alt-H, F1  show this",
    "Ctrl-L     draws the screen again",
    "Ctrl-Z     stops until fg goes on",
    "Ctrl-C     leaves, or stops a long turn",
    "Esc, key   the same as Alt and the key",
};

void notice(struct play *play, const char *format, ...) {
    va_list words;
    va_start(words, format);
    vsnprintf(play->notice, sizeof play->notice, format, words);
    va_end(words);
}

/* ---- pages */

static const char page_mark[] = "[more]", back_mark[] = "[earlier text: Page Down goes on]";

static int rows_of(const struct play *play, const char *mark) {
    return display_rows(play->game, mark);
}

/* Where the row stands that is so many below another one; the end of the text, if it ends before that. */
static place behind_rows(const struct play *play, place row, int rows) {
    for (; rows > 0; rows--) {
        place next = text_next_row(&play->text, row, display_columns());
        if (next == row)
            return text_end(&play->text);
        row = next;
    }
    return row;
}

static place page_start(const struct play *play) {
    place start = play->seen > play->erased ? play->seen : play->erased;
    return text_row_of(&play->text, start, display_columns());
}

bool has_more(const struct play *play) {
    int columns = display_columns();
    int rows = rows_of(play, play->notice[0] ? play->notice : NULL);
    place row = text_rows_on(&play->text, page_start(play), rows - 1, columns);
    return text_next_row(&play->text, row, columns) != row;
}

place page_end(const struct play *play) {
    return behind_rows(play, page_start(play), rows_of(play, page_mark));
}

static const char *mark_of(const struct play *play) {
    if (play->question)
        return play->question;
    if (play->is_paged)
        return page_mark;
    if (play->notice[0])
        return play->notice;
    return play->is_busy ? "[The story is busy. Esc stops it.]" : NULL;
}

/* What is shown if the reader does not look at earlier text. */
static struct shown now_shown(const struct play *play) {
    int columns = display_columns();
    struct shown shown = {.keyed = play->keyed};
    shown.mark = mark_of(play);
    shown.is_asking = play->question || play->is_paged;
    if (play->is_paged) {
        shown.top = page_start(play);
        shown.end = shown.cursor = page_end(play);
        return shown;
    }
    place last = text_row_of(&play->text, text_end(&play->text), columns);
    place erased = text_row_of(&play->text, play->erased, columns);
    shown.top = text_rows_on(&play->text, last, 1 - rows_of(play, shown.mark), columns);
    shown.top = shown.top > erased ? shown.top : erased;
    shown.end = text_end(&play->text);
    shown.cursor = play->cursor < shown.end ? play->cursor : shown.end;
    place edited = text_row_of(&play->text, shown.cursor, columns);
    shown.top = shown.top < edited ? shown.top : edited;
    return shown;
}

void draw(struct play *play) {
    struct shown shown = now_shown(play);
    if (play->is_back) {
        shown.top = text_row_of(&play->text, play->back, display_columns());
        shown.mark = back_mark;
        shown.is_asking = shown.is_back = true;
    }
    display_draw(play->game, &play->text, &shown);
}

/* Goes a page up or down in the text, up to what is shown else. */
static void scroll(struct play *play, bool is_up) {
    struct shown shown = now_shown(play);
    int columns = display_columns(), rows = rows_of(play, back_mark), step = rows > 1 ? rows - 1 : 1;
    place top = play->is_back ? text_row_of(&play->text, play->back, columns) : shown.top;
    play->back = text_rows_on(&play->text, top, is_up ? -step : step, columns);
    play->is_back = play->back < shown.top;
}

/* Shows the keys, on a low screen a part of them at a time. Escape leaves the rest out. */
static void show_help(struct play *play) {
    char words[80];
    size_t first = 0, count = sizeof help / sizeof *help;
    snprintf(words, sizeof words, "[seed %llu; press a key]", (unsigned long long)play->options.seed);
    while (first < count) {
        size_t shown = display_table(help + first, count - first, page_mark, words);
        key pressed = terminal_key();
        if (pressed == PRESS_ESCAPE || pressed == PRESS_STOP || pressed == PRESS_GONE)
            return;
        if (pressed != PRESS_REDRAW)
            first += shown;
    }
}

/* ---- keys */

/* Does what a key means wherever one is awaited, and answers whether it means anything there. */
static bool is_done_by_view(struct play *play, key pressed) {
    switch (pressed) {
    case PRESS_REDRAW: return true;
    case PRESS_PAGE_UP: scroll(play, true); return true;
    case PRESS_PAGE_DOWN:
        if (play->is_paged && !play->is_back)
            return false;
        scroll(play, false);
        return true;
    case PRESS_HELP: show_help(play); return true;
    case PRESS_SEED: notice(play, "[seed %llu]", (unsigned long long)play->options.seed); return true;
    default: return pressed == PRESS_NONE;
    }
}

key play_key(struct play *play) {
    for (;;) {
        draw(play);
        key pressed = terminal_key();
        if (is_done_by_view(play, pressed))
            continue;
        play->is_back = false;
        if (!play->is_paged)
            play->notice[0] = 0;
        return pressed;
    }
}

key ask(struct play *play, const char *question, const char *answers) {
    key pressed = PRESS_NONE;
    play->question = question;
    play->notice[0] = 0;
    while (pressed != PRESS_ESCAPE && pressed != PRESS_STOP && pressed != PRESS_GONE) {
        pressed = play_key(play);
        if (pressed >= L'A' && pressed <= L'Z')
            pressed += L'a' - L'A';
        if (pressed > 0 && pressed < 128 && strchr(answers, (char)pressed))
            break;
    }
    play->question = NULL;
    return pressed;
}
