#include "screen.h"

#include "display.h"
#include "play.h"
#include "terminal.h"

#include <time.h>

enum {
    SLICE = 1000000,   /* so many instructions run before the keyboard is looked at */
    BUSY_AFTER = 1     /* seconds, after which the reader is told that the story runs */
};

static const struct line no_line;

/* ---- leaving */

enum fate ask_to_leave(struct play *play) {
    bool is_kept = play->kept[0] && !play->is_told_of_keeping;
    const char *told = is_kept ? "Leave? You can go on later. (y/n) " : "Leave? This play is not kept. (y/n) ";
    key pressed = ask(play, told, "yn");
    return pressed == L'y' || pressed == PRESS_GONE ? IS_LEFT : GOES_ON;
}

/* Stops a story that runs, or prints, and asks what is to become of it. */
static enum fate stop(struct play *play) {
    key pressed = ask(play, "Stopped. Go on, back or quit? (g/b/q) ", "gbq");
    if (pressed == L'b' && !go_back(play))
        pressed = ask(play, "No way back. Go on or quit? (g/q) ", "gq");
    return pressed == L'q' || pressed == PRESS_GONE ? IS_LEFT : GOES_ON;
}

/* ---- text */

/* Does what came before a run of text: what the story erased is no longer shown, and the terminal beeps. */
static void do_before(struct play *play, uint32_t before) {
    if (before & ZKIT_ERASED) {
        if (play->text.column > 0)
            text_add_words(&play->text, "\n");
        play->erased = text_end(&play->text);
    }
    if (before & (ZKIT_HIGH_BLEEP | ZKIT_LOW_BLEEP))
        beep();
}

static void take_text(struct play *play) {
    uint8_t buffer[4096];
    zkit_run run = {.size = sizeof run};
    do {
        zkit_next_run(play->game, &run);
        do_before(play, run.before);
        for (size_t left = run.length; left > 0;) {
            size_t count = zkit_text(play->game, buffer, left < sizeof buffer ? left : sizeof buffer);
            text_add_bytes(&play->text, buffer, count, (uint8_t)run.style);
            left -= count;
        }
    } while (run.length > 0);
    play->cursor = text_end(&play->text);
}

key show_page(struct play *play) {
    play->is_paged = true;
    key pressed = play_key(play);
    if (pressed != PRESS_STOP && pressed != PRESS_ESCAPE)
        play->seen = page_end(play);
    play->is_paged = false;
    return pressed;
}

/* Shows new text a page at a time. `is_back` tells whether the reader has gone back instead. */
static enum fate show_pages(struct play *play, bool *is_back) {
    size_t states = play->state_count;
    enum fate fate = GOES_ON;
    while (fate == GOES_ON && play->state_count == states && has_more(play)) {
        key pressed = show_page(play);
        play->is_paged = true; /* the page stays while the reader is asked */
        if (pressed == PRESS_STOP || pressed == PRESS_ESCAPE)
            fate = stop(play);
        else if (pressed == PRESS_GONE)
            fate = IS_LEFT;
        play->is_paged = false;
    }
    *is_back = play->state_count != states;
    return fate;
}

/* ---- answers */

/* Completes the word before the cursor by those on the screen, as they are when Tab is pressed first. */
static void complete(struct editor *editor) {
    static wchar_t words[1 << 16];
    static size_t length;
    if (editor->tabs == 0)
        length = display_words(words, sizeof words / sizeof *words);
    if (!editor_complete(editor, words, length))
        beep();
}

/* What a story gets for a key that it awaits: a character, a key of its character set, or 0. */
static uint32_t for_story(key pressed) {
    if (pressed >= PRESS_F2 && pressed <= PRESS_F12)
        return ZKIT_KEY_F1 + 1 + (uint32_t)(pressed - PRESS_F2);
    switch (pressed) {
    case PRESS_UP: return ZKIT_KEY_UP;
    case PRESS_DOWN: return ZKIT_KEY_DOWN;
    case PRESS_LEFT: return ZKIT_KEY_LEFT;
    case PRESS_RIGHT: return ZKIT_KEY_RIGHT;
    case PRESS_BACKSPACE:
    case PRESS_DELETE: return ZKIT_KEY_DELETE;
    case PRESS_ESCAPE: return ZKIT_KEY_ESCAPE;
    default: return pressed > 0 ? (uint32_t)pressed : 0;
    }
}

/* Whether a key may end a line of a story that lists it. */
static bool is_function_key(key pressed) {
    return pressed < 0 && for_story(pressed) >= ZKIT_KEY_UP;
}

static void add_line(struct play *play, const struct line *line) {
    for (size_t i = 0; i < line->length; i++)
        text_add(&play->text, line->at[i], 0);
}

key edit(struct play *play, struct editor *editor) {
    place start = text_end(&play->text);
    for (;;) {
        text_cut(&play->text, start);
        add_line(play, &editor->line);
        play->cursor = text_end(&play->text) - (editor->line.length - editor->cursor);
        key pressed = play_key(play);
        bool may_end = editor->is_for_story && is_function_key(pressed);
        if (pressed == L'\n' || pressed == PRESS_STOP || pressed == PRESS_ESCAPE || pressed == PRESS_UNDO
            || pressed == PRESS_GONE || may_end) {
            play->cursor = text_end(&play->text);
            return pressed;
        }
        if (pressed == PRESS_TAB)
            complete(editor);
        else
            editor_press(editor, pressed);
    }
}

/* Goes back by the reader's key, or tells that it can't. */
static void undo(struct play *play) {
    if (!go_back(play))
        notice(play, "[There is nothing to take back.]");
}

/* Gives the story what was typed, with the key that ended it. Answers whether that ends a line of the story. */
static bool give_line(struct play *play, const struct line *line, key pressed) {
    char bytes[4 * LONGEST_LINE + 1];
    size_t count = bytes_of(line->at, line->length, bytes);
    const uint8_t *text = (const uint8_t *)bytes;
    uint32_t given = pressed == L'\n' ? zkit_line(play->game, text, count)
                                      : zkit_line_ended(play->game, text, count, for_story(pressed));
    if (given != ZKIT_DONE)
        return false;
    play->seen = text_end(&play->text);
    play->keyed = 0;
    keep_line(play, line);
    note_answer(play, line);
    return true;
}

static enum fate answer_line(struct play *play) {
    struct editor editor;
    place start = text_end(&play->text);
    editor_begin(&editor, &play->lines, zkit_longest_line(play->game));
    editor.is_for_story = true;
    for (;;) {
        key pressed = edit(play, &editor);
        if (pressed == L'\n')
            text_add_words(&play->text, "\n");
        if ((pressed == L'\n' || is_function_key(pressed)) && give_line(play, &editor.line, pressed))
            return GOES_ON;
        if (pressed == PRESS_GONE || (pressed == PRESS_STOP && ask_to_leave(play) == IS_LEFT))
            return IS_LEFT;
        text_cut(&play->text, start);
        if (is_function_key(pressed))
            editor_press(&editor, pressed);
        if (pressed == PRESS_UNDO) {
            undo(play);
            return GOES_ON;
        }
    }
}

static enum fate answer_character(struct play *play) {
    zkit_window window = {.size = sizeof window};
    zkit_window_of(play->game, &window);
    for (;;) {
        key pressed = play_key(play);
        if (pressed == PRESS_GONE || (pressed == PRESS_STOP && ask_to_leave(play) == IS_LEFT))
            return IS_LEFT;
        if (pressed == PRESS_UNDO) {
            undo(play);
            return GOES_ON;
        }
        if (for_story(pressed) == 0)
            continue;
        play->seen = text_end(&play->text);
        play->keyed = window.height;
        note_answer(play, &no_line);
        zkit_character(play->game, for_story(pressed));
        return GOES_ON;
    }
}

/* ---- the play */

/* Lets a story run on, unless the reader stops it. */
static enum fate run_on(struct play *play, time_t since) {
    play->is_busy = time(NULL) - since > BUSY_AFTER;
    draw(play);
    play->is_busy = false;
    key pressed = terminal_glance();
    if (pressed == PRESS_NONE || pressed == PRESS_REDRAW)
        return GOES_ON;
    return pressed == PRESS_GONE ? IS_LEFT : stop(play);
}

/* The story goes on with a key, once there is memory for its text or for a state to go back to. */
static enum fate wait_for_memory(struct play *play) {
    key pressed = ask(play, "No memory. Try again or quit? (t/q) ", "tq");
    return pressed == L'q' || pressed == PRESS_GONE ? IS_LEFT : GOES_ON;
}

static enum fate answer(struct play *play, uint32_t asked, time_t since) {
    if (asked == ZKIT_AWAITS_LINE || asked == ZKIT_AWAITS_CHARACTER)
        keep_state(play);
    switch (asked) {
    case ZKIT_AWAITS_LINE: return answer_line(play);
    case ZKIT_AWAITS_CHARACTER: return answer_character(play);
    case ZKIT_AWAITS_SAVE: return answer_save(play);
    case ZKIT_AWAITS_RESTORE: return answer_restore(play);
    case ZKIT_AWAITS_MEMORY: return wait_for_memory(play);
    default: return run_on(play, since);
    }
}

/* Tells why the story has stopped. The reader may go back from there. */
static enum fate tell_end(struct play *play) {
    uint8_t words[200];
    uint32_t status = zkit_status(play->game);
    size_t count = zkit_text_of_reason(status, zkit_reason(play->game), words, sizeof words);
    char seed[80];
    if (play->text.column > 0)
        text_add_words(&play->text, "\n");
    text_add_words(&play->text, "[The story has ended");
    if (status != ZKIT_QUIT) {
        text_add_words(&play->text, ": ");
        text_add_bytes(&play->text, words, count, 0);
    }
    snprintf(seed, sizeof seed, ". Its seed was %llu.]\n", (unsigned long long)play->options.seed);
    text_add_words(&play->text, seed);
    play->cursor = text_end(&play->text);
    if (status == ZKIT_QUIT)
        forget_kept(play);
    bool is_back = false;
    if (show_pages(play, &is_back) == IS_LEFT || is_back)
        return is_back ? GOES_ON : IS_LEFT;
    notice(play, "[Alt-U takes back, another key leaves]");
    key pressed = play_key(play);
    return pressed == PRESS_UNDO && go_back(play) ? GOES_ON : IS_LEFT;
}

void play_story(struct play *play) {
    enum fate fate = GOES_ON;
    time_t since = time(NULL);
    while (fate == GOES_ON) {
        bool is_back = false;
        uint32_t asked = zkit_turn_for(play->game, SLICE);
        take_text(play);
        fate = take_transcript(play);
        if (fate == GOES_ON && asked == ZKIT_STOPPED)
            fate = tell_end(play);
        else if (fate == GOES_ON && (fate = show_pages(play, &is_back)) == GOES_ON && !is_back)
            fate = answer(play, asked, since);
        if (asked != ZKIT_AWAITS_TIME && asked != ZKIT_AWAITS_ROOM)
            since = time(NULL);
    }
}
