#include "play.h"

#include <errno.h>
#include <stdlib.h>
#include <string.h>

enum { MOST_SAVE = 1 << 20 };

static const char saves_end[] = ".qzl", transcripts_end[] = ".txt";

/* Begins a line, if the text does not stand at the start of one. */
static void begin_line(struct play *play) {
    if (play->text.column > 0)
        text_add_words(&play->text, "\n");
}

static void say(struct play *play, const char *words) {
    text_add_words(&play->text, words);
    text_add_words(&play->text, "\n");
}

/* ---- names */

/* A question for a name: its words, what Escape does, the name that Enter takes, and the saved games that are
 * listed. */
struct question {
    const char *words;
    const char *refusal;
    char offered[LONGEST_NAME];
    const char *ending;
    struct saved saves[MOST_SAVES];
    size_t count;
    bool may_add;            /* text may be added to a file that is there, */
    bool adds;               /* and is */
};

/* Lists the saved games, and puts their names into a history, so that Up and Down go through them. */
static void list_saves(struct play *play, const struct question *question, struct history *names) {
    char words[LONGEST_NAME + 80], time[40];
    for (size_t i = 0; i < question->count; i++) {
        strftime(time, sizeof time, "%Y-%m-%d %H:%M", localtime(&question->saves[i].time));
        snprintf(words, sizeof words, "%2zu  %s  %s", i + 1, time, question->saves[i].name);
        say(play, words);
    }
    for (size_t i = question->count; i > 0; i--) {
        const char *name = question->saves[i - 1].name;
        struct line line = {.length = 0};
        size_t length = mbstowcs(line.at, name, LONGEST_LINE);
        line.length = length == (size_t)-1 ? 0 : length;
        history_add(names, &line);
    }
}

/* The name that is meant by what was typed: the offered one by nothing, one of the list by its number. */
static bool name_meant(const struct question *question, const char *typed, char name[LONGEST_NAME]) {
    char *end;
    unsigned long number = strtoul(typed, &end, 10);
    const char *meant = typed;
    if (typed[0] == 0)
        meant = question->offered;
    else if (*end == 0 && number >= 1 && number <= question->count)
        meant = question->saves[number - 1].name;
    for (size_t i = 0; i < question->count; i++)
        if (strcmp(meant, question->saves[i].name) == 0)
            return snprintf(name, LONGEST_NAME, "%s", meant) < LONGEST_NAME;
    return name_of_save(name, meant, question->ending);
}

/* Shows a list that is longer than the screen a page at a time. Escape leaves the rest out. */
static enum fate show_list(struct play *play) {
    key pressed = PRESS_NONE;
    while (has_more(play) && pressed != PRESS_ESCAPE && pressed != PRESS_STOP && pressed != PRESS_GONE)
        pressed = show_page(play);
    return pressed == PRESS_GONE ? IS_LEFT : GOES_ON;
}

/* Asks for a name until it may be one, or the reader gives none by Escape: then it is empty. */
static enum fate ask_name(struct play *play, const struct question *question, char name[LONGEST_NAME]) {
    static struct history names;
    struct editor editor;
    char prompt[2 * LONGEST_NAME], typed[4 * LONGEST_LINE + 1];
    names.count = 0;
    list_saves(play, question, &names);
    name[0] = 0;
    if (show_list(play) == IS_LEFT)
        return IS_LEFT;
    for (;;) {
        const char *form = question->offered[0] ? "%s [%s]? " : "%s? ";
        snprintf(prompt, sizeof prompt, form, question->words, question->offered);
        text_add_words(&play->text, prompt);
        notice(play, question->offered[0] ? "[Enter takes it, Esc %s]" : "[Esc %s]", question->refusal);
        editor_begin(&editor, &names, LONGEST_LINE);
        key pressed = edit(play, &editor);
        begin_line(play);
        name[0] = 0;
        if (pressed == PRESS_GONE || (pressed == PRESS_STOP && ask_to_leave(play) == IS_LEFT))
            return IS_LEFT;
        if (pressed == PRESS_ESCAPE)
            return GOES_ON;
        bytes_of(editor.line.at, editor.line.length, typed);
        if (pressed == L'\n' && name_meant(question, typed, name))
            return GOES_ON;
        if (pressed == L'\n' && typed[0] == 0)
            return GOES_ON;
        if (pressed == L'\n')
            say(play, "[A name has no slash, and does not begin with a dot.]");
    }
}

/* Asks whether a file is replaced, or added to, if it is there. Answers with `a` for that, and with `r` or `y` if it is
 * to be written as a new one. */
static key ask_to_replace(struct play *play, const struct question *question, const char *path, const char *name) {
    char words[LONGEST_NAME + 40];
    if (!file_is_there(path))
        return L'y';
    snprintf(words, sizeof words, question->may_add ? "Add to %s or replace it? (a/r) " : "Replace %s? (y/n) ", name);
    return ask(play, words, question->may_add ? "ar" : "yn");
}

/* Asks for the path of a file that is to be written. It is empty if there is to be none. */
static enum fate ask_new_path(struct play *play, struct question *question, char path[LONGEST_PATH]) {
    char name[LONGEST_NAME];
    for (;;) {
        enum fate fate = ask_name(play, question, name);
        path[0] = 0;
        if (fate == IS_LEFT || name[0] == 0 || !path_of(path, play->folder, name))
            return fate;
        key pressed = ask_to_replace(play, question, path, name);
        if (pressed == PRESS_GONE)
            return IS_LEFT;
        question->adds = pressed == L'a';
        if (pressed == L'y' || pressed == L'r' || pressed == L'a') {
            snprintf(question->offered, LONGEST_NAME, "%s", name);
            return GOES_ON;
        }
        question->count = 0; /* it is listed already */
    }
}

/* ---- saved games */

/* Writes the game that is to be saved. */
static bool write_save(struct play *play, const char *path) {
    size_t length = 0;
    zkit_image(play->game, NULL, 0, &length);
    uint8_t *bytes = malloc(length);
    errno = ENOMEM;
    bool is_kept = bytes && zkit_image(play->game, bytes, length, &length) == ZKIT_DONE
        && file_write(path, bytes, length);
    if (!is_kept)
        notice(play, "[%s: %s]", path, strerror(errno));
    free(bytes);
    return is_kept;
}

enum fate answer_save(struct play *play) {
    static struct question question;
    char path[LONGEST_PATH];
    question.words = "Save to which file";
    question.refusal = "saves nothing";
    question.ending = saves_end;
    question.count = saves_in(play->folder, &play->about, question.saves);
    snprintf(question.offered, LONGEST_NAME, "%s", play->save_name);
    begin_line(play);
    if (ask_new_path(play, &question, path) == IS_LEFT)
        return IS_LEFT;
    bool is_kept = path[0] && write_save(play, path);
    if (is_kept)
        snprintf(play->save_name, LONGEST_NAME, "%s", question.offered);
    zkit_saved(play->game, is_kept);
    play->seen = text_end(&play->text);
    return GOES_ON;
}

/* Gives a file to the story, or tells why it can't be one. */
static void restore(struct play *play, const char *path, const char *name) {
    size_t length;
    uint8_t *bytes = file_read(path, MOST_SAVE, &length);
    if (bytes && is_save_of(bytes, length, &play->about)) {
        zkit_restore(play->game, bytes, length);
        snprintf(play->save_name, LONGEST_NAME, "%s", name);
    } else {
        notice(play, "[%s: %s]", name, bytes ? "no saved game of this story" : strerror(errno));
        zkit_restore_none(play->game);
    }
    free(bytes);
}

enum fate answer_restore(struct play *play) {
    static struct question question;
    char name[LONGEST_NAME], path[LONGEST_PATH];
    question.words = "Restore from which file";
    question.refusal = "restores nothing";
    question.ending = saves_end;
    question.count = saves_in(play->folder, &play->about, question.saves);
    question.offered[0] = 0;
    if (question.count > 0)
        snprintf(question.offered, LONGEST_NAME, "%s", question.saves[0].name);
    begin_line(play);
    if (ask_name(play, &question, name) == IS_LEFT)
        return IS_LEFT;
    if (name[0] && path_of(path, play->folder, name))
        restore(play, path, name);
    else
        zkit_restore_none(play->game);
    play->seen = text_end(&play->text);
    return GOES_ON;
}

/* ---- the transcript */

/* Asks for the file of the transcript. The question stands before the story's prompt, which is shown again after it. */
static enum fate open_transcript(struct play *play) {
    static struct question question;
    static wchar_t prompt[LONGEST_LINE];
    static uint8_t styles[LONGEST_LINE];
    char path[LONGEST_PATH];
    size_t length = play->text.column < LONGEST_LINE ? play->text.column : 0;
    for (size_t i = 0; i < length; i++) {
        prompt[i] = text_character(&play->text, text_end(&play->text) - length + i);
        styles[i] = text_style(&play->text, text_end(&play->text) - length + i);
    }
    text_cut(&play->text, text_end(&play->text) - length);
    question.words = "Transcript to which file";
    question.refusal = "writes none";
    question.ending = transcripts_end;
    question.may_add = true;
    question.count = 0;
    snprintf(question.offered, LONGEST_NAME, "%.*s%s", LONGEST_NAME - 8, play->stem, transcripts_end);
    enum fate fate = ask_new_path(play, &question, path);
    for (size_t i = 0; i < length; i++)
        text_add(&play->text, prompt[i], styles[i]);
    play->is_transcript_refused = path[0] == 0;
    if (path[0] && !(play->transcript = fopen(path, question.adds ? "a" : "w"))) {
        notice(play, "[%s: %s]", path, strerror(errno));
        play->is_transcript_refused = true;
    }
    return fate;
}

enum fate take_transcript(struct play *play) {
    uint8_t buffer[4096];
    size_t count;
    enum fate fate = GOES_ON;
    while ((count = zkit_transcript(play->game, buffer, sizeof buffer)) > 0) {
        if (!play->transcript && !play->is_transcript_refused)
            fate = open_transcript(play);
        if (play->transcript)
            fwrite(buffer, 1, count, play->transcript);
    }
    if (play->transcript && fflush(play->transcript) != 0) {
        notice(play, "[The transcript can't be written: %s]", strerror(errno));
        fclose(play->transcript);
        play->transcript = NULL;
        play->is_transcript_refused = true;
    }
    return fate;
}
