/* A play: the game, its text, what the reader sees of it, and what is kept of it. */
#ifndef PLAY_H
#define PLAY_H

#include <stdbool.h>
#include <stdio.h>

#include "files.h"
#include "keys.h"
#include "line.h"
#include "text.h"
#include "zkit.h"

enum { MOST_STATES = 50, LONGEST_NOTICE = 400 };

/* Whether the play goes on, or the reader leaves it. */
enum fate { GOES_ON, IS_LEFT };

/* The game at a read, before the answer. */
struct state {
    uint8_t *snapshot;
    size_t length;
    place end, erased;
    struct line answer;
};

struct play {
    zkit *game;
    const uint8_t *story;
    size_t story_length;
    zkit_options options;
    zkit_story about;

    struct text text;
    place seen;                  /* the reader has seen what stands before this, */
    place erased;                /* and the story has erased that */
    bool is_paged;               /* a page from `seen` on is shown, and not the end of the text */
    bool is_left;                /* the reader has left before it began */
    bool is_answered;            /* the reader has given an answer in this play, or it goes on from another time */
    bool is_busy;                /* the reader is told that the story runs */
    bool is_back;                /* earlier text is shown, from this row on: */
    place back;
    place cursor;
    uint32_t keyed;              /* the rows of the upper window in which the last key was read: a menu */
    const char *question;        /* asked in the last rows, or null */
    char notice[LONGEST_NOTICE]; /* told there until the next key */

    struct history lines;
    struct state states[MOST_STATES], now;
    size_t state_count;

    const char *folder;          /* of saved games and transcripts */
    char stem[LONGEST_NAME];     /* the name of the story without its ending */
    char save_name[LONGEST_NAME];
    FILE *transcript;
    bool is_transcript_refused;
    char kept[LONGEST_PATH];     /* the file that the play is kept in; empty, if there is none */
    char kept_lines[LONGEST_PATH]; /* and that of the lines */
    bool is_told_of_keeping;
    bool is_told_of_lines;
};

/* ---- view.c: what the reader sees */

/* Tells something in the last rows until the next key. */
void notice(struct play *play, const char *format, ...);

/* Draws all. */
void draw(struct play *play);

/* Draws all and waits for a key. It scrolls, and shows help and the seed, by itself. */
key play_key(struct play *play);

/* Asks for one of some keys in the last rows: PRESS_ESCAPE and PRESS_STOP are answers too, and so is PRESS_GONE. */
key ask(struct play *play, const char *question, const char *answers);

/* Whether there is more new text than the screen has room for; and the place behind the page of it that is shown. */
bool has_more(const struct play *play);
place page_end(const struct play *play);

/* ---- states.c: going back, and the play that is kept */

/* Keeps the game as it stands at a read, in memory and in a file. */
void keep_state(struct play *play);

/* Notes what the read is answered with: the reader can go back to before that. */
void note_answer(struct play *play, const struct line *answer);

/* Goes back to before the last answer; answers whether there is one. */
bool go_back(struct play *play);

/* Finds the files in which a play of this story and its lines are kept, and reads the lines. */
void find_kept(struct play *play);

/* Opens the play that was kept, or answers false. */
bool open_kept(struct play *play);

/* Adds a line to the history, here and in its file. */
void keep_line(struct play *play, const struct line *line);

/* Opens the story at its start, or answers why not. */
uint32_t open_new(struct play *play);
void forget_kept(struct play *play);
void close_play(struct play *play);

/* ---- asks.c: names of files */

enum fate answer_save(struct play *play);
enum fate answer_restore(struct play *play);

/* Takes the transcript of the game into its file, and asks for that first. */
enum fate take_transcript(struct play *play);

/* ---- play.c */

/* Has a line edited at the end of the text. Answers the key that ended that: Enter, or one that means no change. */
key edit(struct play *play, struct editor *editor);

/* Shows a page of new text, and waits for a key. Each but Escape and Control-C goes on to the next page. */
key show_page(struct play *play);

/* Asks whether to leave. */
enum fate ask_to_leave(struct play *play);

/* Plays until the story ends or the reader leaves. */
void play_story(struct play *play);

#endif
