/* zkit.h - plays and inspects Z-machine stories from C or C++.
 * SPDX-License-Identifier: MIT OR Apache-2.0
 *
 * A game is one play of a story. The program opens it, lets it take turns, takes its text and answers what it asks for.
 * The library makes no callbacks, reads no files and keeps nothing outside its games: a saved game is bytes that the
 * program keeps where it likes.
 *
 *     zkit *game = zkit_open(story, length, NULL, NULL);
 *     if (!game) ... it is not opened
 *     do {
 *         asked = zkit_turn(game);
 *         ... show what zkit_text gives, and answer what is asked for: a line with zkit_line
 *     } while (asked != ZKIT_STOPPED);
 *     zkit_close(game);
 *
 * The program has these duties, which no call tests:
 *
 * - Use a game from one thread at a time. Other threads may use other games meanwhile.
 * - Pass only a game that zkit_open, zkit_open_snapshot, zkit_clone, zkit_story_game or zkit_story_resume returned
 *   and zkit_close has not closed, and only an opened story that zkit_story_close has not closed. Pass no other null
 *   pointer, unless the function allows it or the length after it is 0. A pointer points to as many bytes or
 *   words as that length says, less than 2^63 bytes. No two arguments of a call overlap. A struct has at least as many
 *   bytes as its field `size` says.
 * - Call no function from a signal handler, or in the forked child of a process with threads.
 *
 * The library gets its memory from the three functions of zkit_heap.h; the library has them already, over malloc.
 *
 * Every function checks its numbers itself: you may pass any value. A refused call changes nothing, except that a
 * refused zkit_list drops what is left of an earlier listing.
 *
 * The first field of every struct is the struct's size, which the program sets. The library reads and sets only the
 * fields that lie wholly within that size, so that later versions can add fields at the end.
 */
#ifndef ZKIT_H
#define ZKIT_H

#include <stddef.h>
#include <stdint.h>

#ifdef __cplusplus
extern "C" {
#endif

/* The version of this header, which is also the program's: 0.1.0 is 0x000100. From 1.0.0 on, later versions with the
 * same first number add things and change nothing; before that, nothing is promised. */
#define ZKIT_VERSION 0x000100

/* The version of the library. */
uint32_t zkit_version(void);

/* A game. */
typedef struct zkit zkit;

/* The default limits of the program `zkit play`. */
#define ZKIT_FRAMES 1024
#define ZKIT_WORDS 16384
#define ZKIT_UNDO 16
#define ZKIT_STEPS 10000000

/* The default width of the screen, and the least and the most. */
#define ZKIT_COLUMNS 80
#define ZKIT_LEAST_COLUMNS 20
#define ZKIT_MOST_COLUMNS 255

/* The default room: the story pauses when this many bytes of text wait. */
#define ZKIT_ROOM 1048576

/* The most bytes in a listing by zkit_list. */
#define ZKIT_LISTING 67108864

/* The most lines of a listing, the most words of the story in the texts of its lines, and in one of these texts. */
#define ZKIT_LISTING_FACTS 1048576
#define ZKIT_LISTING_WORDS 1048576
#define ZKIT_LISTING_TEXT 131072

/* How a story is played. */
typedef struct zkit_options {
    size_t size;     /* sizeof (zkit_options) */
    uint64_t seed;   /* seed for random numbers: any number. The same seed and the same answers give the same play */
    uint32_t frames; /* the most routines that may be open at once: 1 to 65,535 */
    uint32_t words;  /* the most 16-bit words that the open routines may hold: 0 to 65,535 */
    uint32_t undo;   /* how many undo states are kept: 0 to 64 */
    uint32_t steps;  /* the most instructions between two reads: 1 to 1,000,000,000 */
    uint32_t room;   /* the story pauses when this many bytes of text wait: 1 to 2,147,483,647 */
    uint32_t upper;  /* if not 0, the text includes the status line and the upper window, on lines of their own, before
                        each read. Leave it 0 if you draw them yourself, with zkit_window_of and zkit_status_line */
    uint32_t styles; /* if not 0, the library keeps the style of the text for zkit_next_run, and the story is told that
                        there is bold, italic and fixed-pitch text */
    uint32_t keys;   /* if not 0, zkit_character takes keys too, such as the cursor keys: ZKIT_KEY_UP .. */
    uint32_t columns; /* how many characters fit on a line of the screen: 20 to 255. The story is told, and the rows of
                         the upper window have this width */
    uint32_t coverage; /* if not 0, the game notes which instructions are carried out, for zkit_coverage */
} zkit_options;

/* Sets each field within `options->size` to the value that zkit_open uses without options: seed 1, the limits above,
 * no upper window, no styles, no keys, 80 columns and no coverage. If the size does not include all fields up to
 * `upper`, sets none. */
void zkit_defaults(zkit_options *options);

/* Why zkit_open, zkit_open_snapshot, zkit_story_open, zkit_story_game and zkit_story_resume open nothing. */
enum {
    ZKIT_OPENED = 0,
    ZKIT_TOO_SHORT = 1,         /* shorter than a header, 64 bytes */
    ZKIT_BAD_VERSION = 2,       /* an unsupported version: 3, 4, 5 and 8 are supported */
    ZKIT_TOO_LONG = 3,          /* more bytes than its version allows: 131,072 in 3, 262,144 in 4 and 5, 524,288 in 8 */
    ZKIT_BAD_STATIC_BASE = 4,   /* static memory begins inside the header or past the story */
    ZKIT_BAD_START = 5,         /* the first instruction lies at or past the end of the story */
    ZKIT_OPEN_NO_MEMORY = 6,    /* there is no memory */
    ZKIT_BAD_LIMIT = 7,         /* an option is out of its range, `size` does not include all fields up to `upper`,
                                   or a limit of the snapshot is greater than the option */
    ZKIT_NOT_A_SNAPSHOT = 8,    /* the bytes are not a snapshot */
    ZKIT_OTHER_VERSION = 9,     /* the snapshot has a format that this version does not know */
    ZKIT_OTHER_STORY = 10,      /* the snapshot is of another story */
    ZKIT_DAMAGED = 11           /* the snapshot begins as one of this story should, but is damaged */
};

/* What a turn returns: what the story awaits. */
enum {
    ZKIT_STOPPED = 0,           /* nothing: the story has stopped, and zkit_status tells why */
    ZKIT_AWAITS_LINE = 1,       /* a line: zkit_line */
    ZKIT_AWAITS_CHARACTER = 2,  /* a character: zkit_character */
    ZKIT_AWAITS_SAVE = 3,       /* that you keep a saved game: zkit_image, and then zkit_saved */
    ZKIT_AWAITS_RESTORE = 4,    /* a saved game: zkit_restore or zkit_restore_none */
    ZKIT_AWAITS_ROOM = 5,       /* room: as much text waits as is allowed. Take it, and turn again */
    ZKIT_AWAITS_TIME = 6,       /* time: the instructions of the turn are used up. Turn again */
    ZKIT_AWAITS_MEMORY = 7      /* memory: there is none for text, or for an undo state. Turn again */
};

/* What the functions that answer a story return, those that look into a game, and zkit_story_in. */
enum {
    ZKIT_DONE = 0,
    ZKIT_NOT_AWAITED = 1,       /* the story awaits something else, or nothing */
    ZKIT_NOT_A_LINE = 2,        /* there is a new line in the bytes, or there are more than 65,535 */
    ZKIT_NO_ROOM = 3,           /* the buffer is shorter than the file */
    ZKIT_NO_MEMORY = 4,         /* there is no memory */
    ZKIT_NO_STATE = 5,          /* there is no state to go back to */
    ZKIT_LISTING_TOO_LONG = 6,  /* the listing has more bytes than allowed */
    ZKIT_LISTING_TOO_MANY_WORDS = 7, /* the listing has more than ZKIT_LISTING_FACTS lines, or its texts have more words
                                   than ZKIT_LISTING_WORDS, or one of them than ZKIT_LISTING_TEXT */
    ZKIT_NOT_A_BLORB = 8,       /* the file is no Blorb file */
    ZKIT_NO_STORY = 9,          /* the Blorb file has no story for the Z-machine, or is cut off */
    ZKIT_NOT_A_KEY = 10,        /* the key ends no line of this story */
    ZKIT_NOT_THERE = 11,        /* there is no such open routine, object or property */
    ZKIT_NOT_CHANGED = 12,      /* the story could not make this change, or the instruction that awaits the answer lies
                                   in dynamic memory */
    ZKIT_LISTING_GOES_ON = 13   /* more of the listing is to come: zkit_list_for again */
};

/* What zkit_status returns: why the story has stopped. */
enum {
    ZKIT_RUNS = 0,              /* it has not stopped */
    ZKIT_QUIT = 1,              /* it has ended */
    ZKIT_FAULT = 2,             /* an instruction can't be executed: zkit_reason and zkit_address */
    ZKIT_LIMIT = 3,             /* an instruction would go past a limit: zkit_reason and zkit_address */
    ZKIT_OUT_OF_MEMORY = 5,     /* there was no memory for more than 4,096 bytes of text at once */
    ZKIT_TOO_MUCH_TEXT = 6      /* more than 1,048,576 bytes past the room came at once; a long text waits for room */
};

/* What zkit_reason returns after a fault. */
enum {
    ZKIT_CODE_PAST_END = 1,     /* the instruction runs past the end of the story */
    ZKIT_BAD_OPCODE = 2,        /* no such opcode in this version */
    ZKIT_MISSING_OPERAND = 3,   /* too few operands */
    ZKIT_STACK_EMPTY = 4,       /* the evaluation stack of the frame is empty */
    ZKIT_NO_SUCH_LOCAL = 5,     /* the routine has no such local variable */
    ZKIT_BAD_ADDRESS = 6,       /* the address lies outside readable memory */
    ZKIT_READ_ONLY = 7,         /* the address lies in static memory */
    ZKIT_DIVISION_BY_ZERO = 8,  /* division by zero */
    ZKIT_BAD_OBJECT = 9,        /* no such object */
    ZKIT_BAD_PROPERTY = 10,     /* no such property, or a property list without an end */
    ZKIT_BAD_TREE = 11,         /* the object tree goes round in a circle, or misses the object */
    ZKIT_TEXT_PAST_END = 12,    /* a text runs past the end of the story */
    ZKIT_NESTED_ABBREVIATION = 13, /* an abbreviation inside an abbreviation */
    ZKIT_STREAM_DEPTH = 14,     /* too many open tables of output stream 3 */
    ZKIT_BAD_FRAME = 15,        /* no such frame */
    ZKIT_RETURN_FROM_MAIN = 16, /* a return from the first frame */
    ZKIT_BAD_TARGET = 17,       /* a branch, jump or call that leads out of the story */
    ZKIT_BAD_DICTIONARY = 18    /* the dictionary lies outside readable memory, or its entries are too short */
};

/* What zkit_reason returns after a limit. */
enum {
    ZKIT_TOO_MANY_FRAMES = 1,   /* routines open at once */
    ZKIT_TOO_MANY_WORDS = 2,    /* words that the open routines hold */
    ZKIT_TOO_MANY_STEPS = 3,    /* instructions since the last read */
    ZKIT_TOO_MANY_READS = 4     /* 16,777,216 reads have been answered */
};

/* ---- opening and closing */

/* Opens a story at its start.
 *
 * story    the story file, of length bytes. The library copies them.
 * options  how to play it; null for the values of zkit_defaults, which also replace fields past its size. A size that
 *          does not include all fields up to `upper` is refused.
 * reason   gets ZKIT_OPENED, or why the story is not opened; may be null.
 *
 * Returns the game, or null if it is not opened. If there are several reasons, an option comes first, then the first
 * reason about the story, then memory. */
zkit *zkit_open(const uint8_t *story, size_t length, const zkit_options *options, uint32_t *reason);

/* Puts the words for why nothing was opened, such as "the snapshot is damaged", at the front of a buffer, as UTF-8
 * without a final 0, or as much of them as fits; returns how many bytes. ZKIT_OPENED and unknown reasons have no
 * words. */
size_t zkit_text_of_open(uint32_t reason, uint8_t *buffer, size_t length);

/* Writes what a file is that is no story, in words such as "it is a zip archive; unpack it", to the front of a buffer,
 * in the same way. The words go by the first bytes of the file; most files have none. */
size_t zkit_text_of_file(const uint8_t *file, size_t file_length, uint8_t *buffer, size_t length);

/* Copies the story of a Blorb file (Blorb 2.0.4) to the front of a buffer of length bytes, and sets *needed to its
 * number of bytes, which is less than the file's. The story is the first executable of the index, if that is for the
 * Z-machine.
 *
 * ZKIT_DONE; ZKIT_NO_ROOM: *needed is set and the buffer is unchanged; ZKIT_NOT_A_BLORB or ZKIT_NO_STORY: both are
 * unchanged. */
uint32_t zkit_story_in(const uint8_t *file, size_t file_length, uint8_t *buffer, size_t length, size_t *needed);

/* Frees all memory of a game. With null it does nothing. */
void zkit_close(zkit *game);

/* ---- games of one story
 *
 * A program that plays a story many times opens it once. Its games then share the story's file, which never changes.
 * Each of them is a game of its own, as if the others were not there: other threads may use it, and it stays when the
 * opened story is closed. */

/* An opened story. */
typedef struct zkit_shared zkit_shared;

/* Opens a story, of which the library keeps a copy. `reason` gets ZKIT_OPENED, or why it is not opened, as for
 * zkit_open; may be null. Returns the opened story, or null. */
zkit_shared *zkit_story_open(const uint8_t *story, size_t length, uint32_t *reason);

/* Opens a game at the start of an opened story: like zkit_open. Any number of threads may open games of it at once;
 * each waits while another one opens its game. */
zkit *zkit_story_game(zkit_shared *story, const zkit_options *options, uint32_t *reason);

/* Opens a game that goes on from a snapshot of an opened story: like zkit_open_snapshot, and for threads like
 * zkit_story_game. */
zkit *zkit_story_resume(zkit_shared *story, const uint8_t *snapshot, size_t snapshot_length,
                        const zkit_options *options, uint32_t *reason);

/* Frees what an opened story has for itself, when no thread opens a game of it. The file goes with its last game. With
 * null it does nothing. */
void zkit_story_close(zkit_shared *story);

/* ---- turns and text */

/* Runs the story until it awaits something or stops, and returns which. The library collects the text for zkit_text and
 * zkit_transcript, and keeps it until it is taken. If the story already awaits an answer, the call returns that again
 * and runs nothing; if the story has stopped, it returns ZKIT_STOPPED.
 *
 * ZKIT_AWAITS_ROOM: the bytes of text that wait, for both together, have reached the option `room`, or passed it by
 * what was shown at once. This may happen in the middle of an instruction's text. It changes nothing else: the next
 * turn goes on.
 *
 * ZKIT_AWAITS_MEMORY: there is no memory for the next 4,096 bytes of text, or for the undo state that the next
 * instruction keeps. Nothing is lost either: once there is memory, a turn goes on. Taking the text may be enough. (More
 * text comes at once only if a story prints a table row of more than 1,365 characters, or if `upper` is set and the
 * window is tall. If there is no memory for that, the story stops: ZKIT_OUT_OF_MEMORY.) */
uint32_t zkit_turn(zkit *game);

/* The same for at most this many instructions: returns ZKIT_AWAITS_TIME when they are used up, and the next turn goes
 * on as if nothing had happened. Here each thousand Z-characters of a long text count as one instruction, and so do
 * table rows with a thousand characters, or a single longer row: the turn may end in their middle. */
uint32_t zkit_turn_for(zkit *game, uint32_t steps);

/* Carries out one instruction: like zkit_turn_for with 1, after zkit_list_instruction for the instruction that comes
 * next. So zkit_listing has its line, unless that was refused. */
uint32_t zkit_step(zkit *game);

/* Moves the next bytes of the screen's text into a buffer, and returns how many: at most length, and 0 if no text is
 * left or length is 0. There may be more text even after fewer bytes than length: call it until it returns 0. The text
 * is UTF-8 without a final 0; a part may end inside a character. The rest of the buffer stays as it was. */
size_t zkit_text(zkit *game, uint8_t *buffer, size_t length);

/* The same for the text of the transcript, which the story can turn on and off. */
size_t zkit_transcript(zkit *game, uint8_t *buffer, size_t length);

/* The style of a run of text: a sum of these, or 0 for roman. */
enum {
    ZKIT_REVERSE = 1,
    ZKIT_BOLD = 2,
    ZKIT_ITALIC = 4,
    ZKIT_FIXED = 8              /* with a fixed pitch */
};

/* What came before a run of text: a sum of these. */
enum {
    ZKIT_ERASED = 16,           /* the story erased the window below the upper one */
    ZKIT_HIGH_BLEEP = 32,       /* a high bleep sounded */
    ZKIT_LOW_BLEEP = 64         /* a low bleep sounded */
};

/* A run: the next bytes of the screen's text that have one style. */
typedef struct zkit_run {
    size_t size;                /* sizeof (zkit_run) */
    size_t length;              /* how many bytes: 0 if no text is left */
    uint32_t style;             /* how they are shown */
    uint32_t before;            /* what came before them; if no text is left, after the last text */
} zkit_run;

/* Describes the next run of the screen's text, for a game with the option `styles`; then take its bytes with zkit_text.
 * What came before a run is told once. If `length` and `before` are 0, nothing is left. Without the option all text is
 * one run, in roman. If you take more bytes than the run has, what came before the others is not told.
 *
 *     do {
 *         zkit_next_run(game, &run);
 *         ... erase the window or sound a bleep, as run.before says
 *         ... take run.length bytes with zkit_text, and show them as run.style says
 *     } while (run.length > 0);
 *
 * If the size does not include all fields up to `before`, sets none. */
void zkit_next_run(zkit *game, zkit_run *run);

/* Why the story has stopped, as the last turn found: ZKIT_RUNS if it has not. */
uint32_t zkit_status(const zkit *game);

/* Which fault or limit has stopped the story; 0 if none has. */
uint32_t zkit_reason(const zkit *game);

/* The byte address of the instruction with that fault or limit; 0 if there is none. */
uint32_t zkit_address(const zkit *game);

/* Puts the words for a status and its reason, such as "division by zero", at the front of a buffer, as UTF-8 without a
 * final 0, or as much of them as fits; returns how many bytes. ZKIT_RUNS and unknown statuses and reasons have no
 * words. The reason counts only after a fault or a limit. */
size_t zkit_text_of_reason(uint32_t status, uint32_t reason, uint8_t *buffer, size_t length);

/* ---- answers */

/* The most characters that the story takes in the line that it awaits: at most 255. 0 if it awaits no line. */
uint32_t zkit_longest_line(const zkit *game);

/* Gives a line to a story that awaits one: length bytes of UTF-8, at most 65,535, without a new line or a carriage
 * return at the end. A character that is not in the story's character set is read as a question mark, and so is a byte
 * that is not UTF-8; a tab is read as a space. Everything after the 255th character is dropped.
 *
 * ZKIT_DONE, ZKIT_NOT_AWAITED or ZKIT_NOT_A_LINE. */
uint32_t zkit_line(zkit *game, const uint8_t *line, size_t length);

/* Keys that are not characters, by their codes in the story's character set, ZSCII. */
enum {
    ZKIT_KEY_DELETE = 8,
    ZKIT_KEY_ESCAPE = 27,
    ZKIT_KEY_UP = 129,          /* the cursor keys */
    ZKIT_KEY_DOWN = 130,
    ZKIT_KEY_LEFT = 131,
    ZKIT_KEY_RIGHT = 132,
    ZKIT_KEY_F1 = 133,          /* F2 is 134, and so on up to F12, 144 */
    ZKIT_KEY_PAD_0 = 145        /* the digits of a number pad, up to 9, 154 */
};

/* The same for a line that a key ended: from version 5 on, a story may list function keys that do (129 to 154). Pass
 * what was typed up to then. The story learns the key; a new line (13) is one too.
 *
 * ZKIT_NOT_A_KEY: the key ends no line of this story, as it stands now: go on reading the line. */
uint32_t zkit_line_ended(zkit *game, const uint8_t *line, size_t length, uint32_t key);

/* Gives a character to a story that awaits one, by its Unicode number: 10 or 13 is a new line. A character that is not
 * in the story's character set is read as a question mark, and so is a number that is not a character; a tab is read as
 * a space. If the game has the option `keys`, the numbers 8, 27 and 129 to 154 are keys.
 *
 * ZKIT_DONE or ZKIT_NOT_AWAITED. */
uint32_t zkit_character(zkit *game, uint32_t character);

/* Goes back to the story's newest undo state, as its own `restore_undo` would, if the story awaits a line or a
 * character. The next turn goes on from there.
 *
 * ZKIT_DONE; ZKIT_NOT_AWAITED: it awaits something else; ZKIT_NO_STATE: it has kept none, or all are used up. */
uint32_t zkit_undo(zkit *game);

/* Copies the file of the saved game, in the format Quetzal 1.4, to the front of a buffer of length bytes, and sets
 * *needed to its size in bytes: at most 51, plus the story's dynamic memory (less than 65,536), plus 8 for each frame
 * and 2 for each word that the limits allow. The story then still awaits zkit_saved.
 *
 * ZKIT_DONE; ZKIT_NO_ROOM: *needed is set and the buffer is unchanged; ZKIT_NOT_AWAITED or ZKIT_NO_MEMORY: both are
 * unchanged. */
uint32_t zkit_image(zkit *game, uint8_t *buffer, size_t length, size_t *needed);

/* Tells a waiting story whether its saved game was kept: pass any number but 0 if it was.
 *
 * ZKIT_DONE or ZKIT_NOT_AWAITED. */
uint32_t zkit_saved(zkit *game, uint32_t kept);

/* Gives a saved game, a file of length bytes, to a story that awaits one. A file that is not a saved game of this story
 * counts as none, and the story tells its player so. A saved game with more frames or words than the limits allow stops
 * the story with that limit.
 *
 * The Standard closes the upper window when a game is restored. Some stories, such as those of Inform's library 6/11,
 * think that theirs is still there, and would have no status line from then on. So past version 3 the window is given
 * back with the height that it had, as by zkit_split. In version 3 a story asks for it again.
 *
 * ZKIT_DONE or ZKIT_NOT_AWAITED. */
uint32_t zkit_restore(zkit *game, const uint8_t *file, size_t length);

/* Tells a story that awaits a saved game that there is none.
 *
 * ZKIT_DONE or ZKIT_NOT_AWAITED. */
uint32_t zkit_restore_none(zkit *game);

/* ---- snapshots */

/* Copies a snapshot of the play to the front of a buffer of length bytes, and sets *needed to its size in bytes. You
 * can take a snapshot when the story awaits a line or a character. It contains memory, routines, random numbers,
 * streams and windows as they are, so that the same answers give the same play from there on, even in another process.
 * It does not contain the states that zkit_undo and the story's own `restore_undo` go back to, the grid of a box that
 * is gone, or text that was not taken: take the text first.
 *
 * The format is this project's own, and begins with its version number. From 1.0.0 on, later versions with the same
 * first number can read it. Other interpreters can read a saved game, which zkit_image makes.
 *
 * ZKIT_DONE; ZKIT_NO_ROOM: *needed is set and the buffer is unchanged; ZKIT_NOT_AWAITED or ZKIT_NO_MEMORY: both are
 * unchanged. */
uint32_t zkit_snapshot(zkit *game, uint8_t *buffer, size_t length, size_t *needed);

/* The same with undo states: the newest ones, until the first that does not fit in undo_bytes bytes. A state has 10
 * bytes, the packed differences between dynamic memory at that time and the story file, and 10 bytes for each frame and
 * 2 for each word in the frames. */
uint32_t zkit_snapshot_with_undo(zkit *game, size_t undo_bytes, uint8_t *buffer, size_t length, size_t *needed);

/* The most bytes that a snapshot of the game can have, now or later, with this many bytes of undo states: 0 for
 * zkit_snapshot. It is 260,513, plus the story's dynamic memory (less than 65,536), plus 10 for each frame and 2 for
 * each word that the limits allow, plus undo_bytes; or SIZE_MAX if that is less. */
size_t zkit_longest_snapshot(const zkit *game, size_t undo_bytes);

/* Opens a game that goes on where the snapshot was taken: like zkit_open, with the story file and the snapshot's bytes.
 * The game has the limits in the snapshot, and includes the upper window in the text if the earlier game did.
 *
 * options  the most that frames, words, undo and steps of the snapshot may be, and `room`; null for any limits and the
 *          room of zkit_defaults. Fields past its size have the values of zkit_defaults. The width is the snapshot's,
 *          whatever `columns` says.
 *
 * If there are several reasons not to open the game, an option out of its range comes first, then the first reason
 * about the story, then the first about the snapshot, 8 to 11, then a limit of the snapshot that is greater than the
 * option. Memory may run out at any point. */
zkit *zkit_open_snapshot(const uint8_t *story, size_t length, const uint8_t *snapshot, size_t snapshot_length,
                         const zkit_options *options, uint32_t *reason);

/* ---- clones */

/* Opens a second game that goes on from where a game awaits a line or a character: with its memory, routines, random
 * numbers, streams, windows and limits, the same states for zkit_undo and the story's own `restore_undo`, and the same
 * options. From then on each is a game of its own, as if the other were not there: other threads may use it, and either
 * may be closed first. The two share the story's file, so a clone costs less than another zkit_open. Text that was not
 * taken stays with the first game.
 *
 * reason   gets ZKIT_DONE, ZKIT_NOT_AWAITED or ZKIT_NO_MEMORY; may be null.
 *
 * Returns the second game, or null. */
zkit *zkit_clone(const zkit *game, uint32_t *reason);

/* Begins the random numbers anew with a seed, as the option `seed` does, if the story awaits a line or a character. So
 * clones can throw other dice. If the story itself has asked for predictable numbers, these go on as they are.
 *
 * ZKIT_DONE or ZKIT_NOT_AWAITED. */
uint32_t zkit_reseed(zkit *game, uint64_t seed);

/* ---- looking into a game
 *
 * These calls change nothing, and may be used at any time, also while the last turn ended in the middle of an
 * instruction's text: then they show the game before that instruction. Addresses are byte addresses. The sections are
 * those of the Z-Machine Standards Document 1.1. */

/* How many bytes of the screen's text, and of the transcript's, wait to be taken. */
size_t zkit_waiting_text(const zkit *game);
size_t zkit_waiting_transcript(const zkit *game);

/* Puts the marks of the addresses from one on at the front of a buffer, or as many as fit; returns how many: one byte
 * for each byte of the story, 1 where an instruction begins that this game has carried out since it was opened, else 0.
 * A clone begins without marks. Without the option `coverage` there are none. */
size_t zkit_coverage(const zkit *game, uint32_t address, uint8_t *buffer, size_t length);

/* Where a game stands. */
typedef struct zkit_place {
    size_t size;           /* sizeof (zkit_place) */
    uint32_t address;      /* of the instruction that waits, or comes next, or has stopped the story */
    uint32_t routines;     /* how many routines that were called are open */
    uint32_t words;        /* how many 16-bit words all open routines hold */
    uint32_t states;       /* how many undo states there are to go back to */
    uint32_t steps;        /* how many instructions were carried out since the last read was answered */
    uint32_t reads;        /* how many reads were answered */
    uint64_t instructions; /* how many instructions the turns of this game have carried out, without those that await an
                              answer and the one that ends the story; a clone begins with 0 */
} zkit_place;

/* Describes where a game stands. If the size does not include all fields up to `instructions`, sets none. */
void zkit_place_of(const zkit *game, zkit_place *place);

/* An open routine (section 6.1). */
typedef struct zkit_routine {
    size_t size;        /* sizeof (zkit_routine) */
    uint32_t address;   /* of the routine, where the count of its local variables stands; 0 if it is not known */
    uint32_t call;      /* of the call that began it; 0 if it is not known */
    uint32_t goes_on;   /* where its caller goes on */
    uint32_t locals;    /* how many local variables it has: 0 to 15 */
    uint32_t words;     /* how many words stand on its evaluation stack */
    uint32_t arguments; /* how many arguments it was given: the first local variables, as they were at the call */
} zkit_routine;

/* Describes the open routine of a number. The one that the story begins in has number 0, and the newest has the number
 * `routines` of zkit_place. Number 0 has no address and no call. A saved game and a snapshot do not say which routines
 * are open: their addresses are not known then, and mostly no calls either. If the size does not include all fields up
 * to `arguments`, sets none.
 *
 * ZKIT_DONE or ZKIT_NOT_THERE. */
uint32_t zkit_routine_of(const zkit *game, uint32_t number, zkit_routine *routine);

/* Puts the local variables of the open routine of a number, the first one first, at the front of a buffer of length
 * words, or as many as fit; returns how many. */
size_t zkit_locals(const zkit *game, uint32_t number, uint16_t *buffer, size_t length);

/* The same for the words of its evaluation stack, the oldest first. */
size_t zkit_stack(const zkit *game, uint32_t number, uint16_t *buffer, size_t length);

/* Puts the bytes of memory from an address on, as they are now, at the front of a buffer, or as many as fit; returns
 * how many. Past the end of the story there are none. The global variable n of 16 to 255 is the word, high byte first,
 * at the address in the word at 12, plus 2 * (n - 16). */
size_t zkit_memory(const zkit *game, uint32_t address, uint8_t *buffer, size_t length);

/* A hash of so many bytes of memory from an address on, as they are now: FNV-1a in 64 bits. What the story can change
 * lies below the address in the word at 14: dynamic memory. Two games of a story with the same hash of that are almost
 * surely in the same state, apart from their open routines and random numbers. */
uint64_t zkit_hash(const zkit *game, uint32_t address, uint32_t count);

/* How many objects the story has: they are counted up to the first property table. */
uint32_t zkit_objects(const zkit *game);

/* An object as it stands (section 12.3). */
typedef struct zkit_object {
    size_t size;           /* sizeof (zkit_object) */
    uint32_t entry;        /* the address of its entry in the object table */
    uint32_t parent;       /* the number of its parent, or 0 */
    uint32_t sibling;      /* of its next sibling, or 0 */
    uint32_t child;        /* of its first child, or 0 */
    uint32_t properties;   /* the address of its property table */
    uint8_t attributes[8]; /* 32 in version 3 and 48 in others, and zeros: attribute 0 is bit 7 of the first byte */
} zkit_object;

/* Describes the object of a number, from 1 on. If the size does not include all fields up to `attributes`, sets none.
 *
 * ZKIT_DONE; ZKIT_NOT_THERE: its entry does not lie in data. */
uint32_t zkit_object_of(const zkit *game, uint32_t object, zkit_object *figures);

/* Puts the short name of an object at the front of a buffer, like zkit_status_name. It is empty if it can't be read. */
size_t zkit_object_name(const zkit *game, uint32_t object, uint8_t *buffer, size_t length);

/* A property of an object (section 12.4). */
typedef struct zkit_property {
    size_t size;      /* sizeof (zkit_property) */
    uint32_t next;    /* the number of the next property in the object's list, or 0 */
    uint32_t address; /* of its data */
    uint32_t length;  /* how many bytes its data has */
} zkit_property;

/* Describes a property of an object. With the number 0, sets `next` to the first property of its list, and the other
 * fields to 0. If the size does not include all fields up to `length`, sets none.
 *
 * ZKIT_DONE; ZKIT_NOT_THERE: there is no such object, or it has no such property, or its list can't be read. */
uint32_t zkit_property_of(const zkit *game, uint32_t object, uint32_t number, zkit_property *property);

/* ---- changing a game
 *
 * These calls are for debugging and for tests: they change memory as an instruction of the story could, while the story
 * awaits a line or a character. Few stories expect that. From then on a game is no play of the story any more: the same
 * seed and the same lines need not give it again. */

/* Gives the word at a byte address of dynamic memory a value, 0 to 65,535, as `storew` does.
 *
 * ZKIT_DONE; ZKIT_NOT_AWAITED: the story awaits nothing of the kind; ZKIT_NOT_CHANGED: not both bytes lie in dynamic
 * memory, or the value is no word. */
uint32_t zkit_set_word(zkit *game, uint32_t address, uint32_t value);

/* Puts an object into another one, as its first child, as `insert_obj` does; with the parent 0 takes it out of its
 * parent, as `remove_obj` does. An object that goes into itself, or into one inside of it, makes a circle.
 *
 * ZKIT_DONE; ZKIT_NOT_AWAITED; ZKIT_NOT_CHANGED: the story could not do it, as there is no such object. */
uint32_t zkit_move_object(zkit *game, uint32_t object, uint32_t parent);

/* ---- the screen's upper part */

/* The upper window: a grid of characters above the text, as wide as the option `columns` says. */
typedef struct zkit_window {
    size_t size;       /* sizeof (zkit_window) */
    uint32_t height;   /* how many rows are shown: 0 to 255 */
    uint32_t tallest;  /* the rows of the tallest grid since the last answer to a read, this one included. If it is
                          greater than height, the story took rows away again before it reads: a box drawn over the
                          text */
    uint32_t row;      /* the cursor's row, from 1 on; 256 is past the last row */
    uint32_t column;   /* the cursor's column, from 1 on; the one after the width is past the last column */
    uint32_t selected; /* 1 if the upper window is selected, else 0 */
    uint32_t width;    /* how many columns its rows have: 20 to 255. A game from a snapshot keeps its width */
} zkit_window;

/* Describes the upper window. If the size does not include all fields up to `selected`, sets none. */
void zkit_window_of(const zkit *game, zkit_window *window);

/* Puts the text of a row of the upper window, from 1 on, at the front of a buffer, as UTF-8 without trailing spaces, or
 * as much of it as fits; returns how many bytes, at most 765. A row that is not shown has no text. */
size_t zkit_row(const zkit *game, uint32_t row, uint8_t *buffer, size_t length);

/* The same for a row of the tallest grid since the last answer to a read. */
size_t zkit_tallest_row(const zkit *game, uint32_t row, uint8_t *buffer, size_t length);

/* Puts the styles of the cells of a row of the upper window, from 1 on, at the front of a buffer, a byte each, or as
 * many as fit; returns how many, at most the width. A style is the sum of ZKIT_REVERSE .. ZKIT_FIXED, as for a run, but
 * all of the upper window is shown with a fixed pitch anyway. Cells after the last one told are empty. A row may have
 * more cells here than characters in zkit_row: spaces in reverse are seen. */
size_t zkit_row_styles(const zkit *game, uint32_t row, uint8_t *buffer, size_t length);

/* The same for a row of the tallest grid since the last answer to a read. */
size_t zkit_tallest_row_styles(const zkit *game, uint32_t row, uint8_t *buffer, size_t length);

/* Gives the upper window this many rows, 255 at most, as the story's own `split_window` would.
 *
 * ZKIT_DONE; ZKIT_NOT_AWAITED: the last turn ended in the middle of an instruction's text. */
uint32_t zkit_split(zkit *game, uint32_t rows);

/* What a status line shows besides its name. */
enum {
    ZKIT_NO_STATUS = 0,         /* no status line: the story is not of version 3, or its status line can't be read */
    ZKIT_SCORE = 1,             /* the score and the number of turns */
    ZKIT_TIME = 2               /* hours and minutes */
};

/* The figures of a status line. */
typedef struct zkit_figures {
    size_t size; /* sizeof (zkit_figures) */
    uint32_t kind;
    int32_t first;
    int32_t second;
} zkit_figures;

/* Gives the figures of a version 3 status line. If the size does not include all fields up to `second`, sets none. */
void zkit_status_line(const zkit *game, zkit_figures *figures);

/* Puts the name in a version 3 status line, which is usually that of a place, at the front of a buffer, as UTF-8, or as
 * much of it as fits; returns how many bytes. The name is cut after 1,000 characters. It is empty if it has more than
 * 65,536 words of the story, counting the words of abbreviations at each use. */
size_t zkit_status_name(const zkit *game, uint8_t *buffer, size_t length);

/* ---- about a story */

/* What the file says about its story. */
typedef struct zkit_story {
    size_t size;       /* sizeof (zkit_story) */
    uint32_t version;
    uint32_t release;
    uint32_t checksum;
    uint8_t serial[8]; /* six bytes, mostly digits, and zeros */
} zkit_story;

/* Gives what the file says about the story. If the size does not include all fields up to `serial`, sets none. */
void zkit_story_of(const zkit *game, zkit_story *story);

/* What zkit_list lists. */
enum {
    ZKIT_LIST_HEADER = 0,
    ZKIT_LIST_MAP = 1,
    ZKIT_LIST_ABBREVIATIONS = 2,
    ZKIT_LIST_DICTIONARY = 3,
    ZKIT_LIST_OBJECTS = 4,
    ZKIT_LIST_TREE = 5,
    ZKIT_LIST_IFID = 6,
    ZKIT_LIST_CODE = 7,         /* as `zkit disasm` */
    ZKIT_LIST_FINDINGS = 8,     /* as `zkit check` */
    ZKIT_LIST_STRINGS = 9,
    ZKIT_LIST_PROPERTIES = 10,
    ZKIT_LIST_GLOBALS = 11,
    ZKIT_LIST_ALPHABETS = 12,
    ZKIT_LIST_EXTENSION = 13
};

/* Lists what is in the file of the game's story, for zkit_listing: the lines that `zkit info`, `zkit disasm` and
 * `zkit check` show, without the name of the section. It replaces the rest of an earlier listing, and does not change
 * the play. The library keeps the whole listing. A story's texts can print gigabytes, so a listing has at most
 * ZKIT_LISTING bytes.
 *
 * ZKIT_DONE; ZKIT_NOT_AWAITED: there is no such listing; ZKIT_NO_MEMORY; ZKIT_LISTING_TOO_LONG: it has more bytes;
 * ZKIT_LISTING_TOO_MANY_WORDS: it has more than ZKIT_LISTING_FACTS lines, or the texts in its lines have more than
 * ZKIT_LISTING_WORDS words of the story, or one of them has more than ZKIT_LISTING_TEXT, counting the words of an
 * abbreviation at each use. After a refusal there is no listing, and the rest of an earlier one is gone. */
uint32_t zkit_list(zkit *game, uint32_t listing);

/* The same for a listing of at most this many bytes. Meanwhile the library keeps at most one byte more than that, and
 * it stops once there are more. */
uint32_t zkit_list_within(zkit *game, uint32_t listing, size_t most);

/* The same in parts, so that a host stays responsive: the first call finds out what is to be listed, and each further
 * call writes lines behind those that wait, until this many steps are used up. A step is a word of text that is looked
 * at, a byte of a line, or as much other work. Take the text with zkit_listing between the calls: ZKIT_LISTING bytes
 * may wait. The parts together are what zkit_list lists. Another listing, or a call with another number, ends it.
 *
 * ZKIT_LISTING_GOES_ON: call again; ZKIT_DONE: that was all; or as zkit_list, where ZKIT_LISTING_TOO_LONG says that too
 * many bytes wait. */
uint32_t zkit_list_for(zkit *game, uint32_t listing, uint32_t steps);

/* Lists the instruction at a byte address of memory as it is now, for zkit_listing, as zkit_list lists the code. What
 * stands there need not be an instruction. The address of the one that comes next is in zkit_place. */
uint32_t zkit_list_instruction(zkit *game, uint32_t address);

/* Moves the next bytes of the listing into a buffer, like zkit_text. */
size_t zkit_listing(zkit *game, uint8_t *buffer, size_t length);

#ifdef __cplusplus
}
#endif

#endif
