/* Tries what play.c does not: stories that fault or go past a limit, a saved game that another game restores, calls
 * that are refused, slices and the room for text, the upper window, undo, snapshots, options and sizes, listings,
 * words, and memory that is given back. It writes what comes of each.
 *
 *     tries LIGHTHOUSE OTHER
 *
 * These are examples/lighthouse.z5 and examples/lighthouse.z3. */
#include <stdio.h>
#include <stdlib.h>
#include <string.h>

#include "zkit.h"
#include "zkit_heap.h"

enum { SMALL = 4096, LONGEST_STORY = 524288 };

/* The blocks of memory that the library has, and the bytes of the largest one that it has asked for: these three
 * functions stand in place of those in the archive. */
static long blocks = 0;
static size_t largest = 0;

static struct rattle_block block_at(void *at) {
    static unsigned char nothing;
    struct rattle_block block = {at != NULL, at ? at : &nothing};
    return block;
}

struct rattle_block rattle_alloc(size_t size, size_t alignment) {
    struct rattle_block block = block_at(malloc(size > 0 ? size : alignment));
    largest = size > largest ? size : largest;
    blocks += block.is_there;
    return block;
}

struct rattle_block rattle_realloc(void *block, size_t kept, size_t size, size_t alignment) {
    (void)kept;
    largest = size > largest ? size : largest;
    return block_at(realloc(block, size > 0 ? size : alignment));
}

void rattle_dealloc(void *block) {
    blocks--;
    free(block);
}

/* A story of version 5 whose code stands at 00800. */
static void make_story(uint8_t *story, const uint8_t *code, size_t count) {
    memset(story, 0, SMALL);
    story[0x00] = 5;
    story[0x04] = story[0x06] = story[0x0e] = 0x08; /* high memory, the first instruction and static memory: 00800 */
    story[0x0a] = 0x01;                             /* objects: 00100 */
    story[0x0c] = 0x04;                             /* global variables: 00400 */
    story[0x19] = 0x40;                             /* abbreviations: 00040 */
    memcpy(story + 0x800, code, count);
}

/* Writes what a call has answered. */
static void say(const char *call, size_t answer) {
    printf("  %s: %u\n", call, (unsigned)answer);
}

static zkit_options defaults(void) {
    zkit_options options = {.size = sizeof options};
    zkit_defaults(&options);
    return options;
}

/* Opens a story that is one. */
static zkit *opened(const uint8_t *story, size_t length, const zkit_options *options) {
    uint32_t reason = 99;
    zkit *game = zkit_open(story, length, options, &reason);
    if (!game) {
        say("not opened", reason);
        exit(1);
    }
    return game;
}

/* The same for a story of some code. */
static zkit *opened_code(const uint8_t *code, size_t count, const zkit_options *options) {
    uint8_t story[SMALL];
    make_story(story, code, count);
    return opened(story, sizeof story, options);
}

/* Says why a story or its options are refused. */
static void refuse_open(const char *what, const uint8_t *story, size_t length, const zkit_options *options) {
    uint32_t reason = 99;
    zkit *game = zkit_open(story, length, options, &reason);
    say(what, reason);
    if (game)
        puts("  it is opened");
    zkit_close(game);
}

/* Writes the text that waits, a line at a time behind a bar. */
static void show(zkit *game) {
    uint8_t buffer[7]; /* small, so that one text takes several calls */
    size_t count;
    int at_start = 1;
    while ((count = zkit_text(game, buffer, sizeof buffer)) > 0)
        for (size_t i = 0; i < count; i++) {
            if (at_start)
                fputs("    | ", stdout);
            putchar(buffer[i]);
            at_start = buffer[i] == '\n';
        }
    if (!at_start)
        putchar('\n');
}

static void tell(zkit *game) {
    uint8_t words[80];
    size_t count = zkit_text_of_reason(zkit_status(game), zkit_reason(game), words, sizeof words);
    show(game);
    say("status", zkit_status(game));
    say("reason", zkit_reason(game));
    printf("  address: %05x\n", (unsigned)zkit_address(game));
    if (zkit_reason(game) != 0)
        printf("  in words: %.*s\n", (int)count, (const char *)words);
}

/* Runs the story of some code to its stop, with so many steps at most. */
static void run(const char *name, const uint8_t *code, size_t count, uint32_t steps) {
    zkit_options options = defaults();
    options.steps = steps;
    puts(name);
    zkit *game = opened_code(code, count, &options);
    say("turn", zkit_turn(game));
    say("another turn", zkit_turn(game));
    tell(game);
    zkit_close(game);
}

/* Types a line, and says what is awaited then. */
static void type(zkit *game, const char *line) {
    say(line, zkit_line(game, (const uint8_t *)line, strlen(line)));
    say("turn", zkit_turn(game));
}

/* The file of a saved game that waits to be kept, or null. */
static uint8_t *image_of(zkit *game, size_t *length) {
    size_t again = 0;
    say("image without room", zkit_image(game, NULL, 0, length));
    uint8_t *file = malloc(*length);
    if (file) {
        say("image", zkit_image(game, file, *length, &again));
        say("it has one length", *length == again);
        say("it is of Quetzal", memcmp(file, "FORM", 4) == 0);
    }
    return file;
}

/* Saves a game, and answers the file, or null. */
static uint8_t *save(const uint8_t *story, size_t length, size_t *size) {
    puts("a saved game");
    zkit *game = opened(story, length, NULL);
    say("turn", zkit_turn(game));
    type(game, "open bag");
    type(game, "take letter");
    type(game, "save");
    show(game);
    uint8_t *file = image_of(game, size);
    say("saved, by any number but 0", zkit_saved(game, file ? 256 : 0));
    say("turn", zkit_turn(game));
    show(game);
    zkit_close(game);
    return file;
}

/* Has another game, of the same story from its start, restore the file. */
static void restore(const uint8_t *story, size_t length, const uint8_t *file, size_t size) {
    uint8_t byte;
    puts("a game that is restored");
    zkit *game = opened(story, length, NULL);
    say("turn", zkit_turn(game));
    type(game, "restore");
    say("no file", zkit_restore_none(game));
    say("turn", zkit_turn(game));
    type(game, "restore");
    say("half a file", zkit_restore(game, file, size / 2));
    say("turn", zkit_turn(game));
    type(game, "restore");
    say("a file of no bytes", zkit_restore(game, NULL, 0));
    say("turn", zkit_turn(game));
    type(game, "restore");
    while (zkit_text(game, &byte, 1) > 0) {
    }
    say("the file", zkit_restore(game, file, size));
    say("turn", zkit_turn(game));
    type(game, "inventory");
    show(game);
    zkit_close(game);
}

/* Calls that a story does not wait for, and answers that are none: all are refused, and the story goes on. */
static void refuse(const uint8_t *story, size_t length) {
    static uint8_t line[65536];
    size_t needed = 7;
    uint8_t byte = 9;
    puts("calls that are refused");
    zkit *game = opened(story, length, NULL);
    say("a line before the first turn", zkit_line(game, (const uint8_t *)"look", 4));
    say("its longest line", zkit_longest_line(game));
    say("undo", zkit_undo(game));
    say("turn", zkit_turn(game));
    say("the longest line", zkit_longest_line(game));
    say("character", zkit_character(game, 'l'));
    say("image", zkit_image(game, &byte, 1, &needed));
    say("its length is as it was", needed == 7);
    say("its buffer is as it was", byte == 9);
    say("saved", zkit_saved(game, 1));
    say("restore", zkit_restore(game, &byte, 1));
    say("no file", zkit_restore_none(game));
    say("undo", zkit_undo(game));
    memset(line, 'x', sizeof line);
    say("a line with a new line", zkit_line(game, (const uint8_t *)"a\nb", 3));
    say("a line of 65536 bytes", zkit_line(game, line, sizeof line));
    say("turn", zkit_turn(game));
    say("a line of 65535 bytes", zkit_line(game, line, sizeof line - 1));
    say("turn", zkit_turn(game));
    say("an empty line", zkit_line(game, NULL, 0));
    say("turn", zkit_turn(game));
    say("text without a buffer", zkit_text(game, NULL, 0));
    say("a transcript without a buffer", zkit_transcript(game, NULL, 0));
    zkit_close(game);
}

/* Bytes that are no story. */
static void refuse_stories(void) {
    uint8_t story[SMALL];
    const uint8_t quit = 0xba;
    puts("what is no story");
    make_story(story, &quit, 1);
    refuse_open("no bytes", NULL, 0, NULL);
    refuse_open("63 bytes", story, 63, NULL);
    story[0] = 6;
    refuse_open("version 6", story, sizeof story, NULL);
    story[0] = 5;
    refuse_open("cut off in dynamic memory", story, 0x7ff, NULL);
    story[0x06] = 0x10;
    refuse_open("started past its end", story, sizeof story, NULL);
    say("without a reason", zkit_open(story, 63, NULL, NULL) == NULL);
    zkit_close(NULL);
}

/* Options of which one lies out of its range. */
static void refuse_options(const uint8_t *story, size_t length) {
    static const struct {
        const char *what;
        uint32_t frames, words, undo, steps, room;
    } tries[] = {
        {"no frames", 0, 100, 0, 1, 1},
        {"65536 frames", 65536, 100, 0, 1, 1},
        {"65536 words", 1, 65536, 0, 1, 1},
        {"65 states", 1, 100, 65, 1, 1},
        {"256 states", 1, 100, 256, 1, 1},
        {"no steps", 1, 100, 0, 0, 1},
        {"1000000001 steps", 1, 100, 0, 1000000001, 1},
        {"no room", 1, 100, 0, 1, 0},
        {"a room of 2147483648 bytes", 1, 100, 0, 1, 2147483648},
        {"none of these", 1, 100, 0, 1, 2147483647},
    };
    zkit_options options = defaults();
    puts("options out of their ranges");
    for (size_t i = 0; i < sizeof tries / sizeof tries[0]; i++) {
        options.frames = tries[i].frames;
        options.words = tries[i].words;
        options.undo = tries[i].undo;
        options.steps = tries[i].steps;
        options.room = tries[i].room;
        refuse_open(tries[i].what, story, length, &options);
    }
    options.room = 0;
    refuse_open("no room, for what is no story", story, 63, &options);
}

/* The columns of a screen, out of their range and at its ends. */
static void refuse_columns(const uint8_t *story, size_t length) {
    static const struct {
        const char *what;
        uint32_t columns;
    } tries[] = {
        {"no columns", 0},
        {"19 columns", 19},
        {"20 columns", 20},
        {"255 columns", 255},
        {"256 columns", 256},
        {"65616 columns, which is 80 above 65536", 65616},
    };
    zkit_options options = defaults();
    puts("columns out of their range, and within it");
    for (size_t i = 0; i < sizeof tries / sizeof tries[0]; i++) {
        options.columns = tries[i].columns;
        refuse_open(tries[i].what, story, length, &options);
    }
}

/* What zkit_defaults sets, whatever stands there before. */
static void tell_defaults(void) {
    zkit_options options;
    puts("the options that are usual");
    memset(&options, 0xff, sizeof options);
    options.size = sizeof options;
    zkit_defaults(&options);
    say("size", options.size == sizeof options);
    say("seed", (size_t)options.seed);
    say("frames", options.frames);
    say("words", options.words);
    say("undo", options.undo);
    say("steps", options.steps);
    say("room", options.room);
    say("upper", options.upper);
    say("styles", options.styles);
    say("keys", options.keys);
    say("columns", options.columns);
}

/* Why no game is opened from a snapshot of no bytes. */
static uint32_t refused_snapshot(const uint8_t *story, size_t length, const zkit_options *options) {
    uint32_t reason = 99;
    zkit_close(zkit_open_snapshot(story, length, NULL, 0, options, &reason));
    return reason;
}

/* Options of which the program has fewer, or more, than the library. */
static void size_options(const uint8_t *story, size_t length) {
    struct {
        zkit_options known;
        uint8_t later[16];
    } options = {.known = {.size = sizeof options}};
    puts("options of other sizes");
    memset(options.later, 0xff, sizeof options.later);
    zkit_defaults(&options.known);
    say("later fields are as they were", options.later[0] == 0xff);
    say("the room", options.known.room);
    refuse_open("with later fields", story, length, &options.known);
    options.known.frames = 0;
    refuse_open("a bad field", story, length, &options.known);
    zkit_defaults(&options.known);
    options.known.size = offsetof(zkit_options, upper) + sizeof options.known.upper;
    refuse_open("with all fields and no more", story, length, &options.known);
    options.known.size--;
    refuse_open("one byte less", story, length, &options.known);
    options.known.seed = 7;
    zkit_defaults(&options.known);
    say("the seed", (size_t)options.known.seed);
    options.known.size = offsetof(zkit_options, columns) + sizeof options.known.columns - 1;
    options.known.columns = 7;
    zkit_defaults(&options.known);
    say("the seed, and fields up to the last byte of the columns", (size_t)options.known.seed);
    say("the columns", options.known.columns);
    refuse_open("with such columns", story, length, &options.known);
    options.known.size = 0;
    refuse_open("no size", story, length, &options.known);
    say("a snapshot with no size", refused_snapshot(story, length, &options.known));
}

/* Structs that a game fills, of sizes that a program may have. */
static void size_answers(const uint8_t *story, size_t length) {
    zkit_window window = {.size = offsetof(zkit_window, selected), .height = 9};
    zkit_figures figures = {.size = 0, .kind = 9};
    struct {
        zkit_story known;
        uint8_t later[16];
    } facts = {.known = {.size = offsetof(zkit_story, serial) + 7, .release = 9}};
    puts("structs of other sizes");
    zkit *game = opened(story, length, NULL);
    zkit_window_of(game, &window);
    say("a window without its last field", window.height);
    window.size = offsetof(zkit_window, width) + sizeof window.width - 1;
    window.width = 9;
    zkit_window_of(game, &window);
    say("a window without the last byte of its width", window.height);
    say("its width", window.width);
    window.size = sizeof window;
    zkit_window_of(game, &window);
    say("a window with its width", window.width);
    zkit_status_line(game, &figures);
    say("a status line with no size", figures.kind);
    figures.size = offsetof(zkit_figures, second) + sizeof figures.second - 1;
    zkit_status_line(game, &figures);
    say("a status line without its last byte", figures.kind);
    memset(facts.later, 0xff, sizeof facts.later);
    zkit_story_of(game, &facts.known);
    say("a story without its last byte", facts.known.release);
    facts.known.size = sizeof facts;
    zkit_story_of(game, &facts.known);
    say("with later fields", facts.known.release);
    say("these are as they were", facts.later[0] == 0xff);
    say("and the size", facts.known.size == sizeof facts);
    zkit_close(game);
}

/* Runs the story of some code with options to its first read or its stop. */
static void run_with(const char *what, const uint8_t *code, size_t count, const zkit_options *options) {
    puts(what);
    zkit *game = opened_code(code, count, options);
    say("turn", zkit_turn(game));
    show(game);
    say("status", zkit_status(game));
    say("reason", zkit_reason(game));
    zkit_close(game);
}

/* The first random numbers from 1 to 100 by a seed. docs/DECISIONS.md has the rule that gives them. */
static void use_seeds(void) {
    /* three times: random 100 -> global 16; print_num global 16; print_char ' '. Then quit */
    const uint8_t code[] = {0xe7, 0x7f, 0x64, 0x10, 0xe6, 0xbf, 0x10, 0xe5, 0x7f, 0x20, 0xe7,
                            0x7f, 0x64, 0x10, 0xe6, 0xbf, 0x10, 0xe5, 0x7f, 0x20, 0xe7, 0x7f,
                            0x64, 0x10, 0xe6, 0xbf, 0x10, 0xe5, 0x7f, 0x20, 0xba};
    zkit_options options = defaults();
    run_with("numbers by the seed that is usual", code, sizeof code, NULL);
    options.seed = 7;
    run_with("numbers by the seed 7", code, sizeof code, &options);
    options.seed = 4294967303;
    run_with("numbers by the seed 4294967303, which is 7 above 2 to the power of 32", code, sizeof code, &options);
    options.seed = UINT64_MAX;
    run_with("numbers by the greatest seed", code, sizeof code, &options);
}

/* Limits that a story meets: each call and each word of the stack shows a letter. */
static void use_limits(void) {
    /* call_1n 00810; at 00810 a routine: print_char 'f'; call_1n 00810 */
    const uint8_t calls[] = {0x8f, 0x02, 0x04, 0xba, [16] = 0x00, 0xe5, 0x7f, 0x66, 0x8f, 0x02, 0x04, 0xb0};
    /* push 1; print_char 'w'; jump back to the push */
    const uint8_t words[] = {0xe8, 0x7f, 0x01, 0xe5, 0x7f, 0x77, 0x8c, 0xff, 0xf9};
    zkit_options options = defaults();
    options.frames = 3;
    options.words = 4;
    run_with("three frames, of which the first is the story's", calls, sizeof calls, &options);
    run_with("four words", words, sizeof words, &options);
}

/* A story that keeps three states, each before a read: there are as many to go back to as the option says. */
static void use_states(uint32_t undo) {
    /* three times: save_undo -> global 16; read_char 1 -> global 17. Then quit */
    const uint8_t code[] = {0xbe, 0x09, 0xff, 0x10, 0xf6, 0x7f, 0x01, 0x11, 0xbe, 0x09, 0xff, 0x10,
                            0xf6, 0x7f, 0x01, 0x11, 0xbe, 0x09, 0xff, 0x10, 0xf6, 0x7f, 0x01, 0x11, 0xba};
    zkit_options options = defaults();
    size_t count = 0;
    options.undo = undo;
    zkit *game = opened_code(code, sizeof code, &options);
    for (int i = 0; i < 2; i++)
        if (zkit_turn(game) == ZKIT_AWAITS_CHARACTER)
            zkit_character(game, 'x');
    while (zkit_turn(game) == ZKIT_AWAITS_CHARACTER && zkit_undo(game) == ZKIT_DONE)
        count++;
    say("states", count);
    zkit_close(game);
}

/* The upper window is a part of the text where the option is not 0. */
static void use_upper(void) {
    /* split_window 1; set_window 1; print_char 'u'; set_window 0; print_char 'a'; read_char 1 -> global 16; quit */
    const uint8_t code[] = {0xea, 0x7f, 0x01, 0xeb, 0x7f, 0x01, 0xe5, 0x7f, 0x75, 0xeb, 0x7f, 0x00,
                            0xe5, 0x7f, 0x61, 0xf6, 0x7f, 0x01, 0x10, 0xba};
    zkit_options options = defaults();
    run_with("without the upper window", code, sizeof code, &options);
    options.upper = 1;
    run_with("with the upper window", code, sizeof code, &options);
    options.upper = 256;
    run_with("with it by another number", code, sizeof code, &options);
}

/* Describes the next run, and shows as many bytes of it. */
static size_t show_run(zkit *game, size_t most) {
    zkit_run run = {.size = sizeof run, .length = 9, .style = 9, .before = 9};
    uint8_t text[16];
    zkit_next_run(game, &run);
    size_t wanted = run.length < most ? run.length : most, count = 0, part;
    while ((part = zkit_text(game, text + count, wanted - count)) > 0)
        count += part;
    printf("  run: %u bytes, style %u, before %u: %.*s\n", (unsigned)run.length, (unsigned)run.style,
           (unsigned)run.before, (int)count, (const char *)text);
    return run.length + run.before;
}

/* Text has its style, and what came before it, where the option is not 0. */
static void use_styles(void) {
    /* set_text_style 2; print "hi"; set_text_style 0; print "hi"; erase_window -1; sound_effect 2; set_text_style 4;
     * print_unicode 'ä'; sound_effect 1; erase_window 0; read_char 1 -> global 16; storeb 0 17 2 (a fixed pitch);
     * print "hi"; quit */
    const uint8_t code[] = {0xf1, 0x7f, 0x02, 0xb2, 0xb5, 0xc5, 0xf1, 0x7f, 0x00, 0xb2, 0xb5, 0xc5, 0xed, 0x3f, 0xff,
                            0xff, 0xf5, 0x7f, 0x02, 0xf1, 0x7f, 0x04, 0xbe, 0x0b, 0x7f, 0xe4, 0xf5, 0x7f, 0x01, 0xed,
                            0x7f, 0x00, 0xf6, 0x7f, 0x01, 0x10, 0xe2, 0x57, 0x00, 0x11, 0x02, 0xb2, 0xb5, 0xc5, 0xba};
    zkit_options options = defaults();
    zkit_run small = {.size = offsetof(zkit_run, before), .length = 9};
    puts("styles, erasures and bleeps");
    options.styles = 1;
    zkit *game = opened_code(code, sizeof code, &options);
    while (show_run(game, 16) > 0)
        ;
    say("turn", zkit_turn(game));
    zkit_next_run(game, &small);
    say("a size that is too small", small.length);
    show_run(game, 1);
    while (show_run(game, 16) > 0)
        ;
    say("character", zkit_character(game, 'x'));
    say("turn", zkit_turn(game));
    while (show_run(game, 16) > 0)
        ;
    zkit_close(game);
    puts("the same without the option");
    options.size = offsetof(zkit_options, styles);
    game = opened_code(code, sizeof code, &options);
    say("turn", zkit_turn(game));
    while (show_run(game, 16) > 0)
        ;
    zkit_close(game);
}

/* Flags 1, and what set_font answers: a story is told of styles and has a font of a fixed pitch where the option is not
 * 0. */
static void use_fonts(const char *what, const zkit_options *options) {
    /* loadb 0 1 -> global 16; print_num global 16; and for the fonts 4, 0, 3, 1 and 0: set_font -> global 16;
     * print_char ' '; print_num global 16. Then read_char 1 -> global 16; quit */
    const uint8_t code[] = {0x10, 0x00, 0x01, 0x10, 0xe6, 0xbf, 0x10, 0xbe, 0x04, 0x7f, 0x04, 0x10, 0xe5, 0x7f,
                            0x20, 0xe6, 0xbf, 0x10, 0xbe, 0x04, 0x7f, 0x00, 0x10, 0xe5, 0x7f, 0x20, 0xe6, 0xbf,
                            0x10, 0xbe, 0x04, 0x7f, 0x03, 0x10, 0xe5, 0x7f, 0x20, 0xe6, 0xbf, 0x10, 0xbe, 0x04,
                            0x7f, 0x01, 0x10, 0xe5, 0x7f, 0x20, 0xe6, 0xbf, 0x10, 0xbe, 0x04, 0x7f, 0x00, 0x10,
                            0xe5, 0x7f, 0x20, 0xe6, 0xbf, 0x10, 0xf6, 0x7f, 0x01, 0x10, 0xba};
    puts(what);
    zkit *game = opened_code(code, sizeof code, options);
    say("turn", zkit_turn(game));
    while (show_run(game, 16) > 0)
        ;
    zkit_close(game);
}

static void use_fonts_by_options(void) {
    zkit_options options = defaults();
    use_fonts("fonts, without styles", &options);
    options.styles = 1;
    use_fonts("fonts, with styles", &options);
    options.styles = 256;
    use_fonts("fonts, with styles by another number", &options);
    options.size = offsetof(zkit_options, styles);
    use_fonts("fonts, by options without the field", &options);
}

/* The text, the width and the first row of a game whose story shows the width that it is told. */
static void show_width(zkit *game) {
    zkit_window window = {.size = sizeof window};
    uint8_t row[1020] = {0};
    say("turn", zkit_turn(game));
    show(game);
    zkit_window_of(game, &window);
    say("width", window.width);
    say("the cursor's column", window.column);
    say("bytes of the row", zkit_row(game, 1, row, sizeof row));
    printf("  the last character of it that can be: %.*s\n", 3, (const char *)row + 3 * (window.width - 1));
    say("its cells", zkit_row_styles(game, 1, row, sizeof row));
}

/* loadb 0 33 -> global 16; print_num global 16; print_char ' '; loadw 0 17 -> global 16; print_num global 16;
 * split_window 1; set_window 1; store global 17, 0; print_unicode U+20AC; inc_chk global 17, 259, and again up to that;
 * read_char 1 -> global 16; quit */
static const uint8_t width_code[] = {0x10, 0x00, 0x21, 0x10, 0xe6, 0xbf, 0x10, 0xe5, 0x7f, 0x20, 0x0f, 0x00, 0x11,
                                     0x10, 0xe6, 0xbf, 0x10, 0xea, 0x7f, 0x01, 0xeb, 0x7f, 0x01, 0x0d, 0x11, 0x00,
                                     0xbe, 0x0b, 0x3f, 0x20, 0xac, 0xc5, 0x4f, 0x11, 0x01, 0x03, 0x3f, 0xf6, 0xf6,
                                     0x7f, 0x01, 0x10, 0xba};

/* The width of the screen is told to the story, in characters and in units, and the upper window's rows have it. */
static void use_width(const char *what, const zkit_options *options) {
    puts(what);
    zkit *game = opened_code(width_code, sizeof width_code, options);
    show_width(game);
    zkit_close(game);
}

/* A game that goes on from a snapshot has the width that it had, whatever the options say. */
static void keep_width(zkit_options options) {
    static uint8_t kept[SMALL * 16];
    uint8_t story[SMALL];
    size_t size = 0;
    make_story(story, width_code, sizeof width_code);
    options.columns = 40;
    zkit *game = opened(story, sizeof story, &options);
    puts("the width of a game that goes on from a snapshot");
    zkit_turn(game);
    show(game);
    say("kept", zkit_snapshot(game, kept, sizeof kept, &size));
    zkit_close(game);
    options.columns = 30;
    zkit *other = zkit_open_snapshot(story, sizeof story, kept, size, &options, NULL);
    show_width(other);
    zkit_close(other);
}

static void use_columns(void) {
    zkit_options options = defaults();
    use_width("a screen that is as wide as is usual", NULL);
    options.columns = 20;
    use_width("a screen of 20 columns", &options);
    options.columns = 255;
    use_width("a screen of 255 columns", &options);
    options.size = offsetof(zkit_options, columns);
    use_width("a screen by options without the field", &options);
    keep_width(defaults());
}

/* A story that reads a character and then a line, and shows the code of the one, and of what ended the other. Its table
 * of terminating characters has the key "cursor down". */
static zkit *reading_keys(const zkit_options *options) {
    /* read_char 1 -> global 16; print_num global 16; print_char ' '; aread 00300 -> global 17; print_num global 17;
     * print_char '/'; print_num byte 1 of 00300, how many letters it has; quit */
    const uint8_t code[] = {0xf6, 0x7f, 0x01, 0x10, 0xe6, 0xbf, 0x10, 0xe5, 0x7f, 0x20, 0xe4, 0x3f, 0x03,
                            0x00, 0x11, 0xe6, 0xbf, 0x11, 0xe5, 0x7f, 0x2f, 0xd0, 0x1f, 0x03, 0x00, 0x01,
                            0x12, 0xe6, 0xbf, 0x12, 0xba};
    uint8_t story[SMALL];
    make_story(story, code, sizeof code);
    story[0x2e] = 0x02;
    story[0x200] = ZKIT_KEY_DOWN;
    story[0x300] = 20;
    return opened(story, sizeof story, options);
}

/* Types a character, and a line that a key ends, and closes the game. */
static void type_keys_in(zkit *game, uint32_t character, uint32_t key) {
    say("a line is not awaited yet", zkit_line_ended(game, NULL, 0, key));
    zkit_turn(game);
    say("character", zkit_character(game, character));
    zkit_turn(game);
    say("no line", zkit_line_ended(game, (const uint8_t *)"a\n", 2, key));
    say("line", zkit_line_ended(game, (const uint8_t *)"go", 2, key));
    say("turn", zkit_turn(game));
    show(game);
    zkit_close(game);
}

static void type_keys(const zkit_options *options, uint32_t character, uint32_t key) {
    type_keys_in(reading_keys(options), character, key);
}

static void type_keys_in_clone(const zkit_options *options) {
    zkit *game = reading_keys(options);
    zkit_turn(game);
    type_keys_in(zkit_clone(game, NULL), ZKIT_KEY_UP, ZKIT_KEY_DOWN);
    zkit_close(game);
}

/* Keys that are not characters are read as themselves where the option is not 0, and as question marks else. */
static void use_keys(void) {
    zkit_options options = defaults();
    puts("keys, without the option");
    type_keys(&options, ZKIT_KEY_UP, ZKIT_KEY_DOWN);
    options.keys = 1;
    puts("the same with the option");
    type_keys(&options, ZKIT_KEY_UP, ZKIT_KEY_DOWN);
    puts("the same in a clone");
    type_keys_in_clone(&options);
    puts("delete, and a key that ends no line");
    type_keys(&options, ZKIT_KEY_DELETE, ZKIT_KEY_UP);
    puts("escape, and a new line");
    type_keys(&options, ZKIT_KEY_ESCAPE, 13);
    puts("the last key of all, and no key");
    type_keys(&options, ZKIT_KEY_PAD_0 + 9, 0);
    puts("no key, and another number that has the code of one in its last byte");
    type_keys(&options, ZKIT_KEY_PAD_0 + 10, 256 + ZKIT_KEY_DOWN);
    puts("a character of the story's set, and a number that has the code of a key in its last byte");
    type_keys(&options, 0xe4, ZKIT_KEY_DOWN);
    type_keys(&options, 256 + ZKIT_KEY_UP, ZKIT_KEY_DOWN);
    puts("by options without the field");
    options.size = offsetof(zkit_options, keys);
    type_keys(&options, ZKIT_KEY_UP, ZKIT_KEY_DOWN);
}

static void show_row(const char *name, size_t count, const uint8_t *row) {
    printf("  %s: '%.*s'\n", name, (int)count, (const char *)row);
}

static uint32_t height_of(const zkit *game) {
    zkit_window window = {.size = sizeof window};
    zkit_window_of(game, &window);
    return window.height;
}

/* A restore leaves the upper window its height, with blank rows. */
static void restore_window(void) {
    /* split_window 2; set_window 1; print_char 'u'; set_window 0; save -> global 16; je global 16, 2 ?read;
     * restore -> global 17; read: read_char 1 -> global 18; quit */
    const uint8_t code[] = {0xea, 0x7f, 0x02, 0xeb, 0x7f, 0x01, 0xe5, 0x7f, 0x75, 0xeb, 0x7f, 0x00,
                            0xbe, 0x00, 0xff, 0x10, 0x41, 0x10, 0x02, 0xc6, 0xbe, 0x01, 0xff, 0x11,
                            0xf6, 0x7f, 0x01, 0x12, 0xba};
    uint8_t file[SMALL], row[8];
    size_t length = 0;
    zkit *game = opened_code(code, sizeof code, NULL);
    puts("an upper window after a restore");
    zkit_turn(game);
    say("image", zkit_image(game, file, sizeof file, &length));
    say("saved", zkit_saved(game, 1));
    say("turn", zkit_turn(game));
    say("height", height_of(game));
    show_row("row", zkit_row(game, 1, row, sizeof row), row);
    say("restore", zkit_restore(game, file, length));
    say("height", height_of(game));
    show_row("row", zkit_row(game, 1, row, sizeof row), row);
    say("turn", zkit_turn(game));
    say("height at the read", height_of(game));
    zkit_close(game);
}

/* In version 3 it takes the upper window away (section 8.6.1.3). */
static void restore_window_of_3(void) {
    /* split_window 3; save ?restore; restore: restore ?quit; quit: quit */
    const uint8_t code[] = {0xea, 0x7f, 0x03, 0xb5, 0xc2, 0xb6, 0xc2, 0xba};
    uint8_t story[SMALL], file[SMALL];
    size_t length = 0;
    make_story(story, code, sizeof code);
    story[0] = 3;
    zkit *game = opened(story, sizeof story, NULL);
    puts("the same in version 3");
    zkit_turn(game);
    say("image", zkit_image(game, file, sizeof file, &length));
    say("saved", zkit_saved(game, 1));
    say("turn", zkit_turn(game));
    say("height", height_of(game));
    say("restore", zkit_restore(game, file, length));
    say("height", height_of(game));
    zkit_close(game);
}

/* A host gives the upper window rows. */
static void split(void) {
    /* read_char 1 -> global 16; quit */
    const uint8_t code[] = {0xf6, 0x7f, 0x01, 0x10, 0xba};
    zkit *game = opened_code(code, sizeof code, NULL);
    puts("an upper window that a host splits");
    say("turn", zkit_turn(game));
    say("split", zkit_split(game, 1));
    say("height", height_of(game));
    say("more rows than there may be", zkit_split(game, 65536 + 2));
    say("height", height_of(game));
    say("no row", zkit_split(game, 0));
    say("height", height_of(game));
    zkit_close(game);
}

/* In the middle of a text nothing is split. */
static void split_in_a_text(void) {
    /* print_paddr 00900, a text of 2,400 letters; quit */
    const uint8_t code[] = {0x8d, 0x02, 0x40, 0xba};
    uint8_t story[SMALL];
    make_story(story, code, sizeof code);
    for (size_t i = 0; i < 800; i++) {
        story[0x900 + 2 * i] = i == 799 ? 0x9a : 0x1a;
        story[0x901 + 2 * i] = 0x69;
    }
    zkit *game = opened(story, sizeof story, NULL);
    puts("an upper window in the middle of a text");
    say("turn", zkit_turn_for(game, 1));
    say("split", zkit_split(game, 1));
    say("height", height_of(game));
    say("turn", zkit_turn(game));
    say("split", zkit_split(game, 1));
    zkit_close(game);
}

/* Each option does what it says. */
static void use_options(void) {
    use_seeds();
    use_limits();
    puts("states to go back to, of three");
    for (uint32_t undo = 0; undo <= 4; undo++)
        use_states(undo);
    use_upper();
    use_styles();
    use_fonts_by_options();
    use_columns();
    use_keys();
    restore_window();
    restore_window_of_3();
    split();
    split_in_a_text();
}

/* A story that runs 12,001,201 instructions, and then ends. */
static void run_long(void) {
    /* store global 16, 0; inc_chk global 16, 30000, and again up to that; inc_chk global 17, 399, and all again up to
     * that; quit */
    const uint8_t code[] = {0x0d, 0x10, 0x00, 0xc5, 0x4f, 0x10, 0x75, 0x30, 0x3f, 0xfb,
                            0xc5, 0x4f, 0x11, 0x01, 0x8f, 0x3f, 0xf1, 0xba};
    zkit_options options = defaults();
    options.steps = 1000000000;
    run_with("twelve million instructions", code, sizeof code, &options);
    options.steps = 12001200;
    run_with("one more than the limit", code, sizeof code, &options);
    options.steps = 12001201;
    run_with("as many as the limit", code, sizeof code, &options);
    zkit *game = opened_code(code, sizeof code, &options);
    say("all but one in a slice", zkit_turn_for(game, 12001200));
    say("the last one", zkit_turn_for(game, 1));
    zkit_close(game);
}

/* A story that reads a character and has its transcript on. */
static void type_character(void) {
    /* output_stream 2; read_char 1 -> global 16; print_char global 16; output_stream -2; quit */
    const uint8_t code[] = {0xf3, 0x7f, 0x02, 0xf6, 0x7f, 0x01, 0x10, 0xe5, 0xbf, 0x10, 0xf3, 0x3f, 0xff, 0xfe, 0xba};
    uint8_t buffer[16];
    puts("a character, and the transcript");
    zkit *game = opened_code(code, sizeof code, NULL);
    say("turn", zkit_turn(game));
    say("line", zkit_line(game, buffer, 0));
    say("the longest line", zkit_longest_line(game));
    say("character", zkit_character(game, 0xe4));
    say("turn", zkit_turn(game));
    size_t count = zkit_transcript(game, buffer, sizeof buffer);
    printf("  transcript: %.*s\n", (int)count, (const char *)buffer);
    say("more of it", zkit_transcript(game, buffer, sizeof buffer));
    tell(game);
    zkit_close(game);
}

/* A character that stories have none for is a question mark, though its last byte is a letter's. */
static void type_another_character(void) {
    /* read_char 1 -> global 16; print_char global 16; quit */
    const uint8_t code[] = {0xf6, 0x7f, 0x01, 0x10, 0xe5, 0xbf, 0x10, 0xba};
    puts("a character that the story has not");
    zkit *game = opened_code(code, sizeof code, NULL);
    say("turn", zkit_turn(game));
    say("character", zkit_character(game, 0x6161));
    say("turn", zkit_turn(game));
    show(game);
    zkit_close(game);
}

/* A story whose fault lies above 64 KB: call_1n 10000; there a routine with an opcode that there is not. */
static void fault_high(void) {
    static uint8_t story[0x10000 + SMALL];
    const uint8_t code[] = {0x8f, 0x40, 0x00};
    make_story(story, code, sizeof code);
    memcpy(story + 0x10000, (uint8_t[]){0x00, 0x00, 0x01, 0x02, 0x00}, 5);
    puts("a fault in high memory");
    zkit *game = opened(story, sizeof story, NULL);
    say("turn", zkit_turn(game));
    tell(game);
    zkit_close(game);
}

/* A story that goes round for ever, in slices: the limit counts the instructions of all. */
static void run_slices(void) {
    const uint8_t code[] = {0x8c, 0xff, 0xff}; /* jump to itself */
    zkit_options options = defaults();
    options.steps = 250;
    puts("slices");
    zkit *game = opened_code(code, sizeof code, &options);
    say("none", zkit_turn_for(game, 0));
    say("100", zkit_turn_for(game, 100));
    say("100", zkit_turn_for(game, 100));
    say("100", zkit_turn_for(game, 100));
    tell(game);
    zkit_close(game);
}

/* A story that prints for ever, with room for ten bytes. */
static void fill_room(void) {
    const uint8_t code[] = {0xe5, 0x7f, 0x61, 0x8c, 0xff, 0xfc}; /* print_char 'a'; jump back to it */
    zkit_options options = defaults();
    uint8_t buffer[100];
    options.room = 10;
    puts("room for text");
    zkit *game = opened_code(code, sizeof code, &options);
    say("turn", zkit_turn(game));
    say("status", zkit_status(game));
    say("another turn", zkit_turn(game));
    say("text", zkit_text(game, buffer, sizeof buffer));
    say("turn", zkit_turn(game));
    say("text", zkit_text(game, buffer, 4));
    say("turn", zkit_turn(game));
    say("text", zkit_text(game, buffer, sizeof buffer));
    zkit_close(game);
}

static void show_window(zkit *game) {
    zkit_window window = {.size = sizeof window};
    uint8_t row[240];
    zkit_window_of(game, &window);
    say("height", window.height);
    say("tallest", window.tallest);
    say("selected", window.selected);
    printf("  cursor: %u, %u\n", (unsigned)window.row, (unsigned)window.column);
    show_row("first row", zkit_row(game, 1, row, sizeof row), row);
    show_row("first row of the tallest", zkit_tallest_row(game, 1, row, sizeof row), row);
    show_row("its first bytes", zkit_tallest_row(game, 1, row, 3), row);
    show_row("its third row", zkit_tallest_row(game, 3, row, sizeof row), row);
}

/* A box that is drawn over the text: the story takes its rows away again before it reads. */
static void draw_box(void) {
    /* split_window 2; set_window 1; set_cursor 1 3; print_char 'a'; print_char 'b'; set_window 0; split_window 0;
     * read_char 1 -> global 16; read_char 1 -> global 16; quit */
    const uint8_t code[] = {0xea, 0x7f, 0x02, 0xeb, 0x7f, 0x01, 0xef, 0x5f, 0x01, 0x03, 0xe5, 0x7f, 0x61, 0xe5, 0x7f,
                            0x62, 0xeb, 0x7f, 0x00, 0xea, 0x7f, 0x00, 0xf6, 0x7f, 0x01, 0x10, 0xf6, 0x7f, 0x01, 0x10,
                            0xba};
    zkit_figures figures = {.size = sizeof figures, .kind = 9, .first = 9, .second = 9};
    puts("a box over the text");
    zkit *game = opened_code(code, sizeof code, NULL);
    say("turn", zkit_turn(game));
    show_window(game);
    zkit_status_line(game, &figures);
    say("a status line", figures.kind);
    say("character", zkit_character(game, 'x'));
    say("turn", zkit_turn(game));
    show_window(game);
    zkit_close(game);
}

/* A window of which no two figures are the same: the story is still writing in it. */
static void tell_window(void) {
    /* split_window 4; set_window 1; set_cursor 3 7; print_char 'c'; read_char 1 -> global 16; quit */
    const uint8_t code[] = {0xea, 0x7f, 0x04, 0xeb, 0x7f, 0x01, 0xef, 0x5f, 0x03, 0x07,
                            0xe5, 0x7f, 0x63, 0xf6, 0x7f, 0x01, 0x10, 0xba};
    uint8_t row[240];
    puts("a window");
    zkit *game = opened_code(code, sizeof code, NULL);
    say("turn", zkit_turn(game));
    show_window(game);
    show_row("its third row now", zkit_row(game, 3, row, sizeof row), row);
    say("a row below it", zkit_row(game, 5, row, sizeof row));
    zkit_close(game);
}

/* Writes the styles of a row's cells, as many as there are and one more. */
static void show_cells(const char *name, size_t count, const uint8_t *styles) {
    printf("  %s: %u of", name, (unsigned)count);
    for (size_t i = 0; i <= count; i++)
        printf(" %u", styles[i]);
    putchar('\n');
}

/* The styles of the cells of each row, and of one that there is not. */
static void show_styles(const char *what, zkit *game,
                        size_t (*styles_of)(const zkit *, uint32_t, uint8_t *, size_t)) {
    const uint32_t rows[] = {1, 2, 3, 4, 0, 257};
    puts(what);
    for (size_t i = 0; i < sizeof rows / sizeof rows[0]; i++) {
        uint8_t styles[255];
        char name[20];
        memset(styles, 99, sizeof styles);
        snprintf(name, sizeof name, "row %u", (unsigned)rows[i]);
        size_t count = styles_of(game, rows[i], styles, sizeof styles - 1);
        show_cells(name, count, styles);
    }
    uint8_t few[] = {99, 99, 99, 99, 99};
    size_t count = styles_of(game, 1, few, 4);
    show_cells("its first cells", count, few);
    say("without a buffer", styles_of(game, 1, NULL, 0));
}

/* The styles of the upper window's cells: letters of several styles, a row of spaces, and one of spaces in reverse. */
static void tell_cells(void) {
    /* split_window 3; set_window 1; set_text_style 1; print_char 'a'; print_char ' '; set_text_style 0; set_cursor 1 4;
     * set_text_style 2; print_char 'b'; set_text_style 4; print_char 'c'; set_text_style 0; set_text_style 8;
     * print_char 'd'; set_text_style 0; print_char 'e'; set_cursor 2 1; print_char ' '; set_cursor 3 2;
     * set_text_style 1; print_char ' '; set_text_style 0; set_window 0; read_char 1 -> global 16; split_window 0;
     * read_char 1 -> global 16; quit */
    const uint8_t code[] = {0xea, 0x7f, 0x03, 0xeb, 0x7f, 0x01, 0xf1, 0x7f, 0x01, 0xe5, 0x7f, 0x61, 0xe5, 0x7f, 0x20,
                            0xf1, 0x7f, 0x00, 0xef, 0x5f, 0x01, 0x04, 0xf1, 0x7f, 0x02, 0xe5, 0x7f, 0x62, 0xf1, 0x7f,
                            0x04, 0xe5, 0x7f, 0x63, 0xf1, 0x7f, 0x00, 0xf1, 0x7f, 0x08, 0xe5, 0x7f, 0x64, 0xf1, 0x7f,
                            0x00, 0xe5, 0x7f, 0x65, 0xef, 0x5f, 0x02, 0x01, 0xe5, 0x7f, 0x20, 0xef, 0x5f, 0x03, 0x02,
                            0xf1, 0x7f, 0x01, 0xe5, 0x7f, 0x20, 0xf1, 0x7f, 0x00, 0xeb, 0x7f, 0x00, 0xf6, 0x7f, 0x01,
                            0x10, 0xea, 0x7f, 0x00, 0xf6, 0x7f, 0x01, 0x10, 0xba};
    uint8_t row[1020];
    puts("cells with styles");
    zkit *game = opened_code(code, sizeof code, NULL);
    say("turn", zkit_turn(game));
    show_row("the first row", zkit_row(game, 1, row, sizeof row), row);
    say("bytes of the third row", zkit_row(game, 3, row, sizeof row));
    show_styles("the styles of its rows", game, zkit_row_styles);
    show_styles("the styles of the tallest grid's rows", game, zkit_tallest_row_styles);
    say("character", zkit_character(game, 'x'));
    say("turn", zkit_turn(game));
    show_styles("the styles of its rows where there are none", game, zkit_row_styles);
    show_styles("the styles of the rows that were taken away", game, zkit_tallest_row_styles);
    zkit_close(game);
}

/* A status line of a story of version 3 whose place is "ab": its score and turns, or its hours and minutes. */
static void tell_figures(const char *what, uint8_t flags, uint16_t first, uint16_t second) {
    /* sread 00200 00300; quit */
    const uint8_t code[] = {0xe4, 0x0f, 0x02, 0x00, 0x03, 0x00, 0xba};
    const uint8_t globals[] = {0, 1, (uint8_t)(first >> 8), (uint8_t)first, (uint8_t)(second >> 8), (uint8_t)second};
    zkit_figures figures = {.size = sizeof figures};
    uint8_t story[SMALL], name[240];
    make_story(story, code, sizeof code);
    story[0] = 3;
    story[1] = flags;
    story[0x200] = 20;
    story[0x300] = 5;
    memcpy(story + 0x13e + 7, (uint8_t[]){0x01, 0x80}, 2); /* the properties of the first object: 00180 */
    memcpy(story + 0x180, (uint8_t[]){0x01, 0x98, 0xe5}, 3);
    memcpy(story + 0x400, globals, sizeof globals);
    zkit *game = opened(story, sizeof story, NULL);
    puts(what);
    say("turn", zkit_turn(game));
    zkit_status_line(game, &figures);
    say("kind", figures.kind);
    printf("  figures: %d, %d\n", (int)figures.first, (int)figures.second);
    show_row("name", zkit_status_name(game, name, sizeof name), name);
    zkit_close(game);
}

/* The status line of a story of version 3, in its parts. */
static void show_status_line(const uint8_t *story, size_t length) {
    zkit_figures figures = {.size = sizeof figures, .kind = 9, .first = 9, .second = 9};
    uint8_t name[240];
    puts("a status line");
    zkit *game = opened(story, length, NULL);
    say("turn", zkit_turn(game));
    zkit_status_line(game, &figures);
    say("kind", figures.kind);
    printf("  figures: %d, %d\n", (int)figures.first, (int)figures.second);
    show_row("name", zkit_status_name(game, name, sizeof name), name);
    show_row("its first bytes", zkit_status_name(game, name, 3), name);
    zkit_close(game);
}

/* A program goes back to a state that the story has kept. */
static void undo(void) {
    /* save_undo -> global 16; print_num global 16; read_char 1 -> global 17; quit */
    const uint8_t code[] = {0xbe, 0x09, 0xff, 0x10, 0xe6, 0xbf, 0x10, 0xf6, 0x7f, 0x01, 0x11, 0xba};
    puts("undo");
    zkit *game = opened_code(code, sizeof code, NULL);
    say("turn", zkit_turn(game));
    show(game);
    say("undo", zkit_undo(game));
    say("turn", zkit_turn(game));
    show(game);
    say("undo once more", zkit_undo(game));
    zkit_close(game);
}

/* Says whether a game that goes on from a snapshot has a state to go back to. */
static void undo_from(const char *what, zkit *game, const uint8_t *story, size_t undo_bytes) {
    static uint8_t kept[SMALL * 16];
    size_t size = 0;
    puts(what);
    say("kept", zkit_snapshot_with_undo(game, undo_bytes, kept, sizeof kept, &size));
    say("within the longest", size <= zkit_longest_snapshot(game, undo_bytes));
    zkit *other = zkit_open_snapshot(story, SMALL, kept, size, NULL, NULL);
    say("undo", zkit_undo(other));
    say("turn", zkit_turn(other));
    show(other);
    zkit_close(other);
}

/* The shorter call for a snapshot has no states. */
static void undo_from_plain(zkit *game, const uint8_t *story) {
    static uint8_t kept[SMALL * 16];
    size_t size = 0;
    puts("a snapshot without states");
    say("kept", zkit_snapshot(game, kept, sizeof kept, &size));
    zkit *other = zkit_open_snapshot(story, SMALL, kept, size, NULL, NULL);
    say("undo", zkit_undo(other));
    zkit_close(other);
}

/* States to go back to are in a snapshot as far as they fit. */
static void undo_from_snapshots(void) {
    /* save_undo -> global 16; print_num global 16; read_char 1 -> global 17; quit */
    const uint8_t code[] = {0xbe, 0x09, 0xff, 0x10, 0xe6, 0xbf, 0x10, 0xf6, 0x7f, 0x01, 0x11, 0xba};
    uint8_t story[SMALL];
    make_story(story, code, sizeof code);
    zkit *game = opened(story, sizeof story, NULL);
    zkit_turn(game);
    show(game);
    undo_from("a snapshot with a state", game, story, SIZE_MAX);
    undo_from("a snapshot without room for it", game, story, 19);
    undo_from_plain(game, story);
    /* 260,513 and dynamic memory, 10 for each frame, 2 for each word */
    say("the longest", zkit_longest_snapshot(game, 0) - 260513 - 0x800);
    say("the same of the limits", 10 * ZKIT_FRAMES + 2 * ZKIT_WORDS);
    say("with 19 bytes of states", zkit_longest_snapshot(game, 19) - zkit_longest_snapshot(game, 0));
    say("with all that there may be", zkit_longest_snapshot(game, SIZE_MAX) == SIZE_MAX);
    zkit_close(game);
}

/* Says why a snapshot is refused, or that it is opened, where its limits may be these at most. */
static void open_within(const char *what, const uint8_t *story, size_t length, const uint8_t *kept, size_t size,
                        zkit_options options) {
    uint32_t reason = 99;
    zkit_close(zkit_open_snapshot(story, length, kept, size, &options, &reason));
    say(what, reason);
}

/* The limits of zkit_defaults, but for one. */
static zkit_options within(uint32_t frames, uint32_t words, uint32_t undo, uint32_t steps) {
    zkit_options options = defaults();
    options.frames = frames;
    options.words = words;
    options.undo = undo;
    options.steps = steps;
    return options;
}

/* A game with the greatest limits is opened again by its snapshot where nothing is said of them, and only there. */
static void open_greatest(const uint8_t *story, size_t length) {
    static uint8_t kept[SMALL * 16];
    zkit_options greatest = within(65535, 65535, 64, 1000000000), usual = defaults();
    size_t size = 0;
    puts("a snapshot with the greatest limits");
    zkit *game = opened(story, length, &greatest);
    say("turn", zkit_turn(game));
    say("kept", zkit_snapshot(game, kept, sizeof kept, &size));
    zkit_close(game);
    uint32_t reason = 99;
    zkit_close(zkit_open_snapshot(story, length, kept, size, NULL, &reason));
    say("opened without options", reason);
    zkit_shared *shared = zkit_story_open(story, length, NULL);
    zkit_close(zkit_story_resume(shared, kept, size, NULL, &reason));
    say("opened of an open story without options", reason);
    zkit_story_close(shared);
    open_within("opened within the greatest limits", story, length, kept, size, greatest);
    open_within("opened within the usual ones", story, length, kept, size, usual);
}

/* A game that goes on from a snapshot has the room that the options say. */
static void fill_room_from_snapshot(void) {
    /* read_char 1 -> global 16; print_char 'a'; jump back to it */
    const uint8_t code[] = {0xf6, 0x7f, 0x01, 0x10, 0xe5, 0x7f, 0x61, 0x8c, 0xff, 0xfc};
    static uint8_t kept[SMALL * 16];
    uint8_t story[SMALL], text[100];
    zkit_options options = defaults();
    size_t size = 0;
    make_story(story, code, sizeof code);
    zkit *game = opened(story, sizeof story, NULL);
    puts("room for the text of a game that goes on");
    say("turn", zkit_turn(game));
    say("kept", zkit_snapshot(game, kept, sizeof kept, &size));
    zkit_close(game);
    options.room = 10;
    zkit *other = zkit_open_snapshot(story, sizeof story, kept, size, &options, NULL);
    say("character", zkit_character(other, 'x'));
    say("turn", zkit_turn(other));
    say("text", zkit_text(other, text, sizeof text));
    zkit_close(other);
}

/* Says why a snapshot is refused, or that it is opened and awaits a line. */
static void open_snapshot(const char *what, const uint8_t *story, size_t length, const uint8_t *kept, size_t size) {
    uint32_t reason = 99;
    zkit *game = zkit_open_snapshot(story, length, kept, size, NULL, &reason);
    say(what, reason);
    if (game)
        say("turn", zkit_turn(game));
    zkit_close(game);
}

/* Snapshots that are taken, opened and refused. */
static void keep_snapshots(const uint8_t *story, size_t length, const uint8_t *other, size_t other_length) {
    static uint8_t kept[SMALL * 16];
    size_t size = 0;
    puts("snapshots");
    zkit *game = opened(story, length, NULL);
    say("before a turn", zkit_snapshot(game, kept, sizeof kept, &size));
    say("turn", zkit_turn(game));
    say("without a buffer", zkit_snapshot(game, NULL, 0, &size));
    say("one byte too short", zkit_snapshot(game, kept, size - 1, &size));
    say("its first byte then", kept[0]);
    say("just long enough", zkit_snapshot(game, kept, size, &size));
    zkit_close(game);
    open_snapshot("opened", story, length, kept, size);
    open_within("opened within its limits", story, length, kept, size, defaults());
    open_within("a frame fewer", story, length, kept, size, within(ZKIT_FRAMES - 1, ZKIT_WORDS, ZKIT_UNDO, ZKIT_STEPS));
    open_within("a word fewer", story, length, kept, size, within(ZKIT_FRAMES, ZKIT_WORDS - 1, ZKIT_UNDO, ZKIT_STEPS));
    open_within("a state fewer", story, length, kept, size, within(ZKIT_FRAMES, ZKIT_WORDS, ZKIT_UNDO - 1, ZKIT_STEPS));
    open_within("a step fewer", story, length, kept, size, within(ZKIT_FRAMES, ZKIT_WORDS, ZKIT_UNDO, ZKIT_STEPS - 1));
    open_within("too many states, and no snapshot", story, length, story, length, within(1, 0, 65, 1));
    open_within("a frame fewer, and no snapshot", story, length, story, length,
                within(ZKIT_FRAMES - 1, ZKIT_WORDS, ZKIT_UNDO, ZKIT_STEPS));
    open_snapshot("of another story", other, other_length, kept, size);
    open_snapshot("one byte less", story, length, kept, size - 1);
    open_snapshot("no bytes", story, length, NULL, 0);
    kept[size / 2] ^= 1;
    open_snapshot("another byte in it", story, length, kept, size);
    kept[4]++;
    open_snapshot("another version", story, length, kept, size);
    kept[0]++;
    open_snapshot("another name", story, length, kept, size);
}

/* What is to be known of a story. */
static void tell_story(const uint8_t *story, size_t length) {
    zkit_story facts = {.size = sizeof facts};
    uint8_t buffer[40];
    puts("about a story");
    zkit *game = opened(story, length, NULL);
    zkit_story_of(game, &facts);
    say("version", facts.version);
    say("release", facts.release);
    say("checksum", facts.checksum);
    printf("  serial: %s\n", (const char *)facts.serial);
    say("a listing", zkit_list(game, ZKIT_LIST_IFID));
    say("its first bytes", zkit_listing(game, buffer, 3));
    say("another one", zkit_list(game, ZKIT_LIST_IFID));
    size_t count = zkit_listing(game, buffer, sizeof buffer);
    printf("  it is: %.*s", (int)count, (const char *)buffer);
    say("more of it", zkit_listing(game, buffer, sizeof buffer));
    say("turn", zkit_turn(game));
    zkit_close(game);
}

/* Listings that are refused, after one that is not: nothing is left of it. */
static void refuse_listings(const uint8_t *story, size_t length) {
    uint8_t buffer[40];
    puts("listings that are refused");
    zkit *game = opened(story, length, NULL);
    say("a listing", zkit_list(game, ZKIT_LIST_IFID));
    say("one that there is not", zkit_list(game, ZKIT_LIST_EXTENSION + 1));
    say("its first bytes", zkit_listing(game, buffer, sizeof buffer));
    say("of 20 bytes", zkit_list_within(game, ZKIT_LIST_IFID, 20));
    say("its bytes", zkit_listing(game, buffer, sizeof buffer));
    say("of 19 bytes", zkit_list_within(game, ZKIT_LIST_IFID, 19));
    say("its first bytes", zkit_listing(game, buffer, sizeof buffer));
    say("a listing", zkit_list(game, ZKIT_LIST_IFID));
    say("of no bytes", zkit_list_within(game, ZKIT_LIST_CODE, 0));
    say("its first bytes", zkit_listing(game, buffer, sizeof buffer));
    say("of any number of bytes", zkit_list_within(game, ZKIT_LIST_IFID, SIZE_MAX));
    say("its first bytes", zkit_listing(game, buffer, 3));
    zkit_close(game);
}

/* Makes a listing in parts, and tells whether they are the listing, and how many parts there were. */
static void list_in_parts(zkit *game, uint32_t listing, uint32_t steps) {
    static uint8_t whole[20000], parts[20000];
    size_t count = 0;
    uint32_t listed, calls = 0;
    zkit_list(game, listing);
    size_t length = zkit_listing(game, whole, sizeof whole);
    do {
        listed = zkit_list_for(game, listing, steps);
        size_t more = zkit_listing(game, parts + count, sizeof parts - count);
        if (calls == 0)
            say("the first part", more);
        count += more;
        calls++;
    } while (listed == ZKIT_LISTING_GOES_ON);
    say("the last part", listed);
    say("the parts are the listing", count == length && memcmp(whole, parts, length) == 0);
    say("there are many", calls > 3);
}

/* Listings in parts, of one line each and of all of them; one that ends another; and those that are refused. */
static void list_parts(const uint8_t *story, size_t length) {
    uint8_t buffer[40];
    puts("listings in parts");
    zkit *game = opened(story, length, NULL);
    list_in_parts(game, ZKIT_LIST_HEADER, 0);
    list_in_parts(game, ZKIT_LIST_OBJECTS, 1000);
    list_in_parts(game, ZKIT_LIST_HEADER, UINT32_MAX);
    say("one is begun", zkit_list_for(game, ZKIT_LIST_IFID, 1));
    say("and another", zkit_list_for(game, ZKIT_LIST_MAP, 1));
    say("the first one is begun again", zkit_list_for(game, ZKIT_LIST_IFID, 1));
    say("its first bytes", zkit_listing(game, buffer, sizeof buffer));
    say("it goes on", zkit_list_for(game, ZKIT_LIST_IFID, 1));
    say("its bytes", zkit_listing(game, buffer, sizeof buffer));
    say("one is begun", zkit_list_for(game, ZKIT_LIST_IFID, 1));
    say("a whole one ends it", zkit_list(game, ZKIT_LIST_IFID));
    say("it is begun again", zkit_list_for(game, ZKIT_LIST_IFID, 1));
    say("its first bytes", zkit_listing(game, buffer, sizeof buffer));
    say("one that there is not", zkit_list_for(game, ZKIT_LIST_EXTENSION + 1, 1));
    say("it is begun again", zkit_list_for(game, ZKIT_LIST_IFID, 1));
    zkit_close(game);
}

/* Puts the same word so many times, as a text with its end. */
static void put_text(uint8_t *at, uint16_t word, size_t count) {
    for (size_t i = 0; i < count; i++, at += 2) {
        at[0] = (uint8_t)(word >> 8 | (i + 1 == count ? 0x80 : 0));
        at[1] = (uint8_t)word;
    }
}

/* An instruction prints 500 times an abbreviation of 360 letters: less memory is taken where less may be listed. */
static void bound_listing(void) {
    uint8_t story[SMALL], code[1002] = {[0] = 0xb2, [1001] = 0xba}; /* print; quit */
    put_text(code + 1, 0x0405, 500);
    make_story(story, code, sizeof code);
    story[0x40] = 0x03; /* the first abbreviation: 00600 */
    put_text(story + 0x600, 0x18c6, 120);
    puts("a listing of a long text");
    zkit *game = opened(story, sizeof story, NULL);
    largest = 0;
    say("all of it", zkit_list(game, ZKIT_LIST_CODE));
    say("it takes more than 180000 bytes", largest > 180000);
    largest = 0;
    say("of 1000 bytes", zkit_list_within(game, ZKIT_LIST_CODE, 1000));
    say("its blocks are smaller", largest < 100000);
    zkit_close(game);
}

static int has_words(uint32_t status, uint32_t reason) {
    uint8_t words[100];
    return zkit_text_of_reason(status, reason, words, sizeof words) > 0;
}

/* Each fault and limit has words, and no other number of one. */
static void name_reasons(void) {
    uint8_t words[100];
    uint32_t faults = 0, limits = 0;
    puts("stops in words");
    for (uint32_t reason = 1; reason <= 18; reason++)
        faults += has_words(ZKIT_FAULT, reason);
    for (uint32_t reason = 1; reason <= 4; reason++)
        limits += has_words(ZKIT_LIMIT, reason);
    say("faults", faults);
    say("limits", limits);
    say("other ones", has_words(ZKIT_FAULT, 0) + has_words(ZKIT_FAULT, 19) + has_words(ZKIT_LIMIT, 0) +
                          has_words(ZKIT_LIMIT, 5) + has_words(ZKIT_RUNS, 0) + has_words(4, 0) + has_words(7, 0) +
                          has_words(99, 1));
    for (uint32_t status = ZKIT_QUIT; status <= ZKIT_TOO_MUCH_TEXT; status++)
        show_row("its words", zkit_text_of_reason(status, 1, words, sizeof words), words);
    show_row("first bytes", zkit_text_of_reason(ZKIT_FAULT, ZKIT_DIVISION_BY_ZERO, words, 8), words);
    say("without a buffer", zkit_text_of_reason(ZKIT_FAULT, ZKIT_DIVISION_BY_ZERO, NULL, 0));
}

/* Each reason why nothing is opened has words, and no other number. */
static void name_refusals(void) {
    uint8_t words[100];
    puts("why nothing is opened, in words");
    for (uint32_t reason = ZKIT_OPENED; reason <= ZKIT_DAMAGED + 1; reason++)
        show_row("its words", zkit_text_of_open(reason, words, sizeof words), words);
    show_row("first bytes", zkit_text_of_open(ZKIT_DAMAGED, words, 8), words);
    say("without a buffer", zkit_text_of_open(ZKIT_DAMAGED, NULL, 0));
}

/* Shows what a file is by its first bytes. */
static void tell_file(const char *first_bytes, size_t length) {
    uint8_t words[100];
    show_row("its words", zkit_text_of_file((const uint8_t *)first_bytes, length, words, sizeof words), words);
}

static void tell_files(void) {
    uint8_t words[100];
    puts("what a file is that is no story");
    tell_file("FORM\0\0\0\4IFRS", 12);
    tell_file("Glul\0\3\1\3", 8);
    tell_file("\x1f\x8b\x08", 3);
    tell_file("PK\3\4", 4);
    tell_file("It was a dark and stormy night.", 31);
    tell_file("\5\0\0", 3);
    tell_file(NULL, 0);
    show_row("first bytes", zkit_text_of_file((const uint8_t *)"text", 4, words, 8), words);
    say("without a buffer", zkit_text_of_file((const uint8_t *)"text", 4, NULL, 0));
}

/* Takes the story out of a file of so many bytes, into a buffer of so many. */
static void take_story(const char *what, const uint8_t *file, size_t length, size_t room) {
    uint8_t buffer[8] = "........";
    size_t needed = 99;
    say(what, zkit_story_in(file, length, buffer, room, &needed));
    say("needed", needed);
    show_row("the buffer", sizeof buffer, buffer);
}

/* A Blorb file with a story of three bytes behind its index. */
static void take_stories(void) {
    const char letters[] = "FORM\0\0\0\50IFRSRIdx\0\0\0\20\0\0\0\1Exec\0\0\0\0\0\0\0\44ZCOD\0\0\0\3abc\0";
    uint8_t file[sizeof letters - 1];
    memcpy(file, letters, sizeof file);
    puts("the story in a Blorb file");
    take_story("taken", file, sizeof file, 8);
    take_story("as long as the buffer", file, sizeof file, 3);
    take_story("longer than the buffer", file, sizeof file, 2);
    take_story("cut off", file, sizeof file - 2, 8);
    file[39] = 'E';
    take_story("for another machine", file, sizeof file, 8);
    file[0] = 'f';
    take_story("no Blorb file", file, sizeof file, 8);
    take_story("no bytes", NULL, 0, 8);
}

/* Reads a story, and says its length: 0 where it can't be read. */
static size_t read_story(const char *path, uint8_t *story) {
    FILE *input = fopen(path, "rb");
    size_t length = input ? fread(story, 1, LONGEST_STORY, input) : 0;
    if (input)
        fclose(input);
    return length;
}

int main(int count, char **words) {
    static uint8_t lighthouse[LONGEST_STORY], other[LONGEST_STORY];
    size_t size = 0, length = count == 3 ? read_story(words[1], lighthouse) : 0;
    if (length == 0)
        return 1;

    say("the library is of this header's version", zkit_version() == ZKIT_VERSION);
    /* print_char 'a'; an opcode that there is not */
    run("a fault", (const uint8_t[]){0xe5, 0x7f, 0x61, 0x00, 0x01, 0x02, 0x00}, 7, ZKIT_STEPS);
    /* jump to itself */
    run("a limit on steps", (const uint8_t[]){0x8c, 0xff, 0xff}, 3, 1000);
    /* print_char 'b'; quit */
    run("an end", (const uint8_t[]){0xe5, 0x7f, 0x62, 0xba}, 4, ZKIT_STEPS);
    uint8_t *file = save(lighthouse, length, &size);
    restore(lighthouse, length, file, size);
    free(file);
    refuse(lighthouse, length);
    refuse_stories();
    refuse_options(lighthouse, length);
    refuse_columns(lighthouse, length);
    tell_defaults();
    size_options(lighthouse, length);
    size_answers(lighthouse, length);
    use_options();
    run_long();
    type_character();
    type_another_character();
    fault_high();
    run_slices();
    fill_room();
    draw_box();
    tell_window();
    tell_cells();
    tell_figures("a score below 0", 0, 0xfffb, 300);
    tell_figures("a time", 2, 13, 5);
    show_status_line(other, read_story(words[2], other));
    undo();
    undo_from_snapshots();
    keep_snapshots(lighthouse, length, other, read_story(words[2], other));
    open_greatest(lighthouse, length);
    fill_room_from_snapshot();
    tell_story(lighthouse, length);
    refuse_listings(lighthouse, length);
    list_parts(lighthouse, length);
    bound_listing();
    name_reasons();
    name_refusals();
    tell_files();
    take_stories();
    say("blocks that are left of all", (size_t)blocks);
    return 0;
}
