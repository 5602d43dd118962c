/* zkit.c - the functions of zkit.h, each by the function of raw.h that is proved.
 * SPDX-License-Identifier: MIT OR Apache-2.0
 *
 * What is added here: a game is a block on the heap, options have their defaults, structs have their sizes, the room
 * for text, the options `keys` and `styles` and the number of instructions are kept beside the play, and a null pointer
 * with the length 0 becomes one that is not null. */
#include <stddef.h>
#include <stdint.h>

#include "raw.h"
#include "zkit.h"
#include "zkit_heap.h"

struct zkit {
    struct zk_handle play;
    uint32_t room;
    uint32_t keys;
    uint32_t styles;
    uint32_t coverage;
    uint64_t instructions;
};

/* An opened story: a play at its start, which is never played and lends its file. */
struct zkit_shared {
    struct zk_handle play;
    unsigned char is_used;
};

enum {
    GREATEST_FRAMES = 65535,
    GREATEST_WORDS = 65535,
    GREATEST_UNDO = 64,
    GREATEST_STEPS = 1000000000,
    GREATEST_ROOM = 2147483647
};

/* the ZSCII code of a new line */
enum { NEW_LINE = 13 };

/* The functions of raw.h get no null pointer: this is what they get in its place. */
static uint8_t nothing;
static uint16_t no_word;

static const uint8_t *bytes_at(const uint8_t *at) {
    return at ? at : &nothing;
}

static uint8_t *buffer_at(uint8_t *at) {
    return at ? at : &nothing;
}

static uint16_t *words_at(uint16_t *at) {
    return at ? at : &no_word;
}

/* The play of a game that is only looked at. The proved functions take a handle that they could change, but each one
 * that is given this leaves it, and all of the play that a call tells: a clause of its contract in crates/zk_c says so.
 * What changes is the name that zk_figures and zk_name_object collect for zk_status_name, and taken_name takes all of
 * it right after that. */
static struct zk_handle *play_of(const zkit *game) {
    return (struct zk_handle *)&game->play;
}

uint32_t zkit_version(void) {
    return ZKIT_VERSION;
}

/* ---- sizes and options */

/* Where a field of a struct ends. A struct whose size is less than the end of the first version's last field is left
 * alone. A field that comes later is read and set only where the size has all of it. */
#define END(type, field) (offsetof(type, field) + sizeof((type *)NULL)->field)

static const zkit_options default_options = {
    sizeof(zkit_options), 1, ZKIT_FRAMES, ZKIT_WORDS, ZKIT_UNDO, ZKIT_STEPS, ZKIT_ROOM, 0, 0, 0, ZKIT_COLUMNS, 0,
};

static int has_options(const zkit_options *options) {
    return options->size >= END(zkit_options, upper);
}

/* Sets the fields within a size to those of other options. */
static void set_options(zkit_options *options, const zkit_options *others, size_t size) {
    options->seed = others->seed;
    options->frames = others->frames;
    options->words = others->words;
    options->undo = others->undo;
    options->steps = others->steps;
    options->room = others->room;
    options->upper = others->upper;
    if (size >= END(zkit_options, styles))
        options->styles = others->styles;
    if (size >= END(zkit_options, keys))
        options->keys = others->keys;
    if (size >= END(zkit_options, columns))
        options->columns = others->columns;
    if (size >= END(zkit_options, coverage))
        options->coverage = others->coverage;
}

void zkit_defaults(zkit_options *options) {
    if (has_options(options))
        set_options(options, &default_options, options->size);
}

/* The options that a program gives, or the defaults where it gives none. Those of a size that is too small get no room,
 * and so they are refused. */
static zkit_options whole_options(const zkit_options *given) {
    zkit_options whole = default_options;
    if (given && has_options(given))
        set_options(&whole, given, given->size);
    else if (given)
        whole.room = 0;
    return whole;
}

/* ---- opening and closing */

static int has_room(const zkit_options *options) {
    return options->room > 0 && options->room <= GREATEST_ROOM;
}

/* The block of a game with a play, which keeps what the options ask for; null where there is no memory. */
static zkit *block_with(struct zk_handle *play, const zkit_options *options) {
    struct rattle_block block = rattle_alloc(sizeof(zkit), sizeof(void *));
    zkit *game = block.at;
    if (!block.is_there)
        return NULL;
    if (options->coverage && zk_keep_coverage(play) != ZKIT_DONE) {
        rattle_dealloc(game);
        return NULL;
    }
    if (options->styles)
        zk_keep_styles(play);
    game->play = *play;
    game->room = options->room;
    game->keys = options->keys;
    game->styles = options->styles;
    game->coverage = options->coverage;
    game->instructions = 0;
    return game;
}

/* A game with a play, or null where there is none: tells why, or that there is no memory for it. */
static zkit *game_with(struct zk_handle *play, uint32_t refused, const zkit_options *options, uint32_t *reason) {
    zkit *game = NULL;
    if (refused == ZKIT_OPENED && !(game = block_with(play, options))) {
        zk_close(play);
        refused = ZKIT_OPEN_NO_MEMORY;
    }
    if (reason)
        *reason = refused;
    return game;
}

zkit *zkit_open(const uint8_t *story, size_t length, const zkit_options *options, uint32_t *reason) {
    zkit_options whole = whole_options(options);
    struct zk_handle play = {NULL, 0};
    uint32_t refused = ZKIT_BAD_LIMIT;
    if (has_room(&whole))
        refused = zk_open(&play, bytes_at(story), length, whole.seed, whole.frames, whole.words, whole.undo,
                          whole.steps, whole.upper, whole.columns, whole.styles);
    return game_with(&play, refused, &whole, reason);
}

/* The options by which a snapshot is opened: without any its limits may be as great as limits can be. */
static zkit_options snapshot_options(const zkit_options *given) {
    zkit_options whole = whole_options(given);
    if (!given) {
        whole.frames = GREATEST_FRAMES;
        whole.words = GREATEST_WORDS;
        whole.undo = GREATEST_UNDO;
        whole.steps = GREATEST_STEPS;
    }
    return whole;
}

zkit *zkit_open_snapshot(const uint8_t *story, size_t length, const uint8_t *snapshot, size_t snapshot_length,
                         const zkit_options *options, uint32_t *reason) {
    zkit_options whole = snapshot_options(options);
    struct zk_handle play = {NULL, 0};
    uint32_t refused = ZKIT_BAD_LIMIT;
    if (has_room(&whole))
        refused = zk_open_snapshot(&play, bytes_at(story), length, bytes_at(snapshot), snapshot_length, whole.frames,
                                   whole.words, whole.undo, whole.steps);
    return game_with(&play, refused, &whole, reason);
}

void zkit_close(zkit *game) {
    if (!game)
        return;
    zk_close(&game->play);
    rattle_dealloc(game);
}

/* ---- games of one story */

/* The block of an opened story; null where there is no memory. */
static zkit_shared *shared_with(const struct zk_handle *play) {
    struct rattle_block block = rattle_alloc(sizeof(zkit_shared), sizeof(void *));
    zkit_shared *story = block.at;
    if (!block.is_there)
        return NULL;
    story->play = *play;
    story->is_used = 0;
    return story;
}

zkit_shared *zkit_story_open(const uint8_t *story, size_t length, uint32_t *reason) {
    struct zk_handle play = {NULL, 0};
    uint32_t refused = zk_open(&play, bytes_at(story), length, 0, 1, 0, 0, 1, 0, ZKIT_COLUMNS, 0);
    zkit_shared *shared = NULL;
    if (refused == ZKIT_OPENED && !(shared = shared_with(&play))) {
        zk_close(&play);
        refused = ZKIT_OPEN_NO_MEMORY;
    }
    if (reason)
        *reason = refused;
    return shared;
}

void zkit_story_close(zkit_shared *story) {
    if (!story)
        return;
    zk_close(&story->play);
    rattle_dealloc(story);
}

/* A thread that opens a game has the story's play for itself. Others wait, for as long as it takes to open a game. */
static struct zk_handle *begin_use(zkit_shared *story) {
    while (__atomic_test_and_set(&story->is_used, __ATOMIC_ACQUIRE))
        ;
    return &story->play;
}

static void end_use(zkit_shared *story) {
    __atomic_clear(&story->is_used, __ATOMIC_RELEASE);
}

zkit *zkit_story_game(zkit_shared *story, const zkit_options *options, uint32_t *reason) {
    zkit_options whole = whole_options(options);
    struct zk_handle play = {NULL, 0};
    uint32_t refused = ZKIT_BAD_LIMIT;
    if (has_room(&whole)) {
        refused = zk_open_beside(begin_use(story), &play, whole.seed, whole.frames, whole.words, whole.undo,
                                 whole.steps, whole.upper, whole.columns, whole.styles);
        end_use(story);
    }
    return game_with(&play, refused, &whole, reason);
}

zkit *zkit_story_resume(zkit_shared *story, const uint8_t *snapshot, size_t snapshot_length,
                        const zkit_options *options, uint32_t *reason) {
    zkit_options whole = snapshot_options(options);
    struct zk_handle play = {NULL, 0};
    uint32_t refused = ZKIT_BAD_LIMIT;
    if (has_room(&whole)) {
        refused = zk_open_snapshot_beside(begin_use(story), &play, bytes_at(snapshot), snapshot_length, whole.frames,
                                          whole.words, whole.undo, whole.steps);
        end_use(story);
    }
    return game_with(&play, refused, &whole, reason);
}

/* ---- turns and text */

static uint32_t steps_of(const zkit *game) {
    struct zk_place told = {0, 0, 0, 0, 0, 0};
    zk_place(play_of(game), &told);
    return told.steps;
}

uint32_t zkit_turn(zkit *game) {
    return zkit_turn_for(game, UINT32_MAX);
}

uint32_t zkit_turn_for(zkit *game, uint32_t steps) {
    uint32_t before = steps_of(game);
    uint32_t asked = zk_turn(&game->play, steps, game->room);
    game->instructions += steps_of(game) - before;
    return asked;
}

uint32_t zkit_step(zkit *game) {
    struct zk_place told = {0, 0, 0, 0, 0, 0};
    zk_place(play_of(game), &told);
    zkit_list_instruction(game, told.address);
    return zkit_turn_for(game, 1);
}

size_t zkit_text(zkit *game, uint8_t *buffer, size_t length) {
    return zk_text(&game->play, buffer_at(buffer), length);
}

size_t zkit_transcript(zkit *game, uint8_t *buffer, size_t length) {
    return zk_transcript(&game->play, buffer_at(buffer), length);
}

void zkit_next_run(zkit *game, zkit_run *run) {
    struct zk_run told = {0, 0, 0};
    if (run->size < END(zkit_run, before))
        return;
    zk_next_run(play_of(game), &told);
    run->length = told.length;
    run->style = told.style;
    run->before = told.before;
}

uint32_t zkit_status(const zkit *game) {
    return zk_status(play_of(game));
}

uint32_t zkit_reason(const zkit *game) {
    return zk_reason(play_of(game));
}

uint32_t zkit_address(const zkit *game) {
    return zk_address(play_of(game));
}

size_t zkit_text_of_reason(uint32_t status, uint32_t reason, uint8_t *buffer, size_t length) {
    return zk_text_of_reason(status, reason, buffer_at(buffer), length);
}

size_t zkit_text_of_open(uint32_t reason, uint8_t *buffer, size_t length) {
    return zk_text_of_open(reason, buffer_at(buffer), length);
}

size_t zkit_text_of_file(const uint8_t *file, size_t file_length, uint8_t *buffer, size_t length) {
    return zk_text_of_file(bytes_at(file), file_length, buffer_at(buffer), length);
}

uint32_t zkit_story_in(const uint8_t *file, size_t file_length, uint8_t *buffer, size_t length, size_t *needed) {
    return zk_story_in(bytes_at(file), file_length, buffer_at(buffer), length, needed);
}

/* ---- answers */

uint32_t zkit_longest_line(const zkit *game) {
    return zk_longest_line(play_of(game));
}

uint32_t zkit_line(zkit *game, const uint8_t *line, size_t length) {
    return zkit_line_ended(game, line, length, NEW_LINE);
}

uint32_t zkit_line_ended(zkit *game, const uint8_t *line, size_t length, uint32_t key) {
    return zk_line(&game->play, bytes_at(line), length, key);
}

uint32_t zkit_character(zkit *game, uint32_t character) {
    return zk_character(&game->play, character, game->keys);
}

uint32_t zkit_undo(zkit *game) {
    return zk_undo(&game->play);
}

uint32_t zkit_image(zkit *game, uint8_t *buffer, size_t length, size_t *needed) {
    return zk_image(&game->play, buffer_at(buffer), length, needed);
}

uint32_t zkit_saved(zkit *game, uint32_t kept) {
    return zk_saved(&game->play, kept);
}

uint32_t zkit_restore(zkit *game, const uint8_t *file, size_t length) {
    return zk_restore(&game->play, bytes_at(file), length);
}

uint32_t zkit_restore_none(zkit *game) {
    return zk_restore_none(&game->play);
}

uint32_t zkit_snapshot(zkit *game, uint8_t *buffer, size_t length, size_t *needed) {
    return zk_take_snapshot(&game->play, 0, buffer_at(buffer), length, needed);
}

uint32_t zkit_snapshot_with_undo(zkit *game, size_t undo_bytes, uint8_t *buffer, size_t length, size_t *needed) {
    return zk_take_snapshot(&game->play, undo_bytes, buffer_at(buffer), length, needed);
}

size_t zkit_longest_snapshot(const zkit *game, size_t undo_bytes) {
    return zk_longest_snapshot(play_of(game), undo_bytes);
}

/* ---- clones */

zkit *zkit_clone(const zkit *game, uint32_t *reason) {
    zkit_options options = default_options;
    struct zk_handle play = {NULL, 0};
    uint32_t refused = zk_clone(play_of(game), &play);
    zkit *clone = NULL;
    options.room = game->room;
    options.keys = game->keys;
    options.styles = game->styles;
    options.coverage = game->coverage;
    if (refused == ZKIT_DONE)
        clone = game_with(&play, ZKIT_OPENED, &options, NULL);
    if (reason)
        *reason = refused == ZKIT_DONE && !clone ? ZKIT_NO_MEMORY : refused;
    return clone;
}

uint32_t zkit_reseed(zkit *game, uint64_t seed) {
    return zk_reseed(&game->play, seed);
}

/* ---- looking into a game */

size_t zkit_coverage(const zkit *game, uint32_t address, uint8_t *buffer, size_t length) {
    return zk_coverage(play_of(game), address, buffer_at(buffer), length);
}

size_t zkit_waiting_text(const zkit *game) {
    return zk_waiting_text(play_of(game));
}

size_t zkit_waiting_transcript(const zkit *game) {
    return zk_waiting_transcript(play_of(game));
}

void zkit_place_of(const zkit *game, zkit_place *place) {
    struct zk_place told = {0, 0, 0, 0, 0, 0};
    if (place->size < END(zkit_place, instructions))
        return;
    zk_place(play_of(game), &told);
    place->address = told.address;
    place->routines = told.depth;
    place->words = told.words;
    place->states = told.states;
    place->steps = told.steps;
    place->reads = told.reads;
    place->instructions = game->instructions;
}

uint32_t zkit_routine_of(const zkit *game, uint32_t number, zkit_routine *routine) {
    struct zk_frame told = {0, 0, 0, 0, 0, 0};
    uint32_t refused = zk_frame(play_of(game), number, &told);
    if (refused != ZKIT_DONE || routine->size < END(zkit_routine, arguments))
        return refused;
    routine->address = told.routine;
    routine->call = told.call;
    routine->goes_on = told.goes_on;
    routine->locals = told.locals;
    routine->words = told.words;
    routine->arguments = told.supplied;
    return ZKIT_DONE;
}

size_t zkit_locals(const zkit *game, uint32_t number, uint16_t *buffer, size_t length) {
    return zk_locals(play_of(game), number, words_at(buffer), length);
}

size_t zkit_stack(const zkit *game, uint32_t number, uint16_t *buffer, size_t length) {
    return zk_stack(play_of(game), number, words_at(buffer), length);
}

size_t zkit_memory(const zkit *game, uint32_t address, uint8_t *buffer, size_t length) {
    return zk_memory(play_of(game), address, buffer_at(buffer), length);
}

uint64_t zkit_hash(const zkit *game, uint32_t address, uint32_t count) {
    return zk_hash(play_of(game), address, count);
}

uint32_t zkit_objects(const zkit *game) {
    return zk_objects(play_of(game));
}

/* how many bytes of attributes an object has (Standard, section 12.3) */
static size_t attribute_bytes(const zkit *game) {
    struct zk_facts facts = {0, 0, 0};
    zk_facts(play_of(game), &facts, &nothing, 0);
    return facts.version < 4 ? 4 : 6;
}

uint32_t zkit_object_of(const zkit *game, uint32_t object, zkit_object *figures) {
    struct zk_object told = {0, 0, 0, 0, 0};
    uint8_t attributes[sizeof figures->attributes] = {0};
    uint32_t refused = zk_object(play_of(game), object, &told);
    if (refused != ZKIT_DONE || figures->size < END(zkit_object, attributes))
        return refused;
    zk_memory(play_of(game), told.entry, attributes, attribute_bytes(game));
    figures->entry = told.entry;
    figures->parent = told.parent;
    figures->sibling = told.sibling;
    figures->child = told.child;
    figures->properties = told.properties;
    for (size_t i = 0; i < sizeof attributes; i++)
        figures->attributes[i] = attributes[i];
    return ZKIT_DONE;
}

uint32_t zkit_property_of(const zkit *game, uint32_t object, uint32_t number, zkit_property *property) {
    struct zk_property told = {0, 0, 0};
    uint32_t refused = zk_property(play_of(game), object, number, &told);
    if (refused != ZKIT_DONE || property->size < END(zkit_property, length))
        return refused;
    property->next = told.next;
    property->address = told.address;
    property->length = told.length;
    return ZKIT_DONE;
}

/* Takes the name that was collected, as much of it as fits. */
static size_t taken_name(const zkit *game, uint8_t *buffer, size_t length) {
    size_t count = 0, more;
    while ((more = zk_status_name(play_of(game), buffer_at(buffer) + count, length - count)) > 0)
        count += more;
    return count;
}

size_t zkit_object_name(const zkit *game, uint32_t object, uint8_t *buffer, size_t length) {
    zk_name_object(play_of(game), object);
    return taken_name(game, buffer, length);
}

/* ---- changing a game */

uint32_t zkit_set_word(zkit *game, uint32_t address, uint32_t value) {
    return zk_set_word(&game->play, address, value);
}

uint32_t zkit_move_object(zkit *game, uint32_t object, uint32_t parent) {
    return zk_move_object(&game->play, object, parent);
}

/* ---- the screen's upper part */

uint32_t zkit_split(zkit *game, uint32_t rows) {
    return zk_split(&game->play, rows);
}

void zkit_window_of(const zkit *game, zkit_window *window) {
    struct zk_window told = {0, 0, 0, 0, 0, 0};
    if (window->size < END(zkit_window, selected))
        return;
    zk_window(play_of(game), &told);
    window->height = told.height;
    window->tallest = told.tallest;
    window->row = told.row;
    window->column = told.column;
    window->selected = told.selected;
    if (window->size >= END(zkit_window, width))
        window->width = told.width;
}

size_t zkit_row(const zkit *game, uint32_t row, uint8_t *buffer, size_t length) {
    return zk_row(play_of(game), row, buffer_at(buffer), length);
}

size_t zkit_tallest_row(const zkit *game, uint32_t row, uint8_t *buffer, size_t length) {
    return zk_tallest_row(play_of(game), row, buffer_at(buffer), length);
}

size_t zkit_row_styles(const zkit *game, uint32_t row, uint8_t *buffer, size_t length) {
    return zk_row_styles(play_of(game), row, buffer_at(buffer), length);
}

size_t zkit_tallest_row_styles(const zkit *game, uint32_t row, uint8_t *buffer, size_t length) {
    return zk_tallest_row_styles(play_of(game), row, buffer_at(buffer), length);
}

void zkit_status_line(const zkit *game, zkit_figures *figures) {
    struct zk_figures told = {0, 0, 0};
    if (figures->size < END(zkit_figures, second))
        return;
    zk_figures(play_of(game), &told);
    figures->kind = told.kind;
    figures->first = told.first;
    figures->second = told.second;
}

size_t zkit_status_name(const zkit *game, uint8_t *buffer, size_t length) {
    struct zk_figures told = {0, 0, 0};
    zk_figures(play_of(game), &told);
    return taken_name(game, buffer, length);
}

/* ---- about a story */

void zkit_story_of(const zkit *game, zkit_story *story) {
    struct zk_facts facts = {0, 0, 0};
    uint8_t serial[sizeof story->serial] = {0};
    if (story->size < END(zkit_story, serial))
        return;
    zk_facts(play_of(game), &facts, serial, sizeof serial);
    story->version = facts.version;
    story->release = facts.release;
    story->checksum = facts.checksum;
    for (size_t i = 0; i < sizeof serial; i++)
        story->serial[i] = serial[i];
}

uint32_t zkit_list(zkit *game, uint32_t listing) {
    return zkit_list_within(game, listing, ZKIT_LISTING);
}

uint32_t zkit_list_within(zkit *game, uint32_t listing, size_t most) {
    return zk_list(&game->play, listing, most);
}

uint32_t zkit_list_for(zkit *game, uint32_t listing, uint32_t steps) {
    return zk_list_for(&game->play, listing, steps);
}

uint32_t zkit_list_instruction(zkit *game, uint32_t address) {
    return zk_list_instruction(&game->play, address, ZKIT_LISTING);
}

size_t zkit_listing(zkit *game, uint8_t *buffer, size_t length) {
    return zk_listing(&game->play, buffer_at(buffer), length);
}
