/* raw.h - the functions that are proved, as crates/zk_c exports them. zkit.c calls them; no program does.
 * SPDX-License-Identifier: MIT OR Apache-2.0
 *
 * No pointer is null, even if its length is 0. crates/zk_c says what each function does. */
#ifndef ZKIT_RAW_H
#define ZKIT_RAW_H

#include <stddef.h>
#include <stdint.h>

/* A play on the heap, or none: {0, 0}. */
struct zk_handle {
    void *at;
    unsigned char is_open;
};

uint32_t zk_open(struct zk_handle *game, const uint8_t *story, size_t length, uint64_t seed, uint32_t frames,
                 uint32_t words, uint32_t undo, uint32_t steps, uint32_t upper, uint32_t columns, uint32_t styles);
void zk_close(struct zk_handle *game);
/* steps: at most so many instructions; room: pauses where so many bytes of text wait */
uint32_t zk_turn(struct zk_handle *game, uint32_t steps, uint32_t room);
size_t zk_text(struct zk_handle *game, uint8_t *buffer, size_t length);
size_t zk_transcript(struct zk_handle *game, uint8_t *buffer, size_t length);
/* keeps the style of the screen's text from now on, if none waits */
void zk_keep_styles(struct zk_handle *game);
/* how the first bytes of the screen's text are shown, and what came before them */
struct zk_run {
    size_t length;
    uint32_t style;
    uint32_t before;
};
void zk_next_run(struct zk_handle *game, struct zk_run *run);
uint32_t zk_status(struct zk_handle *game);
uint32_t zk_reason(struct zk_handle *game);
uint32_t zk_address(struct zk_handle *game);
size_t zk_text_of_reason(uint32_t status, uint32_t reason, uint8_t *buffer, size_t length);
size_t zk_text_of_open(uint32_t reason, uint8_t *buffer, size_t length);
size_t zk_text_of_file(const uint8_t *file, size_t file_length, uint8_t *buffer, size_t length);
uint32_t zk_story_in(const uint8_t *file, size_t file_length, uint8_t *buffer, size_t length, size_t *needed);
uint32_t zk_longest_line(struct zk_handle *game);
/* key: the ZSCII code of the key that ended the line */
uint32_t zk_line(struct zk_handle *game, const uint8_t *line, size_t length, uint32_t key);
/* keys: whether 8, 27 and 129 to 154 are keys */
uint32_t zk_character(struct zk_handle *game, uint32_t character, uint32_t keys);
uint32_t zk_undo(struct zk_handle *game);
uint32_t zk_image(struct zk_handle *game, uint8_t *buffer, size_t length, size_t *needed);
uint32_t zk_saved(struct zk_handle *game, uint32_t kept);
uint32_t zk_restore(struct zk_handle *game, const uint8_t *file, size_t length);
uint32_t zk_restore_none(struct zk_handle *game);
uint32_t zk_take_snapshot(struct zk_handle *game, size_t undo_bytes, uint8_t *buffer, size_t length, size_t *needed);
size_t zk_longest_snapshot(struct zk_handle *game, size_t undo_bytes);
/* puts a second play that goes on from this one in place of that of another handle */
uint32_t zk_clone(struct zk_handle *game, struct zk_handle *clone);
uint32_t zk_reseed(struct zk_handle *game, uint64_t seed);
/* puts a second play of the story of this one in place of that of another handle: one at its start, or one that goes on
 * from a snapshot */
uint32_t zk_open_beside(struct zk_handle *game, struct zk_handle *other, uint64_t seed, uint32_t frames, uint32_t words,
                        uint32_t undo, uint32_t steps, uint32_t upper, uint32_t columns, uint32_t styles);
uint32_t zk_open_snapshot_beside(struct zk_handle *game, struct zk_handle *other, const uint8_t *snapshot,
                                 size_t length, uint32_t frames, uint32_t words, uint32_t undo, uint32_t steps);
/* frames, words, undo, steps: the most that the snapshot's limits may be */
uint32_t zk_open_snapshot(struct zk_handle *game, const uint8_t *story, size_t length, const uint8_t *snapshot,
                          size_t snapshot_length, uint32_t frames, uint32_t words, uint32_t undo, uint32_t steps);
/* how the upper window stands */
struct zk_window {
    uint32_t height;
    uint32_t tallest;
    uint32_t row;
    uint32_t column;
    uint32_t selected;
    uint32_t width;
};
void zk_window(struct zk_handle *game, struct zk_window *window);
uint32_t zk_split(struct zk_handle *game, uint32_t rows);
size_t zk_row(struct zk_handle *game, uint32_t row, uint8_t *buffer, size_t length);
size_t zk_tallest_row(struct zk_handle *game, uint32_t row, uint8_t *buffer, size_t length);
/* a style for each cell */
size_t zk_row_styles(struct zk_handle *game, uint32_t row, uint8_t *buffer, size_t length);
size_t zk_tallest_row_styles(struct zk_handle *game, uint32_t row, uint8_t *buffer, size_t length);
/* the figures of a status line */
struct zk_figures {
    uint32_t kind;
    int32_t first;
    int32_t second;
};
void zk_figures(struct zk_handle *game, struct zk_figures *figures);
size_t zk_status_name(struct zk_handle *game, uint8_t *buffer, size_t length);
/* notes from now on which instructions are carried out */
/* change dynamic memory as the story could, while it awaits a line or a character */
uint32_t zk_set_word(struct zk_handle *game, uint32_t address, uint32_t value);
uint32_t zk_move_object(struct zk_handle *game, uint32_t object, uint32_t parent);
uint32_t zk_keep_coverage(struct zk_handle *game);
size_t zk_coverage(struct zk_handle *game, uint32_t address, uint8_t *buffer, size_t length);
size_t zk_waiting_text(struct zk_handle *game);
size_t zk_waiting_transcript(struct zk_handle *game);
/* where the play stands */
struct zk_place {
    uint32_t address;
    uint32_t depth;
    uint32_t words;
    uint32_t states;
    uint32_t steps;
    uint32_t reads;
};
void zk_place(struct zk_handle *game, struct zk_place *place);
/* an open routine */
struct zk_frame {
    uint32_t routine;
    uint32_t call;
    uint32_t goes_on;
    uint32_t locals;
    uint32_t words;
    uint32_t supplied;
};
uint32_t zk_frame(struct zk_handle *game, uint32_t number, struct zk_frame *frame);
size_t zk_locals(struct zk_handle *game, uint32_t number, uint16_t *buffer, size_t length);
size_t zk_stack(struct zk_handle *game, uint32_t number, uint16_t *buffer, size_t length);
size_t zk_memory(struct zk_handle *game, uint32_t address, uint8_t *buffer, size_t length);
uint64_t zk_hash(struct zk_handle *game, uint32_t address, uint32_t count);
uint32_t zk_objects(struct zk_handle *game);
/* an object as it stands */
struct zk_object {
    uint32_t entry;
    uint32_t parent;
    uint32_t sibling;
    uint32_t child;
    uint32_t properties;
};
uint32_t zk_object(struct zk_handle *game, uint32_t object, struct zk_object *figures);
/* a property of an object */
struct zk_property {
    uint32_t next;
    uint32_t address;
    uint32_t length;
};
uint32_t zk_property(struct zk_handle *game, uint32_t object, uint32_t number, struct zk_property *figures);
/* collects the name of an object for zk_status_name */
void zk_name_object(struct zk_handle *game, uint32_t object);
/* version, release and checksum of a story; its serial number goes to a buffer */
struct zk_facts {
    uint32_t version;
    uint32_t release;
    uint32_t checksum;
};
size_t zk_facts(struct zk_handle *game, struct zk_facts *facts, uint8_t *buffer, size_t length);
/* most: of at most so many bytes */
uint32_t zk_list(struct zk_handle *game, uint32_t listing, size_t most);
/* steps: until so many are used up */
uint32_t zk_list_for(struct zk_handle *game, uint32_t listing, uint32_t steps);
/* the instruction at an address of memory as it is now */
uint32_t zk_list_instruction(struct zk_handle *game, uint32_t address, size_t most);
size_t zk_listing(struct zk_handle *game, uint8_t *buffer, size_t length);

#endif
