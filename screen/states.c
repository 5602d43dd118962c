#include "kept.h"
#include "play.h"

#include <errno.h>
#include <stdlib.h>
#include <string.h>
#include <unistd.h>

enum {
    UNDO_BYTES = 65536, /* so many bytes of the story's own undo states go with a snapshot */
    KEPT_LINES = 200,   /* so many lines of the text are kept for the next time */
    MOST_KEPT = 1 << 24,
    MOST_LINES_KEPT = 1 << 20 /* more than the lines of a history can take */
};

static void drop_state(struct state *state) {
    free(state->snapshot);
    memset(state, 0, sizeof *state);
}

/* ---- the file */

/* Where the last lines begin that the story has not erased. */
static place last_lines(const struct play *play) {
    place start = text_end(&play->text);
    size_t lines = 0;
    while (start > play->text.first && start > play->erased) {
        if (text_character(&play->text, start - 1) == L'\n' && lines++ == KEPT_LINES)
            break;
        start--;
    }
    return start;
}

/* Tells once that the play is not kept. */
static void tell_of_keeping(struct play *play) {
    if (!play->is_told_of_keeping)
        notice(play, "[This play is not kept: %s]", strerror(errno));
    play->is_told_of_keeping = true;
}

static void write_kept(struct play *play) {
    size_t length;
    uint8_t *bytes = kept_bytes(play->options.seed, &play->text, last_lines(play), play->now.snapshot, play->now.length,
                                &length);
    errno = ENOMEM;
    if (!bytes || !file_write(play->kept, bytes, length))
        tell_of_keeping(play);
    free(bytes);
}

static void tell_of_lines(struct play *play) {
    if (!play->is_told_of_lines)
        notice(play, "[Your lines are not kept: %s]", strerror(errno));
    play->is_told_of_lines = true;
}

void keep_line(struct play *play, const struct line *line) {
    size_t length;
    history_add(&play->lines, line);
    if (line->length == 0 || !play->kept_lines[0])
        return;
    errno = ENOMEM;
    uint8_t *bytes = kept_lines(&play->lines, &length);
    if (!bytes || !file_write_private(play->kept_lines, bytes, length))
        tell_of_lines(play);
    free(bytes);
}

void forget_kept(struct play *play) {
    if (play->kept[0])
        unlink(play->kept);
}

/* ---- states */

void keep_state(struct play *play) {
    size_t most = zkit_longest_snapshot(play->game, UNDO_BYTES), length;
    uint8_t *buffer = malloc(most);
    drop_state(&play->now);
    if (!buffer || zkit_snapshot_with_undo(play->game, UNDO_BYTES, buffer, most, &length) != ZKIT_DONE) {
        free(buffer);
        return;
    }
    uint8_t *smaller = realloc(buffer, length);
    play->now.snapshot = smaller ? smaller : buffer;
    play->now.length = length;
    play->now.end = text_end(&play->text);
    play->now.erased = play->erased;
    /* one that has only begun leaves what was kept before, in case the reader has begun it by mistake */
    if (play->kept[0] && play->is_answered)
        write_kept(play);
}

void note_answer(struct play *play, const struct line *answer) {
    play->is_answered = true;
    if (!play->now.snapshot)
        return;
    if (play->state_count == MOST_STATES) {
        drop_state(&play->states[0]);
        memmove(play->states, play->states + 1, --play->state_count * sizeof *play->states);
    }
    play->now.answer = *answer;
    play->states[play->state_count++] = play->now;
    memset(&play->now, 0, sizeof play->now);
}

/* Puts another game into the play's place. */
static void replace_game(struct play *play, zkit *game) {
    zkit_close(play->game);
    play->game = game;
    play->about.size = sizeof play->about;
    zkit_story_of(game, &play->about);
}

bool go_back(struct play *play) {
    if (play->state_count == 0)
        return false;
    struct state *state = &play->states[play->state_count - 1];
    zkit *game = zkit_open_snapshot(play->story, play->story_length, state->snapshot, state->length, &play->options,
                                    NULL);
    if (!game)
        return false;
    replace_game(play, game);
    text_cut(&play->text, state->end);
    play->erased = state->erased;
    play->seen = play->cursor = text_end(&play->text);
    play->is_paged = false;
    char words[4 * LONGEST_LINE + 1];
    bytes_of(state->answer.at, state->answer.length, words);
    notice(play, state->answer.length > 0 ? "[taken back: %.300s]" : "[taken back]", words);
    drop_state(state);
    play->state_count--;
    return true;
}

/* ---- opening and closing */

uint32_t open_new(struct play *play) {
    uint32_t reason;
    zkit *game = zkit_open(play->story, play->story_length, &play->options, &reason);
    if (game) {
        replace_game(play, game);
        text_cut(&play->text, play->text.first);
        play->seen = play->erased = play->cursor = text_end(&play->text);
    }
    return reason;
}

void find_kept(struct play *play) {
    size_t length;
    errno = ENOENT;
    if (!kept_path(play->kept, &play->about, play->story, play->story_length, ".play")) {
        play->kept[0] = 0;
        tell_of_keeping(play);
        return;
    }
    kept_path(play->kept_lines, &play->about, play->story, play->story_length, ".lines");
    uint8_t *bytes = file_read(play->kept_lines, MOST_LINES_KEPT, &length);
    if (bytes)
        kept_history(bytes, length, &play->lines);
    free(bytes);
}

bool open_kept(struct play *play) {
    struct kept kept;
    size_t length;
    uint32_t reason = ZKIT_NOT_A_SNAPSHOT;
    zkit *game = NULL;
    uint8_t *bytes = play->kept[0] ? file_read(play->kept, MOST_KEPT, &length) : NULL;
    if (!bytes)
        return false;
    if (kept_parts(bytes, length, &kept))
        game = zkit_open_snapshot(play->story, play->story_length, kept.snapshot, kept.snapshot_length, &play->options,
                                  &reason);
    if (game) {
        replace_game(play, game);
        kept_text(&kept, &play->text);
        play->options.seed = kept.seed;
        play->is_answered = true;
        play->seen = play->cursor = text_end(&play->text);
    } else {
        uint8_t words[100];
        size_t count = zkit_text_of_open(reason, words, sizeof words);
        notice(play, "[Your last play can't be opened: %.*s]", (int)count, (const char *)words);
    }
    free(bytes);
    return game != NULL;
}

void close_play(struct play *play) {
    zkit_close(play->game);
    drop_state(&play->now);
    while (play->state_count > 0)
        drop_state(&play->states[--play->state_count]);
    text_close(&play->text);
    if (play->transcript)
        fclose(play->transcript);
}
