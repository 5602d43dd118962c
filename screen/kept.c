#ifndef _XOPEN_SOURCE
#define _XOPEN_SOURCE 700
#endif
#include "kept.h"

#include <ctype.h>
#include <stdio.h>
#include <stdlib.h>
#include <string.h>

static const char mark[8] = "zkit.s1\n", lines_mark[8] = "zkit.l1\n";

enum { HEAD = 8 + 8 + 8, LINES_HEAD = 8 + 8 };

/* FNV-1a of 64 bits: it tells stories apart, and is no protection. */
static uint64_t sum_of(const uint8_t *bytes, size_t length) {
    uint64_t sum = 0xcbf29ce484222325;
    for (size_t i = 0; i < length; i++)
        sum = (sum ^ bytes[i]) * 0x100000001b3;
    return sum;
}

static bool state_folder(char folder[LONGEST_PATH]) {
    const char *state = getenv("XDG_STATE_HOME"), *home = getenv("HOME");
    int length = -1;
    if (state && state[0] == '/')
        length = snprintf(folder, LONGEST_PATH, "%s/zkit", state);
    else if (home && home[0] == '/')
        length = snprintf(folder, LONGEST_PATH, "%s/.local/state/zkit", home);
    return length > 0 && length < LONGEST_PATH && folder_make(folder);
}

bool kept_path(char path[LONGEST_PATH], const zkit_story *about, const uint8_t *story, size_t length,
               const char *ending) {
    char folder[LONGEST_PATH], name[80], serial[7] = "";
    for (int i = 0; i < 6; i++)
        serial[i] = isalnum(about->serial[i]) && about->serial[i] < 128 ? (char)about->serial[i] : '-';
    snprintf(name, sizeof name, "%u-%s-%04x-%016llx%s", (unsigned)about->release, serial, (unsigned)about->checksum,
             (unsigned long long)sum_of(story, length), ending);
    return state_folder(folder) && path_of(path, folder, name);
}

static void put_number(uint8_t *bytes, uint64_t number, int count) {
    for (int i = 0; i < count; i++)
        bytes[i] = (uint8_t)(number >> 8 * i);
}

static uint64_t number_at(const uint8_t *bytes, int count) {
    uint64_t number = 0;
    for (int i = count - 1; i >= 0; i--)
        number = number << 8 | bytes[i];
    return number;
}

uint8_t *kept_bytes(uint64_t seed, const struct text *text, place from, const uint8_t *snapshot, size_t snapshot_length,
                    size_t *length) {
    size_t characters = text_end(text) - from;
    *length = HEAD + 4 * characters + snapshot_length;
    uint8_t *bytes = malloc(*length);
    if (!bytes)
        return NULL;
    memcpy(bytes, mark, 8);
    put_number(bytes + 8, seed, 8);
    put_number(bytes + 16, characters, 8);
    for (size_t i = 0; i < characters; i++) {
        put_number(bytes + HEAD + 4 * i, (uint64_t)text_character(text, from + i), 3);
        bytes[HEAD + 4 * i + 3] = text_style(text, from + i);
    }
    memcpy(bytes + HEAD + 4 * characters, snapshot, snapshot_length);
    return bytes;
}

bool kept_parts(const uint8_t *bytes, size_t length, struct kept *kept) {
    if (length < HEAD || memcmp(bytes, mark, 8) != 0)
        return false;
    uint64_t characters = number_at(bytes + 16, 8);
    if (characters > (length - HEAD) / 4)
        return false;
    kept->seed = number_at(bytes + 8, 8);
    kept->text = bytes + HEAD;
    kept->text_length = (size_t)characters;
    kept->snapshot = bytes + HEAD + 4 * characters;
    kept->snapshot_length = length - HEAD - 4 * (size_t)characters;
    return true;
}

/* What is shown for a character of a file: itself, if it can be. */
static wchar_t shown_for(wchar_t character) {
    return character != 0 && wcwidth(character) >= 0 ? character : L'?';
}

void kept_text(const struct kept *kept, struct text *text) {
    for (size_t i = 0; i < kept->text_length; i++) {
        const uint8_t *it = kept->text + 4 * i;
        wchar_t character = (wchar_t)number_at(it, 3);
        text_add(text, character == L'\n' ? character : shown_for(character), it[3]);
    }
}

/* ---- lines, as UTF-8 behind a mark and their sum */

uint8_t *kept_lines(const struct history *lines, size_t *length) {
    uint8_t *bytes = malloc(LINES_HEAD + lines->count * (4 * LONGEST_LINE + 2));
    if (!bytes)
        return NULL;
    *length = LINES_HEAD;
    for (size_t i = 0; i < lines->count; i++) {
        *length += bytes_of(lines->lines[i].at, lines->lines[i].length, (char *)bytes + *length);
        bytes[(*length)++] = '\n';
    }
    memcpy(bytes, lines_mark, 8);
    put_number(bytes + 8, sum_of(bytes + LINES_HEAD, *length - LINES_HEAD), 8);
    return bytes;
}

static void add_kept_line(struct history *lines, const uint8_t *bytes, size_t length) {
    struct line line;
    line.length = wide_of((const char *)bytes, length, line.at, LONGEST_LINE);
    for (size_t i = 0; i < line.length; i++)
        line.at[i] = shown_for(line.at[i]);
    history_add(lines, &line);
}

bool kept_history(const uint8_t *bytes, size_t length, struct history *lines) {
    lines->count = 0;
    if (length < LINES_HEAD || memcmp(bytes, lines_mark, 8) != 0
        || number_at(bytes + 8, 8) != sum_of(bytes + LINES_HEAD, length - LINES_HEAD))
        return false;
    for (size_t start = LINES_HEAD, end = start; end < length; end++)
        if (bytes[end] == '\n') {
            add_kept_line(lines, bytes + start, end - start);
            start = end + 1;
        }
    return true;
}
