/* Files: read and written whole, and the saved games in a folder. */
#ifndef FILES_H
#define FILES_H

#include <stdbool.h>
#include <stddef.h>
#include <stdint.h>
#include <time.h>

#include "zkit.h"

enum { MOST_SAVES = 20, LONGEST_NAME = 256, LONGEST_PATH = 4096 };

/* A saved game: the name of its file, and when it was written. */
struct saved {
    char name[LONGEST_NAME];
    time_t time;
};

/* Reads a file of at most so many bytes. Answers null where it can't, and errno says why: EFBIG for a longer one. */
uint8_t *file_read(const char *path, size_t most, size_t *length);

/* Writes a file, in place of what it was: beside it first, so that a crash leaves the old one or the new one. */
bool file_write(const char *path, const uint8_t *bytes, size_t length);

/* The same, for a file that nobody else may read. */
bool file_write_private(const char *path, const uint8_t *bytes, size_t length);

bool file_is_there(const char *path);

/* Makes a folder, and those that it lies in. */
bool folder_make(const char *path);

/* Puts folder/name into a path. Answers whether there was room. */
bool path_of(char path[LONGEST_PATH], const char *folder, const char *name);

/* The name of a file of saved games that a player has typed: with an ending, if it has none. Answers whether it may be
 * one: a name without a slash that is not hidden. */
bool name_of_save(char name[LONGEST_NAME], const char *typed, const char *ending);

/* Says whether the first bytes of a file are those of a saved game of a story. */
bool is_save_of(const uint8_t *bytes, size_t length, const zkit_story *story);

/* Finds the newest saved games of a story in a folder, the newest first, and answers how many. */
size_t saves_in(const char *folder, const zkit_story *story, struct saved saves[MOST_SAVES]);

#endif
