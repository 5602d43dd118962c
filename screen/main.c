/* Plays a story on the whole of a terminal. */
#ifndef _XOPEN_SOURCE
#define _XOPEN_SOURCE 700
#endif
#include "display.h"
#include "play.h"
#include "terminal.h"

#include <errno.h>
#include <getopt.h>
#include <langinfo.h>
#include <limits.h>
#include <locale.h>
#include <signal.h>
#include <stdlib.h>
#include <string.h>
#include <time.h>
#include <unistd.h>

enum {
    MOST_FILE = 1 << 30,    /* the longest Blorb file that is read */
    MOST_STEPS = 1000000000, /* the reader can stop a story, so it may run long */
    ROOM = 65536,           /* so many bytes of text come before the reader sees a page of them */
    REFUSED = 1,
    FAULT = 2,
    LIMIT = 3,
    FAILED = 4,
    NO_MEMORY = 5
};

static const char usage[] = "usage: zkit-screen [--seed N] [--saves FOLDER] [--plain] STORY\n";

static const char help[] =
    "\n"
    "Plays a Z-machine story, or a Blorb file with one, on the whole of a terminal.\n"
    "\n"
    "  --seed N        takes this seed for random numbers; without it the clock gives one\n"
    "  --saves FOLDER  keeps saved games and transcripts there; without it in the current folder\n"
    "  --plain         shows no bold and no italic letters\n"
    "  --help          shows this\n"
    "  --version       shows the version\n"
    "\n"
    "In a play, Alt-H or F1 shows the keys. The play goes on where you left off, and\n"
    "Up brings back the lines of earlier plays: the folder zkit in $XDG_STATE_HOME,\n"
    "or in ~/.local/state, keeps both.\n";

static struct play play;

/* ---- options */

struct words {
    const char *story;
    const char *seed;
    const char *folder;
    bool is_plain;
};

static void show_version(void) {
    unsigned version = zkit_version();
    printf("zkit-screen %u.%u.%u\n", version >> 16, version >> 8 & 0xff, version & 0xff);
}

/* Reads a number of 64 bits. Answers whether it is one. */
static bool number_of(const char *word, uint64_t *number) {
    char *end;
    errno = 0;
    *number = strtoull(word, &end, 10);
    return word[0] >= '0' && word[0] <= '9' && *end == 0 && errno == 0;
}

static int refuse_words(const char *why, const char *word) {
    if (why)
        fprintf(stderr, "zkit-screen: %s%s\n", why, word);
    fputs(usage, stderr);
    return REFUSED;
}

/* Reads the words of the command line. Answers -1 to play, or a status to end with. */
static int read_words(int count, char **words, struct words *found) {
    static const struct option options[] = {
        {"seed", required_argument, NULL, 's'},  {"saves", required_argument, NULL, 'f'},
        {"plain", no_argument, NULL, 'p'},       {"help", no_argument, NULL, 'h'},
        {"version", no_argument, NULL, 'v'},     {NULL, 0, NULL, 0}};
    for (int option; (option = getopt_long(count, words, "hV", options, NULL)) != -1;) {
        switch (option) {
        case 's': found->seed = optarg; break;
        case 'f': found->folder = optarg; break;
        case 'p': found->is_plain = true; break;
        case 'h': printf("%s%s", usage, help); return 0;
        case 'V':
        case 'v': show_version(); return 0;
        default: return refuse_words(NULL, "");
        }
    }
    if (optind + 1 != count)
        return refuse_words(NULL, "");
    found->story = words[optind];
    return -1;
}

static int take_words(const struct words *words) {
    struct timespec now;
    zkit_defaults(&play.options);
    play.options.steps = MOST_STEPS;
    play.options.room = ROOM;
    play.options.styles = 1;
    play.options.keys = 1;
    clock_gettime(CLOCK_REALTIME, &now);
    play.options.seed = (uint64_t)now.tv_sec * 1000 + (uint64_t)now.tv_nsec / 1000000;
    if (words->seed && !number_of(words->seed, &play.options.seed))
        return refuse_words("--seed takes a number from 0 to 18446744073709551615: ", words->seed);
    play.folder = words->folder ? words->folder : ".";
    if (words->folder && !file_is_there(words->folder))
        return refuse_words("there is no folder ", words->folder);
    display_set_plain(words->is_plain);
    return -1;
}

/* ---- the story */

/* Takes the story out of a Blorb file; any other file is the story itself. */
static uint32_t take_out_of_blorb(uint8_t **bytes, size_t *length) {
    size_t needed = 0;
    uint32_t status = zkit_story_in(*bytes, *length, NULL, 0, &needed);
    uint8_t *story = status == ZKIT_NO_ROOM ? malloc(needed) : NULL;
    if (status == ZKIT_NO_ROOM)
        status = story ? zkit_story_in(*bytes, *length, story, needed, &needed) : ZKIT_NO_MEMORY;
    if (status == ZKIT_DONE) {
        free(*bytes);
        *bytes = story;
        *length = needed;
    }
    return status;
}

/* Tells why a file is not played, in the words of the library. */
static int refuse_story(const char *path, const uint8_t *bytes, size_t length, uint32_t reason) {
    uint8_t words[200];
    size_t count = zkit_text_of_file(bytes, length, words, sizeof words);
    if (count == 0 || reason == ZKIT_OPEN_NO_MEMORY)
        count = zkit_text_of_open(reason, words, sizeof words);
    fprintf(stderr, "zkit-screen: %s: not a story: %.*s\n", path, (int)count, (const char *)words);
    return reason == ZKIT_OPEN_NO_MEMORY ? NO_MEMORY : REFUSED;
}

/* The name of a file without its folder and its ending. */
static void take_stem(const char *path) {
    const char *slash = strrchr(path, '/'), *name = slash ? slash + 1 : path, *dot = strrchr(name, '.');
    size_t length = dot && dot > name ? (size_t)(dot - name) : strlen(name);
    length = length < LONGEST_NAME - 8 ? length : LONGEST_NAME - 8;
    snprintf(play.stem, sizeof play.stem, "%.*s", (int)length, name);
    snprintf(play.save_name, sizeof play.save_name, "%.*s.qzl", (int)length, name);
}

/* Reads a story and looks whether it can be opened. Answers -1, or a status to end with. */
static int open_story(const char *path) {
    size_t length;
    uint8_t *bytes = file_read(path, MOST_FILE, &length);
    if (!bytes) {
        fprintf(stderr, "zkit-screen: %s: %s\n", path, strerror(errno));
        return FAILED;
    }
    uint32_t status = take_out_of_blorb(&bytes, &length);
    play.story = bytes;
    play.story_length = length;
    if (status == ZKIT_NO_STORY) {
        fprintf(stderr, "zkit-screen: %s: not a story: a Blorb file without a story for the Z-machine\n", path);
        return REFUSED;
    }
    uint32_t reason = ZKIT_OPEN_NO_MEMORY;
    if (status != ZKIT_NO_MEMORY && text_open(&play.text))
        reason = open_new(&play);
    if (reason != ZKIT_OPENED)
        return refuse_story(path, bytes, length, reason);
    take_stem(path);
    return -1;
}

/* ---- the play */

/* The width that a story is begun with: that of the screen, within what the library takes. */
static uint32_t columns_of_screen(void) {
    int columns = display_columns();
    if (columns < ZKIT_LEAST_COLUMNS)
        return ZKIT_LEAST_COLUMNS;
    return columns < ZKIT_MOST_COLUMNS ? (uint32_t)columns : ZKIT_MOST_COLUMNS;
}

/* Whether a story reads an array of the header somewhere: 0 and a number stand behind the opcode for that, in either
 * order, or they are given to a routine, as Inform does. */
static bool reads_header(const uint8_t *story, size_t length, uint8_t opcode, uint8_t number) {
    for (size_t i = 4; i + 1 < length; i++) {
        bool is_pair = (story[i] == 0 && story[i + 1] == number) || (story[i] == number && story[i + 1] == 0);
        if (is_pair && (story[i - 1] == opcode || (story[i - 4] == 0xe0 && story[i - 3] == 0x17)))
            return true;
    }
    return false;
}

/* How many columns the story is told. One that never looks for them, by loadb or loadw, places its text for the usual
 * ones. */
static uint32_t columns_for_story(void) {
    bool looks = reads_header(play.story, play.story_length, 0x10, 33)
        || reads_header(play.story, play.story_length, 0x0f, 17);
    return looks ? columns_of_screen() : ZKIT_COLUMNS;
}

/* Asks whether the play that was kept goes on. If not, or if there is none, the story begins. */
static void go_on_or_begin(void) {
    uint64_t seed = play.options.seed;
    key pressed = L'n';
    find_kept(&play);
    if (open_kept(&play))
        pressed = ask(&play, "Go on where you left off? (y/n) ", "yn");
    if (pressed == L'y')
        return;
    play.options.seed = seed;
    play.is_answered = false;
    play.options.columns = columns_for_story();
    if (pressed != L'n' || open_new(&play) != ZKIT_OPENED)
        play.is_left = true;
}

/* How the play has ended, as `zkit play` tells it. */
static int status_of(const zkit *game) {
    switch (zkit_status(game)) {
    case ZKIT_FAULT: return FAULT;
    case ZKIT_LIMIT: return LIMIT;
    case ZKIT_OUT_OF_MEMORY: return NO_MEMORY;
    case ZKIT_TOO_MUCH_TEXT: return NO_MEMORY;
    default: return 0;
    }
}

/* Sees to it that letters of all languages can be shown, where the settings do not say so. */
static void take_locale(void) {
    setlocale(LC_ALL, "");
    if (strcmp(nl_langinfo(CODESET), "UTF-8") != 0)
        setlocale(LC_CTYPE, "C.UTF-8");
}

/* Plays on the terminal, and gives it back. */
static int play_on_terminal(void) {
    if (!isatty(STDIN_FILENO) || !isatty(STDOUT_FILENO)) {
        fputs("zkit-screen: this takes a terminal; zkit play plays without one\n", stderr);
        return REFUSED;
    }
    const char *refused = terminal_open();
    if (refused) {
        const char *kind = getenv("TERM");
        fprintf(stderr, "zkit-screen: the terminal %s %s; zkit play plays here\n", kind ? kind : "(no TERM)", refused);
        return REFUSED;
    }
    go_on_or_begin();
    if (!play.notice[0])
        notice(&play, "[Alt-H or F1 shows the keys]");
    if (!play.is_left)
        play_story(&play);
    terminal_close();
    return status_of(play.game);
}

int main(int count, char **words) {
    struct words found = {0};
    take_locale();
    play.options.size = sizeof play.options;
    int status = read_words(count, words, &found);
    if (status < 0)
        status = take_words(&found);
    if (status < 0)
        status = open_story(found.story);
    if (status < 0)
        status = play_on_terminal();
    close_play(&play);
    free((void *)play.story);
    if (terminal_signal()) {
        signal(terminal_signal(), SIG_DFL);
        raise(terminal_signal());
    }
    return status;
}
