#include "screen.h"

#include "terminal.h"

#include <signal.h>
#include <stdlib.h>
#include <string.h>
#include <sys/select.h>
#include <term.h>
#include <termios.h>
#include <unistd.h>
#include <wctype.h>

enum {
    MOST_KEPT = 4096,
    KEY_WAIT = 50,   /* so many milliseconds a key may take to come as a whole, */
    ALT_WAIT = 400   /* and so many the key after Escape, which may be typed by hand */
};

static const int endings[] = {SIGHUP, SIGINT, SIGTERM};
static const int crashes[] = {SIGSEGV, SIGBUS, SIGFPE, SIGILL, SIGABRT, SIGQUIT};

static volatile sig_atomic_t told_to_end;
static sigset_t outside; /* the signals that are blocked while the program waits: those from before it began */
static struct termios before;
static char leaving[256]; /* what gives the screen back as it was */
static size_t leaving_length;
static key kept[MOST_KEPT]; /* keys that came while the story ran */
static size_t kept_first, kept_count;

/* ---- signals */

static void on_ending(int number) {
    told_to_end = number;
}

/* Gives the terminal back, by calls that are allowed in a signal handler, and ends by the signal. */
static void on_crash(int number) {
    ssize_t written = write(STDOUT_FILENO, leaving, leaving_length);
    (void)written;
    tcsetattr(STDIN_FILENO, TCSANOW, &before);
    signal(number, SIG_DFL);
    raise(number);
}

/* Adds what the terminal takes for a capability, without the delays of old terminals. */
static void add_leaving(const char *capability) {
    const char *words = tigetstr(capability);
    if (!words || words == (char *)-1)
        return;
    while (*words && leaving_length < sizeof leaving) {
        if (words[0] == '$' && words[1] == '<' && strchr(words, '>'))
            words = strchr(words, '>') + 1;
        else
            leaving[leaving_length++] = *words++;
    }
}

/* Signals that end the program, or tell of another size, come only while it waits for a key. */
static void take_signals(void) {
    struct sigaction action;
    sigset_t blocked;
    memset(&action, 0, sizeof action);
    sigemptyset(&blocked);
    action.sa_handler = on_ending;
    for (size_t i = 0; i < sizeof endings / sizeof *endings; i++) {
        struct sigaction earlier;
        sigaddset(&blocked, endings[i]);
        if (sigaction(endings[i], NULL, &earlier) == 0 && earlier.sa_handler != SIG_IGN)
            sigaction(endings[i], &action, NULL);
    }
    sigaddset(&blocked, SIGWINCH);
    sigprocmask(SIG_BLOCK, &blocked, &outside);
    action.sa_handler = on_crash;
    for (size_t i = 0; i < sizeof crashes / sizeof *crashes; i++)
        sigaction(crashes[i], &action, NULL);
}

int terminal_signal(void) {
    return told_to_end;
}

/* ---- taking the terminal */

/* Some terminals send other bytes for these keys than their description says. */
static void name_keys(void) {
    static const int codes[] = {KEY_UP, KEY_DOWN, KEY_RIGHT, KEY_LEFT, KEY_HOME, KEY_END};
    static const char last[] = "ABCDHF";
    for (int i = 0; last[i]; i++) {
        char bytes[] = {27, '[', last[i], 0};
        define_key(bytes, codes[i]);
        bytes[1] = 'O';
        define_key(bytes, codes[i]);
    }
}

/* Says why a terminal of this kind can't be taken, or null. */
static const char *refusal(void) {
    int status;
    if (setupterm(NULL, STDOUT_FILENO, &status) != OK)
        return "is not known";
    const char *places = tigetstr("cup");
    return places && places != (const char *)-1 ? NULL : "can't place a cursor";
}

const char *terminal_open(void) {
    const char *refused = refusal();
    if (refused)
        return refused;
    tcgetattr(STDIN_FILENO, &before);
    take_signals();
    if (!newterm(NULL, stdout, stdin)) {
        sigprocmask(SIG_SETMASK, &outside, NULL);
        return "is not known";
    }
    add_leaving("sgr0");
    add_leaving("cnorm");
    add_leaving("rmkx");
    add_leaving("rmcup");
    raw();
    nonl();
    noecho();
    keypad(stdscr, TRUE);
    name_keys();
    timeout(KEY_WAIT);
    set_escdelay(100);
    return NULL;
}

void terminal_close(void) {
    endwin();
    sigprocmask(SIG_SETMASK, &outside, NULL);
}

/* ---- keys */

static key control_key(wint_t character) {
    switch (character) {
    case L'\r':
    case L'\n': return L'\n';
    case L'\t': return PRESS_TAB;
    case 8:
    case 127: return PRESS_BACKSPACE;
    case 1: return PRESS_HOME;
    case 2: return PRESS_LEFT;
    case 3: return PRESS_STOP;
    case 4: return PRESS_DELETE;
    case 5: return PRESS_END;
    case 6: return PRESS_RIGHT;
    case 11: return PRESS_ERASE_TO_END;
    case 14: return PRESS_DOWN;
    case 16: return PRESS_UP;
    case 21: return PRESS_ERASE_TO_START;
    case 23: return PRESS_ERASE_WORD;
    default: return PRESS_NONE;
    }
}

static key named_key(wint_t code) {
    if (code >= KEY_F(2) && code <= KEY_F(12))
        return PRESS_F2 + (key)(code - KEY_F(2));
    switch (code) {
    case KEY_LEFT: return PRESS_LEFT;
    case KEY_RIGHT: return PRESS_RIGHT;
    case KEY_HOME: return PRESS_HOME;
    case KEY_END: return PRESS_END;
    case KEY_UP: return PRESS_UP;
    case KEY_DOWN: return PRESS_DOWN;
    case KEY_BACKSPACE: return PRESS_BACKSPACE;
    case KEY_DC: return PRESS_DELETE;
    case KEY_PPAGE: return PRESS_PAGE_UP;
    case KEY_NPAGE: return PRESS_PAGE_DOWN;
    case KEY_ENTER: return L'\n';
    case KEY_F(1): return PRESS_HELP;
    case KEY_RESIZE: return PRESS_REDRAW;
    default: return PRESS_NONE;
    }
}

/* What a key means with Alt. It comes as Escape and the key. */
static key key_with_alt(wint_t character) {
    switch (towlower(character)) {
    case L'u': return PRESS_UNDO;
    case L'h': return PRESS_HELP;
    case L's': return PRESS_SEED;
    default: return PRESS_NONE;
    }
}

/* Skips the bytes of a key that is not known, or of what a terminal tells, as ESC [ 200 ~ before pasted text. */
static void skip_rest(wint_t first) {
    wint_t next = 0;
    bool goes_on = first == L'[' || first == L'O';
    timeout(KEY_WAIT);
    while (goes_on && get_wch(&next) == OK)
        goes_on = first == L'[' && (next < L'@' || next > L'~');
}

/* Has a key read once more, as the next one. */
static void read_again(int kind, wint_t next) {
    if (kind == KEY_CODE_YES)
        ungetch((int)next);
    else
        unget_wch((wchar_t)next);
}

/* The meaning of what follows Escape. What comes with it at once is one key; what comes later was typed by hand, and is
 * a key of its own if it means nothing with Alt. */
static key key_after_escape(void) {
    wint_t next;
    timeout(0);
    int kind = get_wch(&next);
    bool is_typed = kind == ERR;
    if (is_typed) {
        timeout(ALT_WAIT);
        kind = get_wch(&next);
    }
    key pressed = kind == OK ? key_with_alt(next) : PRESS_NONE;
    if (kind == ERR || pressed != PRESS_NONE)
        return kind == ERR ? PRESS_ESCAPE : pressed;
    bool is_own = is_typed || next == 27 || (kind == KEY_CODE_YES && next == KEY_RESIZE);
    if (is_own) {
        read_again(kind, next);
        return PRESS_ESCAPE;
    }
    if (kind == KEY_CODE_YES)
        return named_key(next);
    skip_rest(next);
    return PRESS_NONE;
}

/* Looks, or waits, until there is input or a signal, and answers whether there is. */
static bool has_input(bool waits) {
    struct timespec none = {0, 0};
    fd_set inputs;
    FD_ZERO(&inputs);
    FD_SET(STDIN_FILENO, &inputs);
    return pselect(STDIN_FILENO + 1, &inputs, NULL, NULL, waits ? NULL : &none, &outside) != 0;
}

/* Stops the program as the terminal does, with all that were started with it. */
static key suspend(void) {
    kill(0, SIGTSTP);
    return PRESS_REDRAW;
}

/* The meaning of a key that has come. Control-Z and Control-L are done here. */
static key meaning(int came, wint_t character) {
    if (came == KEY_CODE_YES)
        return named_key(character);
    if (character == 26)
        return suspend();
    if (character == 12) {
        clearok(curscr, TRUE);
        return PRESS_REDRAW;
    }
    if (character == 27) {
        key pressed = key_after_escape();
        timeout(KEY_WAIT);
        return pressed;
    }
    return character >= L' ' && character != 127 && iswprint(character) ? (key)character : control_key(character);
}

/* The key that is there, or PRESS_NONE. */
static key key_that_came(bool *came) {
    wint_t character;
    int kind = get_wch(&character);
    *came = kind != ERR;
    return *came ? meaning(kind, character) : PRESS_NONE;
}

key terminal_key(void) {
    bool came = true;
    if (kept_count > 0) {
        kept_count--;
        return kept[kept_first++];
    }
    for (;;) {
        key pressed = key_that_came(&came);
        if (told_to_end)
            return PRESS_GONE;
        if (came)
            return pressed;
        bool is_there = has_input(true) && !told_to_end;
        pressed = key_that_came(&came);
        if (came)
            return pressed;
        /* where there was input and no key comes of it, it has ended */
        if (told_to_end || (is_there && has_input(false)))
            return PRESS_GONE;
    }
}

key terminal_glance(void) {
    bool came = has_input(false);
    while (came) {
        key pressed = key_that_came(&came);
        if (told_to_end)
            return PRESS_GONE;
        if (pressed == PRESS_STOP || pressed == PRESS_ESCAPE || pressed == PRESS_REDRAW) {
            kept_count = pressed == PRESS_REDRAW ? kept_count : 0;
            return pressed;
        }
        if (kept_count == 0)
            kept_first = 0;
        if (came && kept_first + kept_count < MOST_KEPT)
            kept[kept_first + kept_count++] = pressed;
        came = came && has_input(false);
    }
    return told_to_end ? PRESS_GONE : PRESS_NONE;
}
