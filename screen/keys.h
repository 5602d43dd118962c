/* What a key means here. A character is its own Unicode number, Enter is a new line, and all others are these. */
#ifndef KEYS_H
#define KEYS_H

#include <stdint.h>

typedef int32_t key;

enum {
    PRESS_NONE = -1,        /* none came, or one that means nothing here */
    PRESS_LEFT = -2,
    PRESS_RIGHT = -3,
    PRESS_HOME = -4,
    PRESS_END = -5,
    PRESS_UP = -6,
    PRESS_DOWN = -7,
    PRESS_BACKSPACE = -8,
    PRESS_DELETE = -9,
    PRESS_ERASE_TO_END = -10,
    PRESS_ERASE_TO_START = -11,
    PRESS_ERASE_WORD = -12,
    PRESS_TAB = -13,
    PRESS_PAGE_UP = -14,
    PRESS_PAGE_DOWN = -15,
    PRESS_STOP = -16,       /* Control-C */
    PRESS_ESCAPE = -17,
    PRESS_UNDO = -18,
    PRESS_HELP = -19,
    PRESS_SEED = -20,
    PRESS_REDRAW = -21,     /* no key: the terminal has another size, or is back */
    PRESS_GONE = -22,       /* no key: the terminal is gone, or the program was told to end */
    PRESS_F12 = -50,
    PRESS_F2 = -60          /* F3 is one more, and so on up to F12 */
};

#endif
