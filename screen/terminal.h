/* The terminal: how it is taken and given back, whatever ends the program, and the keys that come from it. */
#ifndef TERMINAL_H
#define TERMINAL_H

#include <stdbool.h>

#include "keys.h"

/* Takes the terminal. Answers null, or words that say why it can't be taken. */
const char *terminal_open(void);

/* Gives it back as it was. */
void terminal_close(void);

/* The signal that has told the program to end, or 0. */
int terminal_signal(void);

/* Waits for the next key. Control-Z stops the program until the shell goes on with it. */
key terminal_key(void);

/* Looks for Control-C, Escape or the end of the terminal among the keys that came meanwhile, and keeps the others for
 * terminal_key. Answers PRESS_NONE if there is nothing of these. */
key terminal_glance(void);

#endif
