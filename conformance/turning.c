static unsigned number;
void turn_to(unsigned wanted) { number = wanted; }
unsigned turned(void) { return number; }
