/* What the main loop knows of a controller: its rows stand in a table of its own, which `tables` writes. */
#ifndef CONTROLLER_H
#define CONTROLLER_H
#include "board.h"

enum run { GOES_ON, ENDED, TRAPPED };

struct controller {
    const char *name;                  /* in flash */
    const char *head;                  /* in flash: the first line of its trace */
    uint16_t rows;
    void (*reset)(void);
    enum run (*step)(uint16_t row);    /* one tick, with the inputs of a row */
    void (*show)(void);                /* sends the outputs, each behind a comma */
};

void show_text(const char *text);      /* in flash */
void show_bool(bool value);
void show_signed(int64_t value);
void show_unsigned(uint64_t value);
#endif
