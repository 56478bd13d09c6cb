/* What the two boards have in common: a serial line, and a timer whose interrupt tells that a tick is due. */
#ifndef BOARD_H
#define BOARD_H
#include <stdbool.h>
#include <stdint.h>

void board_begin(void);      /* starts the serial line and the timer */
void board_put(char sign);   /* sends a byte */
void board_wait(void);       /* sleeps until the timer's next interrupt */
bool board_late(void);       /* whether an interrupt came before the one before was waited for */
void board_end(void);        /* stops the simulator; on a board it waits for ever */

#ifdef __AVR__   /* texts and tables stay in flash */
#include <avr/pgmspace.h>
#define IN_FLASH PROGMEM
#define FETCH(to, place) (void)memcpy_P(&(to), &(place), sizeof(to))
#define BYTE(place) ((char)pgm_read_byte(place))
#else
#define IN_FLASH
#define FETCH(to, place) (to) = (place)
#define BYTE(place) (*(place))
#endif
#endif
