/* An AVR, as the ATmega328P: the serial line (USART 0) and the timer (timer 1). avr-libc has the start-up code and the linker script. */
#include "board.h"
#include <avr/interrupt.h>
#include <avr/io.h>
#include <avr/sleep.h>

#define CLOCK 16000000UL
#define HERTZ 20UL
#define BAUD 115200UL

static volatile bool due, late;

ISR(TIMER1_COMPA_vect) {
    if (due)
        late = true;
    due = true;
}

void board_begin(void) {
    UCSR0A = 1 << U2X0;
    UBRR0 = (uint16_t)(CLOCK / (8 * BAUD) - 1);
    UCSR0B = 1 << TXEN0;
    OCR1A = (uint16_t)(CLOCK / 64 / HERTZ - 1);
    TCCR1B = (1 << WGM12) | (1 << CS11) | (1 << CS10);
    TIMSK1 = 1 << OCIE1A;
    sei();
}

void board_put(char sign) {
    while ((UCSR0A & (1 << UDRE0)) == 0) { }
    UDR0 = (uint8_t)sign;
}

void board_wait(void) {
    for (;;) {
        cli();   /* (an interrupt between the test and the sleep would be slept through) */
        if (due)
            break;
        sleep_enable();
        sei();
        sleep_cpu();
        sleep_disable();
    }
    due = false;
    sei();
}

bool board_late(void) { return late; }

/* A sleep without interrupts ends simavr. */
void board_end(void) {
    UCSR0A |= 1 << TXC0;
    for (uint16_t turn = 0; turn < 20000; turn++)   /* (the last byte is still on its way) */
        __asm volatile("nop");
    cli();
    sleep_enable();
    sleep_cpu();
    for (;;) { }
}
