/* Drives docs/EMBEDDING.md's timer.c: three periods, of which the second comes twice before the main loop looks. */
#include "pump_unit.h"
#include <stdio.h>

void timer_interrupt(void);
void poll(void);
extern volatile uint32_t overruns;
static int32_t written;

bool read_demand(void) { return true; }
int32_t read_flow(void) { return 7; }
void write_total(int32_t total) { written = total; }
void outputs_to_safe_state(void) { written = -1; }

int main(void) {
    pump_reset();
    poll();
    for (int period = 1; period <= 3; period++) {
        timer_interrupt();
        if (period == 2)
            timer_interrupt();
        poll();
        poll();
        printf("%d %d %u\n", period, (int)written, (unsigned)overruns);
    }
    return 0;
}
