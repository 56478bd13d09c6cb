/* Drives docs/EMBEDDING.md's timer.c around a unit that ends with its second step, and then around one that traps. */
#include "pump_unit.h"
#include <stdio.h>

void timer_interrupt(void);
void poll(void);
static int steps;

enum pump_run pump_step(bool demand, int32_t flow) {
    (void)demand;
    (void)flow;
    if (steps == 5)
        return PUMP_TRAPPED;
    steps++;
    return steps < 2 ? PUMP_GOES_ON : PUMP_ENDED;
}

int32_t pump_total(void) { return steps < 2 ? 7 : 14; }
bool read_demand(void) { return true; }
int32_t read_flow(void) { return 7; }
void write_total(int32_t total) { printf("%d ", (int)total); }
void outputs_to_safe_state(void) { puts("safe"); }

int main(void) {
    for (int period = 1; period <= 5; period++) {
        timer_interrupt();
        if (period == 5)
            steps = 5;
        poll();
    }
    return 0;
}
