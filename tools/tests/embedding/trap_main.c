/* Runs the pump into a trap, where docs/EMBEDDING.md's trap.c takes over. */
#include "pump_unit.h"
#include <stdio.h>
#include <stdlib.h>

void outputs_to_safe_state(void) {
    printf("safe, total %ld\n", (long)pump_total());
    fflush(stdout);
    _Exit(0);
}

int main(void) {
    pump_reset();
    pump_step(true, 0);
    pump_step(true, INT32_MAX);
    pump_step(true, 1);
    puts("no trap");
    return 1;
}
