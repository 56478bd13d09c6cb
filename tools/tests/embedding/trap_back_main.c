/* Runs the pump into a trap by docs/EMBEDDING.md's trap_back.c, while the blinker goes on; then the pump begins anew. */
#include "blinker_unit.h"
#include "pump_unit.h"
#include <stdio.h>

static void step(int32_t flow) {
    int pump = (int)pump_step(true, flow);
    int blinker = (int)blinker_step(true);
    printf("%d%d ", pump, blinker);
}

int main(void) {
    pump_reset();
    blinker_reset();
    step(0);
    step(INT32_MAX);
    step(1);
    step(1);
    pump_reset();
    printf("%d", (int)pump_step(true, 1));
    printf("%d", (int)pump_step(true, 5));
    printf(" %ld\n", (long)pump_total());
    return 0;
}
