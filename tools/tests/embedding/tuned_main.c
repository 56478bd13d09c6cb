/* Steps docs/EMBEDDING.md's tuned.c with a flow above its limits, and one below. */
#include "pump_unit.h"
#include <stdio.h>

enum pump_run tuned_step(bool demand, int32_t flow);

int main(void) {
    pump_reset();
    tuned_step(true, 0);
    tuned_step(true, 9000);
    printf("%ld ", (long)pump_total());
    tuned_step(true, -9);
    pump_reset();
    printf("%ld\n", (long)pump_total());
    return 0;
}
