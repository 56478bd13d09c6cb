/* Shows what docs/EMBEDDING.md says of fresh.c: the totals of ticks 3 and 4 over the rows of examples/pump. */
#include <stdbool.h>
#include <stdint.h>
#include <stdio.h>

int32_t total_of_step(bool demand, int32_t flow);

int main(void) {
    total_of_step(true, 100);
    total_of_step(true, 1500);
    printf("%ld\n", (long)total_of_step(false, 900));
    printf("%ld\n", (long)total_of_step(true, 2147480000));
    return 0;
}
