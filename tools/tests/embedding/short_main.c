/* The four lines at the top of docs/EMBEDDING.md, within a function. */
#include "pump.c"
#include <stdio.h>

static struct bl_state s;
static struct bl_in i;
static struct bl_out o;

int main(void) {
#include "short.h"
    printf("%u %ld\n", (unsigned)ended, (long)total);
    return 0;
}
