/* Prints what the three objects of a text take. */
#include TEXT
#include <stdio.h>

int main(void) {
    printf("%u %u %u\n", (unsigned)sizeof(struct bl_state), (unsigned)sizeof(struct bl_in), (unsigned)sizeof(struct bl_out));
    return 0;
}
