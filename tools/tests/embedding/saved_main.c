/* Round trip of docs/EMBEDDING.md's save and restore: the state of the section's text, as docs/FORMATS.md has its bytes. */
#include <stdbool.h>
#include <stdint.h>
#include <stdio.h>
#include <string.h>
#include "saved_structs.h"

static struct bl_state s;
static struct bl_in i;
static struct bl_out o;
#include "saved_functions.h"

int main(void) {
    static const uint8_t wanted[24] = {'B', 'L', 'S', 'V', '1', '\n', 0, 0, 0, 5, 255, 255, 255, 254, 0, 0, 0, 1, 2, 0, 128, 0, 0, 0};
    uint8_t bytes[24];
    s.n = -2;
    i.i_d = 258;
    o.o_n = INT32_MIN;
    if (save(bytes) != bytes + 24 || memcmp(bytes, wanted, 24) != 0)
        return 1;
    s.n = 0;
    i.i_d = 0;
    o.o_n = 0;
    if (!restore(bytes) || s.n != -2 || i.i_d != 258 || o.o_n != INT32_MIN)
        return 2;
    bytes[9] = 4;
    puts(restore(bytes) ? "took another" : "round trip");
    return 0;
}
