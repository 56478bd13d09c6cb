/* Runs all controllers side by side: one tick of each whenever the timer says so. Each line on the serial line begins with a controller's
   name; what follows is a line of its trace. A controller that ends or traps is stepped no more, and the others go on. */
#include "controller.h"
#include "controllers.h"

#define COUNT (sizeof controllers / sizeof controllers[0])

static enum run runs[COUNT];

void show_text(const char *text) {
    for (char sign = BYTE(text); sign != '\0'; sign = BYTE(++text))
        board_put(sign);
}

void show_unsigned(uint64_t value) {
    char digits[20];
    uint8_t count = 0;
    do {
        digits[count++] = (char)('0' + (uint8_t)(value % 10));
        value /= 10;
    } while (value != 0);
    while (count > 0)
        board_put(digits[--count]);
}

void show_signed(int64_t value) {
    if (value < 0)
        board_put('-');
    show_unsigned(value < 0 ? 0 - (uint64_t)value : (uint64_t)value);
}

void show_bool(bool value) {
    static const char words[2][6] IN_FLASH = {"false", "true"};
    show_text(words[value]);
}

static void begin_line(const struct controller *it) {
    show_text(it->name);
    board_put(' ');
}

static void show_word(const struct controller *it, const char *word) {
    begin_line(it);
    show_text(word);
    board_put('\n');
}

/* One tick of a controller, and its lines. */
static void tick(uint8_t at, uint16_t row) {
    static const char trap[] IN_FLASH = "trap", end[] IN_FLASH = "ended";
    const struct controller *it = controllers[at];
    runs[at] = it->step(row);
    if (runs[at] == TRAPPED) {
        show_word(it, trap);
        return;
    }
    begin_line(it);
    show_unsigned(row + 1u);
    it->show();
    board_put('\n');
    if (runs[at] == ENDED)
        show_word(it, end);
}

int main(void) {
    static const char late[] IN_FLASH = "late\n", done[] IN_FLASH = "done\n";
    bool more = true;
    board_begin();
    for (uint8_t at = 0; at < COUNT; at++) {
        controllers[at]->reset();
        show_word(controllers[at], controllers[at]->head);
    }
    for (uint16_t row = 0; more; row++) {
        board_wait();
        more = false;
        for (uint8_t at = 0; at < COUNT; at++) {
            if (runs[at] == GOES_ON && row < controllers[at]->rows) {
                tick(at, row);
                more = true;
            }
        }
    }
    show_text(board_late() ? late : done);
    board_end();
    return 0;
}
