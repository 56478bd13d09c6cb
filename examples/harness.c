/* Runs the C text of a controller over rows of input on standard input and prints its trace.

   TEXT is the name of the C text. COLUMNS is the name of a file with two macros that list its columns in order, as in
       #define INPUTS(COLUMN) COLUMN(bool, demand) COLUMN(int32_t, flow)
       #define OUTPUTS(COLUMN) COLUMN(int32_t, total)

   Rows are read as docs/FORMATS.md says, but without quotes and byte order marks. It ends with status 0, after a trap with 6, and at a
   line that is bad with 5. */
#include TEXT
#include COLUMNS
#include <errno.h>
#include <inttypes.h>
#include <signal.h>
#include <stdio.h>
#include <string.h>

static struct bl_state state;
static struct bl_in in;
static struct bl_out out;
static char line[65540];
/* what is left of the line, or null behind its last field */
static char *rest;

static void bad_line(void) {
    fflush(stdout);
    _Exit(5);
}

/* Takes the next line that isn't empty, without line feed, and without the carriage returns at its beginning and end. */
static bool next_line(void) {
    do {
        if (fgets(line, sizeof line, stdin) == NULL)
            return false;
        size_t length = strcspn(line, "\n");
        if (length > 65536)
            bad_line();
        while (length > 0 && line[length - 1] == '\r')
            length--;
        line[length] = '\0';
        rest = line + strspn(line, "\r");
    } while (*rest == '\0');
    return true;
}

static const char *next_field(void) {
    char *field = rest;
    if (field == NULL)
        bad_line();
    rest = strchr(field, ',');
    if (rest != NULL)
        *rest++ = '\0';
    return field;
}

/* A number is an optional `-` and 1 to 39 digits; strtoimax and strtoumax would take more. */
static void check_number(const char *field) {
    size_t digits = strspn(field + (*field == '-'), "0123456789");
    if (digits < 1 || digits > 39 || field[(*field == '-') + digits] != '\0')
        bad_line();
    errno = 0;
}

static intmax_t read_signed(const char *field, intmax_t least, intmax_t most) {
    check_number(field);
    intmax_t value = strtoimax(field, NULL, 10);
    if (errno != 0 || value < least || value > most)
        bad_line();
    return value;
}

static uintmax_t read_unsigned(const char *field, uintmax_t most) {
    check_number(field);
    uintmax_t value = strtoumax(field + (*field == '-'), NULL, 10);
    if (errno != 0 || value > most || (*field == '-' && value != 0))
        bad_line();
    return value;
}

static void print_bool(bool value) { fputs(value ? "true" : "false", stdout); }
static bool read_bool(const char *field) {
    bool value = strcmp(field, "true") == 0;
    if (!value && strcmp(field, "false") != 0)
        bad_line();
    return value;
}

#define SIGNED(width) \
    static void print_int##width##_t(int##width##_t value) { printf("%" PRIdMAX, (intmax_t)value); } \
    static int##width##_t read_int##width##_t(const char *field) { \
        return (int##width##_t)read_signed(field, INT##width##_MIN, INT##width##_MAX); \
    }
#define UNSIGNED(width) \
    static void print_uint##width##_t(uint##width##_t value) { printf("%" PRIuMAX, (uintmax_t)value); } \
    static uint##width##_t read_uint##width##_t(const char *field) { return (uint##width##_t)read_unsigned(field, UINT##width##_MAX); }
SIGNED(8) SIGNED(16) SIGNED(32) SIGNED(64)
UNSIGNED(8) UNSIGNED(16) UNSIGNED(32) UNSIGNED(64)

/* The text calls abort where it traps. */
static void trapped(int signal_number) {
    (void)signal_number;
    puts("trap");
    fflush(stdout);
    _Exit(6);
}

#define HEAD(type, name) fputs("," #name, stdout);
#define NAMED(type, name) if (strcmp(next_field(), #name) != 0) bad_line();
#define READ(type, name) in.i_##name = read_##type(next_field());
#define PRINT(type, name) putchar(','); print_##type(out.o_##name);

static void read_header(void) {
    if (!next_line() || strcmp(next_field(), "tick") != 0)
        bad_line();
    INPUTS(NAMED)
    if (rest != NULL)
        bad_line();
}

static void read_row(uintmax_t tick) {
    if (read_unsigned(next_field(), UINTMAX_MAX) != tick)
        bad_line();
    INPUTS(READ)
    if (rest != NULL)
        bad_line();
}

int main(void) {
    uintmax_t tick = 0;
    signal(SIGABRT, trapped);
    fputs("tick", stdout);
    OUTPUTS(HEAD)
    putchar('\n');
    read_header();
    bl_init(&state);
    while (next_line()) {
        read_row(++tick);
        uint32_t ended = bl_tick(&state, &in, &out);
        printf("%" PRIuMAX, tick);
        OUTPUTS(PRINT)
        putchar('\n');
        if (ended == 1) {
            puts("ended");
            break;
        }
    }
    return 0;
}
