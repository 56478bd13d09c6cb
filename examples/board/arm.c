/* A Cortex-M3, as qemu's mps2-an385 has it: vectors, start-up, the serial line (CMSDK UART 0) and the timer (SysTick). */
#include "board.h"

#define REGISTER(address) (*(volatile uint32_t *)(address))
#define UART_DATA REGISTER(0x40004000u)
#define UART_STATE REGISTER(0x40004004u)
#define UART_CONTROL REGISTER(0x40004008u)
#define UART_DIVIDER REGISTER(0x40004010u)
#define SYSTICK_CONTROL REGISTER(0xE000E010u)
#define SYSTICK_RELOAD REGISTER(0xE000E014u)
#define SYSTICK_VALUE REGISTER(0xE000E018u)
#define CLOCK 25000000u
#define HERTZ 20u
#define BAUD 115200u

/* arm.ld says where these are */
extern uint32_t data_load[], data_begin[], data_end[], bss_begin[], bss_end[], stack_top[];

int main(void);
static volatile bool due, late;

static void reset(void) {
    uint32_t *from = data_load;
    for (uint32_t *to = data_begin; to < data_end; to++)
        *to = *from++;
    for (uint32_t *to = bss_begin; to < bss_end; to++)
        *to = 0;
    (void)main();
    board_end();
}

/* A fault of the processor ends the run, which shows as a trace that is too short. */
static void fault(void) { board_end(); }

static void timer(void) {
    if (due)
        late = true;
    due = true;
}

typedef void (*vector)(void);
/* (the first entry is the stack's top, which C knows as an address alone) */
__attribute__((section(".vectors"), used)) static const struct {
    uint32_t *stack;
    vector entries[15];
} vectors = {stack_top, {reset, fault, fault, fault, fault, fault, 0, 0, 0, 0, fault, fault, 0, fault, timer}};

void board_begin(void) {
    UART_DIVIDER = CLOCK / BAUD;
    UART_CONTROL = 1;
    SYSTICK_RELOAD = CLOCK / HERTZ - 1;
    SYSTICK_VALUE = 0;
    SYSTICK_CONTROL = 7;
}

void board_put(char sign) {
    while ((UART_STATE & 1) != 0) { }
    UART_DATA = (uint8_t)sign;
}

void board_wait(void) {
    while (!due)
        __asm volatile("wfi");
    due = false;
}

bool board_late(void) { return late; }

/* Semihosting's call to exit, which a debugger or qemu answers. */
void board_end(void) {
    register uint32_t call __asm("r0") = 0x18;
    register uint32_t reason __asm("r1") = 0x20026;
    __asm volatile("bkpt 0xab" : : "r"(call), "r"(reason) : "memory");
    for (;;) { }
}
