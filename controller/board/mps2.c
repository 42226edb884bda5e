/* The start of a Cortex-M, and the board's functions on QEMU's MPS2: what a firmware has to provide beside the archive. */
#include <stddef.h>
#include <stdint.h>

#include "board.h"

#define REGISTER(address) (*(volatile uint32_t *)(address))

/* ---- the start ---- */

extern uint64_t stack_top[], data_start[], data_end[], bss_start[], bss_end[];
extern const uint64_t data_stored[];
extern int main(void);

/* Weak, since only programs with the C library's files have it. */
extern void initialise_monitor_handles(void) __attribute__((weak));

static void start_floating_point(void)
{
#if __ARM_FP
    /* CPACR: full access to the coprocessors 10 and 11, which are the FPU. FPSCR is 0 after a reset: round to nearest, subnormals kept. */
    REGISTER(0xE000ED88) |= 0xFu << 20;
    __asm__ volatile("dsb\n isb");
#if defined FLUSH_TO_ZERO /* a control of the tests, which must then fail */
    __asm__ volatile("vmsr fpscr, %0" : : "r"(1u << 24));
#endif
#endif
}

/* A tick each millisecond at the 25 MHz of the MPS2. It starts when it is first asked for, so that no interrupt is counted where none is wanted. */
#define TICK_CYCLES 25000u
static volatile uint32_t milliseconds;

static void start_tick(void)
{
    REGISTER(0xE000E014) = TICK_CYCLES - 1;
    REGISTER(0xE000E018) = 0;
    REGISTER(0xE000E010) = 7; /* on, with its interrupt, by the processor's clock */
}

static void tick(void)
{
    milliseconds++;
}

static void start_port(void)
{
    REGISTER(0x40004010) = 16; /* the least divisor */
    REGISTER(0x40004008) = 1;  /* transmit */
}

void reset(void);
void reset(void)
{
    start_floating_point();
    for (size_t i = 0; &data_start[i] < data_end; i++) {
        data_start[i] = data_stored[i];
    }
    for (uint64_t *word = bss_start; word < bss_end; word++) {
        *word = 0;
    }
    start_port();
    if (initialise_monitor_handles != NULL) {
        initialise_monitor_handles();
    }
    board_end(main());
}

/* A fault of the processor. It never comes from the library; here it ends the emulation. */
static void fault(void)
{
    board_write("a fault of the processor\n");
    board_end(1);
    for (;;) {
    }
}

/* The stack, the reset, NMI and five faults, four that are unused, SVC, debug, one unused, PendSV, SysTick. */
__attribute__((section(".vectors"), used)) static void (*const vectors[])(void) = {
    (void (*)(void))stack_top, reset, fault, fault, fault, fault, fault, NULL, NULL, NULL, NULL, fault, fault, NULL, fault, tick,
};

void _init(void);
void _init(void)
{
}

void _fini(void);
void _fini(void)
{
}

/* ---- the board's functions ---- */

uint32_t board_milliseconds(void)
{
    if ((REGISTER(0xE000E010) & 1) == 0) {
        start_tick();
    }
    return milliseconds;
}

void board_write(const char *text)
{
    for (; *text != '\0'; text++) {
        while ((REGISTER(0x40004004) & 1) != 0) {
        }
        REGISTER(0x40004000) = (uint8_t)*text;
    }
}

/* The emulated board has no card: the door is closed, and four pumps are ready. */
void board_read_inputs(uint8_t inputs[BOARD_INPUT_BYTES])
{
    static const uint8_t card[BOARD_INPUT_BYTES] = {0x01, 0x54, 0x01, 0, 0, 0, 0, 0};
    for (unsigned i = 0; i < BOARD_INPUT_BYTES; i++) {
        inputs[i] = card[i];
    }
}

/* Semihosting, SYS_EXIT_EXTENDED: the emulator ends with this status. */
void board_end(int status)
{
    uint32_t block[2] = {0x20026, (uint32_t)status};
    register uint32_t operation __asm__("r0") = 0x20;
    register uint32_t *argument __asm__("r1") = block;
    __asm__ volatile("bkpt 0xab" : : "r"(operation), "r"(argument) : "memory");
}
