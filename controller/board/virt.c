/* The board's functions on QEMU's RISC-V board virt. The start is the C library's. */
#include <stdint.h>

#include "board.h"

#define BYTE(address) (*(volatile uint8_t *)(address))
#define REGISTER(address) (*(volatile uint32_t *)(address))

/* The low word of the counter of the timer, which goes on by 10,000 a millisecond; the high one is read before and after. */
uint32_t board_milliseconds(void)
{
    uint32_t high, low;
    do {
        high = REGISTER(0x0200BFFC);
        low = REGISTER(0x0200BFF8);
    } while (high != REGISTER(0x0200BFFC));
    return (uint32_t)(((uint64_t)high << 32 | low) / 10000);
}

void board_write(const char *text)
{
    for (; *text != '\0'; text++) {
        while ((BYTE(0x10000005) & 0x20) == 0) {
        }
        BYTE(0x10000000) = (uint8_t)*text;
    }
}

/* The emulated board has no card: the door is closed, and four pumps are ready. */
void board_read_inputs(uint8_t inputs[BOARD_INPUT_BYTES])
{
    static const uint8_t card[BOARD_INPUT_BYTES] = {0x01, 0x54, 0x01, 0, 0, 0, 0, 0};
    for (unsigned i = 0; i < BOARD_INPUT_BYTES; i++) {
        inputs[i] = card[i];
    }
}

/* Semihosting, SYS_EXIT_EXTENDED: the emulator ends with this status. */
void board_end(int status)
{
    uintptr_t block[2] = {0x20026, (uintptr_t)status};
    register uintptr_t operation __asm__("a0") = 0x20;
    register uintptr_t *argument __asm__("a1") = block;
    __asm__ volatile(".option push\n .option norvc\n slli x0, x0, 0x1f\n ebreak\n srai x0, x0, 7\n .option pop"
                     : : "r"(operation), "r"(argument) : "memory");
}
