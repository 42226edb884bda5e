/* The header's two inline functions on every bit of X and C, among zeros and among ones: the bit is set and read, and no other bit changes. */
#include "formula.h"
#include <stdio.h>
#include <string.h>

/* 1 if just that bit differs from a fill, where it is `on`, and formula_bit tells every bit so. */
static int one_bit(const uint8_t *memory, uint32_t bank, uint32_t element, uint8_t fill, uint8_t on)
{
    for (uint32_t i = 0; i < FORMULA_MEMORY_BYTES; i++) {
        uint8_t weight = (uint8_t)(1u << element % 8);
        uint8_t kept = i == bank + element / 8 ? (uint8_t)(on ? fill | weight : fill & ~weight) : fill;
        if (memory[i] != kept) {
            return 0;
        }
    }
    for (uint32_t e = 0; e < 64; e++) {
        uint8_t bit = e == element ? on : fill & 1;
        if (formula_bit(memory, bank, e) != bit) {
            return 0;
        }
    }
    return 1;
}

int main(void)
{
    static uint8_t memory[FORMULA_MEMORY_BYTES];
    static const uint32_t banks[] = {FORMULA_X, FORMULA_C};
    static const uint8_t fills[] = {0, 255};
    int wrong = 0;
    for (size_t b = 0; b < 2; b++) {
        for (size_t f = 0; f < 2; f++) {
            for (uint32_t element = 0; element < 64; element++) {
                for (uint8_t on = 0; on < 2; on++) {
                    memset(memory, fills[f], sizeof memory);
                    formula_set_bit(memory, banks[b], element, (uint8_t)(on * 7));
                    wrong += !one_bit(memory, banks[b], element, fills[f], on);
                }
            }
        }
    }
    printf("bits of X and C set and read by the header: %d wrong\n", wrong);
    return wrong != 0;
}
