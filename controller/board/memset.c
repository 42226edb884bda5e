/* memset by words, for a C library that goes byte by byte, as picolibc does on RISC-V: every check clears its tables. */
#include <stddef.h>
#include <stdint.h>

typedef uint32_t __attribute__((may_alias)) word;

__attribute__((optimize("no-tree-loop-distribute-patterns"))) void *memset(void *at, int value, size_t size)
{
    uint8_t *byte = at, *end = byte + size;
    uint32_t four = 0x01010101u * (uint8_t)value;
    while (byte < end && (uintptr_t)byte % 4 != 0) {
        *byte++ = (uint8_t)value;
    }
    while (end - byte >= 16) {
        word *next = (word *)(void *)byte;
        next[0] = four;
        next[1] = four;
        next[2] = four;
        next[3] = four;
        byte += 16;
    }
    while (byte < end) {
        *byte++ = (uint8_t)value;
    }
    return at;
}
