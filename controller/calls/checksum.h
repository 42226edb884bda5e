/* The CRC-32 of bytes, as zlib has it. */
#include <stddef.h>
#include <stdint.h>

static inline uint32_t checksum(const void *buffer, size_t size)
{
    static uint32_t table[256];
    const uint8_t *bytes = buffer;
    uint32_t sum = 0xFFFFFFFFu;
    for (uint32_t byte = 0; table[255] == 0 && byte < 256; byte++) {
        uint32_t entry = byte;
        for (int bit = 0; bit < 8; bit++) {
            entry = (entry & 1) != 0 ? entry >> 1 ^ 0xEDB88320u : entry >> 1;
        }
        table[byte] = entry;
    }
    for (size_t i = 0; i < size; i++) {
        sum = table[(sum ^ bytes[i]) & 255] ^ sum >> 8;
    }
    return ~sum;
}
