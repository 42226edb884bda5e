/* Notes every call of the library on this machine with what it did, to be replayed on others. record.sh links it between tests/host and the
 * library, whose functions then bear the names recorded_..; the functions that the tests call are made from the header (calls.inc).
 *
 *   RECORD=FILE       the file to go on writing
 *   RECORD_EACH=N     the most calls of an operation that one process notes
 *
 * A call in the file, all numbers little-endian:
 *   the operation's name, ended by a byte 0
 *   its parts in the header's order: a number as 64 bits; a buffer as its size, its address modulo 8, the byte with which it ends and the
 *   number of bytes before the run of that byte, 32 bits each, and then those bytes
 *   the checksum of each buffer that may be written, as the call left it, 32 bits
 *   what the function returned, 32 bits, or 0
 */
#include <stdio.h>
#include <stdlib.h>
#include <string.h>

#include "checksum.h"
#include "formula.h"

/* What a board has room for. */
#define MOST_BYTES (1u << 20)
#define NAMES 32

static uint8_t call[2 * MOST_BYTES];
static size_t length, lent;
static unsigned *calls_of_this;

static void add(const void *bytes, size_t size)
{
    if (length + size <= sizeof call) {
        memcpy(call + length, bytes, size);
    }
    length += size;
}

static void word(uint32_t value)
{
    uint8_t bytes[4] = {(uint8_t)value, (uint8_t)(value >> 8), (uint8_t)(value >> 16), (uint8_t)(value >> 24)};
    add(bytes, 4);
}

static void number(uint64_t value)
{
    word((uint32_t)value);
    word((uint32_t)(value >> 32));
}

/* How many calls of an operation were noted. */
static unsigned *calls_of(const char *name)
{
    static struct { const char *name; unsigned calls; } noted[NAMES];
    size_t i = 0;
    while (i < NAMES - 1 && noted[i].name != NULL && strcmp(noted[i].name, name) != 0) {
        i++;
    }
    noted[i].name = name;
    return &noted[i].calls;
}

static void begin(const char *name)
{
    length = lent = 0;
    calls_of_this = calls_of(name);
    add(name, strlen(name) + 1);
}

static void before(const void *buffer, size_t size)
{
    const uint8_t *bytes = buffer;
    uint8_t fill = size == 0 ? 0 : bytes[size - 1];
    size_t head = size;
    while (head > 0 && bytes[head - 1] == fill) {
        head--;
    }
    word((uint32_t)size);
    word((uint32_t)((uintptr_t)buffer % 8));
    word(fill);
    word((uint32_t)head);
    add(bytes, head);
    lent += size;
}

static void after(const void *buffer, size_t size)
{
    word(checksum(buffer, size));
}

static unsigned long setting(const char *name, unsigned long usual)
{
    const char *text = getenv(name);
    return text == NULL ? usual : strtoul(text, NULL, 10);
}

static void end(uint32_t returned)
{
    static FILE *file;
    static unsigned long each;
    word(returned);
    if (file == NULL) {
        file = fopen(getenv("RECORD") == NULL ? "calls" : getenv("RECORD"), "ab");
        each = setting("RECORD_EACH", 1000);
    }
    if (file == NULL) {
        fprintf(stderr, "the file of RECORD cannot be written\n");
        exit(1);
    }
    if (lent <= MOST_BYTES && length <= sizeof call && *calls_of_this < each) {
        (*calls_of_this)++;
        fwrite(call, 1, length, file);
    }
}

#include "calls.inc"
