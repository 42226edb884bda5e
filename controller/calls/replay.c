/* Replays calls that were recorded on x86-64 (record.c has the form of the file): replay FILE
 * Each buffer stands where its address has the same remainder by 8 as it had there, between guard bytes. Compared are what is returned and
 * every byte of every buffer that may be written, by its checksum. */
#include <inttypes.h>
#include <stdio.h>
#include <stdlib.h>
#include <string.h>

#include "checksum.h"
#include "formula_int.h"

#define PARTS 12
#define GUARD 16u
#define GUARD_BYTE 0xA5

struct part {
    uint8_t *bytes;
    uint32_t size;
    uint64_t number;
};

struct operation {
    const char *name;
    const char *forms; /* for each part n: a number, r: a buffer that is read, w: one that may be written */
    uint32_t (*call)(const struct part *part);
};

#include "operations.inc"

#define OPERATIONS (sizeof operations / sizeof operations[0])

static FILE *file;
static unsigned long made[OPERATIONS], different;

/* ---- reading ---- */

static void take(void *into, size_t size)
{
    if (size != 0 && fread(into, 1, size, file) != size) {
        printf("the file of calls ends within a call\n");
        exit(1);
    }
}

static uint32_t word(void)
{
    uint8_t bytes[4];
    take(bytes, 4);
    return bytes[0] | (uint32_t)bytes[1] << 8 | (uint32_t)bytes[2] << 16 | (uint32_t)bytes[3] << 24;
}

/* NULL at the end of the file. */
static const struct operation *next_operation(void)
{
    char name[32];
    size_t length = 0;
    int byte = getc(file);
    for (; byte > 0 && length < sizeof name - 1; byte = getc(file)) {
        name[length++] = (char)byte;
    }
    name[length] = '\0';
    for (size_t i = 0; byte == 0 && i < OPERATIONS; i++) {
        if (strcmp(name, operations[i].name) == 0) {
            return &operations[i];
        }
    }
    if (length != 0) {
        printf("no operation %s\n", name);
        exit(1);
    }
    return NULL;
}

/* ---- buffers ---- */

static uint8_t room[3u << 19];
static size_t used;

static void guard(uint8_t *at)
{
    memset(at, GUARD_BYTE, GUARD);
}

static int guard_stands(const uint8_t *at)
{
    for (size_t i = 0; i < GUARD; i++) {
        if (at[i] != GUARD_BYTE) {
            return 0;
        }
    }
    return 1;
}

static void take_buffer(struct part *part)
{
    uint32_t alignment, fill, head;
    part->size = word();
    alignment = word();
    fill = word();
    head = word();
    used += GUARD;
    used += (8 + alignment - (uintptr_t)(room + used) % 8) % 8;
    if (used + part->size + GUARD > sizeof room || head > part->size) {
        printf("no room for a buffer of %" PRIu32 " bytes\n", part->size);
        exit(1);
    }
    part->bytes = room + used;
    guard(part->bytes - GUARD);
    take(part->bytes, head);
    memset(part->bytes + head, (int)fill, part->size - head);
    guard(part->bytes + part->size);
    used += part->size;
}

static void take_parts(const char *forms, struct part *part)
{
    used = 0;
    for (size_t i = 0; forms[i] != '\0'; i++) {
        if (forms[i] == 'n') {
            part[i].number = word();
            part[i].number |= (uint64_t)word() << 32;
        } else {
            take_buffer(&part[i]);
        }
    }
}

/* ---- a call ---- */

static void tell(const struct operation *operation, const char *what, size_t number)
{
    if (different < 5) {
        printf("%s, call %lu: %s %u\n", operation->name, made[operation - operations], what, (unsigned)number);
    }
}

static unsigned compare_parts(const struct operation *operation, const struct part *part)
{
    unsigned wrong = 0;
    for (size_t i = 0; operation->forms[i] != '\0'; i++) {
        if (operation->forms[i] == 'w' && checksum(part[i].bytes, part[i].size) != word()) {
            tell(operation, "other bytes in part", i);
            wrong++;
        }
        if (operation->forms[i] != 'n' && !(guard_stands(part[i].bytes - GUARD) && guard_stands(part[i].bytes + part[i].size))) {
            tell(operation, "bytes written beside part", i);
            wrong++;
        }
    }
    return wrong;
}

static void replay_call(const struct operation *operation)
{
    struct part part[PARTS];
    uint32_t returned;
    unsigned wrong;
    take_parts(operation->forms, part);
    made[operation - operations]++;
    returned = operation->call(part);
    wrong = compare_parts(operation, part);
    if (returned != word()) {
        tell(operation, "it returned", returned);
        wrong++;
    }
    different += wrong != 0;
}

int main(int words, char **argument)
{
    static char buffer[1u << 16];
    file = words == 2 ? fopen(argument[1], "rb") : NULL;
    if (file == NULL) {
        printf("no calls\n");
        return 1;
    }
    setvbuf(file, buffer, _IOFBF, sizeof buffer);
    for (const struct operation *next = next_operation(); next != NULL; next = next_operation()) {
        replay_call(next);
    }
    printf("calls of x86-64 replayed:");
    for (size_t i = 0; i < OPERATIONS; i++) {
        printf(" %s %lu%s", operations[i].name, made[i], i + 1 < OPERATIONS ? "," : ";");
    }
    printf(" %lu differ\n", different);
    return different != 0;
}
