/* The gate's vectors on a board: vectors FILE. A case is lines of key=value and ends with an empty line; what is printed is what the program of
 * the same cases, crates/vector_cases, prints. */
#include <inttypes.h>
#include <stdio.h>
#include <stdlib.h>
#include <string.h>

#include "formula.h"

#define LONGEST 4096u

struct text {
    uint8_t bytes[LONGEST];
    size_t length;
};

static struct text line, target, expr;
static uint8_t memory[FORMULA_MEMORY_BYTES], code[FORMULA_CODE_BYTES], index_code[FORMULA_CODE_BYTES];

/* ---- cells ---- */

static const struct {
    char letter;
    uint32_t at, bytes; /* 0 bytes: a bit */
} banks[] = {
    {'X', FORMULA_X, 0}, {'C', FORMULA_C, 0}, {'V', FORMULA_V, 2}, {'N', FORMULA_N, 2}, {'D', FORMULA_D, 4}, {'R', FORMULA_R, 4},
};

static void set_cell(unsigned bank, uint32_t element, uint32_t value)
{
    uint32_t bytes = banks[bank].bytes, at = banks[bank].at;
    if (bytes == 0) {
        formula_set_bit(memory, at, element, value != 0);
    }
    for (uint32_t i = 0; i < bytes; i++) {
        memory[at + bytes * element + i] = (uint8_t)(value >> 8 * i);
    }
}

static uint32_t cell(unsigned bank, uint32_t element)
{
    uint32_t bytes = banks[bank].bytes, at = banks[bank].at, value = 0;
    if (bytes == 0) {
        return formula_bit(memory, at, element);
    }
    for (uint32_t i = 0; i < bytes; i++) {
        value |= (uint32_t)memory[at + bytes * element + i] << 8 * i;
    }
    return value;
}

static void show_cell(unsigned bank, uint32_t element)
{
    uint32_t value = cell(bank, element);
    printf("%c%" PRIu32 "=", banks[bank].letter, element);
    switch (banks[bank].letter) {
    case 'R': printf("0x%08" PRIX32 "\n", value); break;
    case 'N': printf("%d\n", (int16_t)value); break;
    default: printf("%" PRId32 "\n", (int32_t)value); break;
    }
}

/* ---- lines ---- */

static int has_key(const char *key)
{
    size_t length = strlen(key);
    return line.length >= length && memcmp(line.bytes, key, length) == 0;
}

static void keep(struct text *text, size_t from)
{
    text->length = line.length - from;
    memcpy(text->bytes, line.bytes + from, text->length);
}

static void take_line(void)
{
    char *value = strchr((char *)line.bytes, '=');
    if (has_key("target=")) {
        keep(&target, 7);
    } else if (has_key("expr=")) {
        keep(&expr, 5);
    } else if (value != NULL) {
        for (unsigned bank = 0; bank < sizeof banks / sizeof banks[0]; bank++) {
            if (line.bytes[0] == (uint8_t)banks[bank].letter) {
                set_cell(bank, strtoul((char *)line.bytes + 1, NULL, 10), (uint32_t)strtoll(value + 1, NULL, 0));
            }
        }
    }
}

static void answer_case(void)
{
    struct formula_report report;
    formula_compile_and_run(target.bytes, target.length, expr.bytes, expr.length, memory, sizeof memory, code, sizeof code, index_code,
                            sizeof index_code, 0, &report);
    printf("answer=%" PRIu32 "\nplace=%" PRIu32 "\n", report.answer, report.place);
    if (report.answer == FORMULA_DONE) {
        show_cell(report.bank, report.element);
    }
    printf("\n");
    memset(memory, 0, sizeof memory);
    target.length = expr.length = 0;
}

/* 0 at the end of the file. */
static int read_line(FILE *file)
{
    int byte = getc(file);
    line.length = 0;
    for (; byte != EOF && byte != '\n'; byte = getc(file)) {
        if (line.length < LONGEST - 1) {
            line.bytes[line.length++] = (uint8_t)byte;
        }
    }
    line.bytes[line.length] = '\0';
    return byte != EOF;
}

int main(int words, char **word)
{
    FILE *file = words == 2 ? fopen(word[1], "rb") : NULL;
    int open = 0;
    if (file == NULL) {
        printf("no vectors\n");
        return 1;
    }
    while (read_line(file)) {
        if (line.length != 0) {
            take_line();
            open = 1;
        } else {
            answer_case();
            open = 0;
        }
    }
    if (open) {
        answer_case();
    }
    return 0;
}
