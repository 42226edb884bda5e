/* Compiles, checks and runs the scans of bench/ on a board, for counter.c to count: scans INPUTS
 * INPUTS is what `bench inputs` prints: the memory in hexadecimal digits, then a line for each formula with the scan's name, target and text.
 * A scan is forty formulas; where a single one is named, it is all forty. Prints each scan's name and what it came to. */
#include <stdio.h>
#include <stdlib.h>
#include <string.h>

#include "formula.h"

#define SCAN 40u
#define TICK 86399000u
#define LONGEST 1100u

struct formula {
    char target[8];
    char text[LONGEST];
    uint32_t target_len, text_len, instructions;
    uint8_t code[FORMULA_CODE_BYTES];
};

static struct formula formulas[SCAN];
static unsigned number; /* formulas that were read for this scan */
static uint8_t first_memory[FORMULA_MEMORY_BYTES], memory[FORMULA_MEMORY_BYTES];
static const uint8_t no_index[1];

/* The counter knows these two by their names. */
__attribute__((noinline)) void count_begin(void)
{
    __asm__ volatile("" : : : "memory");
}

__attribute__((noinline)) void count_end(void)
{
    __asm__ volatile("" : : : "memory");
}

/* ---- what is counted ---- */

static uint32_t compile(struct formula *formula)
{
    struct formula_report report;
    formula_compile((const uint8_t *)formula->text, formula->text_len, formula->code, sizeof formula->code, &report);
    formula->instructions = report.count;
    return report.answer;
}

static uint32_t check(struct formula *formula)
{
    struct formula_report report;
    formula_check(formula->code, sizeof formula->code, formula->instructions, &report);
    return report.answer;
}

static uint32_t run(struct formula *formula)
{
    struct formula_report report;
    formula_run(formula->code, sizeof formula->code, formula->instructions, memory, sizeof memory, (const uint8_t *)formula->target,
                formula->target_len, no_index, 0, 0, TICK, &report);
    return report.answer;
}

/* How many were not done. */
static unsigned each(uint32_t (*operation)(struct formula *))
{
    unsigned refused = 0;
    count_begin();
    for (unsigned i = 0; i < SCAN; i++) {
        refused += operation(&formulas[number == 1 ? 0 : i]) != FORMULA_DONE;
    }
    count_end();
    return refused;
}

static unsigned do_scan(const char *name)
{
    unsigned refused;
    memcpy(memory, first_memory, sizeof memory);
    refused = each(compile);
    refused += each(check);
    refused += each(run);
    printf("%s %u formulas, %u not done\n", name, number, refused);
    return refused;
}

/* ---- the inputs ---- */

static int read_memory(FILE *file)
{
    for (size_t i = 0; i < sizeof first_memory; i++) {
        unsigned byte;
        if (fscanf(file, "%2x", &byte) != 1) {
            return 0;
        }
        first_memory[i] = (uint8_t)byte;
    }
    return 1;
}

int main(int words, char **word)
{
    static char name[32], now[32];
    static struct formula next;
    FILE *file = words == 2 ? fopen(word[1], "rb") : NULL;
    unsigned refused = 0;
    if (file == NULL || !read_memory(file)) {
        printf("no inputs\n");
        return 1;
    }
    while (fscanf(file, "%31s %7s %1024[^\n]", now, next.target, next.text) == 3) {
        if (number != 0 && (strcmp(name, now) != 0 || number == SCAN)) {
            refused += do_scan(name);
            number = 0;
        }
        strcpy(name, now);
        next.target_len = (uint32_t)strlen(next.target);
        next.text_len = (uint32_t)strlen(next.text);
        formulas[number++] = next;
    }
    return refused + do_scan(name) != 0;
}
