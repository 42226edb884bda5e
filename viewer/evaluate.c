/* What the native library gives for the cases of viewer/test.sh: each case is some lines and an empty one on standard input, and one line of JSON on
 * standard output.
 *
 *   tick=0xFFFFFF00
 *   X3=1
 *   D16=1 - 22        a formula, which the library works out and stores, as on the page
 *   target=D[V10]
 *   expr=IF(X3, D16, N2) * 2
 */
#include <stdio.h>
#include <stdlib.h>
#include <string.h>
#include "formula.h"

#define LINE_BYTES 2048

struct trial {
    uint8_t memory[FORMULA_MEMORY_BYTES];
    char target[LINE_BYTES], expr[LINE_BYTES];
    uint32_t tick, set; /* set: the answer of the last cell that was refused */
};

static uint8_t code[FORMULA_CODE_BYTES], index_code[FORMULA_CODE_BYTES];

static struct formula_report run(uint8_t *memory, const char *target, const char *expr, uint32_t tick)
{
    struct formula_report report;
    formula_compile_and_run((const uint8_t *)target, strlen(target), (const uint8_t *)expr, strlen(expr), memory,
                            FORMULA_MEMORY_BYTES, code, sizeof code, index_code, sizeof index_code, tick, &report);
    return report;
}

/* The shortest decimal that the C library reads as this single, and the pattern. */
static void print_single(uint32_t bits)
{
    float value;
    char text[32];
    int digits = 0;
    memcpy(&value, &bits, sizeof value);
    do
        snprintf(text, sizeof text, "%.*g", ++digits, (double)value);
    while (digits < 9 && strtof(text, NULL) != value);
    printf("%s (0x%08X)", text, (unsigned)bits);
}

static uint32_t number_at(const uint8_t *memory, uint32_t at, uint32_t bytes)
{
    uint32_t number = 0;
    for (uint32_t i = bytes; i > 0; i--)
        number = number << 8 | memory[at + i - 1];
    return number;
}

static void print_cell(const uint8_t *memory, uint32_t bank, uint32_t element)
{
    switch (bank) {
    case FORMULA_BANK_X: printf("%d", formula_bit(memory, FORMULA_X, element)); break;
    case FORMULA_BANK_C: printf("%d", formula_bit(memory, FORMULA_C, element)); break;
    case FORMULA_BANK_V: printf("%d", (int)number_at(memory, FORMULA_V + 2 * element, 2)); break;
    case FORMULA_BANK_N: printf("%d", (int16_t)number_at(memory, FORMULA_N + 2 * element, 2)); break;
    case FORMULA_BANK_D: printf("%d", (int)number_at(memory, FORMULA_D + 4 * element, 4)); break;
    case FORMULA_BANK_R: print_single(number_at(memory, FORMULA_R + 4 * element, 4)); break;
    }
}

static void print_words(const struct formula_report *report)
{
    char words[FORMULA_WORDS_BYTES + 1];
    printf("\"answer\":%u,\"words\":\"%s\",", (unsigned)report->answer, formula_answer_text(report->answer, words));
}

static void print_value(const struct trial *trial)
{
    struct formula_report made, report;
    formula_compile((const uint8_t *)trial->expr, strlen(trial->expr), code, sizeof code, &made);
    formula_evaluate(code, sizeof code, made.count, trial->memory, sizeof trial->memory, trial->tick, &report);
    print_words(&report);
    printf("\"count\":%u,\"kind\":%u,\"bits\":%u,\"value\":\"", (unsigned)report.count, (unsigned)report.kind, (unsigned)report.bits);
    if (report.kind == FORMULA_REAL)
        print_single(report.bits);
    else
        printf("%d (0x%08X)", (int)report.bits, (unsigned)report.bits);
    printf("\",");
}

static void print_stored(const struct trial *trial)
{
    static const char *const names[] = { "IndexError", "OutOfRange", "Overflow", "DividedByZero" };
    uint8_t memory[FORMULA_MEMORY_BYTES];
    memcpy(memory, trial->memory, sizeof memory);
    struct formula_report report = run(memory, trial->target, trial->expr, trial->tick);
    printf("\"stored\":{");
    print_words(&report);
    printf("\"cell\":\"%c%u\",\"holds\":\"", "XCVNDR"[report.bank], (unsigned)report.element);
    print_cell(memory, report.bank, report.element);
    printf("\",\"before\":\"");
    print_cell(trial->memory, report.bank, report.element);
    printf("\",\"flags\":\"");
    for (uint32_t i = 0; i < 4; i++)
        if (memory[FORMULA_INDEX_ERROR + i] != trial->memory[FORMULA_INDEX_ERROR + i])
            printf("; flag %s set", names[i]);
    printf("\"}");
}

static void take(struct trial *trial, const char *key, const char *value)
{
    if (strcmp(key, "tick") == 0)
        trial->tick = (uint32_t)strtoul(value, NULL, 0);
    else if (strcmp(key, "target") == 0)
        snprintf(trial->target, sizeof trial->target, "%s", value);
    else if (strcmp(key, "expr") == 0)
        snprintf(trial->expr, sizeof trial->expr, "%s", value);
    else if (key[0] == 'X')
        formula_set_bit(trial->memory, FORMULA_X, (uint32_t)strtoul(key + 1, NULL, 10), value[0] == '1');
    else {
        uint8_t tried[FORMULA_MEMORY_BYTES];
        memcpy(tried, trial->memory, sizeof tried);
        struct formula_report report = run(tried, key, value, trial->tick);
        if (report.answer == FORMULA_DONE)
            memcpy(trial->memory, tried, sizeof tried);
        else
            trial->set = report.answer;
    }
}

int main(void)
{
    static struct trial trial;
    char line[LINE_BYTES];
    while (fgets(line, sizeof line, stdin)) {
        line[strcspn(line, "\n")] = 0;
        char *equals = strchr(line, '=');
        if (equals) {
            *equals = 0;
            take(&trial, line, equals + 1);
            continue;
        }
        printf("{\"set\":%u,", (unsigned)trial.set);
        print_value(&trial);
        print_stored(&trial);
        printf("}\n");
        memset(&trial, 0, sizeof trial);
    }
    return 0;
}
