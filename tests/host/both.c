/* Both libraries in one program: code compiled by either is run by the other, and what has a real is refused by the one without. */
#include <stdio.h>
#include <string.h>

#include "formula_int.h"

static uint8_t code[2][FORMULA_CODE_BYTES], memory[2][FORMULA_MEMORY_BYTES];
static struct formula_report report[2];

static void fail(const char *formula)
{
    printf("both: %s\n", formula);
}

/* 1 where the two do the same. */
static int same(const char *formula)
{
    const uint8_t *text = (const uint8_t *)formula;
    size_t length = strlen(formula);
    formula_compile(text, length, code[0], sizeof code[0], &report[0]);
    formula_int_compile(text, length, code[1], sizeof code[1], &report[1]);
    if (memcmp(&report[0], &report[1], sizeof report[0]) != 0 || memcmp(code[0], code[1], sizeof code[0]) != 0) {
        return 0;
    }
    uint32_t n = report[0].count;
    formula_run(code[1], sizeof code[1], n, memory[0], sizeof memory[0], (const uint8_t *)"D7", 2, code[0], 0, 0, 5, &report[0]);
    formula_int_run(code[0], sizeof code[0], n, memory[1], sizeof memory[1], (const uint8_t *)"D7", 2, code[1], 0, 0, 5, &report[1]);
    return memcmp(&report[0], &report[1], sizeof report[0]) == 0 && memcmp(memory[0], memory[1], sizeof memory[0]) == 0;
}

int main(void)
{
    static const char *const formulas[] = {"7", "D7 * 3 + SINCE(2)", "1 / V0", "SUMR(D0, 9) << 2", "1 +", "SUMR(D0, 0)", "", "1 $"};
    int failed = 0;
    for (size_t i = 0; i < sizeof formulas / sizeof formulas[0]; i++) {
        if (!same(formulas[i])) {
            fail(formulas[i]);
            failed = 1;
        }
    }
    formula_int_compile((const uint8_t *)"1 + R0", 6, code[1], sizeof code[1], &report[1]);
    if (report[1].answer != FORMULA_NO_REALS || report[1].place != 4) {
        fail("1 + R0");
        failed = 1;
    }
    if (!failed) {
        puts("both libraries in one program, 0 differences");
    }
    return failed;
}
