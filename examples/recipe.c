/* A recipe of the dye box: its formulas are compiled once at the start and run in every scan.
 * tests/host/run.sh builds it and compares what it prints with recipe.expected. */
#include <stdio.h>
#include <string.h>

#include "formula.h"

/* Each line keeps its code, and that of its target's index, which a plain cell has not. A box that is short of memory compiles
 * into one buffer and keeps the first FORMULA_INSTRUCTION_BYTES * instructions bytes of each. */
struct line {
    const char *target;
    const char *formula;
    uint32_t instructions;
    uint32_t index_instructions;
    uint8_t code[FORMULA_CODE_BYTES];
    uint8_t index_code[FORMULA_CODE_BYTES];
};

/* V0 is the weight of the wool in grams, V1 the number of skeins, V2 the vat, X0 the switch of the pump.
 * R10 to R12 hold the dye in millilitres for each kilogram, one for each vat; D20 to D22 count the skeins of each vat; D40 holds
 * the tick at which the pump was started, and C1 comes on 150 ms later, also across the turn of the counter. */
static struct line recipe[] = {
    {"R0", "V0 / 1000.0 * R[10 + V2]", 0, 0, {0}, {0}},
    {"D0", "ROUND(R0)", 0, 0, {0}, {0}},
    {"R1", "R0 / V1", 0, 0, {0}, {0}},
    {"C0", "X0 && R0 >= 0.5", 0, 0, {0}, {0}},
    {"V9", "MIN(D0 * 4, 1000)", 0, 0, {0}, {0}},
    {"D[20 + V2]", "D[20 + V2] + V1", 0, 0, {0}, {0}},
    {"C1", "SINCE(D40) >= 150", 0, 0, {0}, {0}},
};
#define LINES (sizeof recipe / sizeof recipe[0])

static uint8_t memory[FORMULA_MEMORY_BYTES];

/* ---- the cells, as the firmware's own code reads and writes them ---- */

static void set_v(unsigned element, uint16_t value)
{
    memory[FORMULA_V + 2 * element] = (uint8_t)value;
    memory[FORMULA_V + 2 * element + 1] = (uint8_t)(value >> 8);
}

static void set_word(size_t at, uint32_t bits)
{
    for (size_t i = 0; i < 4; i++) {
        memory[at + i] = (uint8_t)(bits >> 8 * i);
    }
}

static void set_r(unsigned element, float value)
{
    uint32_t bits;
    memcpy(&bits, &value, 4);
    set_word(FORMULA_R + 4 * element, bits);
}

/* ---- compiling at the start ---- */

/* Points at the byte of the formula that a refusal is about. */
static void show_refusal(const char *formula, const struct formula_report *report)
{
    char words[FORMULA_WORDS_BYTES + 1];
    printf("  refused: answer %u at place %u, %s\n", (unsigned)report->answer, (unsigned)report->place,
           formula_answer_text(report->answer, words));
    printf("    %s\n    %*s\n", formula, (int)report->place + 1, "^");
}

/* 1 if the line can be run. The code stays in the line until the next recipe is loaded. */
static int load(struct line *line)
{
    struct formula_report report;
    char words[FORMULA_WORDS_BYTES + 1];
    const uint8_t *text = (const uint8_t *)line->formula;
    formula_compile(text, strlen(line->formula), line->code, sizeof line->code, &report);
    if (report.answer != FORMULA_DONE) {
        show_refusal(line->formula, &report);
        return 0;
    }
    line->instructions = report.count;
    formula_compile_target((const uint8_t *)line->target, strlen(line->target), line->index_code, sizeof line->index_code,
                           &report);
    if (report.answer != FORMULA_DONE) {
        printf("  refused: answer %u, %s\n", (unsigned)report.answer, formula_answer_text(report.answer, words));
        return 0;
    }
    line->index_instructions = report.count;
    /* Not needed after compiling, since compiled code is always accepted. Code that was kept or sent must be checked
     * before it is trusted; formula_run checks it again each time. */
    formula_check(line->code, sizeof line->code, line->instructions, &report);
    return report.answer == FORMULA_DONE;
}

static int load_recipe(void)
{
    for (size_t i = 0; i < LINES; i++) {
        printf("%s = %s\n", recipe[i].target, recipe[i].formula);
        if (!load(&recipe[i])) {
            return 0;
        }
        printf("  %u instructions\n", (unsigned)recipe[i].instructions);
    }
    return 1;
}

/* ---- one scan ---- */

/* The cell's name comes from the report: where an index names it, no one could work it out again after the store. */
static void show_value(const struct line *line, const struct formula_report *report)
{
    char bank = "XCVNDR"[report->bank];
    unsigned element = (unsigned)report->element;
    float real;
    int32_t integer;
    char words[FORMULA_WORDS_BYTES + 1];
    memcpy(&real, &report->bits, 4);
    memcpy(&integer, &report->bits, 4);
    if (report->answer != FORMULA_DONE) {
        printf("  %s keeps its value: answer %u, %s\n", line->target, (unsigned)report->answer,
               formula_answer_text(report->answer, words));
    } else if (report->kind == FORMULA_REAL) {
        printf("  %c%u = %.3f\n", bank, element, real);
    } else {
        printf("  %c%u = %ld\n", bank, element, (long)integer);
    }
}

/* The flags stay until someone clears them, here at the end of each scan. After a fault the later lines of the scan
 * have used a cell that was not written, so nothing is dosed from that scan. */
static void show_and_clear_flags(void)
{
    static const char *const names[] = {"IndexError", "OutOfRange", "Overflow", "DividedByZero"};
    int faults = 0;
    for (unsigned i = 0; i < 4; i++) {
        if (memory[FORMULA_INDEX_ERROR + i] != 0) {
            printf("  flag %s\n", names[i]);
            memory[FORMULA_INDEX_ERROR + i] = 0;
            faults++;
        }
    }
    printf(faults == 0 ? "  dose\n" : "  do not dose\n");
}

/* The millilitres stand on the panel before anything is stored: no cell and no flag is written. */
static void show_on_panel(uint32_t tick)
{
    const struct line *line = &recipe[0];
    struct formula_report report;
    char words[FORMULA_WORDS_BYTES + 1];
    float millilitres;
    formula_evaluate(line->code, sizeof line->code, line->instructions, memory, sizeof memory, tick, &report);
    memcpy(&millilitres, &report.bits, 4);
    if (report.answer == FORMULA_DONE) {
        printf("  panel: %.3f ml\n", millilitres);
    } else {
        printf("  panel: %s\n", formula_answer_text(report.answer, words));
    }
}

/* The tick is the box's counter of milliseconds, read once for the whole scan. */
static void scan(uint32_t tick)
{
    for (size_t i = 0; i < LINES; i++) {
        struct line *line = &recipe[i];
        struct formula_report report;
        /* A run is given a plain cell's name, or the bank letter of a target with an index. */
        size_t target_len = line->index_instructions == 0 ? strlen(line->target) : 1;
        formula_run(line->code, sizeof line->code, line->instructions, memory, sizeof memory,
                    (const uint8_t *)line->target, target_len, line->index_code, sizeof line->index_code,
                    line->index_instructions, tick, &report);
        show_value(line, &report);
    }
    show_and_clear_flags();
}

static void scan_with(uint32_t tick, uint16_t grams, uint16_t skeins, uint16_t vat)
{
    printf("scan: %u g, %u skeins, vat %u\n", grams, skeins, vat);
    set_v(0, grams);
    set_v(1, skeins);
    set_v(2, vat);
    show_on_panel(tick);
    scan(tick);
}

/* What the screen shows for a formula with a slip. */
static void show_a_slip(void)
{
    static struct line slip = {"D1", "ROUND(R0 * 1.5", 0, 0, {0}, {0}};
    printf("%s = %s\n", slip.target, slip.formula);
    if (load(&slip)) {
        printf("  not expected\n");
    }
}

int main(void)
{
    if (!formula_float_mode_ok() || !load_recipe()) {
        return 1;
    }
    show_a_slip();
    formula_set_bit(memory, FORMULA_X, 0, 1);
    set_r(10, 12.5f);
    set_r(11, 8.0f);
    set_r(12, 20.25f);
    set_word(FORMULA_D + 4 * 40, 0xFFFFFF9Cu);
    scan_with(0xFFFFFF9Cu, 1500, 6, 0);
    scan_with(0, 40000, 16, 2);
    scan_with(100, 250, 0, 1);
    scan_with(200, 1500, 6, 300);
    return 0;
}
