/* The scan list of the dye box: its formulas stand in one table, and one call compiles and runs them all in every scan.
 * examples/recipe.c keeps compiled code instead, which costs more memory and less time. tests/host/run.sh builds this and compares what it
 * prints with scan.expected. */
#include <stdio.h>
#include <string.h>

#include "formula.h"

/* V0 is the weight of the wool in grams, V1 the number of skeins, V2 the vat; R10 to R12 hold the dye in millilitres for each kilogram, and
 * D20 to D22 count the skeins of each vat. */
static const char *const lines[][2] = {
    {"R0", "V0 / 1000.0 * R[10 + V2]"},
    {"D0", "ROUND(R0)"},
    {"R1", "R0 / V1"},
    {"D[20 + V2]", "D[20 + V2] + V1"},
    {"C0", "X0 && R0 >= 0.5"},
};
#define LINES (sizeof lines / sizeof lines[0])

/* The texts one after the other, and four words a line: where its target and its expression begin, and how long they are. */
static uint8_t texts[1024];
static uint32_t texts_len;
static uint32_t places[4 * LINES];

/* One pair of code buffers serves all lines. */
static uint8_t memory[FORMULA_MEMORY_BYTES];
static uint8_t code[FORMULA_CODE_BYTES];
static uint8_t index_code[FORMULA_CODE_BYTES];

static void set_v(unsigned element, uint16_t value)
{
    memory[FORMULA_V + 2 * element] = (uint8_t)value;
    memory[FORMULA_V + 2 * element + 1] = (uint8_t)(value >> 8);
}

static void set_r(unsigned element, float value)
{
    uint32_t bits;
    memcpy(&bits, &value, 4);
    for (unsigned i = 0; i < 4; i++) {
        memory[FORMULA_R + 4 * element + i] = (uint8_t)(bits >> 8 * i);
    }
}

static int32_t get_d(unsigned element)
{
    uint32_t bits = 0;
    int32_t value;
    for (unsigned i = 0; i < 4; i++) {
        bits |= (uint32_t)memory[FORMULA_D + 4 * element + i] << 8 * i;
    }
    memcpy(&value, &bits, 4);
    return value;
}

static void add_text(uint32_t *words, const char *text)
{
    words[0] = texts_len;
    words[1] = (uint32_t)strlen(text);
    memcpy(texts + texts_len, text, words[1]);
    texts_len += words[1];
}

static void load(void)
{
    for (size_t i = 0; i < LINES; i++) {
        add_text(&places[4 * i], lines[i][0]);
        add_text(&places[4 * i + 2], lines[i][1]);
    }
}

/* ---- moving lines ---- */

#define CELLS 1152

/* Which cells a line reads, and which it writes: one, or a whole bank for a target with an index. */
static void cells_of(size_t line, uint8_t *reads, uint8_t *writes)
{
    static const uint16_t first[] = {0, 64, 128, 384, 640, 896, CELLS};
    struct formula_report target, expr;
    uint16_t list[CELLS];
    memset(reads, 0, CELLS);
    memset(writes, 0, CELLS);
    formula_compile_target((const uint8_t *)lines[line][0], strlen(lines[line][0]), index_code, sizeof index_code, &target);
    formula_compile((const uint8_t *)lines[line][1], strlen(lines[line][1]), code, sizeof code, &expr);
    if (target.answer != FORMULA_DONE || expr.answer != FORMULA_DONE) {
        return;
    }
    uint32_t n = formula_cells(code, sizeof code, expr.count, index_code, sizeof index_code, target.count, list, CELLS);
    for (uint32_t i = 0; i < n; i++) {
        reads[list[i]] = 1;
    }
    if (target.count == 0) {
        writes[first[target.bank] + target.element] = 1;
    } else {
        memset(writes + first[target.bank], 1, (size_t)(first[target.bank + 1] - first[target.bank]));
    }
}

/* 1 if the lines may change places: then the memory and both answers are the same in either order. */
static int independent(size_t a, size_t b)
{
    static uint8_t reads_a[CELLS], writes_a[CELLS], reads_b[CELLS], writes_b[CELLS];
    cells_of(a, reads_a, writes_a);
    cells_of(b, reads_b, writes_b);
    for (size_t i = 0; i < CELLS; i++) {
        if ((writes_a[i] && (writes_b[i] || reads_b[i])) || (reads_a[i] && writes_b[i])) {
            return 0;
        }
    }
    return 1;
}

/* ---- one scan ---- */

static void scan(uint32_t tick, uint16_t grams, uint16_t skeins, uint16_t vat)
{
    struct formula_answers result;
    char words[FORMULA_WORDS_BYTES + 1];
    set_v(0, grams);
    set_v(1, skeins);
    set_v(2, vat);
    formula_run_list(places, 4 * LINES, texts, texts_len, memory, sizeof memory, code, sizeof code, index_code, sizeof index_code,
                     tick, &result);
    printf("scan: %u g, %u skeins, vat %u: answer %u\n", grams, skeins, vat, (unsigned)result.answer);
    for (size_t i = 0; i < LINES; i++) {
        printf("  %s: %s\n", lines[i][0], formula_answer_text(result.answers[i], words));
    }
    printf("  D0 = %ld, D20 = %ld\n", (long)get_d(0), (long)get_d(20));
}

int main(void)
{
    if (!formula_float_mode_ok()) {
        return 1;
    }
    load();
    for (size_t i = 0; i + 1 < LINES; i++) {
        printf("%s and %s %s\n", lines[i][0], lines[i + 1][0], independent(i, i + 1) ? "may change places" : "may not");
    }
    formula_set_bit(memory, FORMULA_X, 0, 1);
    set_r(10, 12.5f);
    scan(0, 1500, 6, 0);
    scan(50, 250, 0, 0);
    return 0;
}
