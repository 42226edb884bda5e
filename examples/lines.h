/* Formulas that are compiled at the start and run every scan: what firmware.c and feeder.c share. Before it is included,
 *   OPERATION(name)  is the function of the library that is linked, as formula_compile for compile,
 *   write_answer     writes what an answer means. */
#include <stddef.h>
#include <stdint.h>

#include "board.h"

#define SCAN_MILLISECONDS 50u

struct line {
    const char *target, *formula;
};

/* Formulas are compiled into one buffer, and only what was written is kept, code and then index code. */
struct kept {
    const uint8_t *code, *index_code;
    uint32_t instructions, index_instructions, target_len;
};

static uint8_t kept_code[4096], buffer[FORMULA_CODE_BYTES];
static size_t kept_bytes;
static uint8_t memory[FORMULA_MEMORY_BYTES];

/* NULL where there is no room. */
static const uint8_t *keep(uint32_t instructions)
{
    uint8_t *at = kept_code + kept_bytes;
    size_t bytes = FORMULA_INSTRUCTION_BYTES * instructions;
    if (bytes > sizeof kept_code - kept_bytes) {
        return NULL;
    }
    for (size_t i = 0; i < bytes; i++) {
        at[i] = buffer[i];
    }
    kept_bytes += bytes;
    return at;
}

/* ---- what is shown ---- */

static void show_number(uint32_t number)
{
    char digits[11];
    size_t at = sizeof digits - 1;
    digits[at] = '\0';
    do {
        digits[--at] = (char)('0' + number % 10);
        number /= 10;
    } while (number != 0);
    board_write(digits + at);
}

static void show(const char *before, uint32_t number, const char *after)
{
    board_write(before);
    show_number(number);
    board_write(after);
}

/* The flags are cleared for the next scan. */
static int show_flags(void)
{
    static const char *const names[] = {"IndexError, ", "OutOfRange, ", "Overflow, ", "DividedByZero, "};
    int faults = 0;
    for (unsigned i = 0; i < 4; i++) {
        if (memory[FORMULA_INDEX_ERROR + i] != 0) {
            board_write(names[i]);
            memory[FORMULA_INDEX_ERROR + i] = 0;
            faults++;
        }
    }
    return faults;
}

static void show_bits(uint32_t bank, uint32_t first, uint32_t count)
{
    for (uint32_t i = 0; i < count; i++) {
        board_write(formula_bit(memory, bank, first + i) != 0 ? "1" : "0");
    }
}

/* ---- the start ---- */

static uint32_t length(const char *text)
{
    uint32_t n = 0;
    while (text[n] != '\0') {
        n++;
    }
    return n;
}

static int refuse(const struct line *line, const struct formula_report *report)
{
    board_write(line->formula);
    show(": ", report->answer, ", ");
    write_answer(report->answer);
    show(", at ", report->place, "\n");
    return 0;
}

static int load(const struct line *line, struct kept *kept)
{
    struct formula_report report;
    kept->target_len = length(line->target);
    OPERATION(compile_target)((const uint8_t *)line->target, kept->target_len, buffer, sizeof buffer, &report);
    if (report.answer != FORMULA_DONE) {
        return refuse(line, &report);
    }
    if (report.count != 0) {
        kept->target_len = 1; /* a target with an index is run by its bank's letter and the index code */
    }
    kept->index_instructions = report.count;
    kept->index_code = keep(report.count);
    OPERATION(compile)((const uint8_t *)line->formula, length(line->formula), buffer, sizeof buffer, &report);
    if (report.answer != FORMULA_DONE) {
        return refuse(line, &report);
    }
    kept->instructions = report.count;
    kept->code = keep(report.count);
    return kept->code != NULL && kept->index_code != NULL;
}

static int load_lines(const struct line *lines, struct kept *kept, size_t count)
{
    for (size_t i = 0; i < count; i++) {
        if (!load(&lines[i], &kept[i])) {
            return 0;
        }
    }
    show("", (uint32_t)count, " formulas, ");
    show("", (uint32_t)kept_bytes, " bytes of code\n");
    return 1;
}

/* ---- a scan ---- */

static void set_v(unsigned element, uint32_t value)
{
    memory[FORMULA_V + 2 * element] = (uint8_t)value;
    memory[FORMULA_V + 2 * element + 1] = (uint8_t)(value >> 8);
}

static uint32_t word(size_t at)
{
    return memory[at] | (uint32_t)memory[at + 1] << 8 | (uint32_t)memory[at + 2] << 16 | (uint32_t)memory[at + 3] << 24;
}

/* The card's eight bytes are the bank X as they are: no bit is touched. */
static void read_inputs(void)
{
    board_read_inputs(memory + FORMULA_X);
}

static void run_lines(const struct line *lines, const struct kept *kept, size_t count, uint32_t tick)
{
    for (size_t i = 0; i < count; i++) {
        struct formula_report report;
        OPERATION(run)(kept[i].code, FORMULA_INSTRUCTION_BYTES * kept[i].instructions, kept[i].instructions, memory, sizeof memory,
                       (const uint8_t *)lines[i].target, kept[i].target_len, kept[i].index_code,
                       FORMULA_INSTRUCTION_BYTES * kept[i].index_instructions, kept[i].index_instructions, tick, &report);
    }
}

/* Until it is time; a real box sleeps here. */
static void wait_until(uint32_t time)
{
    while (board_milliseconds() - time >= 0x80000000u) {
    }
}
