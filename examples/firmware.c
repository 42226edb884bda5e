/* The main loop of a dye box: forty formulas are compiled at the start and run every 50 ms, and the fault flags are shown.
 * controller/run.sh builds it for emulated boards and compares what it prints with firmware.expected. Of the board it wants board.h only
 * (controller/board); of the C library memset and memcpy. */
#include "formula.h"

static void write_answer(uint32_t answer);
#define OPERATION(name) formula_##name
#include "lines.h"

#define SCANS 6u /* a box in the field goes on for ever */

/* ---- the recipe ----
 * X0 door closed, X1 emergency stop, X10-X17 pump ready. V0 wool in grams, V1 litres in the vat, V10-V17 share of each dye in thousandths,
 * V20-V27 microlitres a stroke. R1 dye in millilitres a kilogram, R3 wanted temperature. N10-N17 the last eight temperatures, in tenths.
 * D10-D17 strokes wanted, D20-D27 strokes done. */
/* Millilitres, strokes wanted, the pump on or off, strokes done. */
#define PUMP(p)                                                \
    {"R1" #p, "R0 * V1" #p " / 1000.0"},                       \
    {"D1" #p, "ROUND(R1" #p " * 1000.0 / V2" #p ")"},          \
    {"C1" #p, "C0 && X1" #p " && D2" #p " < D1" #p},           \
    {"D2" #p, "D2" #p " + C1" #p}

static const struct line recipe[] = {
    {"D0", "(D0 + 1) % 100000"},
    {"C0", "X0 && !X1"},
    {"R0", "V0 / 1000.0 * R1"},
    {"N[10 + D0 % 8]", "600 + D0"},
    {"R2", "AVGR(N10, 8) / 10.0"},
    {"C1", "C0 && R2 < R3"},
    PUMP(0), PUMP(1), PUMP(2), PUMP(3), PUMP(4), PUMP(5), PUMP(6), PUMP(7),
    {"R4", "R0 / V1"},
    {"D3", "SUMR(D20, 8)"},
};
#define LINES (sizeof recipe / sizeof recipe[0])
_Static_assert(LINES == 40, "forty formulas a scan");

static struct kept kept[LINES];

static void write_answer(uint32_t answer)
{
    char words[FORMULA_WORDS_BYTES + 1];
    board_write(formula_answer_text(answer, words));
}

static void set_word(size_t at, uint32_t value)
{
    for (unsigned i = 0; i < 4; i++) {
        memory[at + i] = (uint8_t)(value >> 8 * i);
    }
}

/* After a fault later lines have used a cell that was not written, so nothing is dosed. */
static void show_scan(unsigned scan)
{
    show("scan ", scan, ": ");
    board_write(show_flags() == 0 ? "dose" : "do not dose");
    show(", ", word(FORMULA_D + 4 * 3), " strokes, pumps ");
    show_bits(FORMULA_C, 10, 8);
    board_write("\n");
}

/* What weighing and the operator would give. In the fourth scan the litres are missing. */
static void weigh(unsigned scan)
{
    set_v(0, 1500);
    set_v(1, scan == 4 ? 0 : 40);
    for (unsigned p = 0; p < 8; p++) {
        set_v(10 + p, 125);
        set_v(20 + p, 480 + 100 * p);
    }
    set_word(FORMULA_R + 4 * 1, 0x41A00000); /* 20.0 ml a kilogram */
    set_word(FORMULA_R + 4 * 3, 0x42820000); /* 65.0 degrees */
}

static void scan_forever(void)
{
    uint32_t next = board_milliseconds();
    for (unsigned scan = 1; scan <= SCANS; scan++) {
        wait_until(next);
        next += SCAN_MILLISECONDS;
        read_inputs();
        weigh(scan);
        run_lines(recipe, kept, LINES, board_milliseconds());
        show_scan(scan);
    }
}

int main(void)
{
    int ready = formula_float_mode_ok() && load_lines(recipe, kept, LINES);
    if (ready) {
        scan_forever();
    }
    board_end(!ready);
    return 0;
}
