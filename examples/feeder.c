/* The main loop of a yarn feeder, which has no floating point: its formulas are compiled at the start and run every 50 ms, and the fault flags are shown.
 * controller/run.sh builds it with the library of formula_int.h for emulated boards and compares what it prints with feeder.expected. Of the board it wants
 * board.h only (controller/board); of the C library memset and memcpy. */
#include "formula_int.h"

static void write_answer(uint32_t answer);
#define OPERATION(name) formula_int_##name
#include "lines.h"

#define SCANS 6u /* a feeder in the field goes on for ever */

/* ---- the recipe ----
 * X0 guard closed, X1 emergency stop, X10-X17 yarn threaded. V0 courses a minute, V1 the tension measured, V2 the highest good one, V3 needles, V10-V17
 * tenths of a millimetre of each yarn a course, V20-V27 millimetres that its wheel feeds in a scan. D3 courses times 60,000, D4 courses, D10-D17 millimetres
 * wanted, D20-D27 millimetres fed. N10-N17 the last eight tensions. */

/* Wanted, the wheel on or off, fed. */
#define YARN(p)                                               \
    {"D1" #p, "D4 * V1" #p " / 10"},                          \
    {"C1" #p, "C0 && X1" #p " && D2" #p " < D1" #p},          \
    {"D2" #p, "D2" #p " + C1" #p " * V2" #p}

static const struct line recipe[] = {
    {"D0", "(D0 + 1) % 100000"},
    {"C0", "X0 && !X1"},
    {"D1", "SINCE(D2)"},
    {"D2", "TICKms()"},
    {"D3", "D3 + IF(C0, V0 * D1, 0)"},
    {"D4", "D3 / 60000"},
    YARN(0), YARN(1), YARN(2), YARN(3), YARN(4), YARN(5), YARN(6), YARN(7),
    {"N[10 + D0 % 8]", "V1"},
    {"D5", "SUMR(N10, 8) / MIN(D0, 8)"},
    {"C1", "COUNTIFGT(V2, N10, 8) > 2"},
    {"D6", "D4 * 1000 / V3"},
    {"D7", "SUMR(D20, 8)"},
};
#define LINES (sizeof recipe / sizeof recipe[0])

static struct kept kept[LINES];

/* The library without reals has no words of answers. docs/ANSWERS.md has them. */
static void write_answer(uint32_t answer)
{
    board_write(answer == FORMULA_NO_REALS ? "a real" : "no formula of the feeder");
}

/* A line of a dye box's recipe: its formula has reals, and is refused at the first of them. */
static void try_real(void)
{
    static const struct line mean = {"D5", "SUMR(N10, 8) / 8.0"};
    struct kept none;
    load(&mean, &none);
}

/* What the knitting machine would say. The yarn is too tight from the third scan on; in the fourth the number of needles is missing. */
static void measure(unsigned scan)
{
    set_v(0, 6000);
    set_v(1, scan < 3 ? 40 : 75);
    set_v(2, 60);
    set_v(3, scan == 4 ? 0 : 96);
    for (unsigned p = 0; p < 8; p++) {
        set_v(10 + p, 35 + 5 * p);
        set_v(20 + p, 24 + 4 * p);
    }
}

static void show_scan(unsigned scan)
{
    show("scan ", scan, ": ");
    board_write(show_flags() == 0 ? "feed" : "do not feed");
    show(", ", word(FORMULA_D + 4 * 4), " courses, ");
    show("", word(FORMULA_D + 4 * 7), " mm fed, wheels ");
    show_bits(FORMULA_C, 10, 8);
    show(", tension ", word(FORMULA_D + 4 * 5), formula_bit(memory, FORMULA_C, 1) != 0 ? ", too tight\n" : "\n");
}

/* The tick of a scan is the time at which it is due. */
static void scan_forever(void)
{
    uint32_t due = board_milliseconds();
    for (unsigned scan = 1; scan <= SCANS; scan++) {
        wait_until(due);
        read_inputs();
        measure(scan);
        run_lines(recipe, kept, LINES, due);
        show_scan(scan);
        due += SCAN_MILLISECONDS;
    }
}

int main(void)
{
    int ready = load_lines(recipe, kept, LINES);
    try_real();
    if (ready) {
        scan_forever();
    }
    board_end(!ready);
    return 0;
}
