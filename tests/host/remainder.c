/* formula_remainder beside the C library's fmodf, bit for bit and in every floating-point mode; `%` of a formula beside both; and
 * the header's test of the mode. run.sh links it with either archive; controller/board/test.sh runs it on boards, in the mode of their start.
 *
 *   remainder [BATCHES]
 */
#include <inttypes.h>
#include <math.h>
#include <stdio.h>
#include <stdlib.h>
#include <string.h>

#include "formula.h"

#define BATCH 4096u
#define SIGN 0x80000000u
#define INFINITE 0x7F800000u

/* ---- floating-point modes: bits of the processor's MXCSR ---- */

#if defined __SSE__
#include <xmmintrin.h>
#else
static unsigned _mm_getcsr(void)
{
    return 0;
}

static void _mm_setcsr(unsigned mode)
{
    (void)mode;
}
#endif

static const struct mode {
    const char *name;
    unsigned set;
    int ok;
} modes[] = {
    {"as the library needs it", 0, 1},
#if defined __SSE__
    {"results flushed to zero", 0x8000, 0},
    {"operands flushed to zero", 0x0040, 0},
    {"rounding down", 0x2000, 0},
    {"rounding up", 0x4000, 0},
    {"rounding toward zero", 0x6000, 0},
#endif
};
#define MODES (sizeof modes / sizeof modes[0])

static unsigned test_modes(void)
{
    unsigned wrong = 0, usual = _mm_getcsr();
    for (size_t i = 0; i < MODES; i++) {
        _mm_setcsr(usual | modes[i].set);
        int ok = formula_float_mode_ok();
        _mm_setcsr(usual);
        if (ok != modes[i].ok) {
            printf("formula_float_mode_ok gives %d: %s\n", ok, modes[i].name);
            wrong++;
        }
    }
    return wrong;
}

/* ---- pairs ---- */

static uint64_t state = 20261116;

static uint32_t random_bits(void)
{
    state = state * 6364136223846793005u + 1442695040888963407u;
    return (uint32_t)(state >> 32);
}

static float single(uint32_t bits)
{
    float x;
    memcpy(&x, &bits, 4);
    return x;
}

static uint32_t pattern(float x)
{
    uint32_t bits;
    memcpy(&bits, &x, 4);
    return bits;
}

/* Patterns at the edges of their exponents, and any. */
static uint32_t random_single(void)
{
    static const uint32_t edges[] = {0, 1, 2, 0x7FFFFF, 0x800000, 0x800001, 0xFFFFFF, 0x3F800000, 0x7F7FFFFF, INFINITE, 0x7FC00000};
    uint32_t r = random_bits();
    return r % 16 != 0 ? random_bits() : edges[r / 16 % 11] | (r & SIGN);
}

static uint32_t dividends[BATCH], divisors[BATCH], expected[BATCH], found[BATCH];

/* A third of the divisors have the exponent of their dividend or one that is up to three below it. */
static void fill_batch(void)
{
    for (unsigned i = 0; i < BATCH; i++) {
        dividends[i] = random_single();
        divisors[i] = random_single();
        if (i % 3 == 0 && (dividends[i] & INFINITE) > 0x1800000) {
            uint32_t exponent = (dividends[i] & INFINITE) - (random_bits() % 4 << 23);
            divisors[i] = (divisors[i] & ~INFINITE) | exponent;
        }
        expected[i] = pattern(fmodf(single(dividends[i]), single(divisors[i])));
    }
}

/* There is one NaN: its sign and its digits do not count. */
static int same(uint32_t a, uint32_t b)
{
    return a == b || ((a & ~SIGN) > INFINITE && (b & ~SIGN) > INFINITE);
}

static unsigned compare_batch(const char *name)
{
    unsigned wrong = 0;
    for (unsigned i = 0; i < BATCH; i++) {
        if (!same(found[i], expected[i])) {
            printf("%s: %08" PRIx32 " %% %08" PRIx32 " gives %08" PRIx32 ", fmodf %08" PRIx32 "\n", name, dividends[i], divisors[i], found[i],
                   expected[i]);
            wrong++;
        }
    }
    return wrong;
}

/* ---- the function, in one mode ---- */

static unsigned test_function(const struct mode *mode)
{
    unsigned usual = _mm_getcsr();
    _mm_setcsr(usual | mode->set);
    for (unsigned i = 0; i < BATCH; i++) {
        found[i] = pattern(formula_remainder(single(dividends[i]), single(divisors[i])));
    }
    _mm_setcsr(usual);
    return compare_batch(mode->name);
}

/* ---- the operator, where it gives no fault ---- */

static uint8_t memory[FORMULA_MEMORY_BYTES], code[FORMULA_CODE_BYTES];
static const uint8_t no_index[1];
static uint32_t instructions;

static void compile_operator(void)
{
    struct formula_report report;
    formula_compile((const uint8_t *)"R0 % R1", 7, code, sizeof code, &report);
    instructions = report.count;
}

static unsigned test_operator(void)
{
    struct formula_report report;
    char words[FORMULA_WORDS_BYTES + 1];
    for (unsigned i = 0; i < BATCH; i++) {
        int fault = (dividends[i] & INFINITE) == INFINITE || (divisors[i] & INFINITE) == INFINITE || (divisors[i] & ~SIGN) == 0;
        memcpy(memory + FORMULA_R, &dividends[i], 4);
        memcpy(memory + FORMULA_R + 4, &divisors[i], 4);
        formula_run(code, sizeof code, instructions, memory, sizeof memory, (const uint8_t *)"R2", 2, no_index, 0, 0, 0, &report);
        found[i] = fault ? expected[i] : report.bits;
        if (fault != (report.answer != FORMULA_DONE)) {
            printf("R0 %% R1: %08" PRIx32 " %% %08" PRIx32 " gives answer %" PRIu32 ", %s\n", dividends[i], divisors[i], report.answer,
                   formula_answer_text(report.answer, words));
            return 1;
        }
    }
    return compare_batch("R0 % R1");
}

int main(int arguments, char **argument)
{
    unsigned wrong = test_modes(), batches = arguments > 1 ? (unsigned)strtoul(argument[1], 0, 10) : 1000;
    compile_operator();
    for (unsigned i = 0; i < batches && wrong < 10; i++) {
        fill_batch();
        wrong += test_function(&modes[i % MODES]) + test_operator();
    }
    printf("formula_remainder and R0 %% R1: %lu pairs, %u differ from fmodf\n", (unsigned long)batches * BATCH, wrong);
    return wrong != 0;
}
