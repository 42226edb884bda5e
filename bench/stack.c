/* Measures the deepest stack of each operation: it runs on a painted stack of its own, and the lowest byte that is no longer
 * paint shows how deep it went. Arguments on the stack and the return address are counted in, the caller's frame is not.
 *
 *   bench inputs | stack
 *
 * What a function reserves and never writes at the very bottom is not seen. With -DINTEGERS it measures the library of formula_int.h, which refuses
 * the texts with reals.
 */
#include <stdio.h>
#include <string.h>
#include <ucontext.h>

#include "formula_int.h"

#if defined INTEGERS
#define PREFIX "formula_int_"
#define OPERATION(name) formula_int_##name
#else
#define PREFIX "formula_"
#define OPERATION(name) formula_##name
#endif

#define STACK (1u << 17)
#define DEEPEST 8       /* open brackets */
#define LONG_TEXT 512   /* bytes that make a text a long one */
#define SHORT_TEXT 127u /* bytes */
#define SHORT_CODE 128u /* instructions */

static uint8_t stack[STACK] __attribute__((aligned(4096)));
static ucontext_t caller, callee;

static uint8_t memory[FORMULA_MEMORY_BYTES];
static uint8_t code[FORMULA_CODE_BYTES], index_code[FORMULA_CODE_BYTES];
static struct formula_report report;
static const uint8_t *expr, *target;
static size_t expr_len, target_len, count;
static const uint32_t tick = 86399000;

/* The text as the index of a target; without it where that would be too long. */
static uint8_t indexed[FORMULA_TEXT_BYTES];
static size_t indexed_len;

static void nothing(void) {
}

static void compile(void) {
    OPERATION(compile)(expr, expr_len, code, sizeof code, &report);
}

static void compile_target(void) {
    OPERATION(compile_target)(indexed, indexed_len, index_code, sizeof index_code, &report);
}

static void check(void) {
    OPERATION(check)(code, sizeof code, count, &report);
}

/* Into a cell, and with the code as its own index code. */
static void run(void) {
    OPERATION(run)(code, sizeof code, count, memory, sizeof memory, target, target_len, index_code, 0, 0, tick, &report);
    OPERATION(run)(code, sizeof code, count, memory, sizeof memory, indexed, 1, code, sizeof code, count, tick, &report);
}

static void evaluate(void) {
    OPERATION(evaluate)(code, sizeof code, count, memory, sizeof memory, tick, &report);
}

static void store(void) {
    OPERATION(store)(FORMULA_INTEGER, 0, memory, sizeof memory, indexed, 1, code, sizeof code, count, tick, &report);
}

/* These compile anew, into buffers of their own, since the others want the code that was compiled. */
static uint8_t own_code[FORMULA_CODE_BYTES], own_index[FORMULA_CODE_BYTES];

static void compile_and_run(void) {
    OPERATION(compile_and_run)(target, target_len, expr, expr_len, memory, sizeof memory, own_code, sizeof own_code, own_index,
                               sizeof own_index, tick, &report);
    OPERATION(compile_and_run)(indexed, indexed_len, expr, expr_len, memory, sizeof memory, own_code, sizeof own_code, own_index,
                               sizeof own_index, tick, &report);
}

/* What is short has small tables; what is not is left out. */
static void compile_short(void) {
    OPERATION(compile)(expr, expr_len <= SHORT_TEXT ? expr_len : 0, own_code, sizeof own_code, &report);
}

static void compile_target_short(void) {
    OPERATION(compile_target)(indexed, indexed_len <= SHORT_TEXT ? indexed_len : 0, own_index, sizeof own_index, &report);
}

static void check_short(void) {
    OPERATION(check)(code, sizeof code, count <= SHORT_CODE ? count : 0, &report);
}

static void run_short(void) {
    size_t n = count <= SHORT_CODE ? count : 0;
    OPERATION(run)(code, sizeof code, n, memory, sizeof memory, target, target_len, index_code, 0, 0, tick, &report);
    OPERATION(run)(code, sizeof code, n, memory, sizeof memory, indexed, 1, code, sizeof code, n, tick, &report);
}

#if !defined INTEGERS
/* The target and the text, and behind them the text with itself as the index of its target. */
static uint8_t texts[4 * FORMULA_TEXT_BYTES];
static size_t texts_len;
static uint32_t places[8];

static void run_list(void) {
    static struct formula_answers answers;
    formula_run_list(places, 8, texts, texts_len, memory, sizeof memory, own_code, sizeof own_code, own_index, sizeof own_index, tick,
                     &answers);
}

static void format(void) {
    static uint8_t saved[FORMULA_TEXT_BYTES];
    formula_format(expr, expr_len, saved, sizeof saved, &report);
}

static void listing(void) {
    static uint8_t text[FORMULA_LISTING_BYTES];
    static struct formula_listed listed;
    formula_listing(code, sizeof code, count, text, sizeof text, &listed);
}

static void words(void) {
    static uint8_t text[FORMULA_WORDS_BYTES];
    for (uint32_t answer = FORMULA_DONE; answer <= FORMULA_LONG_LIST + 1; answer++) {
        formula_words(answer, text, sizeof text);
    }
}

/* The memory as it was before version 5, and back. */
static uint8_t old_memory[FORMULA_OLD_MEMORY_BYTES];

static void unpack(void) {
    formula_unpack(memory, sizeof memory, old_memory, sizeof old_memory);
}

static void pack(void) {
    static uint8_t packed[FORMULA_MEMORY_BYTES];
    formula_pack(old_memory, sizeof old_memory, packed, sizeof packed);
}

/* The target and the text as a card: written, and read again and salvaged where that was done. */
static uint8_t file[3 * FORMULA_TEXT_BYTES];
static uint32_t card[5];
static struct formula_written written;
static struct formula_cards cards;

static void cards_write(void) {
    formula_cards_write(texts, texts_len, card, 5, file, sizeof file, &written);
}

static void cards_read(void) {
    formula_cards_read(file, written.length, &cards);
}

static void salvage(void) {
    static uint8_t kept[sizeof file], named[6 * sizeof file + 64];
    static struct formula_salvaged salvaged;
    formula_salvage(file, written.length, kept, sizeof kept, named, sizeof named, &salvaged);
}

/* A log of one run of that card, on a memory of its own. */
static void replay(void) {
    static const uint8_t log[] = {'r', 'u', 'n', '=', '1', '\n'};
    static uint8_t night[FORMULA_MEMORY_BYTES], out[256];
    static struct formula_replay_state state;
    memset(&state, 0, sizeof state);
    formula_replay(file, written.length, log, sizeof log, night, sizeof night, out, sizeof out, &state);
}

static void cells(void) {
    static uint16_t list[1152];
    formula_cells(code, sizeof code, count, code, sizeof code, count, list, 1152);
}

/* The most divisions: the greatest single by the least. */
static void remainder_of(void) {
    volatile float greatest = 3.40282347e38f, least = 1e-45f;
    volatile float rest = formula_remainder(greatest, least);
    (void)rest;
}
#endif

static size_t painted_depth(void (*operation)(void), uint8_t paint) {
    size_t low = 0;
    memset(stack, paint, STACK);
    getcontext(&callee);
    callee.uc_stack.ss_sp = stack;
    callee.uc_stack.ss_size = STACK;
    callee.uc_link = &caller;
    makecontext(&callee, operation, 0);
    swapcontext(&caller, &callee);
    while (low < STACK && stack[low] == paint) {
        low++;
    }
    return (STACK - low + 7) / 8 * 8; /* the stack is a multiple of eight on every machine */
}

/* Two paints, since the lowest byte written may be of the one colour. */
static size_t depth(void (*operation)(void)) {
    size_t a = painted_depth(operation, 0xA5), b = painted_depth(operation, 0x5A);
    return a > b ? a : b;
}

struct measured {
    const char *name;
    void (*operation)(void);
    size_t deepest;
    char by[32];
};

/* Compiling, unpacking and writing a card come before what takes their results. */
static struct measured measured[] = {
    {"compile", compile, 0, ""},
    {"compile, short", compile_short, 0, ""},
    {"compile_target", compile_target, 0, ""},
    {"compile_target, short", compile_target_short, 0, ""},
    {"check", check, 0, ""},
    {"check, short", check_short, 0, ""},
    {"run", run, 0, ""},
    {"run, short", run_short, 0, ""},
    {"compile_and_run", compile_and_run, 0, ""},
    {"evaluate", evaluate, 0, ""},
    {"store", store, 0, ""},
#if !defined INTEGERS
    {"run_list", run_list, 0, ""},
    {"format", format, 0, ""},
    {"cells", cells, 0, ""},
    {"listing", listing, 0, ""},
    {"words", words, 0, ""},
    {"cards_write", cards_write, 0, ""},
    {"cards_read", cards_read, 0, ""},
    {"salvage", salvage, 0, ""},
    {"replay", replay, 0, ""},
    {"unpack", unpack, 0, ""},
    {"pack", pack, 0, ""},
    {"remainder", remainder_of, 0, ""},
#endif
};

#define OPERATIONS (sizeof measured / sizeof measured[0])

#if !defined INTEGERS
static uint32_t add_text(const uint8_t *text, size_t length) {
    uint32_t place = (uint32_t)texts_len;
    memcpy(texts + texts_len, text, length);
    texts_len += length;
    return place;
}

static void set_list(void) {
    const uint8_t *const parts[] = {target, expr, indexed, expr};
    const size_t lengths[] = {target_len, expr_len, indexed_len, expr_len};
    texts_len = 0;
    for (size_t i = 0; i < 4; i++) {
        places[2 * i] = add_text(parts[i], lengths[i]);
        places[2 * i + 1] = (uint32_t)lengths[i];
    }
    card[0] = 1;
    memcpy(card + 1, places, 4 * sizeof places[0]);
}
#endif

static void set_texts(const char *target_text, const char *expr_text) {
#if defined INTEGERS
    target_text = "D0"; /* a target in R would be refused before anything is compiled */
#endif
    target = (const uint8_t *)target_text;
    target_len = strlen(target_text);
    expr = (const uint8_t *)expr_text;
    expr_len = strlen(expr_text);
    indexed_len = expr_len + 3 <= sizeof indexed ? expr_len + 3 : 3;
    memcpy(indexed, "D[", 2);
    memcpy(indexed + 2, expr, indexed_len - 3);
    indexed[indexed_len - 1] = ']';
#if !defined INTEGERS
    set_list();
#endif
}

/* Where compiling is refused, the others get no instructions. */
static void measure(const char *name, const char *target_text, const char *expr_text) {
    static size_t base;
    if (base == 0) {
        base = depth(nothing);
    }
    set_texts(target_text, expr_text);
    for (size_t i = 0; i < OPERATIONS; i++) {
        size_t deep = depth(measured[i].operation) - base;
        if (measured[i].operation == compile) {
            count = report.count;
        }
        if (deep > measured[i].deepest) {
            measured[i].deepest = deep;
            snprintf(measured[i].by, sizeof measured[i].by, "%s", name);
        }
    }
}

/* A text that nests so deep: blanks, some brackets of one form, and plain ones inside them. */
struct unit {
    const char *before, *behind;
};

static void append(char *text, const char *part, int times) {
    for (int i = 0; i < times; i++) {
        strcat(text, part);
    }
}

static void measure_one(const struct unit *unit, int units, int deep, int blanks) {
    static char text[FORMULA_TEXT_BYTES + 1];
    text[0] = '\0';
    append(text, " ", blanks);
    append(text, unit->before, units);
    append(text, "(", deep - units);
    append(text, "1", 1);
    append(text, ")", deep - units);
    append(text, unit->behind, units);
    measure(deep == DEEPEST ? "eight brackets" : "nine brackets", "D0", text);
}

/* As deep as may be, in every way that a reader may call itself, and one bracket too many; with fewer of the longer forms in short texts, and behind
 * blanks in long ones, since the text's length decides on the size of the tables. */
static void measure_nested(void) {
#define GROUPS "1||1&&1|1^1&1==1<1<<1+1*1**"
    static const struct unit units[] = {
        {"D[", "]"},     {"MAX(1,", ")"},    {"IF(1,1,", ")"},           {"IF(1,", ",1)"},
        {"-~!(", ")"},   {GROUPS "(", ")"},  {GROUPS "IF(1,1,", ")"},    {GROUPS "IF(1,", ",1)"},
    };
    for (size_t u = 0; u < sizeof units / sizeof units[0]; u++) {
        for (int deep = DEEPEST; deep <= DEEPEST + 1; deep++) {
            for (int number = 0; number <= deep; number++) {
                measure_one(&units[u], number, deep, 0);
                measure_one(&units[u], number, deep, LONG_TEXT);
            }
        }
    }
}

static void measure_inputs(void) {
    static char name[32], target_text[8], expr_text[FORMULA_TEXT_BYTES + 1];
    while (scanf("%31s %7s %1024[^\n]", name, target_text, expr_text) == 3) {
        measure(name, target_text, expr_text);
    }
}

int main(void) {
    for (size_t i = 0; i < sizeof memory; i++) {
        unsigned byte;
        if (scanf("%2x", &byte) != 1) {
            fprintf(stderr, "no memory\n");
            return 1;
        }
        memory[i] = (uint8_t)byte;
    }
    measure_inputs();
    measure_nested();
    for (size_t i = 0; i < OPERATIONS; i++) {
        printf("%s%-22s %7lu bytes, deepest with %s\n", PREFIX, measured[i].name, (unsigned long)measured[i].deepest, measured[i].by);
    }
    return 0;
}
