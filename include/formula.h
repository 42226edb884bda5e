/* Formulas of the dosing controller: compile, check and run them. docs/LANGUAGE.md has the language, docs/ANSWERS.md the answers.
 *
 * Linking. `sh include/build.sh` makes two archives of these functions for x86-64. libformula_c.a wants -lm, for fmodf;
 * libformula_bare.a has formula_remainder in its place and wants no library. Beside that they call memset and memcpy alone.
 * `sh controller/run.sh` makes archives for 32-bit controllers, of the same functions: lengths have 64 bits there too (docs/CONTROLLER.md).
 * formula_int.h has the operations without real numbers, for machines that have none.
 *
 * Buffers. Each is lent for the call only. One passed as const is never written. No pointer may be null, also where its length
 * is 0, and no two buffers of a call may overlap, the report included. Byte buffers
 * need no alignment; reports, results, words and lists that of their type.
 *
 * Calls. Each ends and fills in its whole report or result. There is no static data: calls on buffers of their own may interrupt one another
 * or run side by side.
 *
 * Tick. The caller's counter of milliseconds, any 32 bits, which goes on from 0xFFFFFFFF to 0. TICKms() is this pattern and SINCE(x) the tick
 * less x, for the whole of a run; nothing is remembered from one call to the next.
 *
 * Stack. FORMULA_STACK_BYTES are enough for any call but formula_replay, for which FORMULA_REPLAY_STACK_BYTES are, by measurement.
 *
 * Floating point. It must round to nearest and keep subnormals: ask formula_float_mode_ok at the start, in each thread. A program
 * linked with -Ofast or -ffast-math flushes subnormals to zero from its start, which makes `R1 == 0` true for a subnormal R1;
 * rounding toward zero changes sums, products and promotions.
 */
#ifndef FORMULA_H
#define FORMULA_H

#include <stdint.h>

#ifdef __cplusplus
extern "C" {
#endif

#define FORMULA_VERSION 6 /* rises where this header, an answer or the bytes of an instruction change their meaning */

#define FORMULA_TEXT_BYTES        1024u  /* the longest expression, and the longest target */
#define FORMULA_MEMORY_BYTES      3092u  /* the only size of a memory */
#define FORMULA_CODE_BYTES        16384u /* the least size of a code buffer to compile into */
#define FORMULA_INSTRUCTION_BYTES 8u
#define FORMULA_INSTRUCTIONS      2048u  /* the most that are accepted or compiled */
#define FORMULA_STACK_BYTES       61440u /* the deepest call that was found takes 37,560, a list on a Cortex-M4F */
#define FORMULA_REPLAY_STACK_BYTES 98304u /* 71,600 were found, on a Cortex-M4F; each run of a card has its code buffers there */

/* Where the banks and the fault flags stand in the memory. All numbers are little-endian. */
#define FORMULA_X 0u    /* X0-X63, inputs, eight bits to a byte, the lowest first: formula_bit and formula_set_bit, below */
#define FORMULA_C 8u    /* C0-C63, control bits, the same */
#define FORMULA_V 16u   /* V0-V255, unsigned 16 bits */
#define FORMULA_N 528u  /* N0-N255, signed 16 bits */
#define FORMULA_D 1040u /* D0-D255, signed 32 bits */
#define FORMULA_R 2064u /* R0-R255, IEEE 754 single precision */

/* A fault sets its flag to 1. Nothing here ever clears a flag: that is the caller's to do. */
#define FORMULA_INDEX_ERROR     3088u
#define FORMULA_OUT_OF_RANGE    3089u
#define FORMULA_OVERFLOW        3090u
#define FORMULA_DIVIDED_BY_ZERO 3091u

/* The bit of an element of X or C, with FORMULA_X or FORMULA_C as the bank: 0 or 1. */
static inline uint8_t formula_bit(const uint8_t *memory, uint32_t bank, uint32_t element)
{
    return (uint8_t)(memory[bank + element / 8] >> element % 8 & 1);
}

/* Any value but 0 turns the bit on. Its seven neighbours stay. */
static inline void formula_set_bit(uint8_t *memory, uint32_t bank, uint32_t element, uint8_t value)
{
    uint8_t others = (uint8_t)(memory[bank + element / 8] & ~(1u << element % 8));
    memory[bank + element / 8] = (uint8_t)(others | (unsigned)(value != 0) << element % 8);
}

/* formula_words, below, says what each means. */
enum formula_answer {
    FORMULA_DONE = 0,
    FORMULA_BAD_MEMORY = 1,
    FORMULA_BAD_TARGET = 2,
    FORMULA_BAD_LENGTH = 3,
    FORMULA_BAD_BYTES = 4,
    FORMULA_BAD_NUMBER = 5,
    FORMULA_BAD_NAME = 6,
    FORMULA_BAD_GRAMMAR = 7,
    FORMULA_TOO_DEEP = 8,
    FORMULA_BAD_KIND = 9,
    FORMULA_SMALL_BUFFER = 10,
    FORMULA_DIVIDE_FAULT = 11,
    FORMULA_OVERFLOW_FAULT = 12,
    FORMULA_RANGE_FAULT = 13,
    FORMULA_INDEX_FAULT = 14,
    FORMULA_BAD_CODE = 15,
    FORMULA_NO_REALS = 19 /* of formula_int.h alone */
};

enum formula_kind {
    FORMULA_INTEGER = 0,
    FORMULA_REAL = 1
};

/* A bank's number in a report. */
enum formula_bank {
    FORMULA_BANK_X = 0,
    FORMULA_BANK_C = 1,
    FORMULA_BANK_V = 2,
    FORMULA_BANK_N = 3,
    FORMULA_BANK_D = 4,
    FORMULA_BANK_R = 5
};

struct formula_report {
    uint32_t answer;  /* one of enum formula_answer */
    uint32_t place;   /* answers 4 to 9 and 19: the byte of the expression that it is about; else 0, and 0 for formatting's own 3, 8 and 10 and a store's 19 */
    uint32_t kind;    /* one of enum formula_kind: the value's. 0 on a refusal or fault, and for compiling and checking */
    uint32_t bits;    /* the value's 32-bit pattern, before the store; 0 where kind is 0 for want of a value */
    uint32_t count;   /* compiling: instructions written; formatting: bytes written; running: instructions begun and cells visited, the index's included; else 0 */
    uint32_t bank;    /* one of enum formula_bank, and the element of it: the cell that was stored to, or that */
    uint32_t element; /* formula_compile_target found; 0 and 0 otherwise */
};

/* Compiles an expression. On answer 0 the first FORMULA_INSTRUCTION_BYTES * count bytes of the code buffer are written, and
 * nothing else ever. Answers: 0, 3 to 10. */
void formula_compile(const uint8_t *expr, uint64_t expr_len, uint8_t *code, uint64_t code_len,
                     struct formula_report *report);

/* Writes an expression out as it is saved: with parentheses where operators are mixed, without those that are not needed for that, and with one space on
 * either side of a binary operator and behind a comma. On answer 0 the first count bytes of the buffer are the text, at most FORMULA_TEXT_BYTES, and
 * nothing else is ever written. Read again it is the same formula, and written out again the same bytes. The buffer must have FORMULA_TEXT_BYTES. After the
 * expression's own refusals come, with place 0, 10 for a smaller buffer, 3 for a text that would be longer, 8 for one that would nest deeper.
 * Answers: 0, 3 to 10. */
void formula_format(const uint8_t *expr, uint64_t expr_len, uint8_t *out, uint64_t out_len, struct formula_report *report);

/* Compiles the index of a target such as "D[V1 + 2]" (its bytes, no final zero): at most FORMULA_TEXT_BYTES, a bank letter but X,
 * an expression in brackets, spaces inside the brackets only. On answer 0 the report has the bank, and count is the number of
 * instructions written to the index buffer. A plain cell such as "D12" is taken too: count is 0, element is its own, and the
 * buffer is left alone. Answers: 0, 2, 10. */
void formula_compile_target(const uint8_t *target, uint64_t target_len, uint8_t *index_code, uint64_t index_len,
                            struct formula_report *report);

/* Checks the first instructions of a code buffer, from wherever they come. Code that is accepted always ends.
 * Answers: 0, 15. */
void formula_check(const uint8_t *code, uint64_t code_len, uint64_t instructions, struct formula_report *report);

/* Checks and runs code on a memory and stores its value into the target: a cell such as "D12", for which the index code is not
 * looked at, or a bank letter alone, such as "D", whose element the index code gives, worked out after the value and before the
 * store. On answer 0 the cell that bank and element name is written, on 11 to 14 the fault's flag, and nothing else ever.
 * Answers: 0, 1, 2, 11 to 15. */
void formula_run(const uint8_t *code, uint64_t code_len, uint64_t instructions, uint8_t *memory, uint64_t memory_len,
                 const uint8_t *target, uint64_t target_len, const uint8_t *index_code, uint64_t index_len,
                 uint64_t index_instructions, uint32_t tick, struct formula_report *report);

/* Compiles and runs in one call. The target is a cell or a bank with an index, as for formula_compile_target; the memory is
 * written as by formula_run, the code buffers as by formula_compile and formula_compile_target, also on 11 to 14. Both must have
 * FORMULA_CODE_BYTES, also where the target is a plain cell, which leaves the second alone. count is that of the run.
 * Answers: 0 to 14. */
void formula_compile_and_run(const uint8_t *target, uint64_t target_len, const uint8_t *expr, uint64_t expr_len,
                             uint8_t *memory, uint64_t memory_len, uint8_t *code, uint64_t code_len, uint8_t *index_code,
                             uint64_t index_len, uint32_t tick, struct formula_report *report);

/* Works out what a run of the code would store, and writes nothing, no flag either: to be seen before it is stored. The report has
 * the value, or the fault. Answers: 0, 1, 11 to 15. */
void formula_evaluate(const uint8_t *code, uint64_t code_len, uint64_t instructions, const uint8_t *memory,
                      uint64_t memory_len, uint32_t tick, struct formula_report *report);

/* Stores a value, as kind and bits of a report, into a target of the form that formula_run takes. Any kind but 0 is a real; one
 * that is infinite or NaN is 13 into any target, before the index is worked out. Where formula_evaluate
 * answers 0, this with its kind and bits, the same memory and tick, does what formula_run does, whose count on 0 and 11 to 14 is the sum of both. A fault
 * of formula_evaluate sets no flag; formula_run would. Answers: 0, 1, 2, 11 to 15. */
void formula_store(uint32_t kind, uint32_t bits, uint8_t *memory, uint64_t memory_len, const uint8_t *target,
                   uint64_t target_len, const uint8_t *index_code, uint64_t index_len, uint64_t index_instructions,
                   uint32_t tick, struct formula_report *report);

/* ---- Lists of formulas, run in turn. */

#define FORMULA_LONG_LIST 20
#define FORMULA_LISTED 40 /* the most formulas of a list */

/* The operation's own answer, 0 or 20, and that of each formula in turn; 0 in the places behind the last. */
struct formula_answers {
    uint32_t answer;
    uint32_t answers[FORMULA_LISTED];
};

/* Runs each formula of a list as formula_compile_and_run does, on what those before it left, past their faults and refusals, all at one
 * tick. Four words a formula: place and length of its target, place and length of its expression, in the lent texts. Words behind the last
 * whole four are not looked at; bytes beyond the texts are not there. The code buffers hold what was compiled last. Two formulas next to
 * each other may change places if their targets share no cell and neither reads the other's target by formula_cells; a target with an
 * index stands for its whole bank. Answers: 0; 20 for a list over FORMULA_LISTED: then nothing is run or written, and all its answers are 0. */
void formula_run_list(const uint32_t *places, uint64_t words, const uint8_t *texts, uint64_t texts_len, uint8_t *memory,
                      uint64_t memory_len, uint8_t *code, uint64_t code_len, uint8_t *index_code, uint64_t index_len,
                      uint32_t tick, struct formula_answers *result);

/* ---- Files of cards: docs/CARDS.md has the form, examples/cards.c an example. */

#define FORMULA_BAD_LINE 16
#define FORMULA_BAD_CHECK 17
#define FORMULA_BAD_ORDER 18

/* The most cards of a file, and the bytes of the longest good one. */
#define FORMULA_CARDS 64
#define FORMULA_CARDS_BYTES 133239

/* A card: where its texts begin, counted from the first of the lent bytes, and how long they are. */
struct formula_card {
    uint32_t number, target, target_len, expr, expr_len;
};

/* On a refusal the count and every card are 0, and place is the first byte of the refused card; cards behind the last are 0. */
struct formula_cards {
    uint32_t answer, place, count;
    struct formula_card cards[FORMULA_CARDS];
};

/* Reads a file of cards; the texts of its cards stand in the file itself. Answers: 0, 2 to 9, 16 to 18. */
void formula_cards_read(const uint8_t *file, uint64_t file_len, struct formula_cards *result);

/* length is 0 on a refusal. */
struct formula_written {
    uint32_t answer, place, length;
};

/* Writes a file of cards, five words a card as in formula_card, whose texts are parts of the lent texts. Words behind the last whole five
 * are not looked at; bytes beyond the texts are not there. A refusal writes nothing, and place is where the refused card would stand.
 * Answers: 0, 2 to 10, 16, 18; 10, with place 0, if the file does not fit. */
void formula_cards_write(const uint8_t *texts, uint64_t texts_len, const uint32_t *cards, uint64_t words,
                         uint8_t *out, uint64_t out_len, struct formula_written *result);

/* Bytes written to each output, 0 and 0 on answer 10. */
struct formula_salvaged {
    uint64_t answer, kept, named;
};

/* Salvages a spoiled file of cards: kept gets the cards that stand whole, unchanged in every byte, which are a good file; named gets for each part
 * that is left out, in the file's order, the three lines first= (its first byte), length= and answer= (2 to 9, 16 to 18). kept never needs more
 * than file_len; named never more than 6 times file_len plus 64 for files below 1,000,000 bytes. Answers: 0, and 10 if either does not fit; then
 * neither is written. The bytes behind what is written are left alone. */
void formula_salvage(const uint8_t *file, uint64_t file_len, uint8_t *kept, uint64_t kept_len, uint8_t *named,
                     uint64_t named_len, struct formula_salvaged *result);

/* All 0 before the first call, then left alone: the byte of the log that is next, the tick, whether the replay is over, and the bytes
 * that the last call wrote. */
struct formula_replay_state {
    uint64_t at, tick, done, written;
};

/* Replays a night's log (docs/CARDS.md) with a file of cards, from a memory of zeros and tick 0, in calls until done is 1: each goes on from at and
 * writes to the front of out what the lines from there print, while 64 bytes of out are left. With out_len of 64 or more each call takes a line or is
 * done. Every call reads the file again: lend 64 KiB, not 64 bytes. In this order: done not 0: nothing is written, and done is 1. out_len under 64:
 * nothing. A memory of another size prints the two lines of answer 1, a refused file those of its refusal; done is 1, at and tick stay. Where at is 0
 * the memory is filled with zeros, and the tick is 0. At the end of the log, or with an at beyond it, done is 1; a bad line prints the two lines of
 * answer 16, and then done is 1 and at its first byte. Of tick the low 32 bits count. What ended the replay is in its text. */
void formula_replay(const uint8_t *cards, uint64_t cards_len, const uint8_t *log, uint64_t log_len, uint8_t *memory,
                    uint64_t memory_len, uint8_t *out, uint64_t out_len, struct formula_replay_state *state);

/* Which cells the first instructions of a code, and of a target's index code, read, whatever the memory holds: cells are numbered X0 0, C0 64, V0 128,
 * N0 384, D0 640, R0 896. Returns how many there are, at most 1,152; list gets the numbers of the first of them, rising, as many as fit, and its
 * rest is left alone. Bytes that are no instruction read nothing. For a formula that is not stored, index_instructions is 0. Two memories in which
 * these cells read alike, both of FORMULA_MEMORY_BYTES, give the same value, answer and count at the same tick, whatever else they hold. list_len
 * counts places of the list, not bytes. */
uint32_t formula_cells(const uint8_t *code, uint64_t code_len, uint64_t instructions, const uint8_t *index_code, uint64_t index_len,
                       uint64_t index_instructions, uint16_t *list, uint64_t list_len);

/* ---- Code and answers in words. */

#define FORMULA_LISTING_BYTES 65536u /* the least size of a text to list into: 32 bytes an instruction */
#define FORMULA_WORDS_BYTES   47u    /* the longest words of an answer */

/* length is 0 on a refusal. */
struct formula_listed {
    uint32_t answer, length;
};

/* Lists the first instructions of a code, a line each: the place, the name of docs/INSTRUCTIONS.md and what it works on, a jump with the place that it
 * leads to, as in "2 JUMP_IF_FALSE 5" or "3 SUMR D0 10". The bytes behind what is written are left alone, and a refusal writes nothing. Answers: 0; 10 for
 * a text under FORMULA_LISTING_BYTES; 15 where formula_check answers it. */
void formula_listing(const uint8_t *code, uint64_t code_len, uint64_t instructions, uint8_t *text, uint64_t text_len,
                     struct formula_listed *result);

/* What an answer means, in a few words: the bytes, no final zero. Returns how many there are, at most FORMULA_WORDS_BYTES, 0 for a number that is no
 * answer; text gets as many as fit, and its rest is left alone. */
uint32_t formula_words(uint32_t answer, uint8_t *text, uint64_t text_len);

#define FORMULA_OLD_MEMORY_BYTES 3204u /* a memory as it was before version 5: one byte a bit, any non-zero byte reads 1 */

/* An old memory into a new one, and back with 0 or 1 for each bit; every other byte is carried over as it is, flags too. Both answer
 * 0, or 1 where one of the two has another size, and then nothing is written. */
uint32_t formula_pack(const uint8_t *old_image, uint64_t old_len, uint8_t *image, uint64_t image_len);
uint32_t formula_unpack(const uint8_t *image, uint64_t image_len, uint8_t *old_image, uint64_t old_len);

/* C's fmodf for every x and y, in any floating-point mode and with at most 32 divisions of whole numbers. Where the remainder is
 * a NaN, which NaN is not fixed; errno is left alone. */
float formula_remainder(float x, float y);

/* 1 where floating point rounds to nearest, ties to even, and keeps subnormals as operands and as results. */
static inline int formula_float_mode_ok(void)
{
    /* volatile, so that the machine works these out when it runs, and not the compiler */
    volatile float one = 1.0f, unit = 1.0f / 8388608.0f, least_normal = 1.17549435e-38f, least = 1e-45f;
    volatile float next = one + unit, tie_down = one + unit / 2, tie_up = next + unit / 2, half = least_normal / 2;
    return tie_down <= one && tie_up > next && half > 0 && least > 0;
}

/* formula_words with a final zero, for printing; returns text. */
static inline const char *formula_answer_text(uint32_t answer, char text[FORMULA_WORDS_BYTES + 1])
{
    text[formula_words(answer, (uint8_t *)text, FORMULA_WORDS_BYTES)] = 0;
    return text;
}

#ifdef __cplusplus
}
#endif

#endif
