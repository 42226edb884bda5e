/* Formulas in the profile without reals, for controllers without floating point: docs/LANGUAGE.md has the profile, docs/PROFILE.md what is proved of it.
 *
 * The profile takes the formulas in which no part is real: no R bank, real literals, TOREAL, FRAC or AVGR. A formula with a real token is answer 19, at
 * the first of them, looked for after 3, 4, 5 and the 6 of a token, before 7, 8 and the 6 of a range; so 9 never comes. A target in R, or with a real part in its index, is 2. Code that would
 * hold a real, or has an instruction that reads R, reached or not, is 15. All else is as the functions of formula.h do it, whose names these have and whose
 * parameters: on every formula that the profile takes, into a target that it takes, both give the same report, memory and code, so code compiled by either
 * library is run by the other.
 *
 * Linking. `sh include/build.sh` makes libformula_int_c.a for x86-64, and `sh controller/run.sh` archives for Cortex-M0 and Cortex-M3 (docs/CONTROLLER.md).
 * They call memset and memcpy alone, and on a Cortex-M the compiler's whole-number routines (divisions, shifts, a product, leading zeros); no float is added, compared or converted in them, so the
 * floating-point mode does not matter. libformula_c.a may be linked beside them.
 *
 * Reports, constants, answers, and what formula.h says of buffers, calls, the tick and the stack, hold here too (the deepest call that was found takes 45,480
 * bytes on x86-64 and 43,008 on a Cortex-M0). A report's kind is always 0: FORMULA_INTEGER.
 * The memory has the same size and layout; no formula reads its bank R and none stores there. */
#ifndef FORMULA_INT_H
#define FORMULA_INT_H

#include "formula.h"

#ifdef __cplusplus
extern "C" {
#endif

/* Answers: 0, 3 to 8, 10, 19. */
void formula_int_compile(const uint8_t *expr, uint64_t expr_len, uint8_t *code, uint64_t code_len,
                         struct formula_report *report);

/* Answers: 0, 2, 10. */
void formula_int_compile_target(const uint8_t *target, uint64_t target_len, uint8_t *index_code, uint64_t index_len,
                                struct formula_report *report);

/* Answers: 0, 15. */
void formula_int_check(const uint8_t *code, uint64_t code_len, uint64_t instructions, struct formula_report *report);

/* Answers: 0, 1, 2, 11 to 15. */
void formula_int_run(const uint8_t *code, uint64_t code_len, uint64_t instructions, uint8_t *memory, uint64_t memory_len,
                     const uint8_t *target, uint64_t target_len, const uint8_t *index_code, uint64_t index_len,
                     uint64_t index_instructions, uint32_t tick, struct formula_report *report);

/* Answers: 0 to 8, 10 to 14, 19. */
void formula_int_compile_and_run(const uint8_t *target, uint64_t target_len, const uint8_t *expr, uint64_t expr_len,
                                 uint8_t *memory, uint64_t memory_len, uint8_t *code, uint64_t code_len, uint8_t *index_code,
                                 uint64_t index_len, uint32_t tick, struct formula_report *report);

/* Answers: 0, 1, 11 to 15. */
void formula_int_evaluate(const uint8_t *code, uint64_t code_len, uint64_t instructions, const uint8_t *memory,
                          uint64_t memory_len, uint32_t tick, struct formula_report *report);

/* A real, of any kind but 0, is 19 with place 0 and writes nothing, after 1, 2 and 15. Answers: 0, 1, 2, 11 to 15, 19. */
void formula_int_store(uint32_t kind, uint32_t bits, uint8_t *memory, uint64_t memory_len, const uint8_t *target,
                       uint64_t target_len, const uint8_t *index_code, uint64_t index_len, uint64_t index_instructions,
                       uint32_t tick, struct formula_report *report);

#ifdef __cplusplus
}
#endif

#endif
