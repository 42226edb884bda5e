/* A recipe that is kept as a file of cards: it is read and run, a spoilt byte is found, and it is written again with one card more.
 * tests/host/run.sh builds it and compares what it prints with cards.expected. */
#include <stdio.h>
#include <string.h>

#include "formula.h"

/* The file of docs/CARDS.md, as the box finds it in its flash. */
static const char kept[] = "card=1\ntarget=R0\nexpr=(D1 + 2) / 4.0\ncheck=24418\n"
                           "card=2\ntarget=D[V10 + 32]\nexpr=SUMR(D0, 10)\ncheck=43152\n"
                           "card=7\ntarget=C3\nexpr=SINCE(D40) >= 1500\ncheck=34355\n";
#define KEPT_BYTES (sizeof kept - 1)

static uint8_t memory[FORMULA_MEMORY_BYTES];

/* Lent to one card after the other; a box that runs its cards in every scan keeps the code of each, as recipe.c does. */
static uint8_t code[FORMULA_CODE_BYTES];
static uint8_t index_code[FORMULA_CODE_BYTES];

/* 1 if every card is good. The texts of the cards stay in the file: the result has where they stand. */
static int read_file(const uint8_t *file, size_t length, struct formula_cards *found)
{
    char words[FORMULA_WORDS_BYTES + 1];
    formula_cards_read(file, length, found);
    if (found->answer != FORMULA_DONE) {
        printf("refused: answer %u, the card at byte %u: %s\n", (unsigned)found->answer, (unsigned)found->place,
               formula_answer_text(found->answer, words));
        return 0;
    }
    printf("%u cards\n", (unsigned)found->count);
    return 1;
}

static void show_value(const struct formula_report *report)
{
    float real;
    int32_t integer;
    char words[FORMULA_WORDS_BYTES + 1];
    memcpy(&real, &report->bits, 4);
    memcpy(&integer, &report->bits, 4);
    if (report->answer != FORMULA_DONE) {
        printf("answer %u, %s\n", (unsigned)report->answer, formula_answer_text(report->answer, words));
    } else if (report->kind == FORMULA_REAL) {
        printf("%c%u = %.3f\n", "XCVNDR"[report->bank], (unsigned)report->element, real);
    } else {
        printf("%c%u = %ld\n", "XCVNDR"[report->bank], (unsigned)report->element, (long)integer);
    }
}

static void run_cards(const uint8_t *file, const struct formula_cards *found, uint32_t tick)
{
    for (uint32_t i = 0; i < found->count; i++) {
        const struct formula_card *card = &found->cards[i];
        struct formula_report report;
        formula_compile_and_run(file + card->target, card->target_len, file + card->expr, card->expr_len, memory, sizeof memory,
                                code, sizeof code, index_code, sizeof index_code, tick, &report);
        printf("  card %u: ", (unsigned)card->number);
        show_value(&report);
    }
}

/* The same file with one byte other, in the second card. */
static void read_spoilt(void)
{
    char spoilt[sizeof kept];
    struct formula_cards found;
    memcpy(spoilt, kept, sizeof spoilt);
    memcpy(strstr(spoilt, "10)"), "70", 2);
    printf("with SUMR(D0, 70): ");
    read_file((const uint8_t *)spoilt, KEPT_BYTES, &found);
}

/* The cards found and one more, whose texts stand behind the file in the lent texts. */
static void write_one_more(const struct formula_cards *found)
{
    static const char target[] = "D50", expr[] = "ROUND(R0)";
    static uint8_t texts[KEPT_BYTES + sizeof target + sizeof expr], file[FORMULA_CARDS_BYTES];
    struct formula_card more = {8, KEPT_BYTES, sizeof target - 1, KEPT_BYTES + sizeof target, sizeof expr - 1};
    uint32_t cards[5 * (FORMULA_CARDS + 1)];
    struct formula_written written;
    struct formula_cards again;
    memcpy(texts, kept, KEPT_BYTES);
    memcpy(texts + KEPT_BYTES, target, sizeof target);
    memcpy(texts + KEPT_BYTES + sizeof target, expr, sizeof expr);
    memcpy(cards, found->cards, found->count * sizeof more);
    memcpy(cards + 5 * found->count, &more, sizeof more);
    formula_cards_write(texts, sizeof texts, cards, 5 * (found->count + 1), file, sizeof file, &written);
    printf("written: answer %u, %u bytes\n", (unsigned)written.answer, (unsigned)written.length);
    if (written.answer == FORMULA_DONE && read_file(file, written.length, &again)) {
        fwrite(file + again.cards[found->count].target, 1, again.cards[found->count].target_len, stdout);
        printf(" is the target of card %u\n", (unsigned)again.cards[found->count].number);
    }
}

int main(void)
{
    struct formula_cards found;
    if (!formula_float_mode_ok() || !read_file((const uint8_t *)kept, KEPT_BYTES, &found)) {
        return 1;
    }
    memory[FORMULA_D + 4] = 0xE8;
    memory[FORMULA_D + 5] = 0x03;
    memory[FORMULA_V + 2 * 10] = 3;
    run_cards((const uint8_t *)kept, &found, 2000);
    read_spoilt();
    write_one_more(&found);
    return 0;
}
