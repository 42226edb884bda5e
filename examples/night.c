/* A night replayed: the example of docs/CARDS.md, a dose across the turn of the counter. The text comes through a buffer of 64 bytes, so that
 * it takes some calls; 64 KiB are what a longer log asks for. tests/host/run.sh builds this and compares what it prints with night.expected. */
#include <stdio.h>

#include "formula.h"

static const char cards[] =
    "card=1\ntarget=D41\nexpr=TICKms()\ncheck=23818\n"
    "card=2\ntarget=C3\nexpr=SINCE(D41) >= 1500\ncheck=34379\n";

static const char night[] =
    "tick=0xFFFFFF00\nrun=1\n"
    "tick=0x000004DB\nrun=2\n"
    "run=9\n"
    "tick=0x000004DC\nrun=2\n";

int main(void)
{
    static uint8_t memory[FORMULA_MEMORY_BYTES];
    static uint8_t text[64];
    struct formula_replay_state state = {0, 0, 0, 0};
    while (state.done == 0) {
        formula_replay((const uint8_t *)cards, sizeof cards - 1, (const uint8_t *)night, sizeof night - 1, memory, sizeof memory, text,
                       sizeof text, &state);
        fwrite(text, 1, (size_t)state.written, stdout);
    }
    printf("%u of %u bytes were replayed\n", (unsigned)state.at, (unsigned)(sizeof night - 1));
    return 0;
}
