/* A plugin of QEMU that counts what a program executes between two of its own functions:
 *
 *   -plugin counter.so,begin=ADDRESS,end=ADDRESS,out=FILE[,profile=FILE]
 *
 * Each time that the program comes to `end`, a line goes to out: the instructions since `begin`, and the cycles that a Cortex-M4 with memory
 * without wait states would take for them. profile gets, at the end, a line for each instruction that was counted: its address, how often it
 * was executed, its cycles.
 *
 * The cycles are an estimate, after the table of instructions in the Cortex-M4's reference manual (ARM DDI 0439, 3.3 and 7.2.3): a refill of
 * the pipeline, 1 to 3 there, is taken as 2; a division of whole numbers, 2 to 12 there, as 7; a load takes 2, and 1 where the instruction
 * before it reached for memory too; a store takes 1, since the write buffer takes it. For other processors only the instructions mean something.
 */
#include <inttypes.h>
#include <stdbool.h>
#include <stdio.h>
#include <stdlib.h>
#include <string.h>

/* ---- QEMU's interface for plugins, version 1, as far as it is used here. Debian packs no header of it. ---- */

typedef uint64_t qemu_plugin_id_t;
struct qemu_plugin_tb;
struct qemu_plugin_insn;
typedef void translated_function(qemu_plugin_id_t id, struct qemu_plugin_tb *block);
typedef void executed_function(unsigned cpu, void *data);
typedef void exit_function(qemu_plugin_id_t id, void *data);

void qemu_plugin_register_vcpu_tb_trans_cb(qemu_plugin_id_t id, translated_function *function);
void qemu_plugin_register_vcpu_insn_exec_cb(struct qemu_plugin_insn *instruction, executed_function *function, int flags, void *data);
void qemu_plugin_register_atexit_cb(qemu_plugin_id_t id, exit_function *function, void *data);
size_t qemu_plugin_tb_n_insns(const struct qemu_plugin_tb *block);
struct qemu_plugin_insn *qemu_plugin_tb_get_insn(const struct qemu_plugin_tb *block, size_t place);
uint64_t qemu_plugin_insn_vaddr(const struct qemu_plugin_insn *instruction);
size_t qemu_plugin_insn_size(const struct qemu_plugin_insn *instruction);
char *qemu_plugin_insn_disas(const struct qemu_plugin_insn *instruction);

__attribute__((visibility("default"))) int qemu_plugin_version = 1;

/* ---- the cycles of an instruction ---- */

#define REFILL 2

struct timing {
    const char *mnemonic; /* the first of the list that the instruction's begins with counts */
    uint8_t cycles;
    bool each_register; /* one more for each register of its list */
    bool memory;
};

static const struct timing timings[] = {
    {"ldrd", 3, false, false}, {"strd", 3, false, false},
    {"ldm", 1, true, false}, {"stm", 1, true, false}, {"push", 1, true, false}, {"pop", 1, true, false},
    {"vldm", 1, true, false}, {"vstm", 1, true, false}, {"vpush", 1, true, false}, {"vpop", 1, true, false},
    {"vldr", 2, false, true}, {"vstr", 2, false, true}, {"ldr", 2, false, true}, {"str", 1, false, true},
    {"tbb", 2, false, false}, {"tbh", 2, false, false},
    {"sdiv", 7, false, false}, {"udiv", 7, false, false}, {"mla", 2, false, false}, {"mls", 2, false, false},
    {"vdiv", 14, false, false}, {"vsqrt", 14, false, false},
    {"vmla", 3, false, false}, {"vmls", 3, false, false}, {"vfma", 3, false, false}, {"vfms", 3, false, false},
    {"vfnm", 3, false, false}, {"vnml", 3, false, false},
};

/* The registers of a list such as {r4, r5, r7, lr}: QEMU writes each of them. */
static unsigned registers_in(const char *text)
{
    const char *list = strchr(text, '{');
    unsigned number = 1;
    for (; list != NULL && *list != '\0' && *list != '}'; list++) {
        number += *list == ',';
    }
    return number;
}

/* ---- what is known of each instruction of the program ---- */

struct instruction {
    struct instruction *next;
    uint64_t address, times, cycles;
    uint8_t size, cost;
    bool memory;
};

static struct instruction *all;

static void set_cost(struct instruction *instruction, const char *text)
{
    instruction->cost = 1;
    for (size_t i = 0; i < sizeof timings / sizeof timings[0]; i++) {
        if (strncmp(text, timings[i].mnemonic, strlen(timings[i].mnemonic)) == 0) {
            instruction->cost = (uint8_t)(timings[i].cycles + (timings[i].each_register ? registers_in(text) : 0));
            instruction->memory = timings[i].memory;
            return;
        }
    }
}

/* ---- counting ---- */

static uint64_t begin_address, end_address, instructions, cycles, follows;
static bool counting, memory_before;
static FILE *out;
static const char *profile;

static void executed(unsigned cpu, void *data)
{
    struct instruction *this = data;
    (void)cpu;
    if (this->address == end_address && counting) {
        fprintf(out, "%" PRIu64 " %" PRIu64 "\n", instructions, cycles);
        fflush(out);
        counting = false;
    }
    if (counting) {
        unsigned cost = this->cost - (this->memory && memory_before && this->cost == 2) + (this->address != follows ? REFILL : 0);
        instructions++;
        cycles += cost;
        this->times++;
        this->cycles += cost;
    }
    memory_before = this->memory;
    follows = this->address + this->size;
    if (this->address == begin_address) {
        instructions = cycles = 0;
        counting = true;
    }
}

static void translated(qemu_plugin_id_t id, struct qemu_plugin_tb *block)
{
    (void)id;
    for (size_t i = 0; i < qemu_plugin_tb_n_insns(block); i++) {
        struct qemu_plugin_insn *found = qemu_plugin_tb_get_insn(block, i);
        struct instruction *this = calloc(1, sizeof *this);
        char *text = qemu_plugin_insn_disas(found);
        this->address = qemu_plugin_insn_vaddr(found);
        this->size = (uint8_t)qemu_plugin_insn_size(found);
        set_cost(this, text == NULL ? "" : text);
        free(text);
        this->next = all;
        all = this;
        qemu_plugin_register_vcpu_insn_exec_cb(found, executed, 0, this);
    }
}

static void write_profile(qemu_plugin_id_t id, void *data)
{
    FILE *file = fopen(profile, "w");
    (void)id;
    (void)data;
    for (const struct instruction *each = all; file != NULL && each != NULL; each = each->next) {
        if (each->times != 0) {
            fprintf(file, "%08" PRIx64 " %" PRIu64 " %" PRIu64 "\n", each->address, each->times, each->cycles);
        }
    }
    if (file != NULL) {
        fclose(file);
    }
}

__attribute__((visibility("default"))) int qemu_plugin_install(qemu_plugin_id_t id, const void *info, int words, char **word)
{
    (void)info;
    for (int i = 0; i < words; i++) {
        if (strncmp(word[i], "begin=", 6) == 0) {
            begin_address = strtoull(word[i] + 6, NULL, 16) & ~1ull;
        } else if (strncmp(word[i], "end=", 4) == 0) {
            end_address = strtoull(word[i] + 4, NULL, 16) & ~1ull;
        } else if (strncmp(word[i], "out=", 4) == 0) {
            out = fopen(word[i] + 4, "w");
        } else if (strncmp(word[i], "profile=", 8) == 0) {
            profile = strdup(word[i] + 8);
        }
    }
    if (out == NULL || begin_address == 0 || end_address == 0) {
        fprintf(stderr, "counter: begin=, end= and out= are wanted\n");
        return 1;
    }
    if (profile != NULL) {
        qemu_plugin_register_atexit_cb(id, write_profile, NULL);
    }
    qemu_plugin_register_vcpu_tb_trans_cb(id, translated);
    return 0;
}
