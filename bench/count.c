/*
 * A plugin of qemu-user: counts the instructions that the emulated program runs, and the divisions among them, and
 * hands the program its counts.
 *
 *     qemu-x86_64 -plugin count.so,counts=FILE program
 *
 * At each system call number MARK the counts so far, that call included, are appended to FILE, where the program can
 * read them. Built for the machine that emulates. Packages bring no qemu-plugin.h, so what is used of it is declared
 * here.
 */
#include "mark.h"

#include <stdbool.h>
#include <stdint.h>
#include <stdio.h>
#include <string.h>

typedef uint64_t plugin_id;
typedef struct qemu_plugin_tb tb; /* a stretch of instructions that is entered at its first and left after its last */
typedef struct qemu_plugin_insn insn;
typedef void on_translation(plugin_id id, tb *stretch);
typedef void on_execution(unsigned vcpu, void *given);
typedef void on_syscall(plugin_id id, unsigned vcpu, int64_t number, uint64_t, uint64_t, uint64_t, uint64_t, uint64_t,
                        uint64_t, uint64_t, uint64_t);
enum { NO_REGISTERS };

size_t qemu_plugin_tb_n_insns(const tb *stretch);
insn *qemu_plugin_tb_get_insn(const tb *stretch, size_t i);
uint64_t qemu_plugin_insn_vaddr(const insn *one);
const void *qemu_plugin_insn_data(const insn *one);
size_t qemu_plugin_insn_size(const insn *one);
void qemu_plugin_register_vcpu_tb_trans_cb(plugin_id id, on_translation *call);
void qemu_plugin_register_vcpu_tb_exec_cb(tb *stretch, on_execution *call, int flags, void *given);
void qemu_plugin_register_vcpu_insn_exec_cb(insn *one, on_execution *call, int flags, void *given);
void qemu_plugin_register_vcpu_syscall_cb(plugin_id id, on_syscall *call);

extern int qemu_plugin_version;
int qemu_plugin_version = 1;

static FILE *counts;
static counted so_far;
static uintptr_t ended_at; /* the address of the instruction that ran last, where that was the last of its stretch */

static void begun(unsigned vcpu, void *instructions)
{
    (void)vcpu;
    so_far.instructions += (int64_t)(uintptr_t)instructions;
    ended_at = 0;
}

/* An instruction that follows itself repeats, on strings, and counts once, as processors count it. */
static void ended(unsigned vcpu, void *address)
{
    (void)vcpu;
    so_far.instructions += (uintptr_t)address != ended_at;
    ended_at = (uintptr_t)address;
}

static void divided(unsigned vcpu, void *nothing)
{
    (void)vcpu, (void)nothing;
    so_far.divisions++;
}

/* ---- What is a division ---- */

static bool is_prefix(uint8_t byte)
{
    static const uint8_t prefixes[] = {0x26, 0x2E, 0x36, 0x3E, 0x64, 0x65, 0x66, 0x67, 0xF0, 0xF2, 0xF3};
    return memchr(prefixes, byte, sizeof prefixes) != NULL;
}

/* By the opcode and the byte behind it. Behind F6 and F7 that says which it is: 4 mul, 5 imul, 6 div, 7 idiv. */
static bool divides(bool wide, uint8_t opcode, uint8_t next)
{
    unsigned which = next >> 3 & 7;
    switch (opcode) {
    case 0xF6:
        return which >= 6;
    case 0xF7:
        return which >= 4;
    case 0x0F:
        return wide && next == 0xAF;
    default:
        return wide && (opcode == 0x69 || opcode == 0x6B);
    }
}

/*
 * Compilers make a division by a constant a multiplication by its reciprocal, of which they take the upper half. So a
 * multiplication counts as a division where it has one: that into two registers, but for bytes, and imul of 64 bits.
 * Other products of 64 bits count too, so the count says something only where there are none, as in a check.
 */
static bool is_division(const insn *one)
{
    const uint8_t *bytes = qemu_plugin_insn_data(one);
    size_t n = qemu_plugin_insn_size(one), i = 0;
    bool wide;
    while (i < n && is_prefix(bytes[i]))
        i++;
    wide = i < n && (bytes[i] & 0xF8) == 0x48;
    i += i < n && (bytes[i] & 0xF0) == 0x40;
    return i + 1 < n && divides(wide, bytes[i], bytes[i + 1]);
}

/* ---- Calls by the emulator ---- */

/*
 * The last instruction is counted on its own. One that crosses a page is the last of a stretch, and again the first of
 * the next, which alone runs it: so the numbers do not hang on where in memory the program stands.
 */
static void translated(plugin_id id, tb *stretch)
{
    size_t others = qemu_plugin_tb_n_insns(stretch) - 1;
    insn *last = qemu_plugin_tb_get_insn(stretch, others);
    (void)id;
    for (size_t i = 0; i <= others; i++) {
        insn *one = qemu_plugin_tb_get_insn(stretch, i);
        if (is_division(one))
            qemu_plugin_register_vcpu_insn_exec_cb(one, divided, NO_REGISTERS, NULL);
    }
    if (others > 0)
        qemu_plugin_register_vcpu_tb_exec_cb(stretch, begun, NO_REGISTERS, (void *)(uintptr_t)others);
    qemu_plugin_register_vcpu_insn_exec_cb(last, ended, NO_REGISTERS, (void *)(uintptr_t)qemu_plugin_insn_vaddr(last));
}

static void called(plugin_id id, unsigned vcpu, int64_t number, uint64_t a, uint64_t b, uint64_t c, uint64_t d,
                   uint64_t e, uint64_t f, uint64_t g, uint64_t h)
{
    (void)id, (void)vcpu, (void)a, (void)b, (void)c, (void)d, (void)e, (void)f, (void)g, (void)h;
    if (number == MARK) {
        fwrite(&so_far, sizeof so_far, 1, counts);
        fflush(counts);
    }
}

int qemu_plugin_install(plugin_id id, const void *info, int argc, char **argv);

int qemu_plugin_install(plugin_id id, const void *info, int argc, char **argv)
{
    static const char option[] = "counts=";
    (void)info;
    if (argc != 1 || strncmp(argv[0], option, strlen(option)) != 0)
        return 1;
    counts = fopen(argv[0] + strlen(option), "wb");
    if (counts == NULL)
        return 1;
    qemu_plugin_register_vcpu_tb_trans_cb(id, translated);
    qemu_plugin_register_vcpu_syscall_cb(id, called);
    return 0;
}
