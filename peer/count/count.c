/* A plugin of qemu's user emulation that counts the instructions that a program executes.
 *
 * Each block that the emulator translates gets counters of its own, so that the hot blocks can be listed too. At the end it
 * writes, to the file given as out=FILE, the number of all instructions, of those in the program's own code (without the C
 * library's), and the emulator's peak resident memory in KiB; then a line for each block: its offset in the program's code
 * (or its address elsewhere), the instructions executed in it and how often it ran.
 *
 * Each instruction adds to its block's counter. The length that the emulator gives a block would not do: where an instruction
 * goes over a page's end, the block ends before it and counts it all the same.
 *
 * A string instruction with a repeat prefix counts once for each repetition. Debian's qemu comes without the header of its
 * plugins, so what is used of it is declared here. Build with: cc -O2 -shared -fPIC -o count.so count.c */

#include <inttypes.h>
#include <stdio.h>
#include <stdlib.h>
#include <string.h>

typedef uint64_t plugin;
typedef struct qemu_plugin_tb block;
typedef struct qemu_plugin_insn instruction;

int qemu_plugin_version = 1;
void qemu_plugin_register_vcpu_tb_trans_cb(plugin, void (*)(plugin, block *));
void qemu_plugin_register_vcpu_tb_exec_inline(block *, int operation, void *counter, uint64_t add);
void qemu_plugin_register_vcpu_insn_exec_inline(instruction *, int operation, void *counter, uint64_t add);
void qemu_plugin_register_atexit_cb(plugin, void (*)(plugin, void *), void *);
size_t qemu_plugin_tb_n_insns(const block *);
instruction *qemu_plugin_tb_get_insn(const block *, size_t);
uint64_t qemu_plugin_tb_vaddr(const block *);
uint64_t qemu_plugin_start_code(void);
uint64_t qemu_plugin_end_code(void);

enum { MOST_BLOCKS = 1 << 18, ADD = 0 };

static struct { uint64_t address, executed, times; } blocks[MOST_BLOCKS];
static size_t used;
static const char *out;

static void translated(plugin id, block *translated) {
    (void)id;
    if (used == MOST_BLOCKS) {
        fprintf(stderr, "count: more than %d blocks\n", MOST_BLOCKS);
        abort();
    }
    blocks[used].address = qemu_plugin_tb_vaddr(translated);
    qemu_plugin_register_vcpu_tb_exec_inline(translated, ADD, &blocks[used].times, 1);
    for (size_t i = 0; i < qemu_plugin_tb_n_insns(translated); i++)
        qemu_plugin_register_vcpu_insn_exec_inline(qemu_plugin_tb_get_insn(translated, i), ADD, &blocks[used].executed, 1);
    used++;
}

/* The line VmHWM of this process. */
static unsigned long high_water(void) {
    unsigned long peak = 0;
    char line[256];
    FILE *status = fopen("/proc/self/status", "r");
    while (status && fgets(line, sizeof line, status)) sscanf(line, "VmHWM: %lu", &peak);
    if (status) fclose(status);
    return peak;
}

static void ended(plugin id, void *nothing) {
    (void)id, (void)nothing;
    uint64_t start = qemu_plugin_start_code(), end = qemu_plugin_end_code(), all = 0, own = 0;
    FILE *file = fopen(out, "w");
    if (!file) {
        perror(out);
        abort();
    }
    for (size_t i = 0; i < used; i++) {
        all += blocks[i].executed;
        if (start <= blocks[i].address && blocks[i].address < end) own += blocks[i].executed;
    }
    fprintf(file, "%" PRIu64 " %" PRIu64 " %lu\n", all, own, high_water());
    for (size_t i = 0; i < used; i++) {
        int is_own = start <= blocks[i].address && blocks[i].address < end;
        fprintf(file, "%s %" PRIx64 " %" PRIu64 " %" PRIu64 "\n", is_own ? "own" : "other",
                blocks[i].address - (is_own ? start : 0), blocks[i].executed, blocks[i].times);
    }
    fclose(file);
}

int qemu_plugin_install(plugin id, const void *emulator, int count, char **arguments) {
    (void)emulator;
    for (int i = 0; i < count; i++)
        if (!strncmp(arguments[i], "out=", 4)) out = strdup(arguments[i] + 4);
    if (!out) {
        fprintf(stderr, "count: out=FILE is missing\n");
        return 1;
    }
    qemu_plugin_register_vcpu_tb_trans_cb(id, translated);
    qemu_plugin_register_atexit_cb(id, ended, NULL);
    return 0;
}
