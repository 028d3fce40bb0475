// A plugin for QEMU's user-mode emulators: it counts the instructions that a program runs, and tells the program. The system
// call COUNT, which no kernel has, writes the count to the address that is its first argument. `run` builds it.
#include <stddef.h>
#include <stdint.h>

// What is wanted of QEMU's qemu-plugin.h, version 1 of it.
typedef uint64_t plugin_id;
struct block;
struct instruction;
struct info;
enum { ADD_U64 };
int qemu_plugin_version = 1;
void qemu_plugin_register_vcpu_tb_trans_cb(plugin_id, void (*)(plugin_id, struct block *));
void qemu_plugin_register_vcpu_tb_exec_inline(struct block *, int, void *, uint64_t);
void qemu_plugin_register_vcpu_syscall_cb(plugin_id, void (*)(plugin_id, unsigned, int64_t, uint64_t, uint64_t, uint64_t,
                                                              uint64_t, uint64_t, uint64_t, uint64_t, uint64_t));
size_t qemu_plugin_tb_n_insns(const struct block *);
struct instruction *qemu_plugin_tb_get_insn(const struct block *, size_t);
uint64_t qemu_plugin_insn_vaddr(const struct instruction *);
void *qemu_plugin_insn_haddr(const struct instruction *);

enum { COUNT = 100000 };

static uint64_t count;
// The address of the program's byte 0 in the emulator.
static uint64_t memory;

static void translated(plugin_id id, struct block *block) {
    (void)id;
    struct instruction *first = qemu_plugin_tb_get_insn(block, 0);
    memory = (uint64_t)(uintptr_t)qemu_plugin_insn_haddr(first) - qemu_plugin_insn_vaddr(first);
    qemu_plugin_register_vcpu_tb_exec_inline(block, ADD_U64, &count, qemu_plugin_tb_n_insns(block));
}

static void called(plugin_id id, unsigned cpu, int64_t number, uint64_t address, uint64_t b, uint64_t c, uint64_t d, uint64_t e,
                   uint64_t f, uint64_t g, uint64_t h) {
    (void)id, (void)cpu, (void)b, (void)c, (void)d, (void)e, (void)f, (void)g, (void)h;
    if (number == COUNT) *(uint64_t *)(uintptr_t)(address + memory) = count;
}

int qemu_plugin_install(plugin_id id, const struct info *info, int arguments, char **values) {
    (void)info, (void)arguments, (void)values;
    qemu_plugin_register_vcpu_tb_trans_cb(id, translated);
    qemu_plugin_register_vcpu_syscall_cb(id, called);
    return 0;
}
