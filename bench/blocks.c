/* A plugin of the emulator qemu-x86_64 that counts how often each instruction of a program is executed.
 *
 *   qemu-x86_64 -plugin blocks.so,out=FILE PROGRAM WORDS..
 *
 * writes to FILE, when the program ends, a line `ADDRESS COUNT` for every instruction that was translated, both decimal. A block of
 * instructions is translated as one and may be translated again, so an address can have several lines, which are to be added up.
 *
 * An instruction that stands on two pages is translated only as the first of a block. Where it comes later the emulator, from 7.2 on,
 * ends the block before it, but tells the plugin of it all the same: it is not counted there. Otherwise a count would depend on where
 * the linker puts the code.
 *
 * Only what every version of the plugin interface has is used, declared here since few systems have its header. The version that the
 * emulator wants is set by -DVERSION; bench/counting.sh tries them.
 */
#include <inttypes.h>
#include <stddef.h>
#include <stdio.h>
#include <stdlib.h>
#include <string.h>

#ifndef VERSION
#define VERSION 1
#endif

typedef uint64_t plugin_id;
struct qemu_plugin_tb;
struct qemu_plugin_insn;
enum { NO_REGISTERS };

extern void qemu_plugin_register_vcpu_tb_trans_cb(plugin_id, void (*)(plugin_id, struct qemu_plugin_tb *));
extern void qemu_plugin_register_vcpu_tb_exec_cb(struct qemu_plugin_tb *, void (*)(unsigned, void *), int, void *);
extern void qemu_plugin_register_atexit_cb(plugin_id, void (*)(plugin_id, void *), void *);
extern size_t qemu_plugin_tb_n_insns(const struct qemu_plugin_tb *);
extern struct qemu_plugin_insn *qemu_plugin_tb_get_insn(const struct qemu_plugin_tb *, size_t);
extern uint64_t qemu_plugin_insn_vaddr(const struct qemu_plugin_insn *);
extern size_t qemu_plugin_insn_size(const struct qemu_plugin_insn *);

#define SHOWN __attribute__((visibility("default")))

SHOWN int qemu_plugin_version = VERSION;

struct block {
	struct block *next;
	uint64_t times;
	size_t length;
	uint64_t address[];
};

static struct block *blocks;
static const char *out;

/* bytes of a page of x86-64 */
#define PAGE 4096

/* the instructions that begin a block and stand on two pages */
struct crossing {
	struct crossing *next;
	uint64_t address;
};

static struct crossing *crossings;

static void *memory(size_t bytes)
{
	void *got = malloc(bytes);
	if (got == NULL)
		abort();
	return got;
}

static int crosses(uint64_t address)
{
	const struct crossing *known = crossings;
	while (known != NULL && known->address != address)
		known = known->next;
	return known != NULL;
}

static void executed(unsigned cpu, void *block)
{
	(void)cpu;
	((struct block *)block)->times++;
}

static void translated(plugin_id id, struct qemu_plugin_tb *tb)
{
	size_t length = qemu_plugin_tb_n_insns(tb);
	struct block *block = memory(sizeof *block + length * sizeof block->address[0]);
	(void)id;
	block->next = blocks;
	block->times = 0;
	block->length = length;
	for (size_t i = 0; i < length; i++)
		block->address[i] = qemu_plugin_insn_vaddr(qemu_plugin_tb_get_insn(tb, i));
	blocks = block;
	if (length > 0) {
		uint64_t first = block->address[0], last = first + qemu_plugin_insn_size(qemu_plugin_tb_get_insn(tb, 0)) - 1;
		if (first / PAGE != last / PAGE && !crosses(first)) {
			struct crossing *found = memory(sizeof *found);
			found->next = crossings;
			found->address = first;
			crossings = found;
		}
	}
	qemu_plugin_register_vcpu_tb_exec_cb(tb, executed, NO_REGISTERS, block);
}

static void ended(plugin_id id, void *nothing)
{
	FILE *file = fopen(out, "w");
	(void)id;
	(void)nothing;
	if (file == NULL) {
		fprintf(stderr, "blocks: %s cannot be written\n", out);
		return;
	}
	for (struct block *block = blocks; block != NULL; block = block->next) {
		size_t length = block->length;
		if (length > 1 && crosses(block->address[length - 1]))
			length--;
		for (size_t i = 0; i < length; i++)
			fprintf(file, "%" PRIu64 " %" PRIu64 "\n", block->address[i], block->times);
	}
	fclose(file);
}

/* What is told of the emulator is not read. */
SHOWN int qemu_plugin_install(plugin_id id, const void *emulator, int argc, char **argv)
{
	(void)emulator;
	for (int i = 0; i < argc; i++)
		if (strncmp(argv[i], "out=", 4) == 0)
			out = strdup(argv[i] + 4);
	if (out == NULL) {
		fprintf(stderr, "blocks: no file is named by out=FILE\n");
		return 1;
	}
	qemu_plugin_register_vcpu_tb_trans_cb(id, translated);
	qemu_plugin_register_atexit_cb(id, ended, NULL);
	return 0;
}
