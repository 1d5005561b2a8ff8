/* Work to count instructions of, done so many times over, with the static library.
 *
 *   driver run TIMES <TAPE              the tape on a fresh table of begin 128, and the requests and answer bytes of one time
 *   driver sound TABLE TIMES            the soundness check of a table
 *   driver fault TABLE TIMES            the question why it is damaged, of the table with one touch damaged, so that S8 alone fails
 *   driver list TABLE TIMES             its listing
 *   driver partner TABLE DEFECT TIMES   the question for a defect's partner, with the soundness check; `all` asks for each defect once
 *   driver reset TIMES                  emptying a table
 *   driver conflict TABLE WHAT TIMES    a run of one conflict on a table: its soundness check, and the request
 *   driver baseline TABLE WHAT TIMES    the same run without the request, to be taken off; the two words are equally long, so that the
 *                                       stack is aligned alike
 *   driver stack TABLE                  the bytes of stack that the deepest calls on a table touch
 *
 * TABLE is one of these, where N is a size and `NAME:N` another than what it has without:
 *
 *   fresh            no node
 *   pairs (N 256)    N nodes in pairs; half is pairs:128
 *   tree (N 255)     a tree of N nodes, one path
 *   wide (N 255)     a tree of N nodes, every pair at the root
 *   nested (N 85)    N blossoms, each in the next, every touch the deepest defect
 *   outside (N 85)   the same, every touch a defect of the outermost ring
 *   settled (N 85)   nested, and the outermost matched to a virtual vertex
 *   apart (N 85)     outside, and the outermost matched to a virtual vertex: every level is paired by a link of its own
 *
 * WHAT is one of these, each between the last node that the table's name speaks of (a tree's last leaf, the outermost blossom, else
 * a new node) and another:
 *
 *   meet     a new node
 *   hang     a node that is paired with another, so that the two go below a tree's node
 *   close    a tree's root, so that the way between becomes a blossom
 *   end      in a tree of one path, the node two above: a blossom of three at the path's end
 *   middle   the same half way down the path, between two nodes there
 *   leaf     in a tree of one path, the last leaf of another tree like it: both are taken apart
 */
#include <stdint.h>
#include <stdio.h>
#include <stdlib.h>
#include <string.h>
#include <ucontext.h>

#include "../tools/src/deep.h"
#include "boltclover.h"

#define MOST 65536

static uint16_t table[BOLTCLOVER_TABLE_WORDS];
static uint8_t tape[MOST];
static uint8_t out[MOST];

static void must(int fine, const char *what)
{
	if (!fine) {
		fprintf(stderr, "driver: %s\n", what);
		exit(1);
	}
}

static void meet(uint16_t a, uint16_t b, uint16_t touch_a, uint16_t touch_b)
{
	boltclover_size written;
	uint16_t side;
	must(boltclover_conflict(table, a, b, touch_a, touch_b, 1000 + touch_a, 1000 + touch_b, out, MOST, &written, &side) == 0, "a conflict is refused");
}

/* whether the last slot is kept for a blossom */
static int slot_kept;

static void make(uint16_t begin) { must(boltclover_make(table, slot_kept && begin > 255 ? 255 : begin) == 0, "making is refused"); }

/* where the next conflict is: a node with its touch, and the first defect that the table does not name */
static uint16_t end, end_touch, unnamed;

/* the defects of the table, 0 to one less */
static int defects;

static int is(const char *name, const char *known)
{
	size_t length = strlen(known);
	return strncmp(name, known, length) == 0 && (name[length] == 0 || name[length] == ':');
}

static void build(const char *name)
{
	const char *colon = strchr(name, ':');
	int settled = is(name, "settled"), apart = is(name, "apart"), n, which = 0;
	while (which < DEEP_TABLES && !is(settled ? "nested" : apart ? "outside" : name, deep_names[which]))
		which++;
	must(which < DEEP_TABLES, "no such table");
	n = colon ? atoi(colon + 1) : deep_sizes[which];
	must(n >= 0 && n <= (which == HALF_TABLE ? 256 : deep_sizes[which]), "no table of that kind is so large");
	must((which != TREE_TABLE && which != WIDE_TABLE) || n % 2 == 1, "a tree has 1, 3, .. 255 nodes");
	must((which != HALF_TABLE && which != PAIRS_TABLE) || n % 2 == 0, "0, 2, .. 256 nodes are in pairs");
	deep_table(which, n, make, meet);
	if (which >= NESTED_TABLE) {
		end = n ? DEEP_NEST + n - 1 : 0;
		end_touch = which == OUTSIDE_TABLE ? 2 * n : 0;
		unnamed = 2 * n + 1;
	} else if (which >= TREE_TABLE) {
		end = end_touch = n - 1;
		unnamed = n;
	} else {
		end = end_touch = n;
		unnamed = n + 1;
	}
	defects = which >= TREE_TABLE ? unnamed : n;
	if (settled || apart) {
		boltclover_size written;
		uint16_t side;
		must(boltclover_virtual_conflict(table, end, end_touch, 1, 2, out, MOST, &written, &side) == 0, "the virtual conflict is refused");
	}
}

static void run(size_t length, unsigned times)
{
	uint32_t requests = 0;
	size_t bytes = 0;
	for (unsigned i = 0; i < times; i++) {
		size_t at = 0;
		requests = 0;
		bytes = 0;
		must(boltclover_make(table, 128) == 0, "making is refused");
		while (at < length) {
			uint16_t stop;
			uint32_t handled;
			boltclover_size written, unread;
			must(boltclover_run(table, tape + at, length - at, out, MOST, MOST, &stop, &handled, &written, &unread) == 0, "the run is refused");
			must(stop == 0 || stop == 2, "the tape is bad");
			requests += handled;
			bytes += written;
			at = length - unread;
		}
	}
	printf("requests %u answer bytes %zu\n", (unsigned)requests, bytes);
}

static uint8_t *number(uint8_t *at, uint32_t n, int bytes)
{
	for (int i = 0; i < bytes; i++, n >>= 8)
		*at++ = n & 255;
	return at;
}

/* the record of a conflict, onto the tape */
static size_t request(uint16_t node_2, uint16_t touch_2)
{
	uint8_t *at = tape;
	at = number(at, 18, 2);
	at = number(at, 1, 2);
	at = number(at, end, 2);
	at = number(at, node_2, 2);
	at = number(at, end_touch, 2);
	at = number(at, touch_2, 2);
	at = number(at, 1, 4);
	at = number(at, 2, 4);
	return at - tape;
}

/* path: the table is a tree of one path */
static void conflict(const char *what, int path, unsigned times, int requested)
{
	static uint16_t before[BOLTCLOVER_TABLE_WORDS];
	size_t length = 0;
	if (strcmp(what, "meet") == 0)
		length = request(unnamed, unnamed);
	else if (strcmp(what, "hang") == 0) {
		meet(unnamed, unnamed + 1, unnamed, unnamed + 1);
		length = request(unnamed, unnamed);
	} else if (strcmp(what, "close") == 0)
		length = request(0, 0);
	else if (path && strcmp(what, "end") == 0 && end >= 2)
		length = request(end - 2, end - 2);
	else if (path && strcmp(what, "middle") == 0 && end >= 4) {
		end = end_touch = end / 4 * 2;
		length = request(end - 2, end - 2);
	} else if (path && strcmp(what, "leaf") == 0 && end < 128) {
		for (uint16_t k = 1; k < unnamed; k += 2)
			meet(unnamed + k, unnamed + k + 1, unnamed + k, unnamed + k + 1);
		for (uint16_t k = 1; k < unnamed; k += 2)
			meet(unnamed + k - 1, unnamed + k, unnamed + k - 1, unnamed + k);
		length = request(unnamed + end, unnamed + end);
	}
	must(length > 0, "a conflict is meet, hang, close, or in a tree end (of three nodes or more), middle (of five or more) or leaf (of 127 or fewer)");
	if (!requested)
		length = 0;
	memcpy(before, table, sizeof table);
	for (unsigned i = 0; i < times; i++) {
		uint16_t stop;
		uint32_t handled;
		boltclover_size written, unread;
		memcpy(table, before, sizeof table);
		must(boltclover_run(table, tape, length, out, MOST, MOST, &stop, &handled, &written, &unread) == 0, "the run is refused");
		must(unread == 0 && (length == 0 || written > 8), "the conflict is refused");
	}
}

/* A call on a stack of its own, painted before and looked at afterwards: what is no longer painted was touched. */
#define STACK 1048576
#define PAINT 0xa5

static unsigned char *stack;
static ucontext_t back, there;

static void check(void) { must(boltclover_sound(table) == 1, "the table is not sound"); }

static void list(void)
{
	boltclover_size written;
	must(boltclover_list(table, out, MOST, &written) == 0, "the listing is refused");
}

/* the node that is matched, and its touch */
static uint16_t node, touch;

static void match(void)
{
	boltclover_size written;
	uint16_t side;
	must(boltclover_virtual_conflict(table, node, touch, 1, 2, out, MOST, &written, &side) == 0, "the virtual conflict is refused");
}

static void meet_new(void) { meet(end, unnamed, end_touch, unnamed); }

static unsigned long paired;

static void ask(uint16_t defect)
{
	uint16_t kind, partner;
	uint32_t through, peer_through;
	must(boltclover_partner(table, defect, &kind, &partner, &through, &peer_through) == 0, "the question for a partner is refused");
	paired += kind != BOLTCLOVER_PARTNER_NOBODY;
}

static void ask_deepest(void) { ask(0); }

/* The highest slot that has a touch gets another one, which is outside it; and so does the peer touch of its peer, so that no other rule
   fails. The search then asks every rule at every slot, and S8 up to there. */
enum { SLOT_WORDS = 11, SIBLING = 3, TOUCH = 5, PEER_TOUCH = 6 };

static void damage_touch(void)
{
	uint16_t slot;
	int n = 255;
	while (n >= 0 && table[SLOT_WORDS * n + TOUCH] == BOLTCLOVER_NO_NODE)
		n--;
	must(n >= 0, "no node of the table has a touch to be damaged");
	uint16_t *words = table + SLOT_WORDS * n;
	int half = words[0] == 2 && words[SIBLING] != BOLTCLOVER_NO_NODE;
	for (uint16_t defect = 0; defect < defects; defect++) {
		words[TOUCH] = defect;
		if (half)
			table[SLOT_WORDS * words[SIBLING] + PEER_TOUCH] = defect;
		if (boltclover_fault(table, &slot) == 8)
			return;
	}
	must(0, "no touch makes S8 fail");
}

static void nothing(void) {}

static size_t touched(void (*call)(void))
{
	size_t low = 0;
	memset(stack, PAINT, STACK);
	must(getcontext(&there) == 0, "no context");
	there.uc_stack.ss_sp = stack;
	there.uc_stack.ss_size = STACK;
	there.uc_link = &back;
	makecontext(&there, call, 0);
	must(swapcontext(&back, &there) == 0, "no context");
	while (low < STACK && stack[low] == PAINT)
		low++;
	return STACK - low;
}

static void measure(const char *name)
{
	size_t own;
	stack = malloc(STACK);
	must(stack != NULL, "no memory for a stack");
	build(name);
	own = touched(nothing);
	printf("soundness check %zu\n", touched(check) - own);
	if (is(name, "tree") || is(name, "wide")) {
		node = touch = end;
		printf("virtual conflict at the last node %zu\n", touched(match) - own);
		build(name);
		node = touch = 0;
		printf("virtual conflict at the root %zu\n", touched(match) - own);
		build(name);
		printf("conflict of the last node and a new one %zu\n", touched(meet_new) - own);
	} else if (is(name, "nested") || is(name, "outside")) {
		node = end;
		touch = end_touch;
		printf("virtual conflict at the outermost blossom %zu\n", touched(match) - own);
	}
	printf("listing afterwards %zu\n", touched(list) - own);
	if (is(name, "nested") || is(name, "outside"))
		printf("question for the deepest defect %zu\n", touched(ask_deepest) - own);
}

int main(int argc, char **argv)
{
	must(argc >= 3, "run TIMES | sound TABLE TIMES | fault TABLE TIMES | list TABLE TIMES | partner TABLE DEFECT TIMES | reset TIMES | conflict TABLE WHAT TIMES | baseline TABLE WHAT TIMES | stack TABLE");
	/* what is counted is the calls alone: the words are read before */
	int times = atoi(argv[argc - 1]);
	if (strcmp(argv[1], "run") == 0) {
		run(fread(tape, 1, MOST, stdin), times);
	} else if (strcmp(argv[1], "reset") == 0) {
		build("pairs");
		for (int i = 0; i < times; i++)
			must(boltclover_reset(table) == 0, "reset is refused");
	} else if (strcmp(argv[1], "stack") == 0) {
		measure(argv[2]);
	} else if (strcmp(argv[1], "partner") == 0) {
		must(argc == 5, "a table, a defect or `all`, and a number");
		build(argv[2]);
		int all = strcmp(argv[3], "all") == 0, first = all ? 0 : atoi(argv[3]), last = all ? defects - 1 : first;
		must(all || strspn(argv[3], "0123456789") == strlen(argv[3]), "a defect is a number");
		for (int i = 0; i < times; i++)
			for (int defect = first; defect <= last; defect++)
				ask(defect);
		printf("paired %lu\n", paired);
	} else if (strcmp(argv[1], "fault") == 0) {
		uint16_t slot = 0;
		must(argc == 4, "a table and a number");
		build(argv[2]);
		damage_touch();
		for (int i = 0; i < times; i++)
			must(boltclover_fault(table, &slot) == 8, "another rule fails");
		printf("S8 at slot %u\n", slot);
	} else if (strcmp(argv[1], "conflict") == 0 || strcmp(argv[1], "baseline") == 0) {
		must(argc == 5, "a table, a kind of conflict and a number");
		int path = is(argv[2], "tree");
		slot_kept = path && strcmp(argv[3], "meet") != 0 && strcmp(argv[3], "hang") != 0;
		build(argv[2]);
		conflict(argv[3], path, times, strcmp(argv[1], "conflict") == 0);
	} else {
		boltclover_size written = 0;
		must(argc == 4, "a table and a number");
		build(argv[2]);
		int checks = strcmp(argv[1], "sound") == 0;
		for (int i = 0; i < times; i++) {
			if (checks)
				must(boltclover_sound(table) == 1, "the table is not sound");
			else
				must(boltclover_list(table, out, MOST, &written) == 0, "the listing is refused");
		}
		printf("bytes listed %zu\n", (size_t)written);
	}
	return 0;
}
