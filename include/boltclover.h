/*
 * Boltclover: the primal half of a decoder that pairs detection events by Edmonds's blossom method, for C, C++ and Rust.
 * Built by `tools/prove --staticlib primal_c` for x86-64 Linux, as target/staticlib/libprimal_c.a, and by `tools/library` for Arm, RISC-V and
 * WebAssembly too, as target/library/TARGET/libboltclover.a (docs/MACHINES.md). The library has no memory of its own: it
 * allocates nothing, keeps nothing between calls, reads and writes no file, and wants no function but memset and memcpy, which a
 * target without a system has in the library itself, to be replaced by the caller's own (weak symbols). Its calls recurse as deep
 * as trees and blossoms are; docs/MACHINES.md has the most stack seen on each target.
 *
 * Numbers. Nodes have 16 bits, vertices and counts of requests 32. Lengths, room and counts of bytes are boltclover_size, 64 bits on
 * every target, also where a pointer and size_t have 32: the library is one proved program, and in it they have 64 bits.
 *
 * What is lent. Every pointer is lent for the call alone. None may be NULL, also where its length is 0. A table is
 * BOLTCLOVER_TABLE_WORDS words, in any memory of the caller's (static, stack, heap). Each pointer is aligned as the type that it
 * points to: table, slot, side, stop, kind and partner by 2 bytes, handled, through and peer_through by 4, written and unread by 8; tape and out
 * need no alignment. The objects of one call must not overlap. Calls on different tables may run at the same time; calls on one table may not.
 *
 * What a call changes. An accepted call changes the table, *written, *side and the first *written bytes of out; later bytes of out
 * stay as they were. A refused call changes nothing but *written, which it sets to 0, and *side: the table and every byte of out stay
 * as they were. *side is set at every return. The question for a partner changes *kind, *partner, *through and *peer_through alone, and
 * sets all four at every return. The question why a table is damaged changes *slot alone, and sets it at every return. The old contents of
 * these five and of *written, *side, *stop, *handled and *unread are never read.
 *
 * What is asked of the caller. Of the values nothing: every table, number, tape and length may be passed, and every call ends.
 * A table that was not made, or that something else wrote into, is found out by each call and refused (number 1); boltclover_fault
 * then names the rule that it breaks, and the slot.
 *
 * Bytes are records, little-endian: a two-byte length (of what follows it), a two-byte kind, fields. A node has two bytes, a
 * vertex four. A run also reads a request that recorders padded: with zeros behind it up to a multiple of four bytes, the length field
 * counted in, and a length that counts them. Of the kinds below that is an expansion of length 6 with two zeros. Nothing is written so.
 *   requests   1 conflict (node_1, node_2, touch_1, touch_2, vertex_1, vertex_2; length 18)
 *              2 virtual conflict (node, touch, vertex, virtual vertex; 14)   3 expansion (node; 4)   4 reset (2)   5 list (2)
 *   commands  16 speed (node, then 0 Stay, 1 Grow, 2 Shrink; 6)   17 create (node; 4)   18 expand (node; 4)
 *   entries   20 pair (node, peer, through, peer through; 14)   21 virtual pair (node, through, virtual vertex; 12)
 *   end       19 (0 or the refusal's number, the side; 6), written by boltclover_run alone
 */
#ifndef BOLTCLOVER_H
#define BOLTCLOVER_H

#include <stdint.h>

/* The library is built for little-endian targets alone. */
#if defined(__BYTE_ORDER__) && defined(__ORDER_LITTLE_ENDIAN__)
#if __BYTE_ORDER__ != __ORDER_LITTLE_ENDIAN__
#error "Boltclover is for little-endian targets, and this one is not"
#endif
#elif !defined(_MSC_VER) && !defined(BOLTCLOVER_LITTLE_ENDIAN)
#error "This compiler does not say the order of bytes: define BOLTCLOVER_LITTLE_ENDIAN if the target is little-endian; Boltclover is for no other"
#endif

#ifdef __cplusplus
extern "C" {
#endif

typedef uint64_t boltclover_size; /* a length, room or count of bytes, on every target */

#define BOLTCLOVER_TABLE_WORDS 2819 /* 256 slots of eleven words, then begin and two counts */
#define BOLTCLOVER_COMMAND_ROOM 4096 /* bytes of out that conflict, virtual_conflict and expand want: 512 commands of 8 bytes */
#define BOLTCLOVER_LISTING_ROOM(defects) ((boltclover_size)16 * (defects)) /* bytes of out that list wants; 4096 is always enough */
#define BOLTCLOVER_RUN_ROOM 4104 /* bytes of out that run wants left before it handles a record */

#define BOLTCLOVER_NO_NODE 65535u
#define BOLTCLOVER_NO_VERTEX 4294967295u

/* The numbers given back. Each call gives the first that applies, in the order that stands beside the call. */
enum {
    BOLTCLOVER_DONE = 0,
    BOLTCLOVER_NOT_SOUND = 1,         /* the table is not sound: boltclover_fault says why */
    BOLTCLOVER_NO_RECORD_ROOM = 2,    /* given by the Rattle call that writes one record; by no call here */
    BOLTCLOVER_NO_SUCH_NODE = 3,      /* a named node is 256 or more, or an empty blossom slot; a vertex is none; or no present defect is asked about */
    BOLTCLOVER_NOT_OUTER = 4,         /* a named node is inside a blossom */
    BOLTCLOVER_SAME_NODE = 5,         /* both nodes are one */
    BOLTCLOVER_TOUCH_OUTSIDE = 6,     /* a touch is not a defect inside its node */
    BOLTCLOVER_NOT_GROWING = 7,       /* a node shrinks, or no named node grows */
    BOLTCLOVER_NO_BLOSSOM_SLOT = 8,   /* a blossom is to be made and every blossom slot has been given out */
    BOLTCLOVER_NO_COMMAND_ROOM = 9,   /* room is below BOLTCLOVER_COMMAND_ROOM */
    BOLTCLOVER_NO_LISTING_ROOM = 10,  /* room is below BOLTCLOVER_LISTING_ROOM(present defects) */
    BOLTCLOVER_NOT_EXPANDABLE = 11,   /* the node is not a present blossom that shrinks */
    BOLTCLOVER_BAD_RECORD = 12,       /* given by the Rattle call that reads one record; here a run stops by 3 */
    BOLTCLOVER_BAD_BEGIN = 13         /* begin is not 1 to 256 */
};

/* Which side of a conflict a refusal is for: 3, 4 and 6 name the first node (with its touch and its vertex) that fails the check,
   node_1 before node_2. A virtual conflict's are all of side 1. After any other number and after 0 there is no side. */
enum {
    BOLTCLOVER_NO_SIDE = 0,
    BOLTCLOVER_SIDE_1 = 1,
    BOLTCLOVER_SIDE_2 = 2
};

/* The kind of a partner. */
enum {
    BOLTCLOVER_PARTNER_NOBODY = 0,
    BOLTCLOVER_PARTNER_DEFECT = 1,
    BOLTCLOVER_PARTNER_VIRTUAL = 2
};

/* Why a run stopped. The first that applies, asked before each record. */
enum {
    BOLTCLOVER_TAPE_EMPTY = 0,
    BOLTCLOVER_ALLOWANCE_USED = 1,
    BOLTCLOVER_OUTPUT_FULL = 2,
    BOLTCLOVER_STOPPED_AT_BAD_RECORD = 3
};

/* Makes a fresh table: slots 0 to begin - 1 are for defects, begin to 255 for blossoms. The old words are not read.
   0 or 13; after 13 the words are as they were. */
uint16_t boltclover_make(uint16_t *table, uint16_t begin);

/* Empties every slot and zeroes both counts; begin stays. 0 or 1. */
uint16_t boltclover_reset(uint16_t *table);

/* 1 if the table is sound, 0 if not. */
uint16_t boltclover_sound(const uint16_t *table);

/* Why a table is damaged. 0 and *slot 0 exactly if it is sound; otherwise the first of the rules S1 to S8 (docs/RULES-IN-WORDS.md) that
   is broken, 1 to 8, and the smallest slot that breaks it. begin and the counts (S1) go by slot 0, a child list (S5) by its owner, a ring
   (S6) by its blossom, while the link of a ring's node, and a child that it should not have (S6 too), go by that node; all else by the slot
   whose field is wrong. No refusals. On a damaged table it takes 7 to 42 times as long as boltclover_sound, in the cases of docs/SPEED.md:
   it is for people, and not for the way of a request. A table kept in a file (its words, two bytes each, the low one first) is explained in
   words by `./boltclover fault FILE`. */
uint16_t boltclover_fault(const uint16_t *table, uint16_t *slot);

/* Two nodes touch: node_1 by its defect touch_1 at vertex_1, node_2 by touch_2 at vertex_2. A defect that the table has not
   seen is loaded first. Commands for the dual half go to out. 0, or in this order 1, 9, 3, 4, 5, 6, 7, 8; *side says which node
   3, 4 and 6 are for. */
uint16_t boltclover_conflict(uint16_t *table, uint16_t node_1, uint16_t node_2, uint16_t touch_1, uint16_t touch_2,
                             uint32_t vertex_1, uint32_t vertex_2, uint8_t *out, boltclover_size room, boltclover_size *written,
                             uint16_t *side);

/* A node touches a virtual vertex. 0, or in this order 1, 9, 3, 4, 6, 7; *side is 1 with 3, 4 and 6, else 0. */
uint16_t boltclover_virtual_conflict(uint16_t *table, uint16_t node, uint16_t touch, uint32_t vertex, uint32_t virtual_vertex,
                                     uint8_t *out, boltclover_size room, boltclover_size *written, uint16_t *side);

/* A shrinking blossom is taken apart. 0, or in this order 1, 9, 11. */
uint16_t boltclover_expand(uint16_t *table, uint16_t node, uint8_t *out, boltclover_size room, boltclover_size *written);

/* Lists every matched pair of defects, those inside blossoms too, as pair and virtual pair records. 0, or 1, 10. */
uint16_t boltclover_list(const uint16_t *table, uint8_t *out, boltclover_size room, boltclover_size *written);

/* Whom a present defect is paired with: what the listing says of it, with no list written. *kind is one of the three above; *partner is
   the other defect; *through is the vertex on the defect's own side and *peer_through the one on the other side, or the virtual vertex
   where there is one. What does not apply is none: BOLTCLOVER_NO_NODE, BOLTCLOVER_NO_VERTEX. After a refusal *kind is
   BOLTCLOVER_PARTNER_NOBODY and the other three are none.
   0, or 1, then 3 for a number that is no present defect: a blossom, an empty slot, 256 or more. */
uint16_t boltclover_partner(const uint16_t *table, uint16_t defect, uint16_t *kind, uint16_t *partner, uint32_t *through, uint32_t *peer_through);

/* Handles the requests of a tape, at most allowance of them. Each writes its records and an end record with 0 or its refusal and side;
   a refused request does not stop the run. Gives *stop, the requests handled, the bytes written, and the bytes left unread:
   the last *unread bytes of the tape. 0; or 1 on a table that is not sound, with *stop, *handled and *written 0 and *unread
   the whole length: boltclover_fault says what is wrong with it. */
uint16_t boltclover_run(uint16_t *table, const uint8_t *tape, boltclover_size length, uint8_t *out, boltclover_size room, uint32_t allowance,
                        uint16_t *stop, uint32_t *handled, boltclover_size *written, boltclover_size *unread);

#ifdef __cplusplus
}
#endif

#endif
