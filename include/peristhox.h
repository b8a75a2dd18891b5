/*
 * Peristhox: weighted tree automata as tables of bytes: checked, written again, collapsed, shrunk, used to weigh
 * trees. Every call is proved.
 *
 * Each call gives back code times 2^32 plus figure: PERISTHOX_CODE and PERISTHOX_FIGURE take the two apart. Code 0 is "done".
 * Under any other code the call has changed no lent memory, and the code is the first that applies: 13 for the direction; then 1 to 7
 * and 19 for the table, byte by byte; then 8 to 11 for the tree, node by node; then 12 for the room. Nothing is kept between calls,
 * nothing is allocated, and a call may run in any thread.
 *
 * A piece of memory is lent as a pointer and a length. Pieces lent to one call must not overlap if one of them is written. A
 * pointer must not be NULL, also where its length is 0. Lent room behind what a call writes stays as it was.
 *
 * Stack: a call takes at most PERISTHOX_STACK bytes of its thread's stack (measured, see docs/MEASURED.md).
 *
 * A table is, in order: arithmetic; number of states; number of symbols; the rank of each symbol; the final weight of each state;
 * number of transitions; the transitions, each as symbol, children, target, weight. States and symbols are counted from 0. The
 * transitions ascend strictly by symbol, then children left to right, then target; none has the weight code 0. Every number is
 * written in groups of seven bits, lowest group first, the top bit set on every byte but the last, in the fewest bytes. A weight is
 * written as its code, see the arithmetics.
 *
 * A tree is one byte a node, the symbol, in prefix order.
 */
#ifndef PERISTHOX_H
#define PERISTHOX_H

#include <stddef.h>
#include <stdint.h>

#ifdef __cplusplus
extern "C" {
#endif

/* The code and the figure of an answer. */
#define PERISTHOX_CODE(answer) ((uint32_t)((uint64_t)(answer) >> 32))
#define PERISTHOX_FIGURE(answer) ((uint32_t)(answer))

/* The codes, and what the figure says. */
#define PERISTHOX_DONE 0            /* done: see each call */
#define PERISTHOX_TABLE_ENDS 1      /* a table ends where a byte of a number is due: the table's length */
#define PERISTHOX_PADDED_NUMBER 2   /* a number has a needless last zero byte: the number's first byte */
#define PERISTHOX_OUT_OF_RANGE 3    /* arithmetic, states, symbols, a rank or transitions outside the range: the number's first byte */
#define PERISTHOX_NOT_IN_TABLE 4    /* a transition's symbol or state isn't in the table: the number's first byte */
#define PERISTHOX_ZERO_CODE 5       /* a transition's code is 0: the number's first byte */
#define PERISTHOX_NOT_ABOVE 6       /* a transition isn't above the one before: the transition's first byte */
#define PERISTHOX_TABLE_GOES_ON 7   /* bytes follow the last transition: the first of them */
#define PERISTHOX_TREE_ENDS 8       /* the tree ends while a node is due: the tree's length */
#define PERISTHOX_UNKNOWN_SYMBOL 9  /* a node's symbol isn't in the table: its offset */
#define PERISTHOX_TREE_GOES_ON 10   /* bytes follow a finished tree: the first of them */
#define PERISTHOX_TREE_TOO_LONG 11  /* a node is due and there is a byte at offset 4,096: 4,096 */
#define PERISTHOX_ROOM_TOO_SHORT 12 /* the lent room is too short: the room needed */
#define PERISTHOX_NO_DIRECTION 13   /* the direction is above 1: 0 */
#define PERISTHOX_LARGE_NUMBER 19   /* a number's fifth byte is 16 or more, also if that says that a sixth follows: the number's first byte */

/* The arithmetics, and what the code of a weight, 0 to 4,294,967,295, means. */
#define PERISTHOX_MODULAR 0         /* the code is the weight; sums and products modulo 2^32 */
#define PERISTHOX_MAX_PLUS 1        /* a sum is the greater of two, a product ordinary addition; 0 is "nothing"; 1, 2, 3, 4, .. are 0, -1, 1, -2, .. */

/* The directions. A shrink's direction is its first side. */
#define PERISTHOX_BACKWARD 0
#define PERISTHOX_FORWARD 1

/* The greatest sizes. A table has at least one state and one symbol. */
#define PERISTHOX_TABLE_MAX 65415   /* bytes of a table: room that is always enough to rewrite, collapse or shrink one */
#define PERISTHOX_STATES_MAX 256    /* states: room that is always enough for blocks */
#define PERISTHOX_SYMBOLS_MAX 128   /* symbols */
#define PERISTHOX_RANK_MAX 4        /* a symbol's rank */
#define PERISTHOX_TRANSITIONS_MAX 4000 /* transitions, which may also be none */
#define PERISTHOX_NODES_MAX 4096    /* nodes of a tree */
#define PERISTHOX_SHEET_MAX 1048576 /* numbers of a sheet: PERISTHOX_NODES_MAX times PERISTHOX_STATES_MAX */
#define PERISTHOX_WEIGHT_MAX INT64_C(8798240501759) /* PERISTHOX_MAX_PLUS: how far from 0 a weight that isn't nothing lies */
#define PERISTHOX_STACK 458752      /* bytes of stack that are enough for every call (check: 131072, weigh: 262144) */

/* The weight "nothing" in a sheet and as a tree's weight. It is below every number. */
#define PERISTHOX_NOTHING INT64_MIN

/* Whether the bytes are a table. Done: the number of its states. */
uint64_t peristhox_check(const uint8_t *table, size_t table_len);

/* Writes the table that the bytes are into the room, in its one written form (which is the bytes themselves). Done: its length. */
uint64_t peristhox_rewrite(const uint8_t *table, size_t table_len, uint8_t *room, size_t room_len);

/*
 * Writes the blocks of the coarsest bisimulation of that direction: one byte a state, its block, numbered by first use. Done: the
 * number of blocks; the room needed is the number of states.
 */
uint64_t peristhox_blocks(uint32_t direction, const uint8_t *table, size_t table_len, uint8_t *room, size_t room_len);

/*
 * Writes the table collapsed by those blocks. Every tree keeps its weight. Done: the length written, which is also the room needed.
 */
uint64_t peristhox_collapse(uint32_t direction, const uint8_t *table, size_t table_len, uint8_t *room, size_t room_len);

/* Writes the table shrunk: collapses take turns from that side, until one merges no states. Done: as peristhox_collapse. */
uint64_t peristhox_shrink(uint32_t direction, const uint8_t *table, size_t table_len, uint8_t *room, size_t room_len);

/*
 * Weighs a tree by a table. Done: the number of nodes. The sheet then holds at node * states + state the weight of the node's subtree
 * at that state, and *weight the tree's weight. The room needed is nodes times states numbers; sheet_len counts numbers too,
 * not bytes. A weight is from 0 to 4,294,967,295 in PERISTHOX_MODULAR, and PERISTHOX_NOTHING or within PERISTHOX_WEIGHT_MAX of 0 in
 * PERISTHOX_MAX_PLUS.
 */
uint64_t peristhox_weigh(const uint8_t *table, size_t table_len, const uint8_t *tree, size_t tree_len,
                         int64_t *sheet, size_t sheet_len, int64_t *weight);

#ifdef __cplusplus
}
#endif

#endif
