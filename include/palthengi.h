/* Palthengi for C: compiling a tree, the check of a lent circuit, validation of a value table, and one tick.
 *
 * Every function answers on every input and leaves exactly what is said below. That is proved of the source in crates/palthengi_export and below;
 * of the archive target/staticlib/libpalthengi.a it holds as far as the compiler that made it is right.
 * It allocates nothing and keeps nothing between calls: all that it works on is lent by the caller. So it may be called from several threads
 * at once, on different storage (a circuit that is only ticked may be shared), and from an interrupt.
 *
 * For a controls engineer. A tick asks no leaf: the row says beforehand what each leaf answers if it is ticked. So what works out the row
 * must have no effect of its own, and acts after the tick: a leaf whose status is not 3 was ticked, do what it stands for; a leaf whose halt
 * is 1 must be stopped now. A leaf with status 3 and halt 0 was not asked, whatever its row says.
 *
 * Floats are those of IEEE 754 in the environment that a C program starts with: round to nearest, and no flushing of small numbers to zero
 * (no -ffast-math in what sets the control register). A compiled circuit is plain data without pointers: it may be compiled on another
 * machine of the same byte order, stored, and lent as const data; each tick checks it anew.
 *
 * A slice is a pointer and a length, the number of elements (not bytes). What the caller owes:
 *   - the pointer leads to so many elements, aligned as the element's type, each of which has a value (outputs too: static arrays have, 0);
 *   - a slice that a function writes (no const) overlaps no other that the same call is lent.
 * What it holds may be anything. Nothing past the length is read or written, so of an empty slice the pointer is not used and may be NULL.
 *
 * Longer slices than needed are fine, but for row, flags and cursors of a tick, which are of exactly their lengths.
 * docs/STORAGE.md has the layout, docs/REFUSALS.md the refusals in full. */
#ifndef PALTHENGI_H
#define PALTHENGI_H

#include <stddef.h>
#include <stdint.h>

/* The version of what is declared here: it changes when a declaration or its meaning does. */
#define PALTHENGI_VERSION 1

#ifdef __cplusplus
extern "C" {
#endif

/* ---- Limits of a tree */
#define PALTHENGI_NODES_MOST 128
#define PALTHENGI_LEVELS_MOST 16 /* the root is level 1 */

/* ---- Statuses, in a tick's row (the first three) and in its answers */
#define PALTHENGI_SUCCESS 0
#define PALTHENGI_FAILURE 1
#define PALTHENGI_RUNNING 2
#define PALTHENGI_NOT_TICKED 3

/* ---- Refusals: the number of an answer, and what its place is. */
enum {
    PALTHENGI_ACCEPTED = 0, /* nothing is refused; place 0 */

    /* palthengi_compile, of the first node in pre-order that is wrong; place: that node, numbered from 0. In this order for each record:
     * 1 (no length), 2 (below 2), 1 (cut short), 3, 4, 2 (not its kind's), 5, 6, 7. All circuit storage and the work room are left zero. */
    PALTHENGI_TRUNCATED = 1,       /* fewer than 2 bytes left where a record is due, or fewer than its length says */
    PALTHENGI_BAD_LENGTH = 2,      /* a record's length is below 2, or not the one that its kind has */
    PALTHENGI_BAD_KIND = 3,        /* kind 0, or above 18 */
    PALTHENGI_UNSUPPORTED = 4,     /* kind 11 to 18, which is never lowered; the answer carries the kind */
    PALTHENGI_EMPTY_COMPOSITE = 5, /* a child count of 0 */
    PALTHENGI_TOO_DEEP = 6,        /* a node at level 17 */
    PALTHENGI_TOO_MANY_NODES = 7,  /* a node 128, which is the 129th */

    /* palthengi_compile, of the tree as a whole; the same is left */
    PALTHENGI_TRAILING = 8,      /* bytes after the root's subtree; place: the number of nodes */
    PALTHENGI_NO_OP_ROOM = 9,    /* the circuit has more ops than slots lent; place 0 */
    PALTHENGI_NO_TERM_ROOM = 10, /* the circuit has more terms than slots lent; place 0 */

    /* palthengi_tick; place: the length given. Nothing is written */
    PALTHENGI_LEAF_COUNT = 11,   /* row_len is not the number of leaves */
    PALTHENGI_STATE_SHAPE = 12,  /* flags_len is not the number of nodes */
    PALTHENGI_CURSOR_COUNT = 13, /* cursors_len is not the number of cursors */

    /* place 0. palthengi_compile, before any record is read: the work room, or the fixed part of nums or biases, is short; all is left zero.
     * palthengi_validate and palthengi_tick: the table, or another output of the tick, is short; nothing is written */
    PALTHENGI_SHORT_ROOM = 14,

    /* palthengi_tick. Nothing is written */
    PALTHENGI_BAD_STATUS = 15, /* a status in row above 2; place: the first such slot */
    PALTHENGI_BAD_FLAG = 16,   /* a flag above 1; place: the first such node */

    /* palthengi_check, palthengi_validate, palthengi_tick: the counts and the four slices are no circuit (palthengi_check says when); place 0.
     * Nothing is written. What palthengi_compile has left, with the counts that it answered, never gives it */
    PALTHENGI_BAD_CIRCUIT = 17,

    /* palthengi_validate, palthengi_tick: an output value is not what it must be (palthengi_refusal says which). A tick leaves the values
     * that it has computed and writes nothing else. On what palthengi_compile has left a tick never gives it */
    PALTHENGI_BAD_INVARIANT = 18
};

/* ---- A circuit: its counts, by value, and four slices. A caller need not look into them: palthengi_compile fills them in. */
typedef struct {
    size_t nodes;   /* N */
    size_t cursors; /* C: one a Sequence or Fallback, in pre-order */
    size_t leaves;  /* L: one slot a Leaf, in pre-order */
    size_t cells;   /* N + C + 3L: the flags, the cursors, and success, failure, running of each leaf slot */
    size_t ops;     /* ops in use */
    size_t terms;   /* terms in use */
} palthengi_counts;

/* Where each sort of number begins in nums, and how long the fixed parts of nums and biases are, for all trees. */
#define PALTHENGI_LEAVES 0          /* leaf list: the node of each leaf slot */
#define PALTHENGI_CURSORS 128       /* cursor list: the node of each cursor cell */
#define PALTHENGI_REPORT 256        /* report list: the nodes in post-order */
#define PALTHENGI_OUTPUTS 384       /* output form k: first term and number of terms at 384 + 2k */
#define PALTHENGI_NUMS_FIXED 2176   /* then five numbers an op: kind (1 form, 2 left times max(0, gate)), left's range, gate's range */
#define PALTHENGI_BIASES_FIXED 896  /* output form k's bias at k; then two an op, left's and gate's */

/* Slots lent. Ops: as many as nums past its fixed part holds in fives and biases past its own in twos, whichever are fewer.
 * Terms: the length of wires or of coefs, whichever is less. So many hold the circuit of any tree: */
#define PALTHENGI_OPS_MOST 2163
#define PALTHENGI_TERMS_MOST 507904                                            /* of wires and of coefs each */
#define PALTHENGI_NUMS_MOST (PALTHENGI_NUMS_FIXED + 5 * PALTHENGI_OPS_MOST)     /* 12,991 */
#define PALTHENGI_BIASES_MOST (PALTHENGI_BIASES_FIXED + 2 * PALTHENGI_OPS_MOST) /* 5,222 */

/* ---- Compiling */

/* The work room, one length each for all trees. */
#define PALTHENGI_WORK_NUMS 13920   /* of work_nums */
#define PALTHENGI_WORK_BIASES 6960  /* of work_biases */
#define PALTHENGI_WORK_TERMS 262144 /* of work_wires and of work_coefs each */

typedef struct {
    uint32_t number;         /* 0 where the tree is compiled, else 1 to 10 or 14 */
    uint32_t kind;           /* with 4, the kind, 11 to 18; else 0 */
    size_t place;            /* the node with 1 to 7, the number of nodes with 8; else 0 */
    palthengi_counts counts; /* of the circuit that is stored; all 0 where the tree is refused */
} palthengi_compilation;

/* Compiles a tree into a circuit.
 *   tree    the records of the nodes in pre-order, nothing after them; any length
 *   nums    at least PALTHENGI_NUMS_FIXED; 5 more an op slot
 *   biases  at least PALTHENGI_BIASES_FIXED; 2 more an op slot
 *   wires, coefs                                   one a term slot
 *   work_nums, work_biases, work_wires, work_coefs at least the lengths above
 * Refusals, in this order: 14; 1 to 7 as the records come; 8; 9; 10.
 * Accepted: the circuit stands in nums, biases, wires and coefs, and whatever of them it does not use is zero.
 * Refused: those four are zero from end to end. The work room is zero from end to end in either case. */
palthengi_compilation palthengi_compile(const uint8_t *tree, size_t tree_len,
                                        uint32_t *nums, size_t nums_len, float *biases, size_t biases_len,
                                        uint32_t *wires, size_t wires_len, float *coefs, size_t coefs_len,
                                        size_t *work_nums, size_t work_nums_len, float *work_biases, size_t work_biases_len,
                                        uint32_t *work_wires, size_t work_wires_len, float *work_coefs, size_t work_coefs_len);

/* ---- Circuits from elsewhere */

/* 0 where the four slices hold a circuit of these counts, else 17, which is given exactly when:
 *   there is no node; N is above 128, or C or L above N; cells is not N + C + 3L;
 *   a fixed part is not whole, or there are fewer op or term slots than ops or terms in use;
 *   an op's kind is neither 1 nor 2; a form points past the terms in use; an op reads a value not before its own, or an output form one past
 *   the table; a form's wires do not strictly rise; a coefficient in use is zero; a coefficient or bias in use is not whole or above 65,536
 *   in size; the leaf or cursor list does not strictly rise below N; the report list does not hold each node once.
 * Writes nothing. */
uint32_t palthengi_check(palthengi_counts counts,
                         const uint32_t *nums, size_t nums_len, const float *biases, size_t biases_len,
                         const uint32_t *wires, size_t wires_len, const float *coefs, size_t coefs_len);

/* The answer of palthengi_validate and palthengi_tick. */
typedef struct {
    uint32_t number; /* 0 where nothing is refused, else 11 to 18 */
    uint32_t broken; /* with 18, which invariant: 1 not a bit, 2 not one hot, 3 bad cursor; else 0 */
    size_t place;    /* the length given with 11, 12, 13; the slot with 15; the node with 16; the node, or the cell of a bad cursor, with 18; else 0 */
    float value;     /* with 18, what is not a bit, the sum of three statuses that is above 1, or the next cursor; else 0 */
} palthengi_refusal;

/* The cells of any circuit are at most 640, so a value table of this length is enough for any tree's. */
#define PALTHENGI_VALUES_MOST (640 + PALTHENGI_OPS_MOST) /* 2,803 */

/* Whether the output values of the circuit against this table are what they must be.
 *   table  at least cells + ops
 * Refusals, in this order: 17; 14; 18. With 18 the first that is wrong, node by node: success, failure, running are 0 or 1; their sum is at
 * most 1; reached, halted, next running are 0 or 1. Then cell by cell: the next cursor is a whole number, not below 0.
 * Writes nothing. */
palthengi_refusal palthengi_validate(palthengi_counts counts,
                                     const uint32_t *nums, size_t nums_len, const float *biases, size_t biases_len,
                                     const uint32_t *wires, size_t wires_len, const float *coefs, size_t coefs_len,
                                     const float *table, size_t table_len);

/* ---- Ticking */

/* One tick: once a scan, with the same flags and cursors each time. All of them 0 is a fresh start.
 * Read:
 *   row       exactly L: for each leaf slot what the leaf answers if it is ticked, 0 success, 1 failure, 2 running
 * Read, and advanced in place:
 *   flags     exactly N: for each node, 1 where it is running, else 0
 *   cursors   exactly C: for each cell, the child to go on with; above 65,535 it is read as 65,535, and none above is written
 * Written, so many from the front and nothing past them:
 *   values    cells + ops: the value table
 *   statuses  N: for each node 0 success, 1 failure, 2 running, 3 not ticked
 *   halts     N: for each node, 1 where it is halted in this tick, else 0. A halted leaf must be stopped now
 *   edges     L: for each leaf slot, 1 where its flag rose, 2 where it fell, else 0
 * Refusals, in this order: 17; 11; 12; 13; 14 (values, statuses, halts or edges shorter than so many); 15; 16; 18 (as palthengi_validate, of
 * the values just computed; then the first next cursor above 65,535).
 * A refusal writes nothing, but that 18 leaves the values computed; so flags and cursors stand as they did before. */
palthengi_refusal palthengi_tick(palthengi_counts counts,
                                 const uint32_t *nums, size_t nums_len, const float *biases, size_t biases_len,
                                 const uint32_t *wires, size_t wires_len, const float *coefs, size_t coefs_len,
                                 const uint8_t *row, size_t row_len, uint8_t *flags, size_t flags_len,
                                 uint32_t *cursors, size_t cursors_len, float *values, size_t values_len,
                                 uint8_t *statuses, size_t statuses_len, uint8_t *halts, size_t halts_len,
                                 uint8_t *edges, size_t edges_len);

#ifdef __cplusplus
}
#endif

#endif
