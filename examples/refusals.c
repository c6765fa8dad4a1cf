/* Every refusal once, 1 to 18: its number and place, and that it leaves what include/palthengi.h says. */
#include <stdio.h>
#include <string.h>
#include "palthengi.h"

static uint32_t nums[PALTHENGI_NUMS_MOST], wires[PALTHENGI_TERMS_MOST];
static float biases[PALTHENGI_BIASES_MOST], coefs[PALTHENGI_TERMS_MOST];
static size_t work_nums[PALTHENGI_WORK_NUMS];
static float work_biases[PALTHENGI_WORK_BIASES], work_coefs[PALTHENGI_WORK_TERMS];
static uint32_t work_wires[PALTHENGI_WORK_TERMS];
static palthengi_counts counts;

static int is_zero(const void *slice, size_t bytes) {
    const unsigned char *byte = slice;
    while (bytes > 0 && byte[bytes - 1] == 0) bytes--;
    return bytes == 0;
}

/* Lends storage that is full of something, with so many op and term slots and so much work room, and says what is left of it. */
static void compile(const uint8_t *tree, size_t len, size_t ops, size_t terms, size_t work) {
    memset(nums, 1, sizeof nums), memset(biases, 1, sizeof biases), memset(wires, 1, sizeof wires), memset(coefs, 1, sizeof coefs);
    memset(work_nums, 1, sizeof work_nums), memset(work_biases, 1, sizeof work_biases);
    memset(work_wires, 1, sizeof work_wires), memset(work_coefs, 1, sizeof work_coefs);
    size_t nums_len = PALTHENGI_NUMS_FIXED + 5 * ops, biases_len = PALTHENGI_BIASES_FIXED + 2 * ops;
    palthengi_compilation c = palthengi_compile(tree, len, nums, nums_len, biases, biases_len, wires, terms, coefs, terms,
                                                work_nums, PALTHENGI_WORK_NUMS, work_biases, PALTHENGI_WORK_BIASES,
                                                work_wires, work, work_coefs, PALTHENGI_WORK_TERMS);
    int circuit = is_zero(nums, nums_len * 4) && is_zero(biases, biases_len * 4) && is_zero(wires, terms * 4) && is_zero(coefs, terms * 4);
    int room = is_zero(work_nums, sizeof work_nums) && is_zero(work_biases, sizeof work_biases) && is_zero(work_wires, work * 4) &&
               is_zero(work_coefs, sizeof work_coefs);
    counts = c.counts;
    printf("compile: %u at %zu, kind %u; %zu nodes, %zu ops, %zu terms; circuit %s, work room %s\n", (unsigned)c.number, c.place,
           (unsigned)c.kind, counts.nodes, counts.ops, counts.terms, circuit ? "zero" : "stored", room ? "zero" : "not zero");
}

#define COMPILE(...)                                                                                \
    do {                                                                                            \
        static const uint8_t tree[] = {__VA_ARGS__};                                                \
        compile(tree, sizeof tree, PALTHENGI_OPS_MOST, PALTHENGI_TERMS_MOST, PALTHENGI_WORK_TERMS); \
    } while (0)

/* A tick of a Sequence of two leaves, with lengths too many or too few; 7 stands wherever nothing was written. */
static void tick(uint8_t status, uint8_t flag, size_t row_len, size_t flags_len, size_t cursors_len, size_t edges_len) {
    uint8_t row[3] = {0, status, 0}, flags[4] = {1, flag, 0, 0}, statuses[3] = {7, 7, 7}, halts[3] = {7, 7, 7}, edges[2] = {7, 7};
    uint32_t cursors[2] = {0, 0};
    static float values[PALTHENGI_VALUES_MOST];
    values[0] = 7;
    palthengi_refusal r = palthengi_tick(counts, nums, PALTHENGI_NUMS_MOST, biases, PALTHENGI_BIASES_MOST,
                                         wires, PALTHENGI_TERMS_MOST, coefs, PALTHENGI_TERMS_MOST, row, row_len, flags, flags_len,
                                         cursors, cursors_len, values, PALTHENGI_VALUES_MOST, statuses, 3, halts, 3, edges, edges_len);
    printf("tick: %u at %zu, broken %u, value %g; flags %u%u%u, cursor %u, values %g.., statuses %u%u%u, halts %u%u%u, edges %u%u\n",
           (unsigned)r.number, r.place, (unsigned)r.broken, r.value, flags[0], flags[1], flags[2], (unsigned)cursors[0], values[0],
           statuses[0], statuses[1], statuses[2], halts[0], halts[1], halts[2], edges[0], edges[1]);
}

int main(void) {
    static const uint8_t pair[] = {4, 0, 4, 0, 2, 0, 2, 0, 1, 0, 2, 0, 1, 0}; /* Sequence of two leaves: 21 ops, 82 terms */
    uint8_t deep[17 * 4], wide[6 + 128 * 4] = {4, 0, 4, 0, 128, 0};
    for (size_t i = 0; i < 17; i++) memcpy(deep + 4 * i, (uint8_t[]){2, 0, 8, 0}, 4);      /* Inverters, each below the last */
    for (size_t i = 0; i < 128; i++) memcpy(wide + 6 + 4 * i, (uint8_t[]){2, 0, 1, 0}, 4); /* 128 leaves of one Sequence */

    COMPILE(4, 0, 4, 0, 2, 0, 2, 0, 1, 0);  /* 1: the second leaf is not there */
    COMPILE(3, 0, 1, 0, 0);                 /* 2: a Leaf of length 3 */
    COMPILE(2, 0, 19, 0);                   /* 3: kind 19 */
    COMPILE(4, 0, 4, 0, 1, 0, 2, 0, 11, 0); /* 4: a Sleep */
    COMPILE(4, 0, 4, 0, 0, 0);              /* 5: a Sequence of none */
    compile(deep, sizeof deep, PALTHENGI_OPS_MOST, PALTHENGI_TERMS_MOST, PALTHENGI_WORK_TERMS); /* 6 */
    compile(wide, sizeof wide, PALTHENGI_OPS_MOST, PALTHENGI_TERMS_MOST, PALTHENGI_WORK_TERMS); /* 7 */
    COMPILE(2, 0, 1, 0, 0);                                                     /* 8: a Leaf and a byte more */
    compile(pair, sizeof pair, 20, PALTHENGI_TERMS_MOST, PALTHENGI_WORK_TERMS); /* 9: an op slot too few */
    compile(pair, sizeof pair, 21, 81, PALTHENGI_WORK_TERMS);                   /* 10: a term slot too few */
    compile(pair, sizeof pair, 21, 82, PALTHENGI_WORK_TERMS - 1);               /* 14: the work room is short */
    compile(pair, sizeof pair, 21, 82, PALTHENGI_WORK_TERMS);                   /* just enough */
    compile(pair, sizeof pair, PALTHENGI_OPS_MOST, PALTHENGI_TERMS_MOST, PALTHENGI_WORK_TERMS);

    tick(2, 0, 2, 3, 1, 2);     /* accepted */
    tick(2, 0, 3, 3, 1, 2);     /* 11: a row of three */
    tick(2, 0, 2, 4, 1, 2);     /* 12: four flags */
    tick(2, 0, 2, 3, 2, 2);     /* 13: two cursors */
    tick(2, 0, 2, 3, 1, 1);     /* 14: room for one edge */
    tick(3, 0, 2, 3, 1, 2);     /* 15: a status of 3 */
    tick(2, 2, 2, 3, 1, 2);     /* 16: a flag of 2 */
    biases[6 * 1 + 3] += 2;     /* reached of node 1: two more than it is */
    tick(2, 0, 2, 3, 1, 2);     /* 18: 3 is not a bit */
    nums[PALTHENGI_REPORT] = 0; /* the report list 0, 2, 0 */
    tick(2, 0, 2, 3, 1, 2);     /* 17 */
    return 0;
}
