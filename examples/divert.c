/* One divert of a shoe sorter: its behaviour tree compiled once, then ticked once a scan.
 *
 * While no parcel is to be diverted the shoes are held. In the scan in which they fire the hold must be halted: held and fired at once, they
 * clip the parcel into the next lane. The tree asks anew in each scan whether to go ahead, so the hold is given up in that very scan. */
#include <stdio.h>
#include "palthengi.h"

static const uint8_t tree[] = {
    4, 0, 7, 0, 2, 0, /* node 0, ReactiveFallback of two: go ahead, or else hold */
    4, 0, 4, 0, 3, 0, /* node 1,   Sequence of three: go ahead */
    2, 0, 1, 0,       /* node 2,     Leaf, slot 0: is a parcel present? */
    2, 0, 1, 0,       /* node 3,     Leaf, slot 1: is the lane clear? */
    2, 0, 1, 0,       /* node 4,     Leaf, slot 2: fire shoes */
    2, 0, 1, 0,       /* node 5,   Leaf, slot 3: hold shoes */
};
enum { SLOTS = 4, HOLD_SHOES = 5 };

/* A row a scan, a status a slot: what each leaf answers if it is ticked. */
enum { S = PALTHENGI_SUCCESS, F = PALTHENGI_FAILURE, R = PALTHENGI_RUNNING, BROKEN = 255 };
static const uint8_t scans[][SLOTS] = {
    /* parcel, lane, fire, hold */
    {F, S, R, R},      /* 0: no parcel: hold */
    {S, F, R, R},      /* 1: a parcel, but the lane is full: hold on */
    {S, S, R, R},      /* 2: the lane clears: fire, and halt the hold */
    {F, F, R, R},      /* 3: the parcel is past the eye, the shoes still run: parcel and lane are not asked again */
    {F, S, S, R},      /* 4: the shoes are across: done */
    {F, S, R, R},      /* 5: no parcel: hold */
    {S, S, F, R},      /* 6: a parcel, but the shoes do not move: hold on */
    {S, S, S, R},      /* 7: they fire within one scan: halt the hold */
    {S, BROKEN, R, R}, /* 8: no status: refused, 15 at slot 1 */
    {F, S, R, R},      /* 9: never reached */
};

/* The circuit, its work room, and the state, which starts as zero. These hold any tree. */
static uint32_t nums[PALTHENGI_NUMS_MOST], wires[PALTHENGI_TERMS_MOST];
static float biases[PALTHENGI_BIASES_MOST], coefs[PALTHENGI_TERMS_MOST];
static size_t work_nums[PALTHENGI_WORK_NUMS];
static float work_biases[PALTHENGI_WORK_BIASES], work_coefs[PALTHENGI_WORK_TERMS];
static uint32_t work_wires[PALTHENGI_WORK_TERMS];
static uint8_t flags[PALTHENGI_NODES_MOST], statuses[PALTHENGI_NODES_MOST], halts[PALTHENGI_NODES_MOST], edges[PALTHENGI_NODES_MOST];
static uint32_t cursors[PALTHENGI_NODES_MOST];
static float values[PALTHENGI_VALUES_MOST];

/* Whatever is refused, the divert does nothing further until someone has looked. */
static int stop_safe(uint32_t number, size_t place) {
    printf("refused %u at %zu: shoes off\n", (unsigned)number, place);
    return 1;
}

int main(void) {
    palthengi_compilation c = palthengi_compile(tree, sizeof tree, nums, PALTHENGI_NUMS_MOST, biases, PALTHENGI_BIASES_MOST,
                                                wires, PALTHENGI_TERMS_MOST, coefs, PALTHENGI_TERMS_MOST,
                                                work_nums, PALTHENGI_WORK_NUMS, work_biases, PALTHENGI_WORK_BIASES,
                                                work_wires, PALTHENGI_WORK_TERMS, work_coefs, PALTHENGI_WORK_TERMS);
    if (c.number != 0) return stop_safe(c.number, c.place);

    for (size_t scan = 0; scan < sizeof scans / sizeof scans[0]; scan++) {
        palthengi_refusal r = palthengi_tick(c.counts, nums, PALTHENGI_NUMS_MOST, biases, PALTHENGI_BIASES_MOST,
                                             wires, PALTHENGI_TERMS_MOST, coefs, PALTHENGI_TERMS_MOST,
                                             scans[scan], SLOTS, flags, c.counts.nodes, cursors, c.counts.cursors,
                                             values, PALTHENGI_VALUES_MOST, statuses, PALTHENGI_NODES_MOST,
                                             halts, PALTHENGI_NODES_MOST, edges, PALTHENGI_NODES_MOST);
        if (r.number != 0) return stop_safe(r.number, r.place);

        printf("%zu ", scan);
        for (size_t node = 0; node < c.counts.nodes; node++) putchar(halts[node] ? 'h' : "SFR-"[statuses[node]]);
        puts(halts[HOLD_SHOES] ? " halt hold shoes" : "");
    }
    return 0;
}
