/* The circuit of a tree of one leaf, made by hand: checked, ticked twice, then damaged in each of several ways. */
#include <stdio.h>
#include "palthengi.h"

#define TERMS 8

/* Cells: 0 the leaf's flag; 1, 2, 3 its success, failure and running. No ops. Output forms of node 0: success, failure and running are
 * those cells, reached is 1, halted is 0, next running is cell 3. */
static uint32_t nums[PALTHENGI_NUMS_FIXED];
static float biases[PALTHENGI_BIASES_FIXED];
static uint32_t wires[TERMS] = {1, 2, 3, 3};
static float coefs[TERMS] = {1, 1, 1, 1};
static palthengi_counts counts = {1, 0, 1, 4, 0, 4};

static uint8_t flags[1], statuses[2] = {9, 9}, halts[2] = {9, 9}, edges[2] = {9, 9};
static float values[5] = {-1, -1, -1, -1, -1};

static void form(int k, uint32_t first, uint32_t len, float bias) {
    nums[PALTHENGI_OUTPUTS + 2 * k] = first;
    nums[PALTHENGI_OUTPUTS + 2 * k + 1] = len;
    biases[k] = bias;
}

static void tick(uint8_t status, size_t row_len) {
    uint8_t row[2] = {status, 0};
    palthengi_refusal r =
        palthengi_tick(counts, nums, PALTHENGI_NUMS_FIXED, biases, PALTHENGI_BIASES_FIXED, wires, TERMS, coefs, TERMS, row, row_len,
                       flags, 1, NULL, 0, values, 5, statuses, 2, halts, 2, edges, 2);
    printf("tick %u %u %zu %g: status %u %u, halt %u %u, edge %u %u, flag %u, values %g %g %g %g %g\n", r.number, r.broken, r.place, r.value,
           statuses[0], statuses[1], halts[0], halts[1], edges[0], edges[1], flags[0], values[0], values[1], values[2], values[3], values[4]);
}

static void check(const char *what) {
    printf("%s: check %u\n", what,
           palthengi_check(counts, nums, PALTHENGI_NUMS_FIXED, biases, PALTHENGI_BIASES_FIXED, wires, TERMS, coefs, TERMS));
}

static void validate(size_t len) {
    palthengi_refusal r =
        palthengi_validate(counts, nums, PALTHENGI_NUMS_FIXED, biases, PALTHENGI_BIASES_FIXED, wires, TERMS, coefs, TERMS, values, len);
    printf("validate %u %u %zu %g\n", r.number, r.broken, r.place, r.value);
}

int main(void) {
    form(0, 0, 1, 0);
    form(1, 1, 1, 0);
    form(2, 2, 1, 0);
    form(3, 0, 0, 1);
    form(4, 0, 0, 0);
    form(5, 3, 1, 0);
    check("one leaf");
    tick(2, 1);
    tick(0, 1);
    tick(3, 1);
    tick(0, 2);
    validate(4);
    validate(3);
    values[1] = 2;
    validate(4);
    values[1] = 0;
    values[2] = values[3] = 1;
    validate(4);
    coefs[3] = 0;
    check("a zero coefficient");
    coefs[3] = 1;
    wires[3] = 4;
    check("a wire past the table");
    wires[3] = 3;
    coefs[0] = 2;
    check("a coefficient of 2");
    tick(0, 1);
    coefs[0] = 1;
    nums[PALTHENGI_REPORT] = 1;
    check("a report list without node 0");
    tick(0, 1);
    return 0;
}
