/* The doors of the library: lists of numbers, then our texts and the laboratories'. */
#include "dilkovan.h"
#include <inttypes.h>
#include <stdio.h>
#include <string.h>

#define GATES 3

/* Prints the new gates of a list on one wire, or its refusal. */
static void shorten(const int32_t list[DILKOVAN_WIDTH * GATES]) {
    int32_t out[DILKOVAN_WIDTH * GATES] = {0};
    uint64_t terms[DILKOVAN_TERMS(GATES)] = {0}, counts[8] = {0};
    uint32_t steps[DILKOVAN_STEPS(GATES)] = {0};
    uint64_t refused = dilkovan_cnot_min(list, DILKOVAN_WIDTH * GATES, 1, 0, 128, 512, out, DILKOVAN_WIDTH * GATES, terms, DILKOVAN_TERMS(GATES), steps, DILKOVAN_STEPS(GATES), counts);
    if (refused) {
        printf("refused %" PRIu64 " %" PRIu64 " %" PRIu64 "\n", DILKOVAN_NUMBER(refused), DILKOVAN_PLACE(refused), DILKOVAN_FIELD(refused));
        return;
    }
    printf("%" PRIu64 " gates in, %" PRIu64 " out:\n", counts[0], counts[1]);
    for (const int32_t *gate = out; gate < out + DILKOVAN_WIDTH * counts[1]; gate += DILKOVAN_WIDTH)
        printf("%" PRId32 " %" PRId32 " %" PRId32 " %" PRId32 " %" PRId32 " %" PRId32 "\n", gate[0], gate[1], gate[2], gate[3], gate[4], gate[5]);
}

typedef uint64_t (*Door)(const uint8_t *, size_t, uint8_t[DILKOVAN_LIST_BYTES], size_t *);

/* Prints the answer to a text, and whether it is a refusal. */
static void answer(Door door, const char *text) {
    static uint8_t out[DILKOVAN_LIST_BYTES];
    size_t length = 0;
    uint64_t refused = door((const uint8_t *)text, strlen(text), out, &length);
    printf("a text %s, %zu bytes:\n", refused ? "refused" : "taken", length);
    fwrite(out, 1, length, stdout);
}

int main(void) {
    /* x, t, x is one tdg, since an x in front of a t turns the phase around */
    shorten((const int32_t[]){1, 0, 0, 0, 0, 4, 2, 0, 0, 0, 0, 5, 1, 0, 0, 0, 0, 6});
    /* the last gate is on a wire that isn't there */
    shorten((const int32_t[]){1, 0, 0, 0, 0, 4, 2, 0, 0, 0, 0, 5, 1, 1, 0, 0, 0, 6});
    /* two t are one s */
    answer(dilkovan_list, "head 4\n1\n0\n128\n512\ngates 2\n2 0 0 0 0\n2 0 0 0 0\n");
    /* the second gate is missing */
    answer(dilkovan_list, "head 4\n1\n0\n128\n512\ngates 2\n2 0 0 0 0\n");
    /* a laboratory's text, with an x before a t */
    answer(dilkovan_qasm, "OPENQASM 2.0;\ninclude \"qelib1.inc\";\nqreg q[1];\nx q[0];\nt q[0];\nx q[0];\n");
    return 0;
}
