/* GATES WIRES BITS: hands the library a list of so many h, one wire after the other, and prints what it says: a refusal, or how many gates came back,
 * and whether they are all of them. Built with the header and the library of one tree or another by tests/old_build. */
#include "dilkovan.h"
#include <inttypes.h>
#include <stdio.h>
#include <stdlib.h>
#include <string.h>

static void *room(size_t size) {
    void *made = calloc(size ? size : 1, 1);
    if (!made)
        exit(3);
    return made;
}

int main(int words, char **word) {
    if (words != 4)
        return 2;
    size_t g = strtoul(word[1], NULL, 10), wires = strtoul(word[2], NULL, 10), bits = strtoul(word[3], NULL, 10), n = DILKOVAN_WIDTH * g;
    int32_t *list = room(n * sizeof *list), *out = room(n * sizeof *out);
    uint64_t *terms = room(DILKOVAN_TERMS(g) * sizeof *terms), counts[8];
    uint32_t *steps = room(DILKOVAN_STEPS(g) * sizeof *steps);
    for (size_t i = 0; i < g; i++)
        list[DILKOVAN_WIDTH * i] = 10, list[DILKOVAN_WIDTH * i + 1] = (int32_t)(wires - 1 - i % wires);
    uint64_t told = dilkovan_cnot_min(list, n, wires, bits, 128, 512, out, n, terms, DILKOVAN_TERMS(g), steps, DILKOVAN_STEPS(g), counts);
    if (told)
        printf("refused %" PRIu64 " %" PRIu64 " %" PRIu64 "\n", DILKOVAN_NUMBER(told), DILKOVAN_PLACE(told), DILKOVAN_FIELD(told));
    else if (counts[0] == g && counts[1] == g && !memcmp(list, out, n * sizeof *list))
        printf("taken, %zu gates\n", g);
    else
        printf("cut to %" PRIu64 " gates\n", counts[1]);
    return 0;
}
