/* Calls every door of the library with exact, short and longer rooms, and looks at every byte of every room afterwards.
 *
 * Every case is called twice: with rooms that stand between two guards, so that a byte written outside shows in what is compared; and with rooms
 * that are blocks of their own, so that valgrind sees a byte read or written outside. */
#include "dilkovan.h"
#include <inttypes.h>
#include <stdio.h>
#include <stdlib.h>
#include <string.h>

#define GUARD 64
#define MOST 65536 /* gates */
#define LONGEST 32768 /* bytes of a text */

static size_t guard, calls, compared;

static void fail(const char *name, const char *what) {
    printf("boundary: %s: %s%s\n", name, what, guard ? "" : " (no guards)");
    exit(1);
}

/* ---- rooms */

typedef struct {
    unsigned char *block;
    size_t size;
} Room;

/* What a room and its guards hold before a call: never 0, so that a cleared byte differs. */
static unsigned char pattern(size_t i) {
    return (unsigned char)(1 + i % 251);
}

static Room lend(size_t size) {
    Room room = {malloc(size + 2 * guard), size};
    if (!room.block)
        fail("malloc", "no memory");
    for (size_t i = 0; i < size + 2 * guard; i++)
        room.block[i] = pattern(i);
    return room;
}

static Room lend_filled(const void *bytes, size_t size) {
    Room room = lend(size);
    if (size)
        memcpy(room.block + guard, bytes, size);
    return room;
}

static void *inside(Room room) {
    return room.block + guard;
}

/* The room begins with these bytes, then has so many zeros, and all of the rest, the guards too, is as it was. Ends the room. */
static void settle(const char *name, const char *which, Room room, const void *bytes, size_t size, size_t zeros) {
    for (size_t i = 0; i < room.size + 2 * guard; i++) {
        unsigned char want = pattern(i);
        if (i >= guard && i < guard + size)
            want = ((const unsigned char *)bytes)[i - guard];
        else if (i >= guard + size && i < guard + size + zeros)
            want = 0;
        if (room.block[i] != want)
            fail(name, which);
    }
    compared += room.size + 2 * guard;
    free(room.block);
}

/* ---- lists of numbers */

/* One call. The rooms are so many numbers more, or fewer, than the list needs. */
typedef struct {
    const char *name;
    const int32_t *list;
    size_t length, wires, bits, qubit_cap, term_cap;
    long out, terms, steps;
} Call;

#define REFUSED_AT(number, place, field) ((uint64_t)(field) << 48 | (uint64_t)(number) << 32 | (uint64_t)(place))
#define REFUSED(number, place) REFUSED_AT(number, place, 0)

static const uint64_t none[8];

/* The answer is this one. Where it is 0, the counts are these and `out` begins with this result; a result that isn't given is only counted. The plain engine gets a room
 * for one resynthesis, by how many numbers it is more or fewer than that needs; the first engine none. */
static void engine(Call c, const long *more, uint64_t answer, const int32_t *result, const uint64_t counts[8]) {
    size_t g = c.length / DILKOVAN_WIDTH, terms = DILKOVAN_TERMS(g), steps = DILKOVAN_STEPS(g);
    Room list = lend_filled(c.list, c.length * sizeof(int32_t));
    Room out = lend((size_t)((long)c.length + c.out) * sizeof(int32_t));
    Room term = lend((size_t)((long)terms + c.terms) * sizeof(uint64_t));
    Room step = lend((size_t)((long)steps + c.steps) * sizeof(uint32_t));
    Room count = lend(8 * sizeof(uint64_t));
    Room whole = lend(more ? (size_t)((long)DILKOVAN_WHOLE + *more) * sizeof(int32_t) : 0);
    uint64_t told = more ? dilkovan_plain(inside(list), c.length, c.wires, c.bits, c.qubit_cap, c.term_cap, inside(out), out.size / sizeof(int32_t),
                                          inside(term), term.size / sizeof(uint64_t), inside(step), step.size / sizeof(uint32_t), inside(whole),
                                          whole.size / sizeof(int32_t), inside(count))
                         : dilkovan_cnot_min(inside(list), c.length, c.wires, c.bits, c.qubit_cap, c.term_cap, inside(out), out.size / sizeof(int32_t),
                                             inside(term), term.size / sizeof(uint64_t), inside(step), step.size / sizeof(uint32_t), inside(count));
    calls++;
    if (told != answer) {
        printf("boundary: %s: answered %" PRIu64 " %" PRIu64 " %" PRIu64 "\n", c.name, DILKOVAN_NUMBER(told), DILKOVAN_PLACE(told), DILKOVAN_FIELD(told));
        exit(1);
    }
    settle(c.name, "the list", list, c.list, c.length * sizeof(int32_t), 0);
    settle(c.name, "the room for one resynthesis", whole, NULL, 0, more && !answer ? DILKOVAN_WHOLE * sizeof(int32_t) : 0);
    if (answer) {
        settle(c.name, "out, of a refusal", out, NULL, 0, 0);
        settle(c.name, "terms, of a refusal", term, NULL, 0, 0);
        settle(c.name, "steps, of a refusal", step, NULL, 0, 0);
        settle(c.name, "counts, of a refusal", count, NULL, 0, 0);
        return;
    }
    uint64_t found[8];
    memcpy(found, inside(count), sizeof found);
    if (found[0] != g || found[1] > g)
        fail(c.name, "gates in or out");
    if (found[3] > found[2] || found[5] > found[4])
        fail(c.name, "CNOT and CZ, or T, that rise");
    size_t made = DILKOVAN_WIDTH * (size_t)found[1] * sizeof(int32_t);
    settle(c.name, "out", out, result ? (const void *)result : inside(out), made, DILKOVAN_WIDTH * g * sizeof(int32_t) - made);
    settle(c.name, "terms", term, NULL, 0, terms * sizeof(uint64_t));
    settle(c.name, "steps", step, NULL, 0, steps * sizeof(uint32_t));
    settle(c.name, "counts", count, result ? counts : found, sizeof found, 0);
}

static void numbers(Call c, uint64_t answer, const int32_t *result, const uint64_t counts[8]) {
    engine(c, NULL, answer, result, counts);
}

static const int32_t three[] = {1, 0, 0, 0, 0, 9, 2, 0, 0, 0, 0, 7, 1, 0, 0, 0, 0, 8}; /* x0 t0 x0, of lines 9, 7 and 8 */
static const int32_t one[] = {3, 0, 0, 0, 0, 9};                                       /* tdg0, of the first gate's line */
static const uint64_t three_counts[8] = {3, 1, 0, 0, 1, 1, 1, 1};

static void rooms(void) {
    Call c = {"exact rooms", three, 18, 1, 0, 128, 512, 0, 0, 0};
    numbers(c, 0, one, three_counts);
    c = (Call){"longer rooms", three, 18, 1, 0, 128, 512, 9, 8, 7};
    numbers(c, 0, one, three_counts);
    c = (Call){"the largest head", three, 18, 4096, 1024, SIZE_MAX, SIZE_MAX, 1, 1, 1};
    numbers(c, 0, one, three_counts);
    c = (Call){"one wire and one bit less", three, 18, 4095, 1023, SIZE_MAX, SIZE_MAX, 1, 1, 1};
    numbers(c, 0, one, three_counts);
    c = (Call){"caps of 0", three, 18, 1, 0, 0, 0, 0, 0, 0};
    numbers(c, 0, one, three_counts);
    c = (Call){"out one short", three, 18, 1, 0, 128, 512, -1, 0, 0};
    numbers(c, REFUSED(4, 0), NULL, none);
    c = (Call){"terms one short", three, 18, 1, 0, 128, 512, 0, -1, 0};
    numbers(c, REFUSED(5, 0), NULL, none);
    c = (Call){"steps one short", three, 18, 1, 0, 128, 512, 0, 0, -1};
    numbers(c, REFUSED(5, 0), NULL, none);
    c = (Call){"every room one short", three, 18, 1, 0, 128, 512, -1, -1, -1};
    numbers(c, REFUSED(4, 0), NULL, none);
    c = (Call){"no room at all", three, 18, 1, 0, 128, 512, -18, -27, -262};
    numbers(c, REFUSED(4, 0), NULL, none);
    c = (Call){"3 before 4 and 5", three, 18, 4097, 0, 128, 512, -1, -1, -1};
    numbers(c, REFUSED(3, 0), NULL, none);
    c = (Call){"no gates", three, 0, 0, 0, 128, 512, 0, 0, 0};
    numbers(c, 0, one, none);
    c = (Call){"no gates, longer rooms", three, 0, 0, 0, 128, 512, 5, 9, 2};
    numbers(c, 0, one, none);
    c = (Call){"no gates, steps one short", three, 0, 0, 0, 128, 512, 0, 0, -1};
    numbers(c, REFUSED(5, 0), NULL, none);
}

/* Two gates on three wires and two bits, of which the second is refused, in exact rooms and in longer ones. */
static void gate(const char *name, int number, int field, int32_t code, int32_t first, int32_t second, int32_t third, int32_t turn) {
    int32_t list[12] = {2, 0, 0, 0, 0, 0, code, first, second, third, turn, 5};
    for (long more = 0; more < 4; more += 3) {
        Call c = {name, list, 12, 3, 2, 128, 512, more, more, more};
        numbers(c, REFUSED_AT(number, 1, field), NULL, none);
    }
}

static void refusals(int32_t *list) {
    for (size_t length = 17; length > 12; length--) {
        Call c = {"1: no multiple of 6", three, length, 1, 0, 128, 512, 0, 0, 0};
        numbers(c, REFUSED(1, 0), NULL, none);
    }
    for (size_t i = 0; i < DILKOVAN_WIDTH * (MOST + 1); i++)
        list[i] = i % DILKOVAN_WIDTH == 0 ? 2 : 0;
    Call c = {"2: 65,537 gates", list, DILKOVAN_WIDTH * (MOST + 1), 1, 0, 128, 512, 0, 0, 0};
    numbers(c, REFUSED(2, 0), NULL, none);
    c = (Call){"2 before 3", list, DILKOVAN_WIDTH * (MOST + 1), 4097, 1025, 128, 512, 0, 0, 0};
    numbers(c, REFUSED(2, 0), NULL, none);
    c = (Call){"3: wires", three, 18, 4097, 0, 128, 512, 0, 0, 0};
    numbers(c, REFUSED(3, 0), NULL, none);
    c = (Call){"3: bits", three, 18, 1, 1025, 128, 512, 0, 0, 0};
    numbers(c, REFUSED(3, 0), NULL, none);
    c = (Call){"3: bits, of which there may be fewer than wires", three, 18, 4096, 1025, 128, 512, 0, 0, 0};
    numbers(c, REFUSED(3, 0), NULL, none);
    gate("6: code 0", 6, 0, 0, 0, 0, 0, 0);
    gate("6: code 28", 6, 0, 28, 0, 0, 0, 0);
    gate("6: code below 0", 6, 0, INT32_MIN, 0, 0, 0, 0);
    gate("7: second", 7, 0, 2, 0, 1, 0, 0);
    gate("7: third", 7, 0, 8, 0, 1, 2, 0);
    gate("7: turn", 7, 0, 6, 0, 0, 0, -1);
    gate("8: first", 8, 1, 7, 3, 0, 0, 1);
    gate("8: first below 0", 8, 1, 10, -1, 0, 0, 0);
    gate("8: second", 8, 2, 9, 0, INT32_MAX, 0, 0);
    gate("8: third", 8, 3, 24, 0, 1, 3, 0);
    gate("14: a measure's bit", 14, 2, 27, 0, 2, 0, 0);
    gate("8 before 14: a measure's wire and bit", 8, 1, 27, 3, 2, 0, 0);
    gate("8: first and third", 8, 1, 25, -1, 0, 3, 0);
    gate("8 before 9: third, and the others alike", 8, 3, 24, 1, 1, 3, 0);
    gate("9: control and target", 9, 0, 8, 1, 1, 0, 0);
    gate("9: second and third", 9, 0, 26, 0, 2, 2, 0);
    static const int32_t negative[] = {2, 0, 0, 0, 0, 4, 2, 0, 0, 0, 0, -1, 28, 0, 0, 0, 0, 0};
    c = (Call){"18: a negative line", negative, 18, 1, 0, 128, 512, 0, 0, 0};
    numbers(c, REFUSED(18, 1), NULL, none);
    list[DILKOVAN_WIDTH * (MOST - 1)] = 28;
    c = (Call){"6: the last of 65,536 gates", list, DILKOVAN_WIDTH * MOST, 1, 0, 128, 512, 0, 0, 0};
    numbers(c, REFUSED(6, MOST - 1), NULL, none);
    int32_t last[6] = {2, 4095, 0, 0, 0, 0};
    c = (Call){"the last of 4,096 wires", last, 6, 4096, 0, 128, 512, 0, 0, 0};
    numbers(c, 0, last, (uint64_t[]){1, 1, 0, 0, 1, 1, 1, 0});
    c = (Call){"8: the last of 4,096 wires, on 4,095", last, 6, 4095, 0, 128, 512, 0, 0, 0};
    numbers(c, REFUSED_AT(8, 0, 1), NULL, none);
}

/* Lists of 65,536 gates, and of one less. */
static void large(int32_t *list) {
    size_t g = MOST;
    memset(list, 0, DILKOVAN_WIDTH * g * sizeof *list);
    for (size_t i = 0; i < g; i++)
        list[DILKOVAN_WIDTH * i] = 2;
    Call c = {"65,536 times t", list, DILKOVAN_WIDTH * g, 1, 0, 128, 512, 0, 0, 0};
    numbers(c, 0, list, (uint64_t[]){g, 0, 0, 0, g, 0, 1, 1});
    c = (Call){"65,535 times t", list, DILKOVAN_WIDTH * (g - 1), 1, 0, 128, 512, 0, 0, 0};
    numbers(c, 0, (int32_t[]){3, 0, 0, 0, 0, 0}, (uint64_t[]){g - 1, 1, 0, 0, g - 1, 1, 1, 1});
    for (size_t i = 0; i < g; i++)
        list[DILKOVAN_WIDTH * i] = 10;
    c = (Call){"65,536 times h", list, DILKOVAN_WIDTH * g, 1, 0, 128, 512, 3, 3, 3};
    numbers(c, 0, list, (uint64_t[]){g, g, 0, 0, 0, 0, 0, 0});
    /* a cz on every pair of 128 wires, and some t: 8,192 gates, one block of 8,256 terms. Its result isn't given here, only its rooms are looked at */
    size_t i = 0, pairs = 8192;
    for (int32_t a = 0; a < 128; a++)
        for (int32_t b = 0; b < a; b++, i++)
            list[DILKOVAN_WIDTH * i] = 9, list[DILKOVAN_WIDTH * i + 1] = a, list[DILKOVAN_WIDTH * i + 2] = b;
    for (; i < pairs; i++)
        list[DILKOVAN_WIDTH * i] = 2, list[DILKOVAN_WIDTH * i + 1] = (int32_t)(i % 128);
    c = (Call){"cz on every pair", list, DILKOVAN_WIDTH * pairs, 128, 0, 128, SIZE_MAX, 0, 0, 0};
    numbers(c, 0, NULL, none);
    /* x, t, tdg, rz, cnot and cz as a simple generator has them, on 4,096 wires, more than a block takes; the result isn't given either */
    uint32_t state = 1;
    for (i = 0; i < g; i++) {
        static const int32_t codes[] = {1, 2, 7, 8, 8, 8, 9, 3};
        int32_t draw[3], *at = list + DILKOVAN_WIDTH * i;
        for (int k = 0; k < 3; k++)
            state = state * 1664525 + 1013904223, draw[k] = (int32_t)(state >> 20);
        memset(at, 0, DILKOVAN_WIDTH * sizeof *at);
        at[0] = codes[draw[0] % 8];
        at[1] = draw[1] % 4096;
        if (at[0] == 7)
            at[4] = draw[2] - 2048;
        else if (at[0] > 7)
            at[2] = (at[1] + 1 + draw[2] % 4095) % 4096;
    }
    c = (Call){"65,536 mixed gates", list, DILKOVAN_WIDTH * g, 4096, 0, 128, 512, 0, 0, 0};
    numbers(c, 0, NULL, none);
    c = (Call){"65,536 mixed gates, longer rooms", list, DILKOVAN_WIDTH * g, 4096, 0, 128, 512, 11, 11, 11};
    numbers(c, 0, NULL, none);
}

/* ---- the plain engine */

static void plainly(Call c, long more, uint64_t answer, const int32_t *result, const uint64_t counts[8]) {
    engine(c, &more, answer, result, counts);
}

/* The plain engine leaves what the first one leaves. */
static void beside(Call c, long more) {
    size_t g = c.length / DILKOVAN_WIDTH;
    /* set, as what stands in a room is read */
    int32_t *out = calloc(c.length + 1, sizeof *out);
    uint64_t *terms = calloc(DILKOVAN_TERMS(g) + 1, sizeof *terms), counts[8];
    uint32_t *steps = calloc(DILKOVAN_STEPS(g), sizeof *steps);
    if (!out || !terms || !steps)
        fail("calloc", "no memory");
    if (dilkovan_cnot_min(c.list, c.length, c.wires, c.bits, c.qubit_cap, c.term_cap, out, c.length, terms, DILKOVAN_TERMS(g), steps, DILKOVAN_STEPS(g), counts))
        fail(c.name, "the first engine refuses it");
    plainly(c, more, 0, out, counts);
    free(out), free(terms), free(steps);
}

/* Gates on 32 wires: t, random cnot, or cz, which fold the most terms. */
static void fill(int32_t *list, size_t gates, int kind) {
    uint32_t state = 7;
    memset(list, 0, DILKOVAN_WIDTH * gates * sizeof *list);
    for (size_t i = 0; i < gates; i++) {
        int32_t *at = list + DILKOVAN_WIDTH * i;
        state = state * 1664525 + 1013904223;
        at[0] = kind == 0 ? 2 : kind == 1 ? 8 : 9;
        at[1] = (int32_t)(i % 32);
        if (kind)
            at[2] = (at[1] + 1 + (int32_t)(state >> 20) % 31) % 32;
        at[5] = (int32_t)i;
    }
}

static void plain(int32_t *list) {
    static const int32_t t[] = {2, 0, 0, 0, 0, 0}, bad[] = {99, 0, 0, 0, 0, 0};
    static const uint64_t kept[8] = {1, 1, 0, 0, 1, 1, 1, 0};
    Call c = {"plain: exact rooms", three, 18, 1, 0, 32, 512, 0, 0, 0};
    plainly(c, 0, 0, one, three_counts);
    c = (Call){"plain: longer rooms", three, 18, 1, 0, 32, 512, 9, 8, 7};
    plainly(c, 5, 0, one, three_counts);
    /* readings 16 to 21, by their numbers */
    static const size_t caps[] = {33, 127, 128, 129, SIZE_MAX};
    for (size_t i = 0; i < 5; i++) {
        c = (Call){"plain, 16: a cap above 32", t, 6, 1, 0, caps[i], 512, 0, 0, 0};
        plainly(c, 0, REFUSED(15, 0), NULL, none);
    }
    for (size_t cap = 0; cap < 3; cap++) {
        c = (Call){"plain, 16: a cap of 0, 1 or 2", t, 6, 1, 0, cap, 512, 0, 0, 0};
        plainly(c, 0, 0, t, kept);
    }
    c = (Call){"plain, 17: 15 before 4, 5 and the gates", bad, 6, 1, 0, 33, 512, -6, -9, -258};
    plainly(c, -DILKOVAN_WHOLE, REFUSED(15, 0), NULL, none);
    c = (Call){"plain, 17: 3 before 15", bad, 6, 4097, 0, 33, 512, -6, -9, -258};
    plainly(c, -DILKOVAN_WHOLE, REFUSED(3, 0), NULL, none);
    c = (Call){"plain: 1 before 3 and 15", three, 17, 4097, 0, 33, 512, 0, 0, 0};
    plainly(c, 0, REFUSED(1, 0), NULL, none);
    c = (Call){"plain: 4 before 5", three, 18, 1, 0, 32, 512, -1, -1, -1};
    plainly(c, -1, REFUSED(4, 0), NULL, none);
    c = (Call){"plain: 5 before the gates", bad, 6, 1, 0, 32, 512, 0, 0, 0};
    plainly(c, -1, REFUSED(5, 0), NULL, none);
    c = (Call){"plain: the gates", bad, 6, 1, 0, 32, 512, 0, 0, 0};
    plainly(c, 0, REFUSED(6, 0), NULL, none);
    c = (Call){"plain, 18 and 20: no gates, the room one number short", t, 0, 0, 0, 32, 512, 0, 0, 0};
    plainly(c, -1, REFUSED(5, 0), NULL, none);
    plainly(c, -DILKOVAN_WIDTH, REFUSED(5, 0), NULL, none);
    plainly(c, -DILKOVAN_WHOLE, REFUSED(5, 0), NULL, none);
    c = (Call){"plain, 19 and 20: no gates, all of the room ends as 0 and nothing beyond", t, 0, 0, 0, 32, 512, 0, 0, 0};
    plainly(c, 0, 0, t, none);
    plainly(c, 1, 0, t, none);
    plainly(c, 3, 0, t, none);
    c = (Call){"plain, 21: terms one short", t, 6, 1, 0, 32, 512, 0, -1, 0};
    plainly(c, 0, REFUSED(5, 0), NULL, none);
    c = (Call){"plain, 21: steps one short", t, 6, 1, 0, 32, 512, 0, 0, -1};
    plainly(c, 0, REFUSED(5, 0), NULL, none);
    /* 255 to 257 gates; the cnots take more additions than the step room has entries (21), the cz fold 768 terms (22) */
    for (size_t gates = 255; gates < 258; gates++)
        for (int kind = 0; kind < 3; kind++) {
            fill(list, gates, kind);
            c = (Call){"plain, 22 and 23: 255 to 257 gates on 32 wires", list, DILKOVAN_WIDTH * gates, 32, 0, 32, 512, 0, 0, 0};
            if (gates > DILKOVAN_PLAIN_GATES)
                plainly(c, 0, REFUSED(15, 0), NULL, none);
            else
                beside(c, 2);
            c.qubit_cap = 7;
            if (gates <= DILKOVAN_PLAIN_GATES)
                beside(c, 0);
        }
    fill(list, MOST + 1, 0);
    c = (Call){"plain: 15 for 65,536 gates", list, DILKOVAN_WIDTH * MOST, 32, 0, 32, 512, 0, 0, 0};
    plainly(c, 0, REFUSED(15, 0), NULL, none);
    c = (Call){"plain: 2 for one more", list, DILKOVAN_WIDTH * (MOST + 1), 32, 0, 33, 512, 0, 0, 0};
    plainly(c, 0, REFUSED(2, 0), NULL, none);
}

/* ---- texts */

typedef uint64_t (*Door)(const uint8_t *, size_t, uint8_t *, size_t *);

static void call(Door door, const char *name, const char *bytes, size_t size, uint64_t refused, const char *printed) {
    Room in = lend_filled(bytes, size);
    Room out = lend(door == dilkovan_trace ? DILKOVAN_TRACE_BYTES : DILKOVAN_LIST_BYTES);
    Room length = lend(sizeof(size_t));
    uint64_t told = door(inside(in), size, inside(out), inside(length));
    size_t want = strlen(printed);
    calls++;
    if (told != refused)
        fail(name, "the answer");
    settle(name, "the length", length, &want, sizeof want, 0);
    settle(name, "the printed bytes, or the room behind them", out, printed, want, 0);
    settle(name, "the text", in, bytes, size, 0);
}

static void text(const char *name, const char *bytes, size_t size, uint64_t refused, const char *printed) {
    call(dilkovan_list, name, bytes, size, refused, printed);
}

#define HEAD "head 4\n4096\n0\n128\n512\n"

/* `gates` of so many times this line */
static size_t repeated(char *to, const char *line, int gates) {
    size_t n = (size_t)sprintf(to, HEAD "gates %d\n", gates);
    for (int i = 0; i < gates; i++)
        n += (size_t)sprintf(to + n, "%s\n", line);
    return n;
}

static void texts(void) {
    static char bytes[2 * DILKOVAN_LIST_BYTES], printed[2 * DILKOVAN_LIST_BYTES];
    static const char example[] = "head 4\n1\n0\n128\n512\ngates 2\n2 0 0 0 0\n2 0 0 0 0\n";
    text("document 01's example", example, sizeof example - 1, 0, "head 4\n1\n0\n128\n512\ngates 1\n4 0 0 0 0\ncounts 8\n2\n1\n0\n0\n2\n0\n1\n1\n");
    text("without its last byte", example, sizeof example - 2, 1, "refused 11 8 0\n");
    text("no bytes", example, 0, 1, "refused 11 1 0\n");
    text("3", "head 4\n4097\n0\n1\n1\ngates 0\n", 26, 1, "refused 3 0 0\n");
    text("14", "head 4\n1\n1\n1\n1\ngates 1\n27 0 1 0 0\n", 34, 1, "refused 14 0 2\n");
    text("no gates", "head 4\n0\n0\n0\n0\ngates 0\n", 23, 0, "head 4\n0\n0\n0\n0\ngates 0\ncounts 8\n0\n0\n0\n0\n0\n0\n0\n0\n");
    /* 895 and 896 gates that are copied, in the longest lines that are taken */
    size_t n;
    for (int gates = 895; gates < 897; gates++) {
        n = repeated(bytes, "23 4095 4094 0 -2147483648", gates);
        sprintf(printed, "%.*scounts 8\n%d\n%d\n0\n0\n0\n0\n0\n0\n", (int)n, bytes, gates, gates);
        text("895 or 896 long lines", bytes, n, 0, printed);
    }
    text("a replaced block and a copied gate with their lines", "head 5\n1\n0\n1\n1\n6\ngates 3\n2 0 0 0 0 9\n2 0 0 0 0 3\n10 0 0 0 0 7\n", 62, 0,
         "head 5\n1\n0\n1\n1\n6\ngates 2\n4 0 0 0 0 9\n10 0 0 0 0 7\ncounts 8\n3\n2\n0\n0\n2\n0\n1\n1\n");
    n = repeated(bytes, "2 0 0 0 0", 897);
    text("12: 897 gates", bytes, n, 1, "refused 12 6 0\n");
    /* lines that make 32,768 bytes in all; the gates are looked at when every line was read */
    n = (size_t)sprintf(bytes, HEAD "gates 896\n");
    for (int i = 0; i < 896; i++)
        n += (size_t)sprintf(bytes + n, "8 1000000000 1000000000 0 %d\n", i < 480 ? 1234567890 : 123456789);
    if (n != LONGEST)
        fail("32,768 bytes", "the test's own text");
    text("32,768 bytes", bytes, n, 1, "refused 7 0 0\n");
    bytes[n] = '\n';
    text("10: 32,769 bytes", bytes, n + 1, 1, "refused 10 0 0\n");
    bytes[n - 1] = '0';
    text("32,768 bytes without the last LF", bytes, n, 1, "refused 11 902 0\n");
    text("32,767 bytes", bytes, n - 1, 1, "refused 11 902 0\n");
    memset(bytes, 0, sizeof bytes);
    text("32,768 zeros", bytes, LONGEST, 1, "refused 11 1 0\n");
    text("10: 32,769 zeros", bytes, LONGEST + 1, 1, "refused 10 0 0\n");
}

/* Texts by the plain engine: what the list's door prints, or 15. */
static void plain_texts(void) {
    static char bytes[2 * DILKOVAN_LIST_BYTES];
    static uint8_t out[DILKOVAN_LIST_BYTES + 1];
#define SMALL "head 4\n32\n0\n32\n512\n"
    call(dilkovan_plain_list, "plain text", SMALL "gates 2\n2 0 0 0 0\n2 0 0 0 0\n", 47, 0, SMALL "gates 1\n4 0 0 0 0\ncounts 8\n2\n1\n0\n0\n2\n0\n1\n1\n");
    call(dilkovan_plain_list, "plain text, no bytes", bytes, 0, 1, "refused 11 1 0\n");
    call(dilkovan_plain_list, "plain text, a cap of 33", "head 4\n1\n0\n33\n1\ngates 1\n99 0 0 0 0\n", 35, 1, "refused 15 0 0\n");
    call(dilkovan_plain_list, "plain text, 3 before 15", "head 4\n4097\n0\n33\n1\ngates 0\n", 27, 1, "refused 3 0 0\n");
    for (int gates = 255; gates < 258; gates++) {
        size_t n = (size_t)sprintf(bytes, SMALL "gates %d\n", gates), size;
        for (int i = 0; i < gates; i++)
            n += (size_t)sprintf(bytes + n, i % 3 ? "8 %d %d 0 0\n" : "2 %d 0 0 0\n", i * 7 % 32, (i * 7 + 1 + i % 29) % 32);
        if (dilkovan_list((const uint8_t *)bytes, n, out, &size))
            fail("plain text", "the list's door refuses it");
        out[size] = 0;
        call(dilkovan_plain_list, "plain text, 255 to 257 gates", bytes, n, gates > 256, gates > 256 ? "refused 15 0 0\n" : (const char *)out);
    }
    memset(bytes, 0, sizeof bytes);
    call(dilkovan_plain_list, "plain text, 32,769 zeros", bytes, LONGEST + 1, 1, "refused 10 0 0\n");
}

#define OPENING "OPENQASM 2.0;\ninclude \"qelib1.inc\";\n"

/* A laboratory's text of so many times this line, on one wire. */
static size_t statements(char *to, const char *line, int gates) {
    size_t n = (size_t)sprintf(to, OPENING "qreg q[1];\n");
    for (int i = 0; i < gates; i++)
        n += (size_t)sprintf(to + n, "%s\n", line);
    return n;
}

static void laboratories(void) {
    static char bytes[2 * DILKOVAN_LIST_BYTES], printed[2 * DILKOVAN_LIST_BYTES];
    static const char lab[] = OPENING "qreg q[1];\ncreg c[1];\nx q[0];\nt q[0];\nx q[0];\nmeasure q[0] -> c[0];\n";
    static const char ours[] = "head 5\n1\n1\n128\n512\n6\ngates 4\n1 0 0 0 0 5\n2 0 0 0 0 6\n1 0 0 0 0 7\n27 0 0 0 0 8\n";
    static const char swap[] = "head 4\n2\n0\n1\n1\ngates 2\n1 0 0 0 0\n17 0 1 0 0\n";
    call(dilkovan_import, "import", lab, sizeof lab - 1, 0, ours);
    call(dilkovan_export, "export", ours, sizeof ours - 1, 0, lab);
    call(dilkovan_qasm, "qasm", lab, sizeof lab - 1, 0, OPENING "qreg q[1];\ncreg c[1];\ntdg q[0];\nmeasure q[0] -> c[0];\n");
    call(dilkovan_trace, "trace", lab, sizeof lab - 1, 0, "tdg q[0]; // lines 5 to 7\nmeasure q[0] -> c[0]; // line 8\n");
    call(dilkovan_import, "import, without its last byte", lab, sizeof lab - 2, 1, "refused 13 8 0\n");
    call(dilkovan_qasm, "qasm, without its last byte", lab, sizeof lab - 2, 1, "refused 13 8 0\n");
    call(dilkovan_trace, "trace, without its last byte", lab, sizeof lab - 2, 1, "refused 13 8 0\n");
    call(dilkovan_export, "export, without its last byte", ours, sizeof ours - 2, 1, "refused 11 11 0\n");
    call(dilkovan_import, "import, no bytes", lab, 0, 1, "refused 13 1 0\n");
    call(dilkovan_export, "export, no bytes", lab, 0, 1, "refused 11 1 0\n");
    call(dilkovan_qasm, "qasm, no bytes", lab, 0, 1, "refused 13 1 0\n");
    call(dilkovan_trace, "trace, no bytes", lab, 0, 1, "refused 13 1 0\n");
    call(dilkovan_export, "export, a swap", swap, sizeof swap - 1, 1, "refused 13 1 0\n");
    /* 895 and 896 gates in the longest statements of one number and a turn; 897; and as many bytes as may be, and one more */
    size_t n, m;
    for (int gates = 895; gates < 897; gates++) {
        n = statements(bytes, "rz(-2147483648*pi/4) q[0];", gates), m = (size_t)sprintf(printed, "head 5\n1\n0\n128\n512\n6\ngates %d\n", gates);
        for (int i = 0; i < gates; i++) /* the first statement stands on line 4 */
            m += (size_t)sprintf(printed + m, "7 0 0 0 -2147483648 %d\n", 4 + i);
        call(dilkovan_import, "import, 895 or 896 gates", bytes, n, 0, printed);
        call(dilkovan_export, "export, 895 or 896 gates", printed, m, 0, (bytes[n] = 0, bytes));
        call(dilkovan_qasm, "qasm, 895 or 896 gates that are no turn", bytes, n, 0, OPENING "qreg q[1];\n");
        call(dilkovan_trace, "trace, 895 or 896 gates that are no turn", bytes, n, 0, "");
    }
    n = statements(bytes, "rz(-2147483647*pi/4) q[0];\nh q[0];", 448), m = 0;
    for (int i = 0; i < 896; i++)
        m += (size_t)sprintf(printed + m, i % 2 ? "h q[0]; // line %d\n" : "rz(-2147483647*pi/4) q[0]; // line %d\n", 4 + i);
    call(dilkovan_trace, "trace, 896 gates that are copied", bytes, n, 0, printed);
    n = statements(bytes, "x q[0];", 897);
    call(dilkovan_trace, "trace, 897 gates", bytes, n, 1, "refused 12 0 0\n");
    call(dilkovan_import, "import, 897 gates", bytes, n, 1, "refused 12 0 0\n");
    call(dilkovan_qasm, "qasm, 897 gates", bytes, n, 1, "refused 12 0 0\n");
    memset(bytes, 'x', sizeof bytes);
    call(dilkovan_import, "import, 32,768 bytes", bytes, LONGEST, 1, "refused 13 1 0\n");
    call(dilkovan_import, "import, 32,769 bytes", bytes, LONGEST + 1, 1, "refused 10 0 0\n");
    call(dilkovan_export, "export, 32,768 bytes", bytes, LONGEST, 1, "refused 11 1 0\n");
    call(dilkovan_export, "export, 32,769 bytes", bytes, LONGEST + 1, 1, "refused 10 0 0\n");
    call(dilkovan_qasm, "qasm, 32,768 bytes", bytes, LONGEST, 1, "refused 13 1 0\n");
    call(dilkovan_qasm, "qasm, 32,769 bytes", bytes, LONGEST + 1, 1, "refused 10 0 0\n");
    call(dilkovan_trace, "trace, 32,768 bytes", bytes, LONGEST, 1, "refused 13 1 0\n");
    call(dilkovan_trace, "trace, 32,769 bytes", bytes, LONGEST + 1, 1, "refused 10 0 0\n");
}

/* ---- two lists */

static void pair(const char *name, const int32_t *first, size_t a, const int32_t *second, size_t b, size_t wires, uint64_t want) {
    Room one = lend_filled(first, a * sizeof *first), two = lend_filled(second, b * sizeof *second);
    calls++;
    if (dilkovan_alike(inside(one), a, inside(two), b, wires) != want)
        fail(name, "another answer");
    settle(name, "the first list", one, first, a * sizeof *first, 0);
    settle(name, "the second list", two, second, b * sizeof *second, 0);
}

static uint64_t refused(uint64_t list, uint64_t number, uint64_t place, uint64_t field) {
    return list << 56 | field << 48 | number << 32 | place;
}

static void pairs(void) {
    static const int32_t none[1], x[] = {1, 0, 0, 0, 0, 0}, t[] = {2, 0, 0, 0, 0, 1}, t2[] = {2, 0, 0, 0, 0, 2}, s[] = {4, 0, 0, 0, 0, 0};
    static const int32_t xcnot[] = {1, 0, 0, 0, 0, 0, 8, 0, 1, 0, 0, 0}, czcz[] = {9, 0, 1, 0, 0, 0, 9, 0, 1, 0, 0, 0};
    static const int32_t swap[] = {1, 0, 0, 0, 0, 0, 17, 0, 1, 0, 0, 0}, measure[] = {27, 0, 0, 0, 0, 0}, line[] = {1, 0, 0, 0, 0, -1};
    static const int32_t wide[] = {8, 0, 2, 0, 0, 0};
    pair("nothing", none, 0, none, 0, 0, DILKOVAN_SAME);
    pair("cz twice", czcz, 12, none, 0, 2, DILKOVAN_SAME);
    pair("other lines", t, 6, t2, 6, 1, DILKOVAN_SAME);
    pair("map", xcnot, 12, t, 6, 2, DILKOVAN_MAP);
    pair("flips", x, 6, t, 6, 1, DILKOVAN_FLIPS);
    pair("phase", s, 6, t, 6, 128, DILKOVAN_PHASE);
    pair("a length", none, 0, x, 1, 1, refused(2, 1, 0, 0));
    pair("a swap", x, 6, swap, 12, 2, refused(2, 16, 1, 0));
    pair("both", measure, 6, swap, 12, 2, refused(1, 14, 0, 2));
    pair("a wire", wide, 6, none, 0, 2, refused(1, 8, 0, 2));
    pair("a line", line, 6, none, 0, 1, refused(1, 18, 0, 0));
    pair("wires", none, 0, x, 1, 129, refused(1, 17, 0, 0));
    if (DILKOVAN_LIST(refused(2, 8, 3, 1)) != 2 || DILKOVAN_LIST_FIELD(refused(2, 8, 3, 1)) != 1 || DILKOVAN_NUMBER(refused(2, 8, 3, 1)) != 8 || DILKOVAN_PLACE(refused(2, 8, 3, 1)) != 3)
        fail("a refusal's parts", "not read back");
}

/* ---- two lists in one text */

static void both(const char *name, const char *bytes, uint64_t refused, const char *printed) {
    call(dilkovan_pair, name, bytes, strlen(bytes), refused, printed);
}

#define TWO "head 4\n2\n0\n128\n512\n"

static void paired(void) {
    static char bytes[2 * LONGEST];
    both("cz twice, and nothing", TWO "gates 2\n9 0 1 0 0\n9 0 1 0 0\n" TWO "gates 0\n", 0, "same\n");
    both("heads of two forms", TWO "gates 1\n2 1 0 0 0\nhead 5\n2\n9\n1\n1\n6\ngates 1\n2 1 0 0 0 7\n", 0, "same\n");
    both("map", TWO "gates 2\n1 0 0 0 0\n8 0 1 0 0\n" TWO "gates 1\n2 0 0 0 0\n", 0, "map\n");
    both("flips", TWO "gates 1\n1 0 0 0 0\n" TWO "gates 1\n2 0 0 0 0\n", 0, "flips\n");
    both("phase", TWO "gates 1\n4 0 0 0 0\n" TWO "gates 1\n2 0 0 0 0\n", 0, "phase\n");
    both("no text", "", 1, "refused 1 11 1 0\n");
    both("no second list", TWO "gates 0\n", 1, "refused 2 11 7 0\n");
    both("2,000 gates", TWO "gates 0\n" TWO "gates 2000\n", 1, "refused 2 12 12 0\n");
    both("a measure", TWO "gates 1\n27 0 0 0 0\n" TWO "gates 0\n", 1, "refused 1 14 0 2\n");
    both("a swap", TWO "gates 0\n" TWO "gates 2\n1 0 0 0 0\n17 0 1 0 0\n", 1, "refused 2 16 1 0\n");
    both("other wires", TWO "gates 0\n" HEAD "gates 0\n", 1, "refused 2 11 8 0\n");
    both("more wires than are compared", HEAD "gates 0\n" HEAD "gates 0\n", 1, "refused 1 17 0 0\n");
    both("a surplus line", TWO "gates 0\n" TWO "gates 0\n\n", 1, "refused 0 11 13 0\n");
    /* two long lists; a text as long as may be, and one byte more */
    size_t n = 0;
    for (int list = 0; list < 2; list++) {
        n += (size_t)sprintf(bytes + n, TWO "gates 512\n");
        for (int i = 0; i < 512; i++)
            n += (size_t)sprintf(bytes + n, "7 0 0 0 %d\n", 800008);
    }
    call(dilkovan_pair, "two lists of 512 gates", bytes, n, 0, "same\n");
    memset(bytes + n, 'x', LONGEST + 1 - n);
    call(dilkovan_pair, "the longest text", bytes, LONGEST, 1, "refused 0 11 1037 0\n");
    call(dilkovan_pair, "one byte more", bytes, LONGEST + 1, 1, "refused 0 10 0 0\n");
}

int main(void) {
    int32_t *list = malloc(DILKOVAN_WIDTH * (MOST + 1) * sizeof *list);
    if (!list)
        fail("malloc", "no memory");
    for (int turn = 0; turn < 2; turn++) {
        guard = turn ? 0 : GUARD;
        rooms();
        refusals(list);
        large(list);
        plain(list);
        texts();
        plain_texts();
        laboratories();
        pairs();
        paired();
    }
    free(list);
    printf("boundary: %zu calls, %zu bytes compared, ok\n", calls, compared);
    return 0;
}
