/* Dilkovan: circuits shortened, proved to be the same operator. Link with crates/dilkovan/out/libdilkovan.a, which
 * `rt lib` in crates/dilkovan proves and builds for x86-64. examples/c and examples/rust call it.
 * The stacks told below were measured with the older Rattle kit, and not again with today's.
 *
 * No function allocates, fails or keeps anything between calls; any numbers and any bytes may be given, and what can't be taken is
 * refused. What is said below of answers and rooms is proved for every input (docs/PROMISES.md). The caller sees to what no
 * proof of the library can: each pointer is aligned, not null (not even for 0 numbers) and leads to as many numbers as stand beside it, each of them set
 * (a room's to anything: it is read too), and no two of the rooms, and no room and the list or text, overlap.
 *
 * Refusals, by number (README.md has the codes of the gates and the grammar of a text):
 *
 *   dilkovan_cnot_min                                        dilkovan_list and dilkovan_export
 *   1  the list's length is no multiple of DILKOVAN_WIDTH     3, 6 to 9, 14, 18  as on the left
 *   2  more than 65,536 gates                                 10  a text above 32,768 bytes
 *   3  more than 4,096 wires or 1,024 classical bits          11  a malformed, missing or surplus line
 *   4  `out` is shorter than the list                         12  more than 896 gates
 *   5  `terms` or `steps` is too short                        13  (export) a gate that OpenQASM 2.0's text doesn't spell here
 *   6  a code outside 1 to 27
 *   7  an unused field isn't 0                                dilkovan_import, dilkovan_qasm and dilkovan_trace
 *   8  a wire out of range                                    10  a text above 32,768 bytes
 *   14 a measure's classical bit out of range                 13  a wrong or missing line
 *   9  the same wire twice in one gate                        12  more than 896 gates; 3  as on the left
 *   18 a negative line
 *   dilkovan_alike has of these 1 to 3, 6 to 9, 14 and 18, and besides: 16  a code above 9; 17  more than 128 wires
 *   dilkovan_pair has those of dilkovan_alike but 1 and 2, and besides 10 to 12 as for a list
 *   dilkovan_plain has those of dilkovan_cnot_min, dilkovan_plain_list those of dilkovan_list, and both besides, straight after 3:
 *   15  more than 256 gates, or a clamped qubit cap above 32
 *
 * In this order; 8 and 14 as the fields stand. The place is the gate's index from 0 for 6 to 9, 14, 18 and export's 13, the line's number from 1 for
 * 11, 12 of a list and 13 of a laboratory's text, and else 0. The field is 1, 2 or 3 for 8 and 14, the first of the gate's `first`, `second` and
 * `third` that is out of range, and else 0. */
#ifndef DILKOVAN_H
#define DILKOVAN_H

#include <stddef.h>
#include <stdint.h>

#ifdef __cplusplus
extern "C" {
#endif

/* The numbers of a gate, and of the rooms that a list of g gates needs. */
#define DILKOVAN_WIDTH 6
#define DILKOVAN_TERMS(g) (9 * (g))
#define DILKOVAN_STEPS(g) (2 * ((g) + 128))

/* What a refusal's answer of dilkovan_cnot_min is made of. */
#define DILKOVAN_FIELD(answer) ((answer) >> 48)
#define DILKOVAN_NUMBER(answer) ((answer) >> 32 & 0xffff)
#define DILKOVAN_PLACE(answer) ((answer) & 0xffffffff)

/* Shortens a list of gates, DILKOVAN_WIDTH numbers each: code, first, second, third, turn, line.
 *
 * For g gates, `out` needs DILKOVAN_WIDTH * g numbers, `terms` DILKOVAN_TERMS(g) and `steps` DILKOVAN_STEPS(g); they may hold any numbers, and may be longer. Nothing beyond
 * these parts is ever written, and the list never. The qubit cap is clamped to 1..128, the term cap raised to at least 1.
 *
 * Answers 0 when it is done. Then `out` begins with the new gates, counts[1] of them, and is 0 from there to DILKOVAN_WIDTH * g; the needed parts of
 * `terms` and `steps` are 0; and `counts` has gates in, gates out, CNOT and CZ in, the same out, T in, the same out, blocks
 * closed, blocks replaced. T is t, tdg, and every rz or p with an odd turn; counts[5] is at most counts[4]. The gates of codes 10 to 27 are the same, in order; between them, the new gates take every setting of
 * the wires to the same setting, with phases that differ by one number common to all settings, and are never dearer.
 *
 * Else it answers the refusal's field * 2^48 + its number * 2^32 + its place, and writes nothing, `counts` neither. */
uint64_t dilkovan_cnot_min(const int32_t *list, size_t list_length, size_t wires, size_t bits, size_t qubit_cap, size_t term_cap,
                           int32_t *out, size_t out_length, uint64_t *terms, size_t terms_length, uint32_t *steps,
                           size_t steps_length, uint64_t counts[8]);

/* The same by the plain engine, which has no budget: it writes every resynthesis to its end, in `whole`, and only then compares. It is for asking whether the budget decides anything
 * (docs/BUDGET.md); it is slower, and takes up to DILKOVAN_PLAIN_GATES gates and a qubit cap that is, clamped, up to DILKOVAN_PLAIN_CAP.
 *
 * `whole` needs DILKOVAN_WHOLE numbers, whatever the list; else it is 5. Its own tables are on the stack: 37,975 bytes was the deepest measured. Answers 0 when it is done: `out`, `terms`, `steps` and `counts` are then exactly as dilkovan_cnot_min leaves them for the same list, caps and rooms, the first
 * DILKOVAN_WHOLE numbers of `whole` are 0, and nothing beyond them is written. Else it answers as dilkovan_cnot_min does, in the order 1, 2, 3, 15, 4, 5, then the gates, and writes nothing. */
#define DILKOVAN_PLAIN_GATES 256
#define DILKOVAN_PLAIN_CAP 32
#define DILKOVAN_WHOLE (DILKOVAN_WIDTH * 26400)
uint64_t dilkovan_plain(const int32_t *list, size_t list_length, size_t wires, size_t bits, size_t qubit_cap, size_t term_cap,
                        int32_t *out, size_t out_length, uint64_t *terms, size_t terms_length, uint32_t *steps,
                        size_t steps_length, int32_t *whole, size_t whole_length, uint64_t counts[8]);

/* Do two lists of gates of codes 1 to 9, over the same wires and with no classical bits, act alike?
 *
 * Answers DILKOVAN_SAME when every setting of the wires goes to the same setting, and phases differ by one number common to all settings, modulo 8; else the
 * first that differs: DILKOVAN_MAP where between some two settings other wires change, DILKOVAN_FLIPS where the zeros go elsewhere, DILKOVAN_PHASE where no one
 * number will do. Lines don't matter. Nothing is lent or written; its own tables are on the stack, 6,000 bytes at the deepest measured.
 *
 * Else it answers the refusal's list * 2^56 + its field * 2^48 + its number * 2^32 + its place; the list is 1 or 2. For each list 1, 2, 3, then 17 for more than 128
 * wires, then gate by gate 6, 7, 8 or 14, 9, 16 for a code above 9, and 18; all of the first list before any of the second. 3 and 17 belong to the first. */
#define DILKOVAN_SAME 0
#define DILKOVAN_MAP 1
#define DILKOVAN_FLIPS 2
#define DILKOVAN_PHASE 3
#define DILKOVAN_LIST(answer) ((answer) >> 56)
#define DILKOVAN_LIST_FIELD(answer) ((answer) >> 48 & 0xff)
uint64_t dilkovan_alike(const int32_t *first, size_t first_length, const int32_t *second, size_t second_length, size_t wires);

/* The bytes that `out` of the functions below must have: the longest answer fits. */
#define DILKOVAN_LIST_BYTES (12 * DILKOVAN_WIDTH * 896 + 256)

/* Shortens the circuit of a list's text, as `./dilkovan list` does.
 *
 * Answers 0 when the list was taken, and 1 when it was refused. In either case `out` begins with what is printed, *length bytes of it with
 * no 0 behind them: the head, the new gates and the counts; or one line, "refused NUMBER PLACE FIELD". The rest of `out` is not written, nor is
 * the text. Its own tables are on the stack: 146,439 bytes was the deepest measured. */
uint64_t dilkovan_list(const uint8_t *text, size_t text_length, uint8_t out[DILKOVAN_LIST_BYTES], size_t *length);

/* The same by the plain engine, as `./dilkovan plain` does: what is printed is what dilkovan_list prints, or "refused 15 0 0" for a list that is too much for it, straight after 3. Its room for
 * one resynthesis is on the stack: 787,207 bytes was the deepest measured. */
uint64_t dilkovan_plain_list(const uint8_t *text, size_t text_length, uint8_t out[DILKOVAN_LIST_BYTES], size_t *length);

/* A laboratory's text, OpenQASM 2.0, as a list's text with the caps 128 and 512 and no counts; a list's text as a laboratory's; and a laboratory's text
 * with its circuit shortened at those caps. `out`, *length and the answer are those of dilkovan_list. The deepest stack measured:
 * 22,215 bytes for import and export, 146,407 for qasm. */
uint64_t dilkovan_import(const uint8_t *text, size_t text_length, uint8_t out[DILKOVAN_LIST_BYTES], size_t *length);
uint64_t dilkovan_export(const uint8_t *text, size_t text_length, uint8_t out[DILKOVAN_LIST_BYTES], size_t *length);
uint64_t dilkovan_qasm(const uint8_t *text, size_t text_length, uint8_t out[DILKOVAN_LIST_BYTES], size_t *length);

/* Where each gate of the circuit that dilkovan_qasm prints comes from, for people: a line for each, its statement and " // line N", the line of the
 * text that it was copied from, or " // lines A to B", those of the first and the last gate of the block that was written again. `out` is longer; the
 * refusals are those of dilkovan_qasm. The deepest stack measured: 157,207 bytes. */
#define DILKOVAN_TRACE_BYTES (85 * 896)
uint64_t dilkovan_trace(const uint8_t *text, size_t text_length, uint8_t out[DILKOVAN_TRACE_BYTES], size_t *length);

/* Do the two lists of one text, whose texts stand one behind the other, act alike? As `./dilkovan alike` does. `out` and *length are those of dilkovan_list.
 *
 * Answers 0 when both lists were taken: printed is "same", or the first that differs, "map", "flips" or "phase", as of dilkovan_alike. Answers 1 when
 * they were refused: printed is "refused LIST NUMBER PLACE FIELD". First come 10, then 11 and 12 line by line, where lines count over the whole text and
 * 11 is also told of the second list's line of wires where they aren't the first's; then the refusals of dilkovan_alike. The list is 1 or 2, and 0 for 10 and for
 * a surplus line. Bits, caps and the form of each head may differ, and bits and caps are not looked at. The deepest stack measured: 49,280 bytes. */
uint64_t dilkovan_pair(const uint8_t *text, size_t text_length, uint8_t out[DILKOVAN_LIST_BYTES], size_t *length);

#ifdef __cplusplus
}
#endif
#endif
