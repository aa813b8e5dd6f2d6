/* The trace flow verifier, for C. Link libtraceflow.a, which `rt lib` in crates/traceflow proves and writes to out/ there.
 *
 * The functions are total: they take any bytes, always return, and never fail. Pointers are not null, not even to nothing;
 * `plan` has plan_bytes bytes, `text` text_bytes and `row` row_places places, and what is written to overlaps nothing else. */
#ifndef TRACEFLOW_H
#define TRACEFLOW_H

#include <stddef.h>
#include <stdint.h>

#ifdef __cplusplus
extern "C" {
#endif

/* The places of the lent array for a verdict. */
enum {
    TRACEFLOW_VERIFIED, /* 1 for verified, 0 for inconclusive */
    TRACEFLOW_STATES,
    TRACEFLOW_MEETINGS,
    TRACEFLOW_ORDERING,
    TRACEFLOW_PAIRS,
    TRACEFLOW_FILL,
    TRACEFLOW_FINAL, /* what the exits of jobs that do not stand have in common, state 0 without jobs; state s has weight 2^s */
    TRACEFLOW_COUNTS
};

/* Judges a plan. Returns 0 where it is judged: the first places of the row, one a node, then hold the sets of states, and `counts`
 * the values of the verdict; later places are as they were. Else returns the number of the first refusal that applies, and the row
 * and `counts` are as they were. A row of 256 places is enough for every plan; a plan without jobs needs none. */
uint32_t traceflow_judge(const uint8_t *plan, size_t plan_bytes,
                         uint64_t *row, size_t row_places,
                         uint64_t counts[TRACEFLOW_COUNTS]);

/* Judges a plan as traceflow_judge does, by a pattern typed as text in place of its own items. These must still pass the refusals
 * 10 to 15; then 18 to 20 and 16 are about the text. No zero has to end it. */
uint32_t traceflow_judge_text(const uint8_t *plan, size_t plan_bytes,
                              const uint8_t *text, size_t text_bytes,
                              uint64_t *row, size_t row_places,
                              uint64_t counts[TRACEFLOW_COUNTS]);

/* Finds the pattern's part of a plan: its first byte in place[0] and its length in place[1]; 0 and 0 where one of the refusals
 * 1 to 16 or 21 applies to the plan under its own items. */
void traceflow_pattern_part(const uint8_t *plan, size_t plan_bytes, size_t place[2]);

/* The places of the lent array for the counts of a plan, in the order of its head, and its alphabet. */
enum {
    TRACEFLOW_JOBS,
    TRACEFLOW_NODES,
    TRACEFLOW_STEPS,
    TRACEFLOW_CALLS,
    TRACEFLOW_ACCEPTS,
    TRACEFLOW_CHANNELS,
    TRACEFLOW_KIND, /* 0 every, 1 none */
    TRACEFLOW_ITEMS,
    TRACEFLOW_ALPHABET, /* event e has weight 2^e */
    TRACEFLOW_TABLE_COUNTS
};

/* Where the calls and the accepts begin among the arcs; the local steps begin at 0. */
enum { TRACEFLOW_CALLS_AT = 256, TRACEFLOW_ACCEPTS_AT = 384 };

/* Reads back what the bytes of a plan hold. Returns 0, with the tables in the lent arrays: of each job its size, entry, exit and whether
 * it stands (1); of each channel its event, 0 for none; each arc as from + 256 * to + 65536 * label, where the label of a local step is
 * its event and that of a call or an accept its channel; of each item of the pattern its kind (0 empty, 1 set, 2 sequence, 3 choice, 4 star)
 * and its set, in which event e has weight 2^e and which is 0 for all kinds but 1. Places that the plan does not need hold 0. Else returns the number of the first of the refusals 1 to 15 and 21 that
 * applies, and every array is as it was. */
uint32_t traceflow_tables(const uint8_t *plan, size_t plan_bytes,
                          size_t counts[TRACEFLOW_TABLE_COUNTS],
                          uint16_t size[16], uint8_t entry[16], uint8_t exit[16], uint8_t standing[16],
                          uint8_t event[64],
                          uint32_t arcs[512],
                          uint8_t kinds[64], uint32_t sets[64]);

/* Reads back the automaton of a plan's own pattern. Returns 0, with the number of its states in values[0] and the accepting ones in
 * values[1] (state s has weight 2^s); each state as a set of positions, where position 0 is the beginning, the sets of the pattern count
 * from 1 and position p has weight 2^p; and in moves[s][e] the state to which event e moves state s. Behind the last state `states` holds
 * 0 and each row of `moves` its own number. Else returns the number of the first of the refusals 1 to 16 and 21 that applies, and every
 * array is as it was. */
uint32_t traceflow_automaton(const uint8_t *plan, size_t plan_bytes,
                             uint64_t values[2], uint64_t states[64], uint8_t moves[64][32]);

#ifdef __cplusplus
}
#endif

#endif
