/* Judges plan P and prints its verdict, its sets and where its pattern is; then judges it by a typed pattern; then a plan without
 * jobs, which needs no place of the row; a plan of a standing job and one that calls it and ends; and last it reads P back. */
#include "traceflow.h"
#include <inttypes.h>
#include <stdio.h>

static uint64_t row[256], counts[TRACEFLOW_COUNTS];

/* Prints an answer: the refusal, or the verdict, its states and the sets of the two nodes. */
static void tell(uint32_t refused) {
    if (refused != 0)
        printf("refused %" PRIu32, refused);
    else
        printf("%s, %" PRIu64 " states, sets %" PRIx64 " %" PRIx64,
               counts[TRACEFLOW_VERIFIED] ? "verified" : "inconclusive", counts[TRACEFLOW_STATES], row[0], row[1]);
}

/* Prints the answer to the plan of this name: the refusal, or the verdict and the final set. */
static void tell_final(const char *name, uint32_t refused) {
    if (refused != 0)
        printf("%s: refused %" PRIu32 "\n", name, refused);
    else
        printf("%s: %s, final %" PRIx64 "\n", name, counts[TRACEFLOW_VERIFIED] ? "verified" : "inconclusive", counts[TRACEFLOW_FINAL]);
}

/* Prints what is read back of a plan: its first step, the move of state 0 by the step's event, and the states that accept. */
static void tell_read_back(const uint8_t *plan, size_t plan_bytes) {
    static size_t of_plan[TRACEFLOW_TABLE_COUNTS];
    static uint16_t size[16];
    static uint8_t entry[16], exit[16], standing[16], event[64], kinds[64], moves[64][32];
    static uint32_t arcs[512], sets[64];
    static uint64_t values[2], states[64];
    uint32_t refused = traceflow_tables(plan, plan_bytes, of_plan, size, entry, exit, standing, event, arcs, kinds, sets);
    if (refused == 0)
        refused = traceflow_automaton(plan, plan_bytes, values, states, moves);
    if (refused != 0) {
        printf("read back: refused %" PRIu32 "\n", refused);
        return;
    }
    uint32_t step = arcs[0], label = step >> 16;
    printf("read back: %zu step, from %" PRIu32 " to %" PRIu32 " by event %" PRIu32 "; it moves state 0 to %u, %" PRIx64 " accepts\n",
           of_plan[TRACEFLOW_STEPS], step & 255, step >> 8 & 255, label, moves[0][label & 31], values[1]);
}

int main(void) {
    static const uint8_t plan[] = {0x08, 0x08, 0x02, 0x00, 0x00, 0x00, 0x06, 0x00, 0x00, 0x00, 0x00,
                                   0x08, 0x00, 0x04, 0x00, 0x02, 0x10, 0x30, 0x00, 0x00, 0x00, 0x00};
    static const uint8_t text[] = {'a', ';', 'a'};
    static const uint8_t recess[] = {0x00, 0x00, 0x00, 0x00, 0x00, 0x00, 0x04, 0x00, 0x00, 0x00, 0x00, 0x00};
    static const uint8_t standing[] = {0x10, 0x10, 0x02, 0x02, 0x02, 0x04, 0x17, 0x00, 0x00, 0x00, 0x00, 0x08,
                                       0x00, 0x02, 0x02, 0x02, 0x03, 0x00, 0x80, 0x08, 0x20, 0x40, 0x60, 0x00,
                                       0x00, 0x80, 0x30, 0x00, 0x00, 0x00, 0x0a, 0x00, 0x00, 0x00, 0x00, 0xd0};
    size_t place[2];
    tell(traceflow_judge(plan, sizeof plan, row, 256, counts));
    traceflow_pattern_part(plan, sizeof plan, place);
    printf(", pattern at byte %zu, %zu bytes\n", place[0], place[1]);
    printf("by a;a: ");
    tell(traceflow_judge_text(plan, sizeof plan, text, sizeof text, row, 256, counts));
    printf("\n");
    tell_final("no jobs", traceflow_judge(recess, sizeof recess, row, 0, counts));
    tell_final("a standing job", traceflow_judge(standing, sizeof standing, row, 256, counts));
    tell_read_back(plan, sizeof plan);
    return 0;
}
