/* Reads frames of three desks through one state, and of a desk that there is not; carries the state,
 * and converts one of before there were desks. From the repository's root:
 *   tools/staticlib mc_frame
 *   cc -std=c11 -Wall -Wextra -fsanitize=address,undefined -Iinclude examples/desks.c \
 *      target/staticlib/libmc_frame.a -o target/desks && target/desks
 */
#include "koftabasin.h"
#include <inttypes.h>
#include <stdio.h>

static double values[2][MC_BASE_VALUES], raw[MC_RAW], work[MC_RAW], output[MC_OUTPUT], lfe[MC_LFE];
static const uint32_t base_steps[2 * MC_BASE_STEPS], steps[MC_STEPS];
static McDecodeState state;

/* A stereo base with no centre and no surround: a header of 16 bits, the check word of 16 and three
 * status flags, all 0. Nothing is transmitted, so the payload is empty. */
static const uint8_t head[5], payload[1];

/* The state as it was before there were desks. */
static struct {
    double pred_hist[576];
    uint8_t layout_len, layout;
    uint32_t accepted;
} older = { .layout_len = 2, .layout = 20, .accepted = 1000 };

/* A refusal, or 0, and what is in the state after it. */
static void print_state(unsigned refusal)
{
    printf("answer %u; layout %u, tallies", refusal, state.layout);
    for (int desk = 0; desk < 8; desk++)
        printf(" %" PRIu32, state.accepted[desk]);
    printf("\n");
}

static void read_frame(uint32_t desk)
{
    uint64_t answer = mc_decode_frame_desks(&state, head, sizeof head, 35, payload, 0, 0,
        2, desk, 48000, 2, values[0], MC_BASE_VALUES, values[1], MC_BASE_VALUES,
        values[0], MC_BASE_VALUES, values[1], MC_BASE_VALUES,
        base_steps, 2 * MC_BASE_STEPS, 0, steps, MC_STEPS,
        raw, MC_RAW, work, MC_RAW, output, MC_OUTPUT, lfe, MC_LFE);
    printf("desk %" PRIu32 ": ", desk);
    print_state(mc_refusal(answer));
}

static void convert(size_t values_lent)
{
    uint32_t refusal = mc_convert_state(&state, older.pred_hist, values_lent, older.layout_len,
        older.layout, older.accepted);
    printf("converting %zu values, %u channels: ", values_lent, older.layout_len);
    print_state(refusal);
}

int main(void)
{
    static const uint32_t desks[] = { 0, 3, 7, 3, 8 };
    mc_fresh_state_desks(&state);
    for (int k = 0; k < 5; k++)
        read_frame(desks[k]);
    printf("carrying: ");
    print_state(mc_carry_state_desks(&state));
    convert(575);
    older.layout_len = 3;
    convert(576);
    older.layout_len = 2;
    convert(576);
    read_frame(0);
    read_frame(7);
    return 0;
}
