/* Moves a stream from reading 1 to reading 2 without beginning anew: 3/1 and 2/2 have four channels
 * each, which reading 1 takes for the same layout and reading 2 does not. From the repository's root:
 *   tools/staticlib mc_frame
 *   cc -std=c11 -Wall -Wextra -fsanitize=address,undefined -Iinclude examples/carry.c \
 *      target/staticlib/libmc_frame.a -o target/carry && target/carry
 */
#include "koftabasin.h"
#include <inttypes.h>
#include <stdio.h>

static double values[2][MC_BASE_VALUES], raw[MC_RAW], work[MC_RAW], output[MC_OUTPUT], lfe[MC_LFE];
static const uint32_t base_steps[2 * MC_BASE_STEPS], steps[MC_STEPS];
static const uint8_t payload[1];
static McDecodeState state;

/* A header of 16 bits, the check word of 16, three status flags and a tc for each of the twelve groups.
 * The header's bits are one flag, two bits of centre code and two of surround code; all else is 0. */
static const uint8_t three_one[9] = { 0x28 }, two_two[8] = { 0x10 };

static void read_frame(const char *name, const uint8_t *head, size_t length, size_t bits, uint32_t reading)
{
    uint64_t answer = mc_decode_frame_desks(&state, head, length, bits, payload, sizeof payload, 0,
        reading, 0, 48000, 2, values[0], MC_BASE_VALUES, values[1], MC_BASE_VALUES,
        values[0], MC_BASE_VALUES, values[1], MC_BASE_VALUES,
        base_steps, 2 * MC_BASE_STEPS, 0, steps, MC_STEPS,
        raw, MC_RAW, work, MC_RAW, output, MC_OUTPUT, lfe, MC_LFE);
    printf("%s, reading %" PRIu32 ": ", name, reading);
    if (mc_refusal(answer) != MC_ACCEPTED)
        printf("refusal %u", mc_refusal(answer));
    else
        printf("accepted");
    printf("; %u channels, layout %u, %" PRIu32 " frames\n", state.layout_len, state.layout,
        state.accepted[0]);
}

static void carry(void)
{
    uint32_t refusal = mc_carry_state_desks(&state);
    if (refusal != MC_ACCEPTED)
        printf("carrying: refusal %" PRIu32, refusal);
    else
        printf("carrying: carried");
    printf("; %u channels, layout %u, %" PRIu32 " frames\n", state.layout_len, state.layout,
        state.accepted[0]);
}

int main(void)
{
    mc_fresh_state_desks(&state);
    read_frame("3/1", three_one, sizeof three_one, 71, 1);
    read_frame("2/2", two_two, sizeof two_two, 59, 1);
    carry();
    read_frame("2/2", two_two, sizeof two_two, 59, 2);
    read_frame("3/1", three_one, sizeof three_one, 71, 2);
    carry();
    read_frame("3/1", three_one, sizeof three_one, 71, 2);
    state.layout = 34;
    carry();
    return 0;
}
