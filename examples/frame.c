/* Reads the smallest frame, then the same frame with one head bit too few. From the repository's root:
 *   tools/staticlib mc_frame
 *   cc -std=c11 -Wall -Wextra -fsanitize=address,undefined -Iinclude examples/frame.c \
 *      target/staticlib/libmc_frame.a -o target/frame && target/frame
 */
#include "koftabasin.h"
#include <inttypes.h>
#include <stdio.h>

static McDecodeState state;
static double values[2][MC_BASE_VALUES], raw[MC_RAW], work[MC_RAW], output[MC_OUTPUT], lfe[MC_LFE];
static const uint32_t base_steps[2 * MC_BASE_STEPS], steps[MC_STEPS];

/* A stereo base with no centre and no surround: a header of 16 bits, the check word of 16 and three
 * status flags, all 0. Nothing is transmitted, so the payload is empty. */
static const uint8_t head[5], payload[1];

static void read_frame(size_t head_bits)
{
    uint64_t answer = mc_decode_frame(&state, head, sizeof head, head_bits, payload, 0, 0, 48000, 2,
        values[0], MC_BASE_VALUES, values[1], MC_BASE_VALUES,
        values[0], MC_BASE_VALUES, values[1], MC_BASE_VALUES,
        base_steps, 2 * MC_BASE_STEPS, 0, steps, MC_STEPS,
        raw, MC_RAW, work, MC_RAW, output, MC_OUTPUT, lfe, MC_LFE);
    if (mc_refusal(answer) != MC_ACCEPTED)
        printf("refusal %u\n", mc_refusal(answer));
    else
        printf("accepted: %" PRIu32 " head bits, %" PRIu32 " payload bits, %" PRIu32 " excess codes, "
               "%u channels, left %g, right %g\n", mc_head_used(answer), mc_payload_used(answer),
               mc_excess_codes(answer), state.layout_len, output[0], output[36 * 32]);
}

int main(void)
{
    mc_fresh_state(&state);
    values[0][0] = 0.5;
    values[1][0] = -0.25;
    read_frame(35);
    read_frame(34);
    return 0;
}
