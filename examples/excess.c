/* Reads frames whose twelve group codes of 3 steps are all 0, 26, 27 or 31. The last two have an excess:
 * they are counted, and write the samples of 0 and 4. From the repository's root:
 *   tools/staticlib mc_frame
 *   cc -std=c11 -Wall -Wextra -fsanitize=address,undefined -Iinclude examples/excess.c \
 *      target/staticlib/libmc_frame.a -o target/excess && target/excess
 */
#include "koftabasin.h"
#include <inttypes.h>
#include <stdio.h>
#include <string.h>

static double values[2][MC_BASE_VALUES], raw[MC_RAW], work[MC_RAW], output[MC_OUTPUT], lfe[MC_LFE];
static const uint32_t base_steps[2 * MC_BASE_STEPS], steps[MC_STEPS] = { 3 };
static McDecodeState state;

/* 2/1: a header of 16 bits with surround code 1, the check word of 16, three status flags, of which the
 * first says one tc for all groups, and that tc of two bits. */
static const uint8_t head[5] = { 0x08, 0, 0, 0, 0x80 };

/* The surround has 3 steps in subband 0: scfsi 2, one scalefactor of 6 bits, which is 0, and a group code
 * of 5 bits in each of twelve granules. */
static uint8_t payload[9];

static void write_payload(uint32_t group_code)
{
    memset(payload, 0, sizeof payload);
    payload[0] = 0x80;
    for (int bit = 0; bit < 60; bit++)
        if (group_code >> (4 - bit % 5) & 1)
            payload[1 + bit / 8] |= 0x80 >> bit % 8;
}

static void read_frame(uint32_t group_code)
{
    write_payload(group_code);
    uint64_t answer = mc_decode_frame_excess(&state, head, sizeof head, 37, payload, sizeof payload, 68,
        2, 0, 48000, 2, values[0], MC_BASE_VALUES, values[1], MC_BASE_VALUES,
        values[0], MC_BASE_VALUES, values[1], MC_BASE_VALUES,
        base_steps, 2 * MC_BASE_STEPS, 0, steps, MC_STEPS,
        raw, MC_RAW, work, MC_RAW, output, MC_OUTPUT, lfe, MC_LFE);
    printf("group code %" PRIu32 ": ", group_code);
    if (mc_refusal(answer) != MC_ACCEPTED)
        printf("refusal %u\n", mc_refusal(answer));
    else
        printf("accepted, %" PRIu32 " payload bits, %" PRIu32 " excess codes, samples %g, %g, %g\n",
            mc_payload_used(answer), mc_excess_codes(answer), raw[0], raw[32], raw[64]);
}

int main(void)
{
    mc_fresh_state_desks(&state);
    read_frame(0);
    read_frame(26);
    read_frame(27);
    read_frame(31);
    return 0;
}
