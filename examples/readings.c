/* Reads two frames under both readings of the transfer guide, and under a number that is none: a stereo
 * base with centre code 2, and a mono base with a phantom centre (code 3) and a second stereo programme.
 * From the repository's root:
 *   tools/staticlib mc_frame
 *   cc -std=c11 -Wall -Wextra -fsanitize=address,undefined -Iinclude examples/readings.c \
 *      target/staticlib/libmc_frame.a -o target/readings && target/readings
 */
#include "koftabasin.h"
#include <inttypes.h>
#include <stdio.h>

static double values[2][MC_BASE_VALUES], raw[MC_RAW], work[MC_RAW], output[MC_OUTPUT], lfe[MC_LFE];
static const uint32_t base_steps[2 * MC_BASE_STEPS];

/* Both heads have 35 bits: a header of 16, the check word of 16 and three status flags. The header's
 * bits are one flag, two bits of centre code and two of surround code; all else is 0. */
static const uint8_t centre_2[5] = { 0x40 }, phantom[5] = { 0x78 };

/* Nothing is transmitted; or second left has 7 steps in subband 12, which takes an scfsi code, three
 * scalefactors and 36 samples, all 0: 128 bits. */
static const uint32_t none[MC_STEPS], in_12[MC_STEPS] = { [12] = 7 };
static const uint8_t payload[16];

static void read_frame(const char *name, const uint8_t *head, uint8_t base_channels,
    const uint32_t *steps, size_t payload_bits, uint32_t reading)
{
    McDecodeState state;
    size_t right = base_channels == 2 ? MC_BASE_VALUES : 0;
    mc_fresh_state(&state);
    uint64_t answer = mc_decode_frame_reading(&state, head, 5, 35, payload, sizeof payload, payload_bits,
        reading, 48000, base_channels,
        values[0], MC_BASE_VALUES, values[1], right, values[0], MC_BASE_VALUES, values[1], right,
        base_steps, base_channels * MC_BASE_STEPS, 0, steps, MC_STEPS,
        raw, MC_RAW, work, MC_RAW, output, MC_OUTPUT, lfe, MC_LFE);
    printf("%s, reading %" PRIu32 ": ", name, reading);
    if (mc_refusal(answer) != MC_ACCEPTED)
        printf("refusal %u\n", mc_refusal(answer));
    else
        printf("accepted, %u channels, second channel in subband 12: %g\n", state.layout_len,
            output[36 * 32 + 12]);
}

int main(void)
{
    static const uint32_t readings[] = { 1, 2, 257 };
    for (int k = 0; k < 3; k++)
        read_frame("centre code 2", centre_2, 2, none, 0, readings[k]);
    for (int k = 0; k < 3; k++)
        read_frame("mono base, phantom centre", phantom, 1, in_12, 128, readings[k]);
    return 0;
}
