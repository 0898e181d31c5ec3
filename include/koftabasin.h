/* koftabasin.h - the proved reader of Layer II multichannel extension frames (ISO/IEC 13818-3).
 *
 * `tools/staticlib mc_frame` at the repository's root proves the reader and makes
 * target/staticlib/libmc_frame.a, which has mc_fresh_state_desks, mc_carry_state_desks,
 * mc_convert_state and mc_decode_frame_excess. They allocate nothing, keep nothing between calls but
 * what is in the state, and may run in several threads on different states and buffers. "Refusal N" is a
 * number of the table below.
 *
 * Older names are inline calls here: mc_decode_frame_desks, of before excess codes were counted; and of
 * before there were desks mc_fresh_state_layout, mc_fresh_state, mc_carry_state, mc_decode_frame_layout,
 * mc_decode_frame_reading and mc_decode_frame, those that read a frame for desk 0. Older sources compile
 * as they are, but that `accepted` is an array now, and the functions on an answer give them what they
 * gave before. A source that takes bits 32 to 63 of an accepted frame's answer by its own shift has to
 * call mc_payload_used instead: bits 52 to 63 are mc_excess_codes now. The library has no symbols of the
 * older names, so an object that calls one of them, compiled against an older header, whose answer is
 * laid out otherwise and whose state may be 32 bytes shorter, does not link.
 *
 * A slice is a pointer and, right after it, the number of its elements. The pointer is not null and is
 * aligned, even where the number is 0; the memory is the caller's, and the call keeps no pointer to it.
 * What is written (the state and four buffers) overlaps nothing else that is lent.
 */
#ifndef KOFTABASIN_H
#define KOFTABASIN_H

#include <stddef.h>
#include <stdint.h>

#ifdef __cplusplus
extern "C" {
#endif

/* Lengths of slices, in elements; those of the base are for each channel. */
#define MC_MAX_STRING_BYTES 8192u /* head and payload: this many bytes at the most */
#define MC_BASE_VALUES 1152u      /* 36 slots of 32 subbands, at 32 * slot + subband */
#define MC_BASE_STEPS 32u         /* channel ch, subband sb at 32 * ch + sb */
#define MC_STEPS 96u              /* extension channel m, subband sb at 32 * m + sb */
#define MC_RAW 3456u              /* raw and work, each: at (36 * m + slot) * 32 + subband */
#define MC_OUTPUT 5760u           /* at (36 * ch + slot) * 32 + subband */
#define MC_LFE 12u

/* What passes from frame to frame, whichever desks the frames are of. The caller keeps it, changes
 * nothing in it, and begins a stream with mc_fresh_state_desks. */
typedef struct McDecodeState {
    double pred_hist[576]; /* the base's last nine scaled slots, at (base * 32 + subband) * 9 + k */
    uint8_t layout_len;    /* output channels of the stream, 1 to 5; 0 before the first frame */
    uint8_t layout;        /* 10 * front + surround code: 10 to 13, 20 to 23, 30 to 33; the code is the
                              header's, 3 for a second stereo programme. 0 where only layout_len is
                              known */
    uint32_t accepted[8];  /* accepted frames of each desk; each stays at 4294967295 */
} McDecodeState;

#if defined(__cplusplus) && __cplusplus >= 201103L
#define MC_STATIC_ASSERT(what) static_assert(what, #what)
#elif defined(__STDC_VERSION__) && __STDC_VERSION__ >= 201112L
#define MC_STATIC_ASSERT(what) _Static_assert(what, #what)
#endif
#ifdef MC_STATIC_ASSERT
MC_STATIC_ASSERT(sizeof(McDecodeState) == 4648);
MC_STATIC_ASSERT(offsetof(McDecodeState, pred_hist) == 0);
MC_STATIC_ASSERT(offsetof(McDecodeState, layout_len) == 4608);
MC_STATIC_ASSERT(offsetof(McDecodeState, layout) == 4609);
MC_STATIC_ASSERT(offsetof(McDecodeState, accepted) == 4612);
#undef MC_STATIC_ASSERT
#endif

/* Makes *state all zero, whatever it held. Returns 0. */
uint32_t mc_fresh_state_desks(McDecodeState *state);

static inline uint32_t mc_fresh_state_layout(McDecodeState *state) { return mc_fresh_state_desks(state); }

static inline uint32_t mc_fresh_state(McDecodeState *state) { return mc_fresh_state_desks(state); }

/* Carries a stream over to another reading: layout becomes 0, so that the next frame is held to
 * layout_len alone; pred_hist, layout_len and all eight of accepted stay as they are, bit for bit. Takes
 * any state and looks at no value of pred_hist. Returns 0; or 6, and the state stays as it was, for a
 * layout_len above 5, a layout that no header gives, or a layout_len that is not its layout's.
 *
 * A state may be lent under another reading without this. Under reading 2 a frame then has to have the
 * layout that is held, where one is held. */
uint32_t mc_carry_state_desks(McDecodeState *state);

static inline uint32_t mc_carry_state(McDecodeState *state) { return mc_carry_state_desks(state); }

/* Puts a state of before there were desks in place of *state, whatever that held. It is handed over
 * field by field, from other memory than *state; where it is of before states held a layout, layout is
 * 0. pred_hist, 576 values of any bits, layout_len and layout are kept as they are, bit for bit; desk 0
 * has accepted, the other desks 0. Returns 0; or 6, and *state stays as it was, for another
 * pred_hist_len, and for a layout_len or layout that mc_carry_state_desks refuses. */
uint32_t mc_convert_state(McDecodeState *state, const double *pred_hist, size_t pred_hist_len,
    uint8_t layout_len, uint8_t layout, uint32_t accepted);

/* Reads one frame.
 *
 * Lent, and only read:
 *   head           header, check word (not verified) and composite status, first bit highest
 *   payload        from the scfsi codes on; extension bytes are already joined
 *   head_bits, payload_bits  at most eight times the bytes; bits after the used ones do not matter
 *   reading        of the transfer guide, 1 or 2. Reading 1 is the standard's text, with centre code 2
 *                  as no centre; under reading 2 a header with centre code 2 is refusal 13, over one
 *                  base channel centre code 3 bars no place, where reading 1 has no second left from
 *                  subband 12 on, and a stream keeps its layout, where under reading 1 it keeps its
 *                  number of output channels
 *   desk           that the frame is of, 0 to 7; it decides which number of state->accepted rises, and
 *                  nothing else. Another desk is refusal 14
 *   rate           32000, 44100 or 48000
 *   base_channels  1 or 2
 *   raw_*          requantised base values, from -4 to 4
 *   scaled_*       the same times their scalefactors, from -4 to 4
 *                  with one base channel the right-hand slices are empty
 *   base_nb_steps  step counts of the base: 0 or a class's; 32 for each base channel
 *   lfe_allocation 0 to 15, 0 without LFE
 *   nb_steps       step counts of the extension channels: 0 or a class's, 0 where none is transmitted
 *
 * Written where the frame is accepted, every element:
 *   raw            transmitted samples; +0 where none was transmitted
 *   work           scaled and predicted values of the extension channels; +0 elsewhere
 *   output         subbands of the output channels, in the order left, right, centre, surround (left,
 *                  right), second left, second right, of those that there are; +0 in the rest
 *   lfe            LFE samples; +0 without an LFE allocation
 *   state          history, layout_len and accepted[desk]; layout under reading 2, while reading 1
 *                  leaves it
 *
 * A refused frame leaves buffers and state as they were, but that refusal 5 has put the base's last
 * nine scaled slots into state->pred_hist.
 *
 * Returns one number: see the functions below. */
uint64_t mc_decode_frame_excess(McDecodeState *state,
    const uint8_t *head, size_t head_len, size_t head_bits,
    const uint8_t *payload, size_t payload_len, size_t payload_bits,
    uint32_t reading, uint32_t desk, uint32_t rate, uint8_t base_channels,
    const double *raw_left, size_t raw_left_len, const double *raw_right, size_t raw_right_len,
    const double *scaled_left, size_t scaled_left_len,
    const double *scaled_right, size_t scaled_right_len,
    const uint32_t *base_nb_steps, size_t base_nb_steps_len, uint8_t lfe_allocation,
    const uint32_t *nb_steps, size_t nb_steps_len,
    double *raw, size_t raw_len, double *work, size_t work_len,
    double *output, size_t output_len, double *lfe, size_t lfe_len);

/* The same by its name of before excess codes were counted. */
static inline uint64_t mc_decode_frame_desks(McDecodeState *state,
    const uint8_t *head, size_t head_len, size_t head_bits,
    const uint8_t *payload, size_t payload_len, size_t payload_bits,
    uint32_t reading, uint32_t desk, uint32_t rate, uint8_t base_channels,
    const double *raw_left, size_t raw_left_len, const double *raw_right, size_t raw_right_len,
    const double *scaled_left, size_t scaled_left_len,
    const double *scaled_right, size_t scaled_right_len,
    const uint32_t *base_nb_steps, size_t base_nb_steps_len, uint8_t lfe_allocation,
    const uint32_t *nb_steps, size_t nb_steps_len,
    double *raw, size_t raw_len, double *work, size_t work_len,
    double *output, size_t output_len, double *lfe, size_t lfe_len)
{
    return mc_decode_frame_excess(state, head, head_len, head_bits, payload, payload_len, payload_bits,
        reading, desk, rate, base_channels, raw_left, raw_left_len, raw_right, raw_right_len,
        scaled_left, scaled_left_len, scaled_right, scaled_right_len,
        base_nb_steps, base_nb_steps_len, lfe_allocation, nb_steps, nb_steps_len,
        raw, raw_len, work, work_len, output, output_len, lfe, lfe_len);
}

/* The same for desk 0: the call as it was before there were desks. */
static inline uint64_t mc_decode_frame_layout(McDecodeState *state,
    const uint8_t *head, size_t head_len, size_t head_bits,
    const uint8_t *payload, size_t payload_len, size_t payload_bits,
    uint32_t reading, uint32_t rate, uint8_t base_channels,
    const double *raw_left, size_t raw_left_len, const double *raw_right, size_t raw_right_len,
    const double *scaled_left, size_t scaled_left_len,
    const double *scaled_right, size_t scaled_right_len,
    const uint32_t *base_nb_steps, size_t base_nb_steps_len, uint8_t lfe_allocation,
    const uint32_t *nb_steps, size_t nb_steps_len,
    double *raw, size_t raw_len, double *work, size_t work_len,
    double *output, size_t output_len, double *lfe, size_t lfe_len)
{
    return mc_decode_frame_desks(state, head, head_len, head_bits, payload, payload_len, payload_bits,
        reading, 0, rate, base_channels, raw_left, raw_left_len, raw_right, raw_right_len,
        scaled_left, scaled_left_len, scaled_right, scaled_right_len,
        base_nb_steps, base_nb_steps_len, lfe_allocation, nb_steps, nb_steps_len,
        raw, raw_len, work, work_len, output, output_len, lfe, lfe_len);
}

/* The same for desk 0, by its name of before the state held a layout. */
static inline uint64_t mc_decode_frame_reading(McDecodeState *state,
    const uint8_t *head, size_t head_len, size_t head_bits,
    const uint8_t *payload, size_t payload_len, size_t payload_bits,
    uint32_t reading, uint32_t rate, uint8_t base_channels,
    const double *raw_left, size_t raw_left_len, const double *raw_right, size_t raw_right_len,
    const double *scaled_left, size_t scaled_left_len,
    const double *scaled_right, size_t scaled_right_len,
    const uint32_t *base_nb_steps, size_t base_nb_steps_len, uint8_t lfe_allocation,
    const uint32_t *nb_steps, size_t nb_steps_len,
    double *raw, size_t raw_len, double *work, size_t work_len,
    double *output, size_t output_len, double *lfe, size_t lfe_len)
{
    return mc_decode_frame_layout(state, head, head_len, head_bits, payload, payload_len, payload_bits,
        reading, rate, base_channels, raw_left, raw_left_len, raw_right, raw_right_len,
        scaled_left, scaled_left_len, scaled_right, scaled_right_len,
        base_nb_steps, base_nb_steps_len, lfe_allocation, nb_steps, nb_steps_len,
        raw, raw_len, work, work_len, output, output_len, lfe, lfe_len);
}

/* The same for desk 0 under reading 1: the call as it was before there were readings. */
static inline uint64_t mc_decode_frame(McDecodeState *state,
    const uint8_t *head, size_t head_len, size_t head_bits,
    const uint8_t *payload, size_t payload_len, size_t payload_bits,
    uint32_t rate, uint8_t base_channels,
    const double *raw_left, size_t raw_left_len, const double *raw_right, size_t raw_right_len,
    const double *scaled_left, size_t scaled_left_len,
    const double *scaled_right, size_t scaled_right_len,
    const uint32_t *base_nb_steps, size_t base_nb_steps_len, uint8_t lfe_allocation,
    const uint32_t *nb_steps, size_t nb_steps_len,
    double *raw, size_t raw_len, double *work, size_t work_len,
    double *output, size_t output_len, double *lfe, size_t lfe_len)
{
    return mc_decode_frame_layout(state, head, head_len, head_bits, payload, payload_len, payload_bits,
        1, rate, base_channels, raw_left, raw_left_len, raw_right, raw_right_len,
        scaled_left, scaled_left_len, scaled_right, scaled_right_len,
        base_nb_steps, base_nb_steps_len, lfe_allocation, nb_steps, nb_steps_len,
        raw, raw_len, work, work_len, output, output_len, lfe, lfe_len);
}

/* The refusals, by the numbers of README's table. They are looked for
 * in the order 6, 14, 7, header (1, then 13), the rest of the head (1, then 2), 8, scfsi (1), 3, the
 * remaining bits in turn (1 before 4), 5. */
enum {
    MC_ACCEPTED = 0,
    MC_UNEXPECTED_END = 1,           /* a field passes its string's bit count */
    MC_FORBIDDEN_DYN_CROSS_MODE = 2, /* unlisted crosstalk code: see mc_sbgr and mc_mode */
    MC_ML_LAYER3_UNSUPPORTED = 3,    /* the header says Layer III multilingual channels */
    MC_RESERVED_SCALEFACTOR = 4,     /* scalefactor code 63 */
    MC_CONFIG_CHANGED = 5,           /* the stream's number of output channels is another; or, under
                                        reading 2, its layout, where the state holds one */
    MC_INVALID_ARGUMENT = 6,         /* a length, bit count, reading, rate, base count, LFE
                                        allocation or base step count is out of its bounds; the
                                        state's layout_len is above 5, its layout is one that no
                                        header gives, or layout_len is not that layout's */
    MC_VALUE_OUT_OF_RANGE = 7,       /* a base or history value is beyond -4 to 4 or not a number */
    MC_INVALID_ALLOCATION = 8,       /* a step count that no class has or at an untransmitted place;
                                        an LFE allocation without LFE */
    MC_UNDEFINED_CENTRE = 13,        /* centre code 2 under reading 2 */
    MC_INVALID_DESK = 14             /* the desk is above 7 */
};

/* Bits 0 to 7: 0 or the refusal. */
static inline unsigned mc_refusal(uint64_t answer) { return (unsigned)(answer & 0xFF); }

/* Bits 8 to 31 of an accepted frame: bits used of the head. */
static inline uint32_t mc_head_used(uint64_t answer) { return (uint32_t)(answer >> 8 & 0xFFFFFF); }

/* Bits 32 to 51 of an accepted frame: bits used of the payload. */
static inline uint32_t mc_payload_used(uint64_t answer) { return (uint32_t)(answer >> 32 & 0xFFFFF); }

/* Bits 52 to 63 of an accepted frame: group codes with an excess, at most 1080. At a refusal they are 0.
 *
 * A class of 3, 5 or 9 steps has one group code of 5, 7 or 10 bits for three samples, whose own codes are
 * its three lowest digits to the base of the steps (ISO/IEC 11172-3, 2.4.3.3.4). A group code from the
 * cube of the steps on, 27, 125 or 729, holds more than these digits, its excess, and writes the same
 * samples as the code less the cube. */
static inline uint32_t mc_excess_codes(uint64_t answer) { return (uint32_t)(answer >> 52); }

/* Bits 8 to 31 of refusal 2: the lowest subband group, 0 to 11, whose code is unlisted. */
static inline uint32_t mc_sbgr(uint64_t answer) { return (uint32_t)(answer >> 8 & 0xFFFFFF); }

/* Bits 32 to 63 of refusal 2: that code. At any other refusal bits 8 to 63 are 0. */
static inline uint32_t mc_mode(uint64_t answer) { return (uint32_t)(answer >> 32); }

#ifdef __cplusplus
}
#endif

#endif
