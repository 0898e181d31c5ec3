//! Compares the proved head reading with the published Rust: heads of every shape, whole and cut at
//! every bit, in every field, under readings drawn at random. Ends with status 1 at the first
//! difference.

use oracle::flat::packed;
use oracle::generator::damage::{Part, WRONG_READINGS, cut, pad};
use oracle::generator::{HeadShape, Plan, Random};
use oracle::input::READINGS;
use oracle::scope::{Refusal, undefined_centre};
use oracle::{FrameInput, HeadOutput, reference_head};
use std::process::ExitCode;

/// Header, check word and status, one byte for each field.
const FIELDS: usize = 110;

/// What lies in the answer's bytes before a call, and stays there where the head is refused.
const UNTOUCHED: u8 = 0xA5;

mod proved {
    unsafe extern "C" {
        /// Writes the fields of an accepted head and answers as the frame call does, with the used
        /// bits in bits 8 to 31.
        pub fn mc_part_head(
            bytes: *const u8,
            len: usize,
            bits: usize,
            reading: u32,
            base_channels: u8,
            out: *mut u8,
            out_len: usize,
        ) -> u64;
    }
}

/// A head that is lent: bytes, bit count, reading, base channels, and room for the fields.
struct Lent<'a> {
    bytes: &'a [u8],
    bits: u64,
    reading: u32,
    base_channels: u8,
    room: usize,
}

type Answer = (u64, Vec<u8>);

fn found(lent: &Lent) -> Answer {
    let mut out = vec![UNTOUCHED; lent.room];
    // SAFETY: each pointer comes with the length of its slice, and the function takes any.
    let answer = unsafe {
        proved::mc_part_head(
            lent.bytes.as_ptr(),
            lent.bytes.len(),
            lent.bits as usize,
            lent.reading,
            lent.base_channels,
            out.as_mut_ptr(),
            out.len(),
        )
    };
    (answer, out)
}

fn wanted(lent: &Lent) -> Answer {
    let untouched = vec![UNTOUCHED; lent.room];
    let string = lent.bytes.len() <= 8192 && lent.bits <= 8 * lent.bytes.len() as u64;
    let numbers = READINGS.contains(&lent.reading) && matches!(lent.base_channels, 1 | 2);
    if !string || !numbers || lent.room != FIELDS {
        return (6, untouched);
    }
    if undefined_centre(lent.reading, lent.bytes, lent.bits) {
        return (13, untouched);
    }
    match reference_head(lent.bytes, lent.bits, lent.base_channels.into()) {
        Ok(head) => (head.used << 8, fields(&head)),
        Err(error) => (packed(&Err(Refusal::from(error))), untouched),
    }
}

/// The fields in the order of the wire, flags and numbers one byte each.
fn fields(head: &HeadOutput) -> Vec<u8> {
    let (header, status) = (&head.mc_header, &head.status);
    let mut bytes = vec![
        header.ext_bit_stream_present.into(),
        header.n_ad_bytes,
        head.centre_code as u8,
        header.surround as u8,
        header.lfe.into(),
        header.audio_mix.into(),
        header.dematrix_procedure,
        header.no_of_multi_lingual_ch,
        header.multi_lingual_fs_half.into(),
        header.multi_lingual_layer3.into(),
        header.copyright_identification_bit.into(),
        header.copyright_identification_start.into(),
    ];
    bytes.extend(head.check_word.to_be_bytes());
    bytes.extend([
        u8::from(status.tc_sbgr_select),
        status.dyn_cross_on.into(),
        status.mc_prediction_on.into(),
    ]);
    bytes.extend(status.tc_allocation);
    bytes.push(status.dyn_cross_lr.into());
    for group in 0..12 {
        let second = status.dyn_second_stereo[group].into();
        bytes.extend([status.dyn_cross_mode[group], second]);
    }
    for group in 0..8 {
        bytes.push(status.mc_prediction[group].into());
        bytes.extend(status.predsi[group]);
    }
    bytes
}

/// Both sides' answers to a head, in words.
fn words(lent: &Lent, found: &Answer, wanted: &Answer) -> String {
    format!(
        "bytes {:02x?}, {} bits, reading {}, {} base channels, room for {}\n\
         found  {:#x} {:?}\nwanted {:#x} {:?}",
        &lent.bytes[..lent.bytes.len().min(40)],
        lent.bits,
        lent.reading,
        lent.base_channels,
        lent.room,
        found.0,
        found.1,
        wanted.0,
        wanted.1
    )
}

/// Heads compared so far: under reading 1, under reading 2, under another number.
#[derive(Default)]
struct Heads([u64; 3]);

impl Heads {
    fn number(&self) -> u64 {
        self.0.iter().sum()
    }

    /// Both sides say the same of a head.
    fn compare(&mut self, lent: &Lent) -> Result<(), String> {
        let (found, wanted) = (found(lent), wanted(lent));
        if found != wanted {
            return Err(words(lent, &found, &wanted));
        }
        let reading = READINGS.iter().position(|&named| named == lent.reading);
        self.0[reading.unwrap_or(2)] += 1;
        Ok(())
    }

    /// A head of a shape, whole with bits after it, cut at every bit, and wrongly lent.
    fn shape(&mut self, shape: &HeadShape, random: &mut Random) -> Result<(), String> {
        let mut plan = Plan::plain(shape.base_channels, shape.centre, shape.surround);
        plan.head = shape.head(random);
        let whole = plan.input();
        for bits in 0..=whole.head_bits {
            let mut input = whole.clone();
            match bits == whole.head_bits {
                true => pad(random, &mut input, Part::Head),
                false => cut(&mut input, Part::Head, bits, random.flag()),
            }
            self.compare(&lent(&input, random))?;
        }
        self.wrongly_lent(&whole, random)
    }

    /// Each bound of the loan broken once.
    fn wrongly_lent(&mut self, input: &FrameInput, random: &mut Random) -> Result<(), String> {
        let mut long = input.clone();
        long.head.resize(random.pick(&[8192, 8193]), 0);
        self.compare(&lent(&long, random))?;
        self.compare(&Lent {
            bits: 8 * input.head.len() as u64 + 1,
            ..lent(input, random)
        })?;
        self.compare(&Lent {
            reading: random.pick(&WRONG_READINGS),
            ..lent(input, random)
        })?;
        for base_channels in [0, random.pick(&[3, 4, 255])] {
            self.compare(&Lent {
                base_channels,
                ..lent(input, random)
            })?;
        }
        self.compare(&Lent {
            room: random.pick(&[0, FIELDS - 1, FIELDS + 1]),
            ..lent(input, random)
        })
    }
}

/// The head of a frame, under a reading drawn at random.
fn lent<'a>(input: &'a FrameInput, random: &mut Random) -> Lent<'a> {
    Lent {
        bytes: &input.head,
        bits: input.head_bits,
        reading: random.pick(&READINGS),
        base_channels: input.base_channels as u8,
        room: FIELDS,
    }
}

/// The word of the command line at this place, or the number that stands in for it.
fn argument(place: usize, default: u64) -> u64 {
    let word = std::env::args().nth(place);
    word.and_then(|word| word.parse().ok()).unwrap_or(default)
}

fn main() -> ExitCode {
    let (number, seed) = (argument(1, 1_000_000), argument(2, 1));
    let shapes = HeadShape::all();
    let (mut heads, mut random) = (Heads::default(), Random::new(seed));
    while heads.number() < number {
        for (k, shape) in shapes.iter().enumerate() {
            if let Err(words) = heads.shape(shape, &mut random) {
                let compared = heads.number();
                println!(
                    "heads: DIFFERENT, seed {seed}, shape {k} after {compared} heads\n{words}"
                );
                return ExitCode::FAILURE;
            }
        }
    }
    let (shapes, compared, [one, two, other]) = (shapes.len(), heads.number(), heads.0);
    println!(
        "heads, seed {seed}: {shapes} shapes, {compared} heads compared ({one} under reading 1, \
         {two} under reading 2, {other} under another number), no difference"
    );
    ExitCode::SUCCESS
}
