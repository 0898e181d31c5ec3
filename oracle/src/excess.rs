//! The excesses of group codes: what is left of a code beside its three digits, in cubes
//! of the step count. The published Rust drops them, so the group codes of an accepted payload are read
//! here once more, from its string and by the published classes. The generator has the excesses from the
//! codes that it writes (`generator::group_codes`).

use crate::bits::BitReader;
use crate::input::FrameInput;
use crate::leaf::{QuantClass, class_of_quantization, degroup};
use crate::output::Places;

/// The step counts whose samples have group codes.
pub const GROUPED: [u32; 3] = [3, 5, 9];

/// The excess of a group code, whose digits are the published Rust's.
pub fn excess(class: &QuantClass, code: u32) -> u32 {
    let steps = class.nb_steps;
    let digits = degroup(class, code).expect("digits are below the steps");
    let (rest, cube) = (code - number(steps, digits), steps.pow(3));
    assert_eq!(rest % cube, 0, "code {code} of {steps} steps");
    rest / cube
}

/// The number of three digits, the first lowest.
fn number(steps: u32, digits: [u32; 3]) -> u32 {
    digits[0] + steps * digits[1] + steps * steps * digits[2]
}

/// A group code of a payload.
#[derive(Debug, Clone, Copy, PartialEq)]
pub struct GroupCode {
    pub channel: usize,
    pub subband: usize,
    pub granule: usize,
    pub class: QuantClass,
    pub code: u32,
}

/// The group codes of an accepted payload that used so many bits, in the order of the wire. The twelve
/// granules are the last of these bits and have one width: the LFE's code, then each place's.
pub fn group_codes(input: &FrameInput, places: &Places, used: u64) -> Vec<GroupCode> {
    let lfe_bits = match input.lfe_allocation {
        0 => 0,
        allocation => allocation + 1,
    };
    let classes = classes(input, places);
    let widths = classes.iter().map(|(_, class)| samples_bits(class));
    let granule_bits = lfe_bits + widths.sum::<u32>();
    let read = "the granules are within the used bits";
    let mut reader = BitReader::new(&input.payload);
    reader.skip(used as u32 - 12 * granule_bits).expect(read);
    let mut codes = vec![];
    for granule in 0..12 {
        reader.skip(lfe_bits).expect(read);
        for &((channel, subband), class) in &classes {
            if !class.grouping {
                reader.skip(samples_bits(&class)).expect(read);
                continue;
            }
            codes.push(GroupCode {
                channel,
                subband,
                granule,
                class,
                code: reader.read_u32(class.bits_per_codeword).expect(read),
            });
        }
    }
    codes
}

/// The places whose samples are transmitted, channel and subband, by subband and then channel.
fn classes(input: &FrameInput, places: &Places) -> Vec<((usize, usize), QuantClass)> {
    let all = (0..96).map(|k| (k % 3, k / 3));
    let transmitted = all.filter(|&(channel, subband)| places.transmitted(channel, subband));
    let classes = transmitted.filter_map(|(channel, subband)| {
        let class = class_of_quantization(input.nb_steps[channel][subband])?;
        Some(((channel, subband), class))
    });
    classes.collect()
}

/// The width of a place's three samples in a granule.
fn samples_bits(class: &QuantClass) -> u32 {
    3 / class.samples_per_codeword * class.bits_per_codeword
}

/// The excesses of a payload's group codes.
#[derive(Debug, Clone, PartialEq, Eq)]
pub struct Excesses {
    /// At `12 * (3 * subband + channel) + granule`, 0 where there is no group code.
    pub table: Vec<u16>,
    /// How many group codes have an excess, by class as in [`GROUPED`].
    pub by_class: [u32; 3],
}

impl Excesses {
    pub fn none() -> Excesses {
        Excesses {
            table: vec![0; 12 * 96],
            by_class: [0; 3],
        }
    }

    /// Those of an accepted payload that used so many bits.
    pub fn read(input: &FrameInput, places: &Places, used: u64) -> Excesses {
        let mut excesses = Excesses::none();
        for code in group_codes(input, places, used) {
            let place = (code.channel, code.subband, code.granule);
            excesses.put(place, code.class.nb_steps, excess(&code.class, code.code));
        }
        excesses
    }

    /// Puts the excess of a group code of this class to its channel, subband and granule.
    pub fn put(&mut self, place: (usize, usize, usize), steps: u32, excess: u32) {
        let (channel, subband, granule) = place;
        self.table[12 * (3 * subband + channel) + granule] = excess as u16;
        let class = GROUPED.iter().position(|&grouped| grouped == steps);
        self.by_class[class.expect("the class has group codes")] += u32::from(excess != 0);
    }

    /// How many group codes have an excess.
    pub fn codes(&self) -> u32 {
        self.by_class.iter().sum()
    }

    /// In words, for whoever has to look into a difference.
    pub fn words(&self) -> String {
        let places = (0..self.table.len()).filter(|&at| self.table[at] != 0);
        let places: Vec<usize> = places.collect();
        format!("{:?} by class, at {places:?}", self.by_class)
    }
}
