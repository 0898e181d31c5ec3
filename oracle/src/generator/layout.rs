//! Layouts, crosstalk codes and roles, written down from the scope and ISO/IEC 13818-3
//! §2.5.2.15 apart from the published code, so that what is generated does not lean on what is tested.

use super::random::Random;

/// The first subband that a phantom centre bars.
pub const PHANTOM_LIMIT: usize = 12;

/// What the header and the number of base channels make of a frame.
#[derive(Debug, Clone, Copy, PartialEq, Eq)]
pub struct Layout {
    pub front: u8,
    pub surround: u8,
    pub second_stereo: bool,
    /// Main extension channels.
    pub main: usize,
    pub tc_bits: u32,
    pub crosstalk_bits: u32,
    /// The header's centre is a phantom one.
    pub phantom: bool,
}

impl Layout {
    pub fn of(base_channels: usize, centre: u32, surround: u32) -> Layout {
        let front = match (base_channels, centre) {
            (1, _) => 1,
            (_, 1 | 3) => 3,
            _ => 2,
        };
        let second_stereo = surround == 3;
        let surround = if second_stereo { 0 } else { surround as u8 };
        let (main, tc_bits, crosstalk_bits) = match (front, surround) {
            (3, 2) => (3, 3, 4),
            (3, 1) => (2, 3, 3),
            (3, 0) | (2, 1) => (1, 2, 1),
            (2, 2) => (2, 2, 3),
            _ => (0, 0, 0),
        };
        let phantom = centre == 3;
        Layout {
            front,
            surround,
            second_stereo,
            main,
            tc_bits,
            crosstalk_bits,
            phantom,
        }
    }

    /// The layouts of all headers over one and two base channels, many of them more than once.
    pub fn all() -> impl Iterator<Item = Layout> {
        (0..32).map(|k| Layout::of(1 + k as usize % 2, k / 2 % 4, k / 8))
    }

    /// One of them.
    pub fn random(random: &mut Random) -> Layout {
        let base_channels = 1 + random.below(2) as usize;
        Layout::of(base_channels, random.below(4), random.below(4))
    }

    /// Extension channels: the main ones, then those of a second stereo programme.
    pub fn channels(&self) -> usize {
        self.main + if self.second_stereo { 2 } else { 0 }
    }

    /// Output channels.
    pub fn outputs(&self) -> usize {
        let second = if self.second_stereo { 2 } else { 0 };
        usize::from(self.front + self.surround) + second
    }

    /// The number by which a state holds the layout: ten times the front and the header's surround code.
    pub fn number(&self) -> u32 {
        let surround = if self.second_stereo { 3 } else { self.surround };
        u32::from(10 * self.front + surround)
    }

    /// Whether a phantom centre bars a place: one of the first extension channel, from
    /// [`PHANTOM_LIMIT`] on. Under reading 2 it does so for a front of three only.
    pub fn barred(&self, reading: u32, channel: usize, subband: usize) -> bool {
        let limited = self.phantom && (reading == 1 || self.front == 3);
        limited && channel == 0 && subband >= PHANTOM_LIMIT
    }

    /// The sources of each crosstalk code: T transmitted, B base, a digit another channel.
    pub fn sources(&self) -> &'static [&'static str] {
        match self.main {
            3 => &[
                "TTT", "TTB", "TBT", "BTT", "TBB", "BTB", "BBT", "BBB", "TT1", "T0T", "TT0", "T0B",
                "TB0", "BT1", "T00",
            ],
            2 => &["TT", "TB", "BT", "BB", "T0"],
            1 => &["T", "B"],
            _ => &[""],
        }
    }

    /// The channels with predictors: transmitted, and copied by no other.
    pub fn predicted(&self, code: u32) -> Vec<usize> {
        let sources = self.sources().get(code as usize).map_or("", |s| s);
        let alone = |m: usize| !sources.contains(&m.to_string());
        let transmitted = |m: usize| sources.as_bytes()[m] == b'T';
        (0..sources.len())
            .filter(|&m| transmitted(m) && alone(m))
            .collect()
    }

    /// For each main channel, the side of the base that crosstalk takes under this tc: left, right,
    /// or in the centre, where the left/right bit says which.
    fn sides(&self, tc: u32) -> &'static str {
        match (self.front, self.surround) {
            (3, 2) => match tc {
                1 | 7 => "LLR",
                2 | 6 => "RLR",
                _ => "CLR",
            },
            (3, 1) => match tc {
                0 => "CC",
                1 => "LC",
                2 => "RC",
                3 => "CL",
                4 => "CR",
                _ => "LR",
            },
            (2, 2) => "LR",
            (3, 0) | (2, 1) => match tc {
                0 => "C",
                1 => "L",
                _ => "R",
            },
            _ => "",
        }
    }

    /// The base channel that crosstalk takes for a main channel; such a layout has two.
    pub fn base_channel(&self, tc: u32, channel: usize, left_right: bool) -> usize {
        match self.sides(tc).as_bytes()[channel] {
            b'L' => 0,
            b'R' => 1,
            _ => usize::from(left_right),
        }
    }
}

/// The group of a subband.
pub fn group_of(subband: usize) -> usize {
    const FIRST: [usize; 12] = [0, 1, 2, 3, 4, 5, 6, 7, 8, 10, 12, 16];
    FIRST.iter().rposition(|&first| first <= subband).unwrap()
}

/// The number of subbands that an extension may use.
pub fn subband_limit(sample_rate: u32) -> usize {
    if sample_rate == 48_000 { 27 } else { 30 }
}

/// The 17 step counts.
pub const STEPS: [u32; 17] = [
    3, 5, 7, 9, 15, 31, 63, 127, 255, 511, 1023, 2047, 4095, 8191, 16383, 32767, 65535,
];

/// The width of a sample code, or of a group code for 3, 5 and 9 steps.
pub fn code_width(steps: u32) -> u32 {
    match steps {
        3 => 5,
        5 => 7,
        9 => 10,
        _ => steps.ilog2() + 1,
    }
}

/// Whether one code stands for three samples.
pub fn grouped(steps: u32) -> bool {
    matches!(steps, 3 | 5 | 9)
}

/// What a group code has beside its three digits.
pub fn excess(steps: u32, code: u32) -> u32 {
    code / steps / steps / steps
}
