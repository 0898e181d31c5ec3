//! Heads: the fields of a header and a composite status, at random and written down.

use super::layout::Layout;
use super::random::Random;
use super::writer::{Kind, Written};

/// The fields of a head, each as its number on the wire.
#[derive(Debug, Clone, PartialEq, Eq)]
pub struct Head {
    /// The extension stream's flag, with n_ad_bytes behind it.
    pub n_ad_bytes: Option<u32>,
    pub centre: u32,
    pub surround: u32,
    pub lfe: bool,
    pub audio_mix: bool,
    pub procedure: u32,
    pub multilingual: u32,
    pub multilingual_half: bool,
    pub layer_three: bool,
    pub copyright: [bool; 2],
    pub check_word: u32,
    /// One tc for all groups: the first of `tc`.
    pub one_tc: bool,
    pub crosstalk_on: bool,
    pub prediction_on: bool,
    pub tc: [u32; 12],
    pub left_right: bool,
    pub codes: [u32; 12],
    pub second: [bool; 12],
    pub predicted: [bool; 8],
    pub counts: [[u32; 6]; 8],
}

impl Head {
    /// Zeros throughout but for the layout's two codes: nothing crossed, nothing predicted.
    pub fn plain(centre: u32, surround: u32) -> Head {
        Head {
            n_ad_bytes: None,
            centre,
            surround,
            lfe: false,
            audio_mix: false,
            procedure: 0,
            multilingual: 0,
            multilingual_half: false,
            layer_three: false,
            copyright: [false; 2],
            check_word: 0,
            one_tc: true,
            crosstalk_on: false,
            prediction_on: false,
            tc: [0; 12],
            left_right: false,
            codes: [0; 12],
            second: [false; 12],
            predicted: [false; 8],
            counts: [[0; 6]; 8],
        }
    }

    /// A head that is accepted: every tc of its width, listed crosstalk codes, any pattern of
    /// prediction. Fields that do not reach the wire are random too.
    pub fn random(random: &mut Random, base_channels: usize, head: Head) -> Head {
        let layout = Layout::of(base_channels, head.centre, head.surround);
        let listed = layout.sources().len() as u32;
        let crossed = random.chance(3, 4);
        Head {
            n_ad_bytes: random.flag().then(|| random.below(256)),
            lfe: random.flag(),
            audio_mix: random.flag(),
            multilingual: random.below(8),
            multilingual_half: random.flag(),
            copyright: [random.flag(), random.flag()],
            check_word: random.below(1 << 16),
            one_tc: random.chance(1, 3),
            crosstalk_on: random.chance(2, 3),
            prediction_on: random.chance(2, 3),
            tc: [(); 12].map(|_| random.below(1 << layout.tc_bits)),
            left_right: random.flag(),
            codes: [(); 12].map(|_| if crossed { random.below(listed) } else { 0 }),
            second: [(); 12].map(|_| random.flag()),
            predicted: [(); 8].map(|_| random.chance(2, 3)),
            counts: [(); 8].map(|_| [(); 6].map(|_| random.below(4))),
            ..head
        }
    }

    /// The tc of a group.
    pub fn tc_of(&self, group: usize) -> u32 {
        self.tc[if self.one_tc { 0 } else { group }]
    }

    /// The crosstalk code of a group.
    pub fn code_of(&self, group: usize) -> u32 {
        if self.crosstalk_on {
            self.codes[group]
        } else {
            0
        }
    }

    /// Whether a group's second-stereo bit is set on the wire.
    pub fn second_of(&self, group: usize) -> bool {
        self.crosstalk_on && self.surround == 3 && self.second[group]
    }

    /// The coefficient counts of a group that are on the wire, one for each predictor.
    pub fn counts_of(&self, layout: &Layout, group: usize) -> &[u32] {
        if !self.prediction_on || !self.predicted[group] {
            return &[];
        }
        &self.counts[group][..2 * layout.predicted(self.code_of(group)).len()]
    }

    /// The bits of the header.
    pub fn header_bits(&self) -> u64 {
        if self.n_ad_bytes.is_some() { 24 } else { 16 }
    }

    /// The head's string.
    pub fn written(&self, layout: &Layout) -> Written {
        let mut out = Written::default();
        self.write_header(&mut out);
        out.field(Kind::CheckWord, 16, self.check_word);
        for flag in [self.one_tc, self.crosstalk_on, self.prediction_on] {
            out.flag(Kind::StatusFlag, flag);
        }
        let tcs = if self.one_tc { 1 } else { 12 };
        for tc in &self.tc[..tcs] {
            out.field(Kind::Tc, layout.tc_bits, *tc);
        }
        if self.crosstalk_on {
            out.flag(Kind::LeftRight, self.left_right);
            for group in 0..12 {
                out.field(Kind::Crosstalk, layout.crosstalk_bits, self.codes[group]);
                if layout.second_stereo {
                    out.flag(Kind::SecondStereo, self.second[group]);
                }
            }
        }
        if self.prediction_on {
            for group in 0..8 {
                out.flag(Kind::PredictionFlag, self.predicted[group]);
                for count in self.counts_of(layout, group) {
                    out.field(Kind::CoefficientCount, 2, *count);
                }
            }
        }
        out
    }

    fn write_header(&self, out: &mut Written) {
        out.flag(Kind::Header, self.n_ad_bytes.is_some());
        if let Some(n_ad_bytes) = self.n_ad_bytes {
            out.field(Kind::Header, 8, n_ad_bytes);
        }
        out.field(Kind::Centre, 2, self.centre);
        out.field(Kind::Header, 2, self.surround);
        out.flag(Kind::Header, self.lfe);
        out.flag(Kind::Header, self.audio_mix);
        out.field(Kind::Header, 2, self.procedure);
        out.field(Kind::Header, 3, self.multilingual);
        out.flag(Kind::Header, self.multilingual_half);
        out.flag(Kind::LayerThree, self.layer_three);
        out.flag(Kind::Header, self.copyright[0]);
        out.flag(Kind::Header, self.copyright[1]);
    }
}
