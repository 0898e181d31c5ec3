//! Heads of every shape: all that decides which fields a head has, in turn, and the rest at random.

use super::head::Head;
use super::layout::Layout;
use super::random::Random;

/// What decides the fields of a head, with the crosstalk code and the prediction flag of one group.
#[derive(Debug, Clone, Copy, PartialEq, Eq)]
pub struct HeadShape {
    pub base_channels: usize,
    pub extension_stream: bool,
    pub centre: u32,
    pub surround: u32,
    pub one_tc: bool,
    pub crosstalk_on: bool,
    pub prediction_on: bool,
    pub group: usize,
    /// Any code of the layout's width, unlisted ones among them.
    pub code: u32,
    pub predicted: bool,
}

impl HeadShape {
    /// All shapes. Groups, codes and flags that do not reach the wire are left out.
    pub fn all() -> Vec<HeadShape> {
        let mut shapes = vec![];
        for number in 0..512 {
            let flag = |bit: u32| number >> bit & 1 == 1;
            let shape = HeadShape {
                base_channels: 1 + usize::from(flag(0)),
                extension_stream: flag(1),
                centre: number >> 2 & 3,
                surround: number >> 4 & 3,
                one_tc: flag(6),
                crosstalk_on: flag(7),
                prediction_on: flag(8),
                group: 0,
                code: 0,
                predicted: false,
            };
            shape.by_group(&mut shapes);
        }
        shapes
    }

    pub fn layout(&self) -> Layout {
        Layout::of(self.base_channels, self.centre, self.surround)
    }

    /// Adds this shape for each group, code and prediction flag.
    fn by_group(self, shapes: &mut Vec<HeadShape>) {
        let (groups, codes) = match (self.crosstalk_on, self.prediction_on) {
            (true, _) => (12, 1 << self.layout().crosstalk_bits),
            (false, true) => (8, 1),
            (false, false) => (1, 1),
        };
        for group in 0..groups {
            let flags: &[bool] = match self.prediction_on && group < 8 {
                true => &[false, true],
                false => &[false],
            };
            for (code, &predicted) in
                (0..codes).flat_map(|code| flags.iter().map(move |f| (code, f)))
            {
                shapes.push(HeadShape {
                    group,
                    code,
                    predicted,
                    ..self
                });
            }
        }
    }

    /// A head of this shape. The other groups have listed codes three times in four, else any.
    pub fn head(&self, random: &mut Random) -> Head {
        let plain = Head::plain(self.centre, self.surround);
        let mut head = Head::random(random, self.base_channels, plain);
        head.n_ad_bytes = self.extension_stream.then(|| random.below(256));
        head.procedure = random.below(4);
        head.layer_three = random.chance(1, 8);
        head.one_tc = self.one_tc;
        head.crosstalk_on = self.crosstalk_on;
        head.prediction_on = self.prediction_on;
        if random.chance(1, 4) {
            let end = 1 << self.layout().crosstalk_bits;
            head.codes = [(); 12].map(|_| random.below(end));
        }
        head.codes[self.group] = self.code;
        if self.group < 8 {
            head.predicted[self.group] = self.predicted;
        }
        head
    }
}
