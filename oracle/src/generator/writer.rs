//! Writes bit strings, first bit highest, and keeps where each field stands.

/// What a field is.
#[derive(Debug, Clone, Copy, PartialEq, Eq, Hash)]
pub enum Kind {
    /// A header field other than the next two.
    Header,
    /// The header's centre code.
    Centre,
    /// The header's Layer III flag.
    LayerThree,
    CheckWord,
    /// One of the three flags at the beginning of the status.
    StatusFlag,
    Tc,
    LeftRight,
    Crosstalk,
    SecondStereo,
    PredictionFlag,
    CoefficientCount,
    Scfsi,
    Delay,
    Coefficient,
    LfeScalefactor,
    Scalefactor,
    LfeSample,
    GroupCode,
    Sample,
}

/// Where a field stands.
#[derive(Debug, Clone, Copy, PartialEq, Eq)]
pub struct Field {
    pub kind: Kind,
    pub at: u64,
    pub width: u32,
}

/// A string of bits and its fields, in order.
#[derive(Debug, Clone, Default, PartialEq, Eq)]
pub struct Written {
    pub bytes: Vec<u8>,
    pub bits: u64,
    pub fields: Vec<Field>,
}

impl Written {
    /// Appends a field; one of no bits leaves no trace.
    pub fn field(&mut self, kind: Kind, width: u32, value: u32) {
        assert!(
            u64::from(value) < 1 << width,
            "{kind:?}: {value} in {width} bits"
        );
        if width == 0 {
            return;
        }
        let at = self.bits;
        self.fields.push(Field { kind, at, width });
        self.bits += u64::from(width);
        self.bytes.resize(self.bits.div_ceil(8) as usize, 0);
        put(&mut self.bytes, at, width, value);
    }

    pub fn flag(&mut self, kind: Kind, value: bool) {
        self.field(kind, 1, u32::from(value));
    }

    /// The places of the fields of one kind.
    pub fn all(&self, kind: Kind) -> impl Iterator<Item = Field> + '_ {
        self.fields.iter().copied().filter(move |f| f.kind == kind)
    }
}

/// Writes a number over the bits from `at` on, byte by byte.
pub fn put(bytes: &mut [u8], at: u64, width: u32, value: u32) {
    let (mut at, mut left) = (at, width);
    while left > 0 {
        let free = 8 - (at % 8) as u32;
        let n = left.min(free);
        left -= n;
        let mask = ((1u32 << n) - 1) << (free - n);
        let part = (value >> left) << (free - n);
        let byte = &mut bytes[(at / 8) as usize];
        *byte = (*byte & !mask as u8) | (part & mask) as u8;
        at += u64::from(n);
    }
}
