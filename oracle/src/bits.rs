//! Stands in for `oxideav_core::bits`, which is not among the published files: a reader of bits,
//! the first bit of a byte highest, that refuses to pass the end of its bytes.

/// A read or a skip would pass the end of the bytes.
#[derive(Debug, Clone, Copy, PartialEq, Eq)]
pub struct EndOfData;

#[derive(Debug, Clone)]
pub struct BitReader<'a> {
    data: &'a [u8],
    position: u64,
}

impl<'a> BitReader<'a> {
    pub fn new(data: &'a [u8]) -> Self {
        BitReader { data, position: 0 }
    }

    /// Starts at a byte of the data.
    pub fn with_position(data: &'a [u8], byte: usize) -> Self {
        let position = byte as u64 * 8;
        BitReader { data, position }
    }

    /// The number of bits before the next one.
    #[inline]
    pub fn bit_position(&self) -> u64 {
        self.position
    }

    /// Reads `n` bits, 0 to 32, out of the eight bytes that begin with the first of them.
    #[inline]
    pub fn read_u32(&mut self, n: u32) -> Result<u32, EndOfData> {
        let start = self.position;
        self.skip(n)?;
        let byte = (start / 8) as usize;
        let window = match self.data.get(byte..byte + 8) {
            Some(bytes) => u64::from_be_bytes(bytes.try_into().expect("eight bytes")),
            None => self.last_window(byte),
        };
        Ok((window << (start % 8) >> 1 >> (63 - n)) as u32)
    }

    /// The last bytes, fewer than eight, with zeros after them.
    #[cold]
    fn last_window(&self, byte: usize) -> u64 {
        let rest = &self.data[byte..];
        let mut bytes = [0; 8];
        bytes[..rest.len()].copy_from_slice(rest);
        u64::from_be_bytes(bytes)
    }

    #[inline]
    pub fn skip(&mut self, n: u32) -> Result<(), EndOfData> {
        let end = self.position + u64::from(n);
        if end > self.data.len() as u64 * 8 {
            return Err(EndOfData);
        }
        self.position = end;
        Ok(())
    }
}
