//! "Bits go most significant first."

/// Reads bits of lent bytes from the left.
pub struct BitReader<'a> {
    bytes: &'a [u8],
    /// bits read so far
    pub read: usize,
}

impl<'a> BitReader<'a> {
    pub fn new(bytes: &'a [u8]) -> Self {
        BitReader { bytes, read: 0 }
    }

    /// The next `width` bits (at most 64) as a number; none, and nothing read, if they are not all there.
    pub fn take(&mut self, width: u32) -> Option<u64> {
        if self.read + width as usize > self.bytes.len() * 8 {
            return None;
        }
        let mut number = 0;
        for _ in 0..width {
            let byte = self.bytes[self.read / 8];
            let bit = (byte >> (7 - self.read % 8)) & 1;
            number = number << 1 | bit as u64;
            self.read += 1;
        }
        Some(number)
    }
}

/// Collects bits.
#[derive(Default)]
pub struct BitWriter {
    pub bits: Vec<bool>,
}

impl BitWriter {
    pub fn new() -> Self {
        BitWriter::default()
    }

    /// The low `width` bits (at most 64) of a number, the leftmost first.
    pub fn put(&mut self, number: u64, width: u32) {
        for place in (0..width).rev() {
            self.bits.push(number >> place & 1 == 1);
        }
    }

    /// The bytes; the last one is filled with zeros.
    pub fn bytes(&self) -> Vec<u8> {
        let mut bytes = vec![0u8; self.bits.len().div_ceil(8)];
        for (i, &bit) in self.bits.iter().enumerate() {
            if bit {
                bytes[i / 8] |= 0x80 >> (i % 8);
            }
        }
        bytes
    }
}

/// Does a number fit in so many bits?
pub fn fits(number: u64, width: u32) -> bool {
    width >= 64 || number >> width == 0
}

/// The set bits of a mask of `width` bits as positions, the leftmost bit being position 0.
pub fn positions(bits: u64, width: u32) -> Vec<u64> {
    (0..width)
        .filter(|position| bits >> (width - 1 - position) & 1 == 1)
        .map(|position| position as u64)
        .collect()
}

#[cfg(test)]
mod tests {
    use super::*;

    #[test]
    fn the_leftmost_bit_comes_first() {
        let mut reader = BitReader::new(&[0x80, 0x01]);
        assert_eq!(reader.take(1), Some(1));
        assert_eq!(reader.take(14), Some(0));
        assert_eq!(reader.take(2), None);
        assert_eq!(reader.read, 15);
        assert_eq!(reader.take(1), Some(1));
        assert_eq!(reader.take(1), None);
        assert_eq!(reader.take(0), Some(0));
    }

    #[test]
    fn bits_written_are_bits_read() {
        let mut writer = BitWriter::new();
        writer.put(5, 3);
        writer.put(u64::MAX - 1, 64);
        assert_eq!(writer.bytes().len(), 9);
        let bytes = writer.bytes();
        let mut reader = BitReader::new(&bytes);
        assert_eq!(reader.take(3), Some(5));
        assert_eq!(reader.take(64), Some(u64::MAX - 1));
        assert_eq!(reader.take(5), Some(0));
    }

    #[test]
    fn position_zero_is_the_leftmost_bit() {
        assert_eq!(positions(0b1001, 4), vec![0, 3]);
        assert_eq!(positions(1, 64), vec![63]);
        assert_eq!(positions(0, 0), Vec::<u64>::new());
    }
}
