//! The frame check TF006 and the message check TF018.

/// "TF018 ...: polynomials 0x07, 0x1021, 0x864CFB, 0x04C11DB7, start zero; the last starts at all
/// ones and is inverted at the end. No bit reversal is done."
pub const POLYNOMIALS: [u64; 4] = [0x07, 0x1021, 0x864CFB, 0x04C11DB7];

/// The message check of a check type (TF005, 0 to 3): 1 to 4 bytes, the most significant first.
pub fn message_check(check_type: u64, covered: &[u8]) -> Vec<u8> {
    let kind = (check_type & 3) as usize;
    let size = kind + 1;
    let width = 8 * size;
    let ones = (1u64 << width) - 1;
    let top = 1u64 << (width - 1);
    let mut register = if kind == 3 { ones } else { 0 };
    for &byte in covered {
        for place in (0..8).rev() {
            let bit = byte >> place & 1 == 1;
            let carry = (register & top != 0) != bit;
            register = register << 1 & ones;
            if carry {
                register ^= POLYNOMIALS[kind];
            }
        }
    }
    if kind == 3 {
        register ^= ones;
    }
    (0..size).rev().map(|i| (register >> (8 * i)) as u8).collect()
}

/// TF006 of the 20 bits TF002 to TF005.
///
/// "A 4-bit 0x0 filler is added to the right ... Polynomial = 0x09, initialized at zero, input is
/// reflected, output is reflected." Of each of the three bytes the least significant bit comes
/// first; the four bits of the register are reversed at the end.
pub fn frame_check(header: u64) -> u64 {
    let filled = (header & 0xF_FFFF) << 4;
    let mut register = 0u64;
    for byte in [filled >> 16 & 0xFF, filled >> 8 & 0xFF, filled & 0xFF] {
        for place in 0..8 {
            let bit = byte >> place & 1;
            let carry = (register >> 3 & 1) ^ bit;
            register = register << 1 & 0xF;
            if carry == 1 {
                register ^= 0x9;
            }
        }
    }
    (0..4).fold(0, |reversed, place| reversed << 1 | (register >> place & 1))
}

#[cfg(test)]
mod tests {
    use super::*;

    #[test]
    fn published_check_values() {
        let text = b"123456789";
        assert_eq!(message_check(0, text), [0xF4]);
        assert_eq!(message_check(1, text), [0x31, 0xC3]);
        assert_eq!(message_check(2, text), [0xCD, 0xE7, 0x03]);
        assert_eq!(message_check(3, text), [0xFC, 0x89, 0x19, 0x18]);
    }

    #[test]
    fn published_headers() {
        // TF002, TF003, TF004, TF005, TF006
        for (tf002, tf003, tf004, tf005, tf006) in
            [(0u64, 37u64, 1u64, 2u64, 2u64), (1, 495, 1, 2, 11), (0, 33, 1, 2, 3), (0, 34, 1, 2, 3)]
        {
            let header = tf002 << 13 | tf003 << 3 | tf004 << 2 | tf005;
            assert_eq!(frame_check(header), tf006);
        }
    }
}
