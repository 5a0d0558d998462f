//! Document 01, "The frame".

use crate::answer::{stop, Refusal};
use crate::bits::{fits, BitReader, BitWriter};
use crate::checks::{frame_check, message_check};
use std::ops::Range;

/// "Preamble 0x73"
pub const PREAMBLE: u8 = 0x73;
/// "Longest frame: 4 + 8 + 1,023 + 64 + 4 = 1,103 bytes."
pub const LONGEST_FRAME: usize = 1103;
/// "payload of 0 or over 1,023 bytes"
pub const LONGEST_PAYLOAD: usize = 1023;
/// "8, 12, 16, 32 or 64 bytes for TF015 0 to 4"
pub const AUTHENTICATION_BYTES: [usize; 5] = [8, 12, 16, 32, 64];

/// "with TF004 set TF012 4, TF013 6, TF014 3, TF015 3"
#[derive(Clone, Copy, PartialEq, Eq, Debug)]
pub struct Seal {
    /// TF012
    pub encryption: u64,
    /// TF013
    pub sequence: u64,
    /// TF014
    pub authentication: u64,
    /// TF015
    pub authentication_length: u64,
}

/// An accepted frame: its fields, where its payload lies, and its whole length.
#[derive(Clone, PartialEq, Eq, Debug)]
pub struct Frame {
    /// TF002
    pub type_: u64,
    /// TF005
    pub check_type: u64,
    /// TF007
    pub subtype: u64,
    /// TF008
    pub tag_kind: u64,
    /// TF009
    pub tag: u64,
    /// TF010
    pub solution: u64,
    /// TF011
    pub processor: u64,
    /// TF012 to TF015; TF004 is whether they are there
    pub seal: Option<Seal>,
    /// the payload as a part of the lent bytes; TF003 is its length
    pub payload: Range<usize>,
    /// bytes of the whole frame
    pub length: usize,
}

impl Frame {
    /// TF003
    pub fn payload_length(&self) -> usize {
        self.payload.end - self.payload.start
    }
}

/// "Checking looks at the first byte, then the first four, in this order: SHORT if empty, PREAMBLE,
/// SHORT, FRAME_CRC, LENGTH for TF003, SHORT for the description, LENGTH for TF015, SHORT,
/// MESSAGE_CRC. Bytes after the frame are not looked at."
pub fn check(bytes: &[u8]) -> Result<Frame, Refusal> {
    stop(bytes.is_empty(), Refusal::Short)?;
    stop(bytes[0] != PREAMBLE, Refusal::Preamble)?;
    stop(bytes.len() < 4, Refusal::Short)?;

    // TF002 7, TF003 10, TF004 1, TF005 2, TF006 4
    let start = (bytes[1] as u64) << 16 | (bytes[2] as u64) << 8 | bytes[3] as u64;
    let type_ = start >> 17 & 0x7F;
    let payload_length = (start >> 7 & 0x3FF) as usize;
    let sealed = start >> 6 & 1 == 1;
    let check_type = start >> 4 & 3;
    let tf006 = start & 0xF;
    stop(frame_check(start >> 4) != tf006, Refusal::FrameCrc)?;
    stop(payload_length == 0 || payload_length > LONGEST_PAYLOAD, Refusal::Length)?;

    // The tag kind is in the first byte of the description; without that byte it is SHORT anyway.
    stop(bytes.len() < 5, Refusal::Short)?;
    let long_tag = bytes[4] >> 3 & 1 == 1;
    let description = 4 + if long_tag { 2 } else { 0 } + if sealed { 2 } else { 0 };
    stop(bytes.len() < 4 + description, Refusal::Short)?;

    let mut reader = BitReader::new(&bytes[4..4 + description]);
    let mut field = |width| reader.take(width).unwrap_or(0);
    let subtype = field(4);
    let tag_kind = field(1);
    let tag = field(if tag_kind == 1 { 32 } else { 16 });
    let solution = field(7);
    let processor = field(4);
    let seal = sealed.then(|| Seal {
        encryption: field(4),
        sequence: field(6),
        authentication: field(3),
        authentication_length: field(3),
    });

    // "authentication (only with TF004 set and TF014 over 1: ...)"; there alone TF015 counts.
    let authentication = match seal {
        Some(seal) if seal.authentication > 1 => {
            AUTHENTICATION_BYTES.get(seal.authentication_length as usize).copied()
        }
        _ => Some(0),
    };
    let authentication = authentication.ok_or(Refusal::Length)?;

    let payload = 4 + description..4 + description + payload_length;
    let covered_end = payload.end + authentication;
    let length = covered_end + check_type as usize + 1;
    stop(bytes.len() < length, Refusal::Short)?;
    // "TF018 covers everything after the preamble up to itself"
    let check = message_check(check_type, &bytes[1..covered_end]);
    stop(bytes[covered_end..length] != check[..], Refusal::MessageCrc)?;

    Ok(Frame { type_, check_type, subtype, tag_kind, tag, solution, processor, seal, payload, length })
}

/// "An accepted frame hands back its payload as a part of the bytes that were lent; a refused one,
/// the empty part at their start."
pub fn payload_part(checked: &Result<Frame, Refusal>) -> Range<usize> {
    match checked {
        Ok(frame) => frame.payload.clone(),
        Err(_) => 0..0,
    }
}

/// The parts of a plain frame besides its payload.
#[derive(Clone, Copy, PartialEq, Eq, Debug)]
pub struct Plain {
    pub type_: u64,
    pub check_type: u64,
    pub subtype: u64,
    pub tag_kind: u64,
    pub tag: u64,
    pub solution: u64,
    pub processor: u64,
}

/// "The plain-frame writer (TF004 zero) gives back the bytes of any accepted plain frame from its
/// parts. It wants 1,103 bytes of room and checks ROOM, FIELD, LENGTH." Hands back the bytes written.
pub fn write_plain(parts: &Plain, payload: &[u8], out: &mut [u8]) -> Result<usize, Refusal> {
    stop(out.len() < LONGEST_FRAME, Refusal::Room)?;
    let tag_width = match parts.tag_kind {
        0 => 16,
        1 => 32,
        _ => return Err(Refusal::Field),
    };
    let in_range = fits(parts.type_, 7)
        && fits(parts.check_type, 2)
        && fits(parts.subtype, 4)
        && fits(parts.tag, tag_width)
        && fits(parts.solution, 7)
        && fits(parts.processor, 4);
    stop(!in_range, Refusal::Field)?;
    stop(payload.is_empty() || payload.len() > LONGEST_PAYLOAD, Refusal::Length)?;

    let frame = assemble(parts, None, payload, &[]);
    out[..frame.len()].copy_from_slice(&frame);
    Ok(frame.len())
}

/// The bytes of a frame from its parts, plain or sealed, with both checks right. Fields are taken
/// as they are, cut to their width.
pub fn assemble(parts: &Plain, seal: Option<&Seal>, payload: &[u8], authentication: &[u8]) -> Vec<u8> {
    let mut bits = BitWriter::new();
    bits.put(PREAMBLE as u64, 8);
    let mut header = BitWriter::new();
    header.put(parts.type_, 7);
    header.put(payload.len() as u64, 10);
    header.put(seal.is_some() as u64, 1);
    header.put(parts.check_type, 2);
    let tf006 = frame_check(header.bits.iter().fold(0, |n, &bit| n << 1 | bit as u64));
    bits.bits.append(&mut header.bits);
    bits.put(tf006, 4);
    bits.put(parts.subtype, 4);
    bits.put(parts.tag_kind, 1);
    bits.put(parts.tag, if parts.tag_kind & 1 == 1 { 32 } else { 16 });
    bits.put(parts.solution, 7);
    bits.put(parts.processor, 4);
    if let Some(seal) = seal {
        bits.put(seal.encryption, 4);
        bits.put(seal.sequence, 6);
        bits.put(seal.authentication, 3);
        bits.put(seal.authentication_length, 3);
    }
    let mut frame = bits.bytes();
    frame.extend_from_slice(payload);
    frame.extend_from_slice(authentication);
    let check = message_check(parts.check_type, &frame[1..]);
    frame.extend_from_slice(&check);
    frame
}

#[cfg(test)]
mod tests {
    use super::*;

    pub fn published() -> Vec<u8> {
        let hex = "730012e2007c105b1248f509a0b42b990215e20585b783c5fd0ffedf18be7f7620c36082981007dceb827fcff89ea37461ad";
        (0..hex.len() / 2).map(|i| u8::from_str_radix(&hex[2 * i..2 * i + 2], 16).unwrap()).collect()
    }

    fn plain() -> Plain {
        Plain { type_: 2, check_type: 1, subtype: 0, tag_kind: 0, tag: 43199, solution: 5, processor: 11 }
    }

    #[test]
    fn the_published_frame_is_accepted() {
        let bytes = published();
        let frame = check(&bytes).unwrap();
        assert_eq!(frame.length, bytes.len());
        assert_eq!((frame.type_, frame.subtype, frame.payload_length()), (0, 0, 37));
        assert_eq!((frame.tag_kind, frame.tag, frame.solution, frame.processor), (0, 3970, 5, 11));
        let seal = Seal { encryption: 1, sequence: 9, authentication: 1, authentication_length: 0 };
        assert_eq!(frame.seal, Some(seal));
        assert_eq!(frame.check_type, 2);
        assert_eq!(frame.payload, 10..47);
    }

    #[test]
    fn every_part_of_the_published_frame_is_short_and_every_flip_is_refused() {
        let bytes = published();
        for end in 0..bytes.len() {
            assert_eq!(check(&bytes[..end]), Err(Refusal::Short), "{end}");
        }
        for bit in 0..bytes.len() * 8 {
            let mut other = bytes.clone();
            other[bit / 8] ^= 0x80 >> (bit % 8);
            let refusal = check(&other).unwrap_err();
            let expected = match bit / 8 {
                0 => vec![Refusal::Preamble],
                1..=3 => vec![Refusal::FrameCrc],
                _ => vec![Refusal::MessageCrc, Refusal::Short],
            };
            assert!(expected.contains(&refusal), "{bit} {refusal:?}");
            assert_eq!(payload_part(&check(&other)), 0..0);
        }
    }

    #[test]
    fn bytes_after_the_frame_are_not_looked_at() {
        let mut bytes = published();
        let frame = check(&bytes);
        bytes.extend_from_slice(&[0x73, 1, 2]);
        assert_eq!(check(&bytes), frame);
    }

    #[test]
    fn an_empty_payload_is_length_with_four_bytes() {
        let bytes = assemble(&plain(), None, &[], &[]);
        assert_eq!(check(&bytes[..3]), Err(Refusal::Short));
        assert_eq!(check(&bytes[..4]), Err(Refusal::Length));
    }

    #[test]
    fn tf015_counts_only_with_tf014_over_one() {
        for authentication in 0..8 {
            for authentication_length in 0..8u64 {
                let seal = Seal { encryption: 3, sequence: 60, authentication, authentication_length };
                let size = match AUTHENTICATION_BYTES.get(authentication_length as usize) {
                    Some(&size) if authentication > 1 => size,
                    _ => 0,
                };
                let bytes = assemble(&plain(), Some(&seal), &[1, 2, 3], &vec![9; size]);
                let checked = check(&bytes);
                if authentication > 1 && authentication_length > 4 {
                    assert_eq!(checked, Err(Refusal::Length));
                    assert_eq!(check(&bytes[..10]), Err(Refusal::Length));
                    assert_eq!(check(&bytes[..9]), Err(Refusal::Short));
                } else {
                    assert_eq!(checked.unwrap().length, bytes.len());
                }
            }
        }
    }

    #[test]
    fn the_longest_frame_is_1103_bytes() {
        let parts = Plain { check_type: 3, tag_kind: 1, ..plain() };
        let seal = Seal { encryption: 0, sequence: 0, authentication: 2, authentication_length: 4 };
        let bytes = assemble(&parts, Some(&seal), &[0; 1023], &[0; 64]);
        assert_eq!(bytes.len(), LONGEST_FRAME);
        assert_eq!(check(&bytes).unwrap().length, LONGEST_FRAME);
    }

    #[test]
    fn the_plain_writer_refuses_in_order_and_alters_nothing() {
        let mut out = [7u8; 1102];
        assert_eq!(write_plain(&Plain { type_: 128, ..plain() }, &[], &mut out), Err(Refusal::Room));
        let mut out = [7u8; 1104];
        for wrong in [
            Plain { type_: 128, ..plain() },
            Plain { check_type: 4, ..plain() },
            Plain { subtype: 16, ..plain() },
            Plain { tag_kind: 2, ..plain() },
            Plain { tag: 65536, ..plain() },
            Plain { tag_kind: 1, tag: 1 << 32, ..plain() },
            Plain { solution: 128, ..plain() },
            Plain { processor: 16, ..plain() },
        ] {
            assert_eq!(write_plain(&wrong, &[], &mut out), Err(Refusal::Field));
        }
        assert_eq!(write_plain(&plain(), &[], &mut out), Err(Refusal::Length));
        assert_eq!(write_plain(&plain(), &[0; 1024], &mut out), Err(Refusal::Length));
        assert!(out.iter().all(|&byte| byte == 7));
        assert_eq!(write_plain(&Plain { tag: 65535, ..plain() }, &[0; 9], &mut out), Ok(4 + 4 + 9 + 2));
        assert!(out[19..].iter().all(|&byte| byte == 7));
        assert_eq!(check(&out).unwrap().tag, 65535);
    }
}
