//! Frames in Rust: checked where they lie, and plain ones written.
use crate::crc;

pub const SHORT: u8 = 1;
pub const PREAMBLE: u8 = 2;
pub const FRAME_CRC: u8 = 3;
pub const LENGTH: u8 = 4;
pub const MESSAGE_CRC: u8 = 5;
pub const ROOM: u8 = 9;

pub const LONGEST_FRAME: usize = 1103;
pub const FIRST: u8 = 0x73;

/// An accepted frame: its header, and where its payload lies.
#[derive(Clone, Copy)]
pub struct Frame {
    start: u32,
    sealing: u16,
    pub subtype: u8,
    pub long_tag: bool,
    pub tag: u32,
    pub solution: u8,
    pub processor: u8,
    pub at: usize,
    pub length: usize,
}

/// Why there is no frame: so many bytes are wanted before more can be said; or a refusal, for
/// which so many bytes were looked at.
pub enum Stop {
    Short(usize),
    Refused(u8, usize),
}

impl Frame {
    pub fn message_type(&self) -> u8 {
        (self.start >> 17 & 127) as u8
    }

    pub fn size(&self) -> usize {
        (self.start >> 7 & 1023) as usize
    }

    pub fn sealed(&self) -> bool {
        self.start >> 6 & 1 == 1
    }

    pub fn put(&self, header: &mut [u64]) {
        let numbers = [
            self.length as u64,
            self.message_type() as u64,
            self.size() as u64,
            self.sealed() as u64,
            (self.start >> 4 & 3) as u64,
            self.subtype as u64,
            self.long_tag as u64,
            self.tag as u64,
            self.solution as u64,
            self.processor as u64,
            (self.sealing >> 12) as u64,
            (self.sealing >> 6 & 63) as u64,
            (self.sealing >> 3 & 7) as u64,
            (self.sealing & 7) as u64,
            self.at as u64,
        ];
        header[..15].copy_from_slice(&numbers);
    }
}

/// The check in document 01's order.
#[inline]
pub fn check(bytes: &[u8]) -> Result<Frame, Stop> {
    match bytes.first() {
        None => return Err(Stop::Short(1)),
        Some(&FIRST) => {}
        Some(_) => return Err(Stop::Refused(PREAMBLE, 1)),
    }
    let Some(&[first, second, third, fourth]) = bytes.first_chunk() else {
        return Err(Stop::Short(4));
    };
    if crc::header(second, third, fourth & 0xF0) != fourth & 15 {
        return Err(Stop::Refused(FRAME_CRC, 4));
    }
    let start = u32::from_be_bytes([first, second, third, fourth]);
    let size = (start >> 7 & 1023) as usize;
    if size == 0 {
        return Err(Stop::Refused(LENGTH, 4));
    }
    rest(bytes, start, size)
}

/// From the description on.
fn rest(bytes: &[u8], start: u32, size: usize) -> Result<Frame, Stop> {
    let sealed = start >> 6 & 1 == 1;
    let kind = (start >> 4 & 3) as usize;
    let Some(&fifth) = bytes.get(4) else { return Err(Stop::Short(8)) };
    let long_tag = fifth >> 3 & 1 == 1;
    let at = 8 + 2 * long_tag as usize + 2 * sealed as usize;
    if bytes.len() < at {
        return Err(Stop::Short(at));
    }
    let sealing = if sealed { u16::from_be_bytes([bytes[at - 2], bytes[at - 1]]) } else { 0 };
    let mut end = at + size;
    if sealing >> 3 & 7 > 1 {
        match [8, 12, 16, 32, 64].get((sealing & 7) as usize) {
            None => return Err(Stop::Refused(LENGTH, at)),
            Some(signature) => end += signature,
        }
    }
    let length = end + kind + 1;
    if bytes.len() < length {
        return Err(Stop::Short(length));
    }
    let told = bytes[end..length].iter().fold(0, |number, &byte| number << 8 | byte as u32);
    if crc::message(kind, &bytes[1..end]) != told {
        return Err(Stop::Refused(MESSAGE_CRC, length));
    }
    // TF007 to TF011 are the description's first four or six bytes
    let described = u32::from_be_bytes([bytes[4], bytes[5], bytes[6], bytes[7]]);
    let (tag, last) = if long_tag {
        let longer = (described as u64) << 16 | (bytes[8] as u64) << 8 | bytes[9] as u64;
        ((longer >> 11) as u32, longer as u32)
    } else {
        (described >> 11 & 0xFFFF, described)
    };
    Ok(Frame {
        start,
        sealing,
        subtype: fifth >> 4,
        long_tag,
        tag,
        solution: (last >> 4 & 127) as u8,
        processor: (last & 15) as u8,
        at,
        length,
    })
}

/// homralgyu_frame_check.
#[inline(never)]
pub fn frame_check(bytes: &[u8], header: &mut [u64]) -> u8 {
    if header.len() < 15 {
        return ROOM;
    }
    hurried_check(bytes, header)
}

/// The same without the test for room.
#[inline(never)]
pub fn hurried_check(bytes: &[u8], header: &mut [u64]) -> u8 {
    match check(bytes) {
        Ok(frame) => {
            frame.put(header);
            0
        }
        Err(Stop::Short(_)) => SHORT,
        Err(Stop::Refused(why, _)) => why,
    }
}

/// What a plain frame says besides its payload.
#[derive(Clone, Copy)]
pub struct Parts {
    pub message_type: u8,
    pub subtype: u8,
    pub kind: usize,
    pub tag: u16,
    pub solution: u8,
    pub processor: u8,
}

/// A plain frame, for the inputs.
pub fn write(parts: Parts, payload: &[u8]) -> Vec<u8> {
    let start = 0x73 << 24
        | (parts.message_type as u32) << 17
        | (payload.len() as u32) << 7
        | (parts.kind as u32) << 4;
    let mut frame = start.to_be_bytes().to_vec();
    frame[3] |= crc::header(frame[1], frame[2], frame[3]);
    let description = (parts.subtype as u32) << 28
        | (parts.tag as u32) << 11
        | (parts.solution as u32) << 4
        | parts.processor as u32;
    frame.extend(description.to_be_bytes());
    frame.extend(payload);
    let check = crc::message(parts.kind, &frame[1..]);
    frame.extend(&check.to_be_bytes()[3 - parts.kind..]);
    frame
}
