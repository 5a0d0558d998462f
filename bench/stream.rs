//! The stream in Rust: bytes are looked at where they lie, in the tray or in the input, and go into
//! the tray when the call ends. TRUST is the hurried side, which believes its own tray.
use crate::frame::{check, Frame, Stop, FIRST, LONGEST_FRAME, ROOM};

pub const STATE: u8 = 17;
const MOST_NOISE: u64 = 65535;

/// What a call says; the count of noise is told beside it.
pub enum Said {
    Hungry,
    Frame(Frame),
    Noise,
    Done,
}

/// The live bytes are the tray's from start to held; so much noise is untold, so much input used.
struct Place {
    start: usize,
    held: usize,
    noise: u64,
    used: usize,
}

/// The event, the bytes used and the noise told.
pub struct Told {
    pub said: Said,
    pub used: usize,
    pub noise: u64,
}

/// How many bytes come before the first preamble; 64 at a time, so that they are compared together.
#[inline]
fn before_preamble(bytes: &[u8]) -> usize {
    let (blocks, rest) = bytes.as_chunks::<64>();
    for (i, block) in blocks.iter().enumerate() {
        if block.iter().fold(false, |found, &byte| found | (byte == FIRST)) {
            let in_block = block.iter().position(|&byte| byte == FIRST).unwrap_or(0);
            return 64 * i + in_block;
        }
    }
    let in_rest = rest.iter().position(|&byte| byte == FIRST).unwrap_or(rest.len());
    64 * blocks.len() + in_rest
}

/// All bytes are zero; 32 at a time, with no way out on the way.
fn all_zero(bytes: &[u8]) -> bool {
    let (blocks, rest) = bytes.as_chunks::<32>();
    let mut joined = [0; 32];
    for block in blocks {
        joined.iter_mut().zip(block).for_each(|(joined, &byte)| *joined |= byte);
    }
    joined.iter().chain(rest).fold(0, |all, &byte| all | byte) == 0
}

/// A tray is sound: zeros past what it holds, and a frame that was shown lies first.
pub fn is_sound(bytes: &[u8], tray: &[u64]) -> bool {
    let (held, shown, noise) = (tray[0], tray[1], tray[2]);
    if held > LONGEST_FRAME as u64 || noise >= MOST_NOISE {
        return false;
    }
    let held = held as usize;
    if !all_zero(&bytes[held..LONGEST_FRAME]) {
        return false;
    }
    shown == 0 || check(&bytes[..held]).is_ok_and(|frame| frame.length as u64 == shown)
}

impl Place {
    fn of(tray: &[u64]) -> Place {
        Place { start: tray[1] as usize, held: tray[0] as usize, noise: tray[2], used: 0 }
    }

    /// A frame lies first: it is shown, unless noise is told just before it.
    fn accepted(&mut self, frame: Frame) -> Said {
        if self.noise > 0 {
            Said::Noise
        } else {
            Said::Frame(frame)
        }
    }

    /// Decides on bytes that the tray held before this call. With no answer, all live bytes are of
    /// the input.
    fn in_tray(&mut self, bytes: &mut [u8], input: &[u8]) -> Option<Said> {
        let mut old = self.held;
        while self.start < old {
            if bytes[self.start] != FIRST {
                let most = old.min(self.start + (MOST_NOISE - self.noise) as usize);
                let run = before_preamble(&bytes[self.start..most]);
                self.start += run;
                self.noise += run as u64;
            } else {
                match check(&bytes[self.start..self.held]) {
                    Ok(frame) => return Some(self.accepted(frame)),
                    Err(Stop::Refused(..)) => {
                        self.start += 1;
                        self.noise += 1;
                    }
                    Err(Stop::Short(_)) if self.used == input.len() => return Some(Said::Hungry),
                    Err(Stop::Short(wanted)) => {
                        if self.start + wanted > LONGEST_FRAME {
                            old -= self.start;
                            self.slide(bytes);
                        }
                        self.take(bytes, input, wanted);
                    }
                }
            }
            if self.noise == MOST_NOISE {
                return Some(Said::Noise);
            }
        }
        None
    }

    fn take(&mut self, bytes: &mut [u8], input: &[u8], wanted: usize) {
        let count = (wanted - (self.held - self.start)).min(input.len() - self.used);
        let part = &input[self.used..self.used + count];
        bytes[self.held..self.held + count].copy_from_slice(part);
        self.held += count;
        self.used += count;
    }

    /// The live bytes move to the front of the tray, zeros behind them.
    fn slide(&mut self, bytes: &mut [u8]) {
        if self.start == 0 {
            return;
        }
        let left = self.held - self.start;
        bytes.copy_within(self.start..self.held, 0);
        bytes[left..self.held].fill(0);
        self.start = 0;
        self.held = left;
    }

    /// Decides on the input where it lies. `used` is how far it was taken; the live bytes are those
    /// before it from the answer's place on.
    fn in_input(&mut self, input: &[u8]) -> (Said, usize) {
        let mut at = self.used - (self.held - self.start);
        loop {
            if input.get(at).is_some_and(|&byte| byte != FIRST) {
                let most = input.len().min(at + (MOST_NOISE - self.noise) as usize);
                let run = before_preamble(&input[at..most]);
                at += run;
                self.noise += run as u64;
                self.used = self.used.max(at);
                if self.noise == MOST_NOISE {
                    return (Said::Noise, at);
                }
            }
            match check(&input[at..]) {
                Ok(frame) => {
                    self.used = self.used.max(at + frame.length);
                    return (self.accepted(frame), at);
                }
                Err(Stop::Short(_)) => {
                    self.used = input.len();
                    return (Said::Hungry, at);
                }
                Err(Stop::Refused(_, looked)) => {
                    self.used = self.used.max(at + looked);
                    at += 1;
                    self.noise += 1;
                    if self.noise == MOST_NOISE {
                        return (Said::Noise, at);
                    }
                }
            }
        }
    }

    /// What is said, and the tray as it is now.
    fn settle(&self, said: Said, tray: &mut [u64]) -> Told {
        let shown = if let Said::Frame(frame) = &said { frame.length } else { 0 };
        let told = if let Said::Noise = said { self.noise } else { 0 };
        tray[0] = self.held as u64;
        tray[1] = shown as u64;
        tray[2] = self.noise - told;
        Told { said, used: self.used, noise: told }
    }
}

/// The call proper, on a tray that is sound.
pub fn go<const TRUST: bool>(bytes: &mut [u8], tray: &mut [u64], input: &[u8]) -> Told {
    let bytes = &mut bytes[..LONGEST_FRAME];
    let mut place = Place::of(tray);
    if let Some(said) = place.in_tray(bytes, input) {
        place.slide(bytes);
        return place.settle(said, tray);
    }
    let dirty = place.held;
    let (said, at) = place.in_input(input);
    let live = &input[at..place.used];
    bytes[..live.len()].copy_from_slice(live);
    if !TRUST && live.len() < dirty {
        bytes[live.len()..dirty].fill(0);
    }
    place.held = live.len();
    place.settle(said, tray)
}

/// The end of the stream, on a tray that is sound.
pub fn end(bytes: &mut [u8], tray: &mut [u64]) -> Told {
    let bytes = &mut bytes[..LONGEST_FRAME];
    let mut place = Place::of(tray);
    let said = loop {
        if place.start == place.held {
            break if place.noise > 0 { Said::Noise } else { Said::Done };
        }
        match check(&bytes[place.start..place.held]) {
            Ok(frame) => break place.accepted(frame),
            Err(_) => {
                place.start += 1;
                place.noise += 1;
            }
        }
        if place.noise == MOST_NOISE {
            break Said::Noise;
        }
    };
    place.slide(bytes);
    place.settle(said, tray)
}

pub fn event(said: &Said) -> u64 {
    match said {
        Said::Hungry => 0,
        Said::Frame(_) => 1,
        Said::Noise => 2,
        Said::Done => 3,
    }
}

fn put(answer: Told, told: &mut [u64], header: &mut [u64]) -> u8 {
    told[0] = event(&answer.said);
    told[1] = answer.used as u64;
    told[2] = answer.noise;
    if let Said::Frame(frame) = answer.said {
        frame.put(header);
    }
    0
}

/// homralgyu_stream_call.
#[inline(never)]
pub fn stream_call<const TRUST: bool>(
    bytes: &mut [u8],
    tray: &mut [u64],
    input: &[u8],
    told: &mut [u64],
    header: &mut [u64],
) -> u8 {
    if tray.len() < 3 || told.len() < 3 || header.len() < 15 || bytes.len() < LONGEST_FRAME {
        return ROOM;
    }
    if !TRUST && !is_sound(bytes, tray) {
        return STATE;
    }
    put(go::<TRUST>(bytes, tray, input), told, header)
}

/// homralgyu_stream_finish.
#[inline(never)]
pub fn stream_finish<const TRUST: bool>(
    bytes: &mut [u8],
    tray: &mut [u64],
    told: &mut [u64],
    header: &mut [u64],
) -> u8 {
    if tray.len() < 3 || told.len() < 3 || header.len() < 15 || bytes.len() < LONGEST_FRAME {
        return ROOM;
    }
    if !TRUST && !is_sound(bytes, tray) {
        return STATE;
    }
    put(end(bytes, tray), told, header)
}
