//! Document 01, "The stream".

use crate::answer::{stop, Refusal};
use crate::frame::{check, LONGEST_FRAME};

/// "Tray: 1,103 bytes, held count, length of the frame last shown, noise count." The 1,103 bytes
/// are lent. Any numbers may stand here; `sound` judges them.
#[derive(Clone, Copy, PartialEq, Eq, Debug, Default)]
pub struct Tray {
    pub held: u64,
    pub shown: u64,
    pub noise: u64,
}

/// "Noise is told just before a frame, at 65,535, or at finish"
pub const MOST_NOISE: u64 = 65535;

/// "One event a call; with none, all input used, the call says hungry." "finish says done when no
/// byte is held and no noise is untold"
#[derive(Clone, Copy, PartialEq, Eq, Debug)]
pub enum Event {
    Hungry,
    Done,
    /// the frame lies first in the tray: its length, TF002 and TF007
    Frame {
        length: u64,
        type_: u64,
        subtype: u64,
    },
    Noise {
        count: u64,
    },
}

/// The new state, what is said, and the bytes of the portion used.
#[derive(Clone, Copy, PartialEq, Eq, Debug)]
pub struct Step {
    pub tray: Tray,
    pub event: Event,
    pub used: usize,
}

/// "Sound: a tray holds at most 1,103 bytes, zeros after them, noise under 65,535, and a shown
/// length is 0 or that of an accepted frame lying first." The zeros are judged up to 1,103.
pub fn sound(tray: &Tray, bytes: &[u8]) -> bool {
    if bytes.len() < LONGEST_FRAME || tray.held > LONGEST_FRAME as u64 || tray.noise >= MOST_NOISE {
        return false;
    }
    let held = &bytes[..tray.held as usize];
    let zeros = bytes[tray.held as usize..LONGEST_FRAME].iter().all(|&byte| byte == 0);
    let shown = tray.shown == 0 || check(held).is_ok_and(|frame| frame.length as u64 == tray.shown);
    zeros && shown
}

/// A call with a portion of the input.
pub fn call(tray: &Tray, bytes: &mut [u8], portion: &[u8]) -> Result<Step, Refusal> {
    step(tray, bytes, portion, false)
}

/// A call after the last portion. "finish ... is called until" it says done.
pub fn finish(tray: &Tray, bytes: &mut [u8]) -> Result<Step, Refusal> {
    step(tray, bytes, &[], true)
}

/// "A call or finish checks ROOM, STATE, drops the shown frame, then decides on the bytes held."
fn step(tray: &Tray, bytes: &mut [u8], portion: &[u8], finishing: bool) -> Result<Step, Refusal> {
    stop(bytes.len() < LONGEST_FRAME, Refusal::Room)?;
    stop(!sound(tray, bytes), Refusal::State)?;
    let mut held = bytes[tray.shown as usize..tray.held as usize].to_vec();
    let mut noise = tray.noise;
    let mut shown = 0;
    let mut used = 0;
    let event = loop {
        let first_is_noise = match check(&held) {
            // "Accepted: frame event, the frame lying first in the tray. Noise is told just before"
            Ok(_) if noise > 0 => break told(&mut noise),
            Ok(frame) => {
                shown = frame.length as u64;
                break Event::Frame { length: shown, type_: frame.type_, subtype: frame.subtype };
            }
            // "SHORT: take one more byte." "At finish SHORT with bytes held makes the first noise"
            Err(Refusal::Short) if !finishing => match portion.get(used) {
                None => break Event::Hungry,
                Some(&byte) => {
                    held.push(byte);
                    used += 1;
                    false
                }
            },
            Err(Refusal::Short) if held.is_empty() => {
                break if noise > 0 { told(&mut noise) } else { Event::Done };
            }
            // "First byte not 0x73, or PREAMBLE to MESSAGE_CRC by the check above: that one byte is
            // noise, scanning goes on at the next."
            Err(_) => true,
        };
        if first_is_noise {
            held.remove(0);
            noise += 1;
            if noise == MOST_NOISE {
                break told(&mut noise);
            }
        }
    };
    // "the tray alone is zeroed past the bytes it holds, up to 1,103"
    bytes[..held.len()].copy_from_slice(&held);
    bytes[held.len()..LONGEST_FRAME].fill(0);
    let tray = Tray { held: held.len() as u64, shown, noise };
    Ok(Step { tray, event, used })
}

/// "then counted from zero"
fn told(noise: &mut u64) -> Event {
    let count = *noise;
    *noise = 0;
    Event::Noise { count }
}

/// The uncut scan: what the stream says of a whole input, straight from the rules, without a tray.
/// Noise and frames in order; each frame with where it starts.
pub fn scan(input: &[u8]) -> Vec<(Event, usize)> {
    let mut events = Vec::new();
    let mut noise = 0;
    let mut at = 0;
    while at < input.len() {
        match check(&input[at..]) {
            Ok(frame) => {
                if noise > 0 {
                    events.push((told(&mut noise), at));
                }
                let length = frame.length as u64;
                events.push((Event::Frame { length, type_: frame.type_, subtype: frame.subtype }, at));
                at += frame.length;
            }
            // the input is whole: what is SHORT now stays SHORT until finish makes its first byte noise
            Err(_) => {
                noise += 1;
                at += 1;
                if noise == MOST_NOISE {
                    events.push((told(&mut noise), at));
                }
            }
        }
    }
    if noise > 0 {
        events.push((told(&mut noise), at));
    }
    events
}

/// All events of an input lent in portions, hungry and done left out.
pub fn run(input: &[u8], cuts: &[usize]) -> Vec<Event> {
    let mut tray = Tray::default();
    let mut bytes = [0u8; LONGEST_FRAME];
    let mut events = Vec::new();
    let mut at = 0;
    let ends = cuts.iter().scan(0usize, |end, cut| {
        *end = end.saturating_add(*cut).min(input.len());
        Some(*end)
    });
    for end in ends.chain([input.len()]) {
        loop {
            let Ok(step) = call(&tray, &mut bytes, &input[at..end]) else { return events };
            tray = step.tray;
            at += step.used;
            match step.event {
                Event::Hungry => break,
                event => events.push(event),
            }
        }
    }
    loop {
        let Ok(step) = finish(&tray, &mut bytes) else { return events };
        tray = step.tray;
        match step.event {
            Event::Done => return events,
            event => events.push(event),
        }
    }
}

#[cfg(test)]
mod tests {
    use super::*;
    use crate::frame::{assemble, Plain};

    fn frame(payload: &[u8]) -> Vec<u8> {
        let parts =
            Plain { type_: 2, check_type: 2, subtype: 0, tag_kind: 0, tag: 1, solution: 5, processor: 11 };
        assemble(&parts, None, payload, &[])
    }

    fn told(input: &[u8], cuts: &[usize]) -> Vec<Event> {
        let events = run(input, cuts);
        let uncut: Vec<Event> = scan(input).into_iter().map(|(event, _)| event).collect();
        assert_eq!(events, uncut);
        events
    }

    #[test]
    fn the_measured_input() {
        assert_eq!(told(&[0x00, 0x73, 0x00], &[]), [Event::Noise { count: 3 }]);
        assert_eq!(told(&[], &[0, 0]), []);
    }

    #[test]
    fn a_byte_is_used_only_when_the_bytes_held_are_short() {
        let mut input = vec![1, 2];
        input.extend(frame(&[9; 20]));
        let length = input.len();
        input.extend([3, 4]);
        let mut bytes = [0u8; 1104];
        bytes[1103] = 0xA5;
        let tray = Tray::default();
        let step = call(&tray, &mut bytes, &input).unwrap();
        assert_eq!((step.event, step.used), (Event::Noise { count: 2 }, length));
        let step = call(&step.tray, &mut bytes, &input[length..]).unwrap();
        let event = Event::Frame { length: length as u64 - 2, type_: 2, subtype: 0 };
        assert_eq!((step.event, step.used), (event, 0));
        assert_eq!(step.tray.shown, step.tray.held);
        let step = call(&step.tray, &mut bytes, &input[length..]).unwrap();
        assert_eq!((step.event, step.used), (Event::Hungry, 2));
        assert_eq!(step.tray, Tray { held: 0, shown: 0, noise: 2 });
        let step = finish(&step.tray, &mut bytes).unwrap();
        assert_eq!(step.event, Event::Noise { count: 2 });
        let step = finish(&step.tray, &mut bytes).unwrap();
        assert_eq!((step.event, step.tray), (Event::Done, Tray::default()));
        assert!(bytes[..1103].iter().all(|&byte| byte == 0));
        assert_eq!(bytes[1103], 0xA5);
    }

    #[test]
    fn a_bad_frame_is_not_skipped_whole() {
        // a frame inside the payload of a frame whose check is wrong
        let inner = frame(&[1, 2, 3]);
        let mut payload = vec![0x73, 0x73];
        payload.extend(&inner);
        payload.push(0x73);
        let mut outer = frame(&payload);
        let last = outer.len() - 1;
        outer[last] ^= 1;
        let events = told(&outer, &[1, 0, 7, 3]);
        let found = Event::Frame { length: inner.len() as u64, type_: 2, subtype: 0 };
        assert_eq!(events, [Event::Noise { count: 10 }, found, Event::Noise { count: 4 }]);
        // and the same outer frame, right: one event
        outer[last] ^= 1;
        assert_eq!(told(&outer, &[5]).len(), 1);
    }

    #[test]
    fn noise_is_told_at_65535_in_call_and_finish() {
        let mut input = vec![0u8; 65535 * 2 + 3];
        input.extend(frame(&[1]));
        let events = told(&input, &[70000]);
        assert_eq!(events[..3], [65535, 65535, 3].map(|count| Event::Noise { count }));
        // exactly 65,535: nothing is told at the frame
        let mut input = vec![0u8; 65535];
        input.extend(frame(&[1]));
        assert_eq!(told(&input, &[]).len(), 2);
        let step = call(&Tray::default(), &mut [0; 1103], &input).unwrap();
        assert_eq!(step.used, 65535);
        // the last byte of 65,535 falls at finish
        let mut input = vec![0u8; 65534];
        input.push(0x73);
        assert_eq!(told(&input, &[]), [Event::Noise { count: 65535 }]);
    }

    #[test]
    fn what_makes_a_tray_unsound() {
        let whole = frame(&[1, 2, 3]);
        let mut bytes = [0u8; 1103];
        bytes[..whole.len()].copy_from_slice(&whole);
        let held = whole.len() as u64;
        let tray = Tray { held, shown: held, noise: 65534 };
        assert!(sound(&tray, &bytes));
        assert!(sound(&Tray { shown: 0, ..tray }, &bytes));
        assert!(!sound(&Tray { shown: held - 1, ..tray }, &bytes));
        assert!(!sound(&Tray { noise: 65535, ..tray }, &bytes));
        assert!(!sound(&Tray { held: held - 1, shown: 0, noise: 0 }, &bytes));
        assert!(!sound(&Tray { held: 1104, ..tray }, &bytes));
        assert!(!sound(&Tray { held: u64::MAX, shown: u64::MAX, noise: u64::MAX }, &bytes));
        assert!(sound(&Tray { held: 1103, shown: 0, noise: 0 }, &[0xA5; 1103]));
        let mut lent = bytes;
        assert_eq!(call(&tray, &mut lent[..1102], &[]), Err(Refusal::Room));
        assert_eq!(call(&Tray { shown: 1, ..tray }, &mut lent, &[]), Err(Refusal::State));
        assert_eq!(lent, bytes);
    }
}
