//! Frames checked and written.

use crate::judge::{hex, Input, Judge};
use crate::lent;
use crate::types;
use homralgyu::{raw, Parts};
use second::answer::number;
use second::frame::LONGEST_FRAME;
use second::frame::{self, Frame, Plain};
use second::generate::*;

/// The header's fifteen numbers, as include/homralgyu.h lists them.
pub fn header_of(frame: &Frame) -> [u64; 15] {
    let seal = frame.seal.as_ref();
    [
        frame.length as u64,
        frame.type_,
        frame.payload_length() as u64,
        seal.is_some() as u64,
        frame.check_type,
        frame.subtype,
        frame.tag_kind,
        frame.tag,
        frame.solution,
        frame.processor,
        seal.map_or(0, |s| s.encryption),
        seal.map_or(0, |s| s.sequence),
        seal.map_or(0, |s| s.authentication),
        seal.map_or(0, |s| s.authentication_length),
        frame.payload.start as u64,
    ]
}

/// Bytes with a frame first, a damaged one, or none.
fn some_bytes(rng: &mut Rng) -> Vec<u8> {
    let mut bytes = match rng.below(8) {
        0..=1 => frame(rng),
        2..=4 => odd_frame(rng),
        5 => nested(rng),
        6 => {
            let whole = frame(rng);
            damage(rng, &whole)
        }
        _ => {
            let size = rng.below(30) as usize;
            rng.bytes(size)
        }
    };
    if rng.one_in(3) {
        let cut = rng.below(bytes.len() as u64 + 1) as usize;
        bytes.truncate(rng.pick(&[cut, 3, 4, 7, 8]));
    }
    if rng.one_in(4) {
        let more = rng.below(20) as usize;
        bytes.extend(rng.bytes(more));
    }
    bytes
}

pub fn check(rng: &mut Rng, judge: &mut Judge) {
    let bytes = some_bytes(rng);
    let size = buffer_size(rng, 15);
    let header = lent_entries(rng, size);
    let said = || format!("bytes {}, a header of {size}", hex(&bytes));
    let input = Input { call: "frame_check", said: &said };
    let mut ours = lent::numbers(&header);
    let lent_bytes = lent::bytes(&bytes);
    let answer = raw::frame_check(lent_bytes.now(), ours.part());
    let checked = frame::check(&bytes);
    let mut theirs = header.clone();
    if size < 15 {
        judge.number(&input, answer, 9);
    } else {
        judge.number(&input, answer, number(&checked));
        if let Ok(frame) = &checked {
            theirs[..15].copy_from_slice(&header_of(frame));
            types::framed(judge, "frame_check: a TBD type", &bytes);
        }
    }
    judge.lent(&input, "the header", &ours, &theirs);
    judge.lent(&input, "the bytes", &lent_bytes, &bytes);
}

pub fn write(rng: &mut Rng, judge: &mut Judge) {
    let made = if rng.one_in(3) { odd_parts(rng) } else { parts(rng) };
    let octet = |x: u64| x.min(255);
    let made = Plain {
        type_: octet(made.type_),
        check_type: octet(made.check_type),
        subtype: octet(made.subtype),
        tag_kind: octet(made.tag_kind),
        tag: made.tag,
        solution: octet(made.solution),
        processor: octet(made.processor),
    };
    let some = rng.below(40) as usize;
    let payload_size = rng.pick(&[0, 1, 1022, 1023, 1024, 2000, some, some]);
    let payload = rng.bytes(payload_size);
    let room = buffer_size(rng, LONGEST_FRAME);
    let out = lent_bytes(rng, room);
    let places = rng.pick(&[0, 1, 1, 1, 1, 1, 1, 2]);
    let size = lent_entries(rng, places);
    let said = || format!("{made:?}, payload {}, room of {room} and {places}", hex(&payload));
    let input = Input { call: "frame_write", said: &said };
    let parts = Parts {
        message_type: made.type_ as u8,
        check_type: made.check_type as u8,
        subtype: made.subtype as u8,
        tag_kind: made.tag_kind as u8,
        tag: made.tag,
        solution: made.solution as u8,
        processor: made.processor as u8,
    };
    let (mut our_out, mut our_size) = (lent::bytes(&out), lent::numbers(&size));
    let answer = raw::frame_write(&parts, &payload, our_out.part(), our_size.part());
    let (mut out, mut size) = (out, size);
    if places < 1 {
        judge.number(&input, answer, 9);
    } else {
        let written = frame::write_plain(&made, &payload, &mut out);
        judge.number(&input, answer, number(&written));
        if let Ok(length) = written {
            size[0] = length as u64;
            types::framed(judge, "frame_write: a TBD type", &out);
        }
    }
    judge.lent(&input, "the bytes written", &our_out, &out);
    judge.lent(&input, "the frame's length", &our_size, &size);
}
