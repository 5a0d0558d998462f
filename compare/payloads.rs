//! Payloads read into sheets and sheets written as payloads; faults put into both, at entries of every SF number.

use crate::judge::{hex, Input, Judge};
use crate::lent;
use crate::places;
use homralgyu::raw;
use second::answer::{with_place, Refusal, Refused};
use second::frame::LONGEST_PAYLOAD;
use second::generate::*;
use second::sheet::SHEET_ENTRIES;
use second::sheet;

/// One of the twelve, mostly.
fn some_type(rng: &mut Rng) -> (u64, u64) {
    if rng.one_in(20) {
        let kinds = [0, 1, 2, 3, 4, 120, 127, 255];
        (rng.pick(&kinds), rng.pick(&[0, 1, 4, 5, 15, 255]))
    } else {
        rng.pick(&TWELVE)
    }
}

/// A type of the twelve to make the input of, and the type and subtype that the call is told.
fn types(rng: &mut Rng) -> ((u64, u64), (u64, u64)) {
    let of = rng.pick(&TWELVE);
    let told = if rng.one_in(12) { some_type(rng) } else { of };
    (of, told)
}

fn counts_room(rng: &mut Rng) -> Vec<u64> {
    let places = rng.pick(&[0, 1, 2, 2, 2, 2, 2, 2, 2, 2, 3]);
    lent_entries(rng, places)
}

pub fn read(rng: &mut Rng, judge: &mut Judge) {
    let (of, told) = types(rng);
    let payload = if rng.one_in(3) { payload(rng, of.0, of.1) } else { odd_payload(rng, of.0, of.1) };
    let places = buffer_size(rng, SHEET_ENTRIES);
    let counts = counts_room(rng);
    read_one(rng, judge, told, &payload, places, &counts, None);
}

/// What has to be said of an input, where it is known: that it is accepted, or refused so.
pub type Known = Option<Result<(), Refused>>;

/// One payload, judged and read into a sheet of so many places. If it is known what has to be said of it, both say that.
pub fn read_one(
    rng: &mut Rng,
    judge: &mut Judge,
    (kind, subtype): (u64, u64),
    payload: &[u8],
    places: usize,
    counts: &[u64],
    must: Known,
) {
    let entries = vec![rng.draw(); places];
    let said = || {
        format!(
            "type {kind}-{subtype}, payload {}, a sheet of {places}, {} counts",
            hex(payload),
            counts.len()
        )
    };
    let lent_payload = lent::bytes(payload);

    let input = Input { call: "payload_judge", said: &said };
    let mut our_counts = lent::numbers(counts);
    let answer = raw::payload_judge(kind as u8, subtype as u8, lent_payload.now(), our_counts.part());
    let opened =
        if counts.len() < 2 { Err(Refusal::Room.into()) } else { sheet::open(kind, subtype, payload) };
    judge.answer(&input, answer, with_place(&opened));
    let mut after = counts.to_vec();
    match &opened {
        Ok((_, _, read)) => after[..2].copy_from_slice(&[read.bits as u64, read.entries as u64]),
        Err(refused) => places::read(judge, &input, (kind, subtype), payload, refused),
    }
    judge.lent(&input, "the counts", &our_counts, &after);
    must_be(judge, &input, opened.map(|_| ()), must);

    let input = Input { call: "payload_read", said: &said };
    let (mut our_sheet, mut our_counts) = (lent::numbers(&entries), lent::numbers(counts));
    let answer =
        raw::payload_read(kind as u8, subtype as u8, lent_payload.now(), our_sheet.part(), our_counts.part());
    let (mut sheet_after, mut after) = (entries, counts.to_vec());
    let read = if counts.len() < 2 {
        Err(Refusal::Room.into())
    } else {
        sheet::read(kind, subtype, payload, &mut sheet_after)
    };
    judge.answer(&input, answer, with_place(&read));
    if let Ok(read) = read {
        after[..2].copy_from_slice(&[read.bits as u64, read.entries as u64]);
    }
    judge.lent(&input, "the sheet", &our_sheet, &sheet_after);
    judge.lent(&input, "the counts", &our_counts, &after);
    judge.lent(&input, "the payload", &lent_payload, payload);
    must_be(judge, &input, read.map(|_| ()), must);
}

pub fn write(rng: &mut Rng, judge: &mut Judge) {
    let (of, told) = types(rng);
    let codes = match rng.below(8) {
        0..=2 => sheet(rng, of.0, of.1).codes,
        3 => {
            let richness = rng.below(100);
            rich_sheet(rng, of.0, of.1, richness, Vec::new()).codes
        }
        _ => odd_sheet(rng, of.0, of.1),
    };
    let room = buffer_size(rng, LONGEST_PAYLOAD);
    let counts = counts_room(rng);
    write_one(rng, judge, told, &codes, room, &counts, None);
}

/// One sheet, judged and written into so much room. If it is known what has to be said of it, both say that.
pub fn write_one(
    rng: &mut Rng,
    judge: &mut Judge,
    (kind, subtype): (u64, u64),
    codes: &[u64],
    room: usize,
    counts: &[u64],
    must: Known,
) {
    let out = lent_bytes(rng, room);
    let said = || format!("type {kind}-{subtype}, sheet {codes:?}, room of {room}, {} counts", counts.len());
    let lent_sheet = lent::numbers(codes);

    let input = Input { call: "sheet_judge", said: &said };
    let mut our_counts = lent::numbers(counts);
    let answer = raw::sheet_judge(kind as u8, subtype as u8, lent_sheet.now(), our_counts.part());
    let closed =
        if counts.len() < 2 { Err(Refusal::Room.into()) } else { sheet::close(kind, subtype, codes) };
    judge.answer(&input, answer, with_place(&closed));
    let mut after = counts.to_vec();
    match &closed {
        Ok((_, bits)) => after[..2].copy_from_slice(&[bits.bits.len() as u64, bits.bytes().len() as u64]),
        Err(refused) => places::written(judge, &input, (kind, subtype), codes, refused),
    }
    judge.lent(&input, "the counts", &our_counts, &after);
    must_be(judge, &input, closed.map(|_| ()), must);

    let input = Input { call: "sheet_write", said: &said };
    let (mut our_out, mut our_counts) = (lent::bytes(&out), lent::numbers(counts));
    let answer =
        raw::sheet_write(kind as u8, subtype as u8, lent_sheet.now(), our_out.part(), our_counts.part());
    let (mut out_after, mut after) = (out, counts.to_vec());
    let written = if counts.len() < 2 {
        Err(Refusal::Room.into())
    } else {
        sheet::write(kind, subtype, codes, &mut out_after)
    };
    judge.answer(&input, answer, with_place(&written));
    if let Ok(written) = written {
        after[..2].copy_from_slice(&[written.bits as u64, written.bytes as u64]);
    }
    judge.lent(&input, "the bytes written", &our_out, &out_after);
    judge.lent(&input, "the counts", &our_counts, &after);
    judge.lent(&input, "the sheet", &lent_sheet, codes);
    must_be(judge, &input, written.map(|_| ()), must);
}

/// Both say this, and it must be that, where it is known.
pub fn must_be(judge: &Judge, input: &Input, is: Result<(), Refused>, must: Known) {
    if let Some(must) = must {
        judge.same(input, "what both say and what it must be", &is, &must);
    }
}

/// One fault at a time, in a valid sheet and in its payload, each SF number as likely as another: what has to be said of it
/// is known.
pub fn faults(rng: &mut Rng, judge: &mut Judge) {
    let of = rng.pick(&TWELVE);
    let made = sheet(rng, of.0, of.1);
    let counts = lent_entries(rng, 2);
    for _ in 0..5 {
        let sheets = [Some(cut_sheet(rng, &made)), wrong_sheet(rng, &made)];
        for (codes, fault) in sheets.into_iter().flatten() {
            write_one(rng, judge, of, &codes, LONGEST_PAYLOAD, &counts, Some(Err(fault.written(&made))));
        }
        let payloads = [cut_payload(rng, &made), wrong_payload(rng, &made)];
        for (payload, fault) in payloads.into_iter().flatten() {
            read_one(rng, judge, of, &payload, SHEET_ENTRIES, &counts, Some(Err(fault.read(&made))));
        }
    }
    let long = if rng.one_in(8) { long_payload(rng, of.0, of.1) } else { None };
    if let Some((made, payload, fault)) = long {
        read_one(rng, judge, of, &payload, SHEET_ENTRIES, &counts, Some(Err(fault.read(&made))));
    }
}

/// A fault far behind in a sheet of over 270,000 entries.
pub fn longest(rng: &mut Rng, judge: &mut Judge) {
    let subtype = rng.below(5);
    let mut made = longest_sheet(rng, subtype);
    let last = made.codes.len() - 1;
    let entry = rng.between(65_536, last as u64) as usize;
    let entry = rng.pick(&[entry, last]);
    // a mask of 64 bits takes every code
    let (codes, why) = if rng.one_in(2) || made.fields[entry].width == 64 {
        (&made.codes[..entry], Refusal::Short)
    } else {
        made.codes[entry] = u64::MAX;
        (&made.codes[..], Refusal::Field)
    };
    let must = Fault { why, entry }.written(&made);
    let counts = lent_entries(rng, 2);
    write_one(rng, judge, (1, subtype), codes, LONGEST_PAYLOAD, &counts, Some(Err(must)));
}
