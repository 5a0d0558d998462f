//! Ephemeris types: every one of every constellation, with a meaning or TBD, whatever lies behind it (document 02, request 6).

use crate::judge::Judge;
use crate::payloads::{read_one, write_one};
use crate::views::first_satellite;
use second::answer::{Place, Refusal, Refused};
use second::bits::BitReader;
use second::frame::{self, LONGEST_PAYLOAD};
use second::generate::*;
use second::sheet::SHEET_ENTRIES;

/// Source document 000, section 6.4: an ephemeris type's SF number and its bits, the last type with a meaning, and the SF
/// number of the satellite mask behind it.
struct Type {
    sf: u16,
    bits: usize,
    last: u64,
    mask: u16,
}

/// By subtype. "Refuse TBD values: GPS and GLONASS 1 to 3, Galileo and QZSS 3 to 7, BeiDou 6 to 15."
const TYPES: [Type; 5] = [
    Type { sf: 16, bits: 2, last: 0, mask: 11 },
    Type { sf: 17, bits: 2, last: 0, mask: 12 },
    Type { sf: 96, bits: 3, last: 2, mask: 93 },
    Type { sf: 97, bits: 4, last: 5, mask: 94 },
    Type { sf: 98, bits: 3, last: 2, mask: 95 },
];

/// Where a type is: SF005 of 9 bits, SF010, the reserved bit, SF008 and SF009 come before it.
const BIT: usize = 13;
const ENTRY: usize = 5;

fn at(why: Refusal, sf: u16, at: usize) -> Result<(), Refused> {
    Err(Place { sf, at }.refuses(why))
}

impl Type {
    /// What has to be said of a payload and of a sheet with this type and this behind it.
    fn must(&self, code: u64, behind: Behind) -> [Result<(), Refused>; 2] {
        let (size, bits) = (BIT + self.bits, BIT + self.bits + 2);
        match behind {
            _ if code > self.last => self.field(),
            Behind::EmptyMask => {
                [at(Refusal::MaskEmpty, self.mask, bits), at(Refusal::MaskEmpty, self.mask, ENTRY + 2)]
            }
            Behind::Nothing => {
                // the size of BeiDou's mask lies in the fill
                let end = if bits.div_ceil(8) == size.div_ceil(8) { bits } else { size };
                [at(Refusal::Short, self.mask, end), at(Refusal::Short, self.mask, ENTRY + 1)]
            }
            _ => [Ok(()), Ok(())],
        }
    }

    /// "FIELD at the ephemeris field"
    fn field(&self) -> [Result<(), Refused>; 2] {
        [at(Refusal::Field, self.sf, BIT), at(Refusal::Field, self.sf, ENTRY)]
    }
}

/// The calls that read or write an OCB.
const CALLS: [&str; 5] = ["payload_judge", "payload_read", "sheet_judge", "sheet_write", "satellite_at"];

/// A value of a type, and what a call said of it.
fn value_name(call: &str, of: &Type, code: u64) -> String {
    format!("{call}: SF{:03} of {code}, {}", of.sf, if code > of.last { "FIELD" } else { "taken" })
}

/// A type, with a meaning or TBD, and what lay behind it.
fn behind_name(of: &Type, tbd: bool, behind: Behind) -> String {
    let what = match behind {
        Behind::Satellites => "any satellites",
        Behind::OutOfUse => "all satellites out of use",
        Behind::NoOrbit => "no orbit block",
        Behind::EmptyMask => "the mask empty",
        Behind::Nothing => "nothing behind it",
    };
    format!("type: SF{:03} {}, {what}", of.sf, if tbd { "TBD" } else { "with a meaning" })
}

/// A TBD type beside another fault, and a type that is too wide. In a payload of BeiDou the bits of one can be there in part.
const ORDER: [&str; 9] = [
    "type: LENGTH before a TBD one",
    "type: ROOM before a TBD one",
    "type: SHORT in SF097, no type with a meaning begins so",
    "type: SHORT where it is missing on a sheet",
    "type: TBD after a fault",
    "type: TBD before LEFTOVER",
    "type: TBD before LENGTH",
    "type: TBD before another FIELD",
    "type: too wide",
];

/// Frames that hold a TBD type and are not read: "Frame check, stream, plain-frame writer and desk don't move."
const FRAMES: [&str; 5] = [
    "frame_check: a TBD type",
    "frame_write: a TBD type",
    "stream: a TBD type",
    "desk_take: NOT_OURS, a TBD type",
    "prepare: NOT_OURS, a TBD type",
];

/// What a run of many inputs has to meet of types: each value in each call, and with all that can lie behind it.
pub fn all() -> Vec<String> {
    let mut all = ORDER.iter().chain(&FRAMES).map(|name| name.to_string()).collect::<Vec<_>>();
    for of in &TYPES {
        for code in 0..1 << of.bits {
            all.extend(CALLS.map(|call| value_name(call, of, code)));
        }
        all.extend([false, true].iter().flat_map(|&tbd| BEHIND.map(|behind| behind_name(of, tbd, behind))));
    }
    all
}

/// Each type of a constellation in turn, in a payload and on a sheet, and a TBD one beside other faults.
pub fn every(rng: &mut Rng, judge: &mut Judge) {
    let subtype = rng.below(5);
    let of = &TYPES[subtype as usize];
    let counts = lent_entries(rng, 2);
    for code in 0..1 << of.bits {
        let behind = rng.pick(&BEHIND);
        let made = typed_sheet(rng, subtype, code, behind);
        let [read, written] = of.must(code, behind);
        read_one(rng, judge, (0, subtype), &made.payload(), SHEET_ENTRIES, &counts, Some(read));
        write_one(rng, judge, (0, subtype), &made.codes, LONGEST_PAYLOAD, &counts, Some(written));
        first_satellite(rng, judge, subtype, &made.codes, Some(written));
        judge.mark(behind_name(of, code > of.last, behind));
        if read.is_ok() || read == of.field()[0] {
            for call in CALLS {
                judge.mark(value_name(call, of, code));
            }
        }
    }
    in_order(rng, judge, subtype, &counts);
}

/// A TBD type beside another fault, which lies before it or behind it.
fn in_order(rng: &mut Rng, judge: &mut Judge, subtype: u64, counts: &[u64]) {
    let of = &TYPES[subtype as usize];
    let code = rng.between(of.last + 1, (1 << of.bits) - 1);
    // valid but for the type
    let behind = rng.pick(&[Behind::Satellites, Behind::OutOfUse, Behind::NoOrbit]);
    let made = typed_sheet(rng, subtype, code, behind);
    let [_, field] = of.field();
    let told = (0, subtype);

    let mut sheet = |judge: &mut Judge, name: &'static str, codes: &[u64], must| {
        write_one(rng, judge, told, codes, LONGEST_PAYLOAD, counts, Some(must));
        first_satellite(rng, judge, subtype, codes, Some(must));
        judge.mark(name);
    };
    let missing = at(Refusal::Short, of.sf, ENTRY);
    sheet(judge, "type: SHORT where it is missing on a sheet", &made.codes[..ENTRY], missing);
    let mut codes = made.codes.clone();
    codes[ENTRY - 1] = 2;
    sheet(judge, "type: TBD after a fault", &codes, at(Refusal::Field, 9, ENTRY - 1));
    codes = made.codes.clone();
    codes[ENTRY + 1] = 4;
    sheet(judge, "type: TBD before another FIELD", &codes, field);
    let longer = [&made.codes[..], &[code]].concat();
    sheet(judge, "type: TBD before LEFTOVER", &longer, field);
    // the bits above its width are not dropped
    for above in [of.bits, 8, 16, 32, 63] {
        codes = made.codes.clone();
        codes[ENTRY] = of.last | 1 << above;
        sheet(judge, "type: too wide", &codes, field);
    }

    // all satellites of the largest mask with all blocks, which is mostly too long
    let satellites = if of.mask == 12 { u64::MAX >> 1 } else { u64::MAX };
    let mask = (of.mask, [3, satellites].into());
    let blocks = [(13, vec![0; 64].into()), (14, vec![7; 64].into())];
    let long = rich_sheet(rng, 0, subtype, 0, [vec![(of.sf, [code].into()), mask], blocks.into()].concat());
    if long.bits() > 8 * LONGEST_PAYLOAD {
        write_one(rng, judge, told, &long.codes, LONGEST_PAYLOAD, counts, Some(field));
        judge.mark("type: TBD before LENGTH");
    }
    let room = Some(Err(Refusal::Room.into()));
    let mut payload = made.payload();
    read_one(rng, judge, told, &payload, SHEET_ENTRIES, &counts[..1], room);
    write_one(rng, judge, told, &made.codes, LONGEST_PAYLOAD, &counts[..1], room);
    judge.mark("type: ROOM before a TBD one");
    // "SHORT there" comes first, though with the bits that are there it can only be a TBD one
    if of.sf == 97 {
        let short = at(Refusal::Short, of.sf, BIT);
        read_one(rng, judge, told, &payload[..2], SHEET_ENTRIES, counts, Some(short));
        judge.mark("type: SHORT in SF097, no type with a meaning begins so");
    }
    payload.resize(LONGEST_PAYLOAD + 1, 0);
    let length = Some(Err(Refusal::Length.into()));
    read_one(rng, judge, told, &payload, SHEET_ENTRIES, counts, length);
    judge.mark("type: LENGTH before a TBD one");
}

/// Counts a plain frame of OCB with a TBD type that was accepted, written or told, or that a desk said NOT_OURS to.
pub fn framed(judge: &mut Judge, what: &'static str, bytes: &[u8]) {
    let Ok(frame) = frame::check(bytes) else { return };
    let Some(of) = TYPES.get(frame.subtype as usize) else { return };
    if frame.type_ != 0 || frame.seal.is_some() {
        return;
    }
    let mut payload = BitReader::new(&bytes[frame.payload]);
    if payload.take(BIT as u32).and(payload.take(of.bits as u32)).is_some_and(|code| code > of.last) {
        judge.mark(what);
    }
}
