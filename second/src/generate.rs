//! Inputs for comparing: everything that the calls take, made up from a seed.
//!
//! `Rng::new(seed)`, then any function below, as often as wished; the same seed gives the same
//! inputs in the same order. "Biased to edges": top codes, middle codes, empty and full masks,
//! sizes next to their bounds come far more often than by chance.

use crate::answer::{Place, Refusal, Refused};
use crate::bits::BitWriter;
use crate::book::{area_number, area_of, put, with_gad, Book};
use crate::book::{BOOK_BYTES, MOST_AREAS, TOP_AIOU, TOP_SIOU};
use crate::desk::{Desk, Last, Run, GAP, HALF_DAY};
use crate::entries::{self, Entry, Placed, Satellite, BANDS, LAST_REASON, MOST_COUNT, MOST_SATELLITES};
use crate::frame::{assemble, Plain, Seal, AUTHENTICATION_BYTES, LONGEST_FRAME, LONGEST_PAYLOAD, PREAMBLE};
use crate::groups::groups;
use crate::kept::{self, FORM_1, FORM_2};
use crate::payload::{message, Entries, Field, Gad, GadArea, Takes, CONSTELLATIONS};
use crate::sheet::open;
use crate::stream::{Tray, MOST_NOISE};
use std::collections::VecDeque;

/// The twelve payloads: type and subtype.
pub const TWELVE: [(u64, u64); 12] =
    [(0, 0), (0, 1), (0, 2), (0, 3), (0, 4), (1, 0), (1, 1), (1, 2), (1, 3), (1, 4), (2, 0), (3, 0)];

/// A seeded source of numbers (xorshift64*).
#[derive(Clone, Debug)]
pub struct Rng {
    state: u64,
}

impl Rng {
    /// Any seed will do, 0 too.
    pub fn new(seed: u64) -> Rng {
        let mut rng = Rng { state: seed.wrapping_mul(0x9E37_79B9_7F4A_7C15) ^ 0x2545_F491_4F6C_DD1D };
        if rng.state == 0 {
            rng.state = 1;
        }
        rng.draw();
        rng
    }

    pub fn draw(&mut self) -> u64 {
        self.state ^= self.state >> 12;
        self.state ^= self.state << 25;
        self.state ^= self.state >> 27;
        self.state.wrapping_mul(0x2545_F491_4F6C_DD1D)
    }

    /// 0 to n - 1; 0 for n of 0
    pub fn below(&mut self, n: u64) -> u64 {
        if n == 0 {
            0
        } else {
            (self.draw() >> 11) % n
        }
    }

    /// both ends included
    pub fn between(&mut self, least: u64, most: u64) -> u64 {
        least + self.below(most.saturating_sub(least).saturating_add(1))
    }

    /// true once in n times
    pub fn one_in(&mut self, n: u64) -> bool {
        self.below(n) == 0
    }

    /// one of these; the first of none is not asked for
    pub fn pick<T: Copy>(&mut self, from: &[T]) -> T {
        from[self.below(from.len() as u64) as usize]
    }

    pub fn bytes(&mut self, count: usize) -> Vec<u8> {
        (0..count).map(|_| self.draw() as u8).collect()
    }
}

/// Bytes as lent: garbage, so that a byte written or not written shows.
pub fn lent_bytes(rng: &mut Rng, size: usize) -> Vec<u8> {
    rng.bytes(size)
}

/// Entries as lent.
pub fn lent_entries(rng: &mut Rng, size: usize) -> Vec<u64> {
    (0..size).map(|_| rng.draw()).collect()
}

/// A size for a buffer with a stated size: mostly that, sometimes more, sometimes short.
pub fn buffer_size(rng: &mut Rng, stated: usize) -> usize {
    match rng.below(12) {
        0 => stated.saturating_sub(1),
        1 => rng.below(stated as u64) as usize,
        2 => 0,
        3 => stated + 1,
        4 => stated + rng.below(40) as usize,
        _ => stated,
    }
}

// ---------------------------------------------------------------- sheets and payloads

/// A sheet with the field of each of its entries.
#[derive(Clone, Debug)]
pub struct Sheet {
    pub type_: u64,
    pub subtype: u64,
    pub codes: Vec<u64>,
    pub fields: Vec<Field>,
}

/// Codes to be used first, by SF number: in the order asked for.
pub type Wanted = Vec<(u16, VecDeque<u64>)>;

/// Answers the walk of a layout with codes of its own.
struct Chooser<'a> {
    rng: &'a mut Rng,
    /// 0 to 3: how many satellites, areas, nodes
    richness: u64,
    /// one in so many codes is off the edges
    calm: u64,
    /// many areas with little in each
    thin: bool,
    wanted: Wanted,
    codes: Vec<u64>,
    fields: Vec<Field>,
}

impl Entries for Chooser<'_> {
    fn next(&mut self, field: Field) -> Result<u64, Refused> {
        let queue = self.wanted.iter_mut().find(|(sf, _)| *sf == field.sf);
        let code = match queue.and_then(|(_, codes)| codes.pop_front()) {
            Some(code) => code,
            None => self.choose(field),
        };
        self.codes.push(code);
        self.fields.push(field);
        Ok(code)
    }
    fn count(&self) -> usize {
        self.codes.len()
    }
}

impl Chooser<'_> {
    fn choose(&mut self, field: Field) -> u64 {
        let top = field.top();
        let middle = top / 2;
        match (field.sf, field.takes) {
            (_, Takes::SatelliteMask) => self.mask(field.width),
            (_, Takes::BiasMask) => {
                let some = self.rng.below(top + 1);
                self.rng.pick(&[0, top, 1, top / 2 + 1, some, some])
            }
            (_, Takes::NodeMask) => self.nodes(field.width),
            (13, _) => self.rng.one_in(4) as u64,
            (14, _) => {
                let some = self.rng.below(8);
                self.rng.pick(&[0, 7, 7, some])
            }
            (30, _) => match self.richness {
                0 => 0,
                1 => self.rng.below(3),
                2 => self.rng.below(8),
                _ => {
                    self.thin = self.rng.one_in(2);
                    let some = self.rng.below(32);
                    self.rng.pick(&[31, some])
                }
            },
            (71, _) => match self.richness {
                0 => 0,
                _ => self.rng.below(4),
            },
            (39, _) => {
                let small = self.rng.below(10);
                let some = self.rng.below(128);
                if self.richness >= 2 {
                    self.rng.pick(&[0, 1, small, small])
                } else {
                    self.rng.pick(&[0, 127, 64, 1, small, some])
                }
            }
            // so that a node mask has one group, some whole ones, or a last one that is not whole
            (75 | 76, _) => {
                let some = self.rng.below(16);
                self.rng.pick(&[0, 15, some, some])
            }
            (40, _) if self.thin => self.rng.pick(&[0, 0, 1, 2]),
            (40, _) => self.rng.below(3),
            (_, Takes::Yaw) => {
                let some = self.rng.below(60);
                self.rng.pick(&[0, 59, 63, some])
            }
            // an ephemeris type with a meaning, each as likely as another
            (16 | 17 | 96..=98, Takes::UpTo(last)) => self.rng.below(last + 1),
            (_, Takes::UpTo(most)) => {
                let some = self.rng.below(most + 1);
                self.edge(&[0, most, most - 1, most / 2], some)
            }
            (_, Takes::Symmetric) => {
                let some = self.rng.below(top);
                self.edge(&[0, 1, middle, middle - 1, middle + 1, top - 1], some)
            }
            (_, Takes::Residual) => {
                let some = self.rng.below(top + 1);
                self.edge(&[0, middle, middle + 1, top - 1, top], some)
            }
            _ => {
                let some = self.rng.below(top + 1);
                self.edge(&[0, top], some)
            }
        }
    }

    fn edge(&mut self, edges: &[u64], some: u64) -> u64 {
        if self.rng.one_in(self.calm) {
            some
        } else {
            self.rng.pick(edges)
        }
    }

    /// a satellite mask with at least one bit
    fn mask(&mut self, width: u32) -> u64 {
        let most = match self.richness {
            0 => 1,
            _ if self.thin => 2,
            1 => 4,
            2 => 12,
            _ if self.rng.one_in(3) => return u64::MAX >> (64 - width),
            _ => 64,
        };
        let mut bits = 0;
        for _ in 0..self.rng.between(1, most) {
            let some = self.rng.below(width as u64);
            bits |= 1 << self.rng.pick(&[0, width as u64 - 1, some, some, some]);
        }
        bits
    }

    /// a group of the node mask
    fn nodes(&mut self, width: u32) -> u64 {
        let all = u64::MAX >> (64 - width);
        let some = self.rng.draw() & all;
        let few = some & self.rng.draw() & self.rng.draw();
        match self.richness {
            0 => self.rng.pick(&[0, 1, 1 << (width - 1)]),
            1 => self.rng.pick(&[0, 1, 1 << (width - 1), few]),
            _ => self.rng.pick(&[0, all, some, few, 1 << (width - 1) | 1]),
        }
    }
}

/// A valid sheet of about so many satellites, areas and nodes (0 to 3); it may be too long for a
/// payload. Codes of `wanted` are used as they are, in range or not.
pub fn rich_sheet(rng: &mut Rng, type_: u64, subtype: u64, richness: u64, wanted: Wanted) -> Sheet {
    let calm = rng.pick(&[1, 2, 3, 8]);
    let mut chooser =
        Chooser { rng, richness, calm, thin: false, wanted, codes: Vec::new(), fields: Vec::new() };
    // only an unknown type could refuse; its sheet is empty
    let _ = message(&mut chooser, type_, subtype);
    Sheet { type_, subtype, codes: chooser.codes, fields: chooser.fields }
}

/// A valid sheet that fits a payload.
pub fn sheet(rng: &mut Rng, type_: u64, subtype: u64) -> Sheet {
    sheet_with(rng, type_, subtype, Vec::new())
}

/// A sheet that fits a payload, with wanted codes. (If the wanted codes allow none that fits, the
/// last try is handed out.)
pub fn sheet_with(rng: &mut Rng, type_: u64, subtype: u64, wanted: Wanted) -> Sheet {
    let mut richness = rng.below(4);
    loop {
        let made = rich_sheet(rng, type_, subtype, richness, wanted.clone());
        if made.bits() <= 8 * LONGEST_PAYLOAD || richness == 0 {
            return made;
        }
        // a rich one now and then fits at the second try
        if rng.one_in(2) {
            richness -= 1;
        }
    }
}

/// A sheet that fits, of any of the twelve.
pub fn any_sheet(rng: &mut Rng) -> Sheet {
    let (type_, subtype) = rng.pick(&TWELVE);
    sheet(rng, type_, subtype)
}

impl Sheet {
    /// bits of the message
    pub fn bits(&self) -> usize {
        self.begins(self.fields.len())
    }

    /// bits before an entry
    pub fn begins(&self, entry: usize) -> usize {
        self.fields[..entry].iter().map(|field| field.width as usize).sum()
    }

    /// The bits of its codes, each cut to its width, valid or not; the last byte filled with zeros.
    pub fn payload(&self) -> Vec<u8> {
        let mut bits = BitWriter::new();
        for (code, field) in self.codes.iter().zip(&self.fields) {
            bits.put(*code, field.width);
        }
        bits.bytes()
    }
}

/// The sheet entry of an OCB's ephemeris type: SF005, SF010, SF069, SF008 and SF009 come before it.
pub const TYPE_ENTRY: usize = 5;

/// What lies behind the ephemeris type of an OCB.
#[derive(Clone, Copy, PartialEq, Eq, Debug)]
pub enum Behind {
    /// any satellites
    Satellites,
    /// satellites that are all out of use
    OutOfUse,
    /// satellites in use, none of them with an orbit block
    NoOrbit,
    /// a satellite mask without a satellite, and nothing more
    EmptyMask,
    /// no entry: of a payload the fill of the type's last byte
    Nothing,
}

pub const BEHIND: [Behind; 5] =
    [Behind::Satellites, Behind::OutOfUse, Behind::NoOrbit, Behind::EmptyMask, Behind::Nothing];

/// An OCB of an ephemeris type, with a meaning or TBD, and this behind it. Valid but for the type, an empty mask
/// and an end.
pub fn typed_sheet(rng: &mut Rng, subtype: u64, code: u64, behind: Behind) -> Sheet {
    let c = &CONSTELLATIONS[subtype as usize];
    let mut wanted: Wanted = vec![(c.ephemeris.0, [code].into())];
    match behind {
        Behind::OutOfUse => wanted.push((13, vec![1; 64].into())),
        Behind::NoOrbit => {
            wanted.push((13, vec![0; 64].into()));
            wanted.push((14, (0..64).map(|_| rng.below(4)).collect()));
        }
        Behind::EmptyMask => wanted.push((c.mask, [rng.below(4), 0].into())),
        Behind::Satellites | Behind::Nothing => {}
    }
    let mut made = sheet_with(rng, 0, subtype, wanted);
    if behind == Behind::Nothing {
        made.codes.truncate(TYPE_ENTRY + 1);
        made.fields.truncate(TYPE_ENTRY + 1);
    }
    made
}

/// One code set to one that its field does not take, or to one that changes what follows.
pub fn spoil(rng: &mut Rng, sheet: &mut Sheet) {
    // a sheet may be longer or shorter than its fields by now
    let count = sheet.codes.len().min(sheet.fields.len());
    if count == 0 {
        return;
    }
    let mut at = rng.below(count as u64) as usize;
    // half the time an entry whose field does not take its full width
    if rng.one_in(2) {
        let narrow: Vec<usize> = (0..count)
            .filter(|&i| {
                matches!(
                    sheet.fields[i].takes,
                    Takes::Symmetric | Takes::Yaw | Takes::UpTo(_) | Takes::SatelliteMask
                )
            })
            .collect();
        if !narrow.is_empty() {
            at = rng.pick(&narrow);
        }
    }
    // its ephemeris type is one entry of an OCB among many
    if sheet.type_ == 0 && count > TYPE_ENTRY && rng.one_in(6) {
        at = TYPE_ENTRY;
    }
    let field = sheet.fields[at];
    let top = field.top();
    let wide = if field.width < 64 { top + 1 } else { top };
    let some = rng.draw() & top;
    sheet.codes[at] = match field.takes {
        Takes::Yaw => rng.pick(&[60, 61, 62, 64, u64::MAX]),
        Takes::UpTo(most) => {
            let over = rng.between(most + 1, top);
            rng.pick(&[most + 1, top, over, over, wide, u64::MAX])
        }
        Takes::Symmetric => rng.pick(&[top, top, wide, u64::MAX]),
        Takes::SatelliteMask => rng.pick(&[0, 0, wide, some]),
        _ => rng.pick(&[wide, u64::MAX, some, sheet.codes[at] ^ 1]),
    };
}

/// A sheet that is, mostly, refused: spoilt codes, cut, longer, too long for a payload, nothing, or
/// no sheet at all.
pub fn odd_sheet(rng: &mut Rng, type_: u64, subtype: u64) -> Vec<u64> {
    let mut made = sheet(rng, type_, subtype);
    match rng.below(9) {
        0 => {
            let end = rng.below(made.codes.len() as u64) as usize;
            made.codes.truncate(end);
        }
        1 => {
            for _ in 0..rng.between(1, 3) {
                let some = rng.draw();
                made.codes.push(rng.pick(&[0, 1, some]));
            }
        }
        2 => {
            // spoilt and longer: the fault wins
            spoil(rng, &mut made);
            made.codes.push(0);
        }
        3 => {
            // too long for a payload, and now and then longer than its own end
            for _ in 0..20 {
                made = rich_sheet(rng, type_, subtype, 3, Vec::new());
                if made.bits() > 8 * LONGEST_PAYLOAD {
                    break;
                }
            }
            if rng.one_in(3) {
                made.codes.push(1);
            }
            if rng.one_in(3) {
                spoil(rng, &mut made);
            }
        }
        4 => {
            // two faults: the first in reading order wins
            spoil(rng, &mut made);
            spoil(rng, &mut made);
        }
        5 => {
            let count = rng.below(60) as usize;
            return lent_entries(rng, count);
        }
        _ => spoil(rng, &mut made),
    }
    made.codes
}

/// A fault at one entry of a sheet that is valid but for it, or of the payload of one.
#[derive(Clone, Copy, PartialEq, Eq, Debug)]
pub struct Fault {
    pub why: Refusal,
    pub entry: usize,
}

impl Fault {
    /// What the writer has to say of it: the entries before it are counted.
    pub fn written(&self, sheet: &Sheet) -> Refused {
        Place { sf: sheet.fields[self.entry].sf, at: self.entry }.refuses(self.why)
    }

    /// What the reader has to say of it: the bits of the entries before it are counted.
    pub fn read(&self, sheet: &Sheet) -> Refused {
        Place { sf: sheet.fields[self.entry].sf, at: sheet.begins(self.entry) }.refuses(self.why)
    }
}

/// An entry out of these: each SF number as likely as another, however many entries have it; and of a
/// mask its size as likely as its bits, of SF079 a group that is not whole as likely as whole ones.
fn some_entry(rng: &mut Rng, sheet: &Sheet, of: &[usize]) -> Option<usize> {
    let sort = |entry: usize| {
        let Field { sf, width, .. } = sheet.fields[entry];
        (sf, if sf == 79 { width < 64 } else { width <= 2 })
    };
    let mut sorts: Vec<(u16, bool)> = of.iter().map(|&entry| sort(entry)).collect();
    sorts.sort();
    sorts.dedup();
    let any = (!sorts.is_empty()).then(|| rng.pick(&sorts))?;
    let entries: Vec<usize> = of.iter().copied().filter(|&entry| sort(entry) == any).collect();
    Some(rng.pick(&entries))
}

/// A code that the field does not take though it has its width, and what it is then: none where every
/// such code is taken.
fn wrong_code(rng: &mut Rng, field: Field) -> Option<(u64, Refusal)> {
    let top = field.top();
    match field.takes {
        Takes::Symmetric => Some((top, Refusal::Field)),
        Takes::Yaw => Some((rng.pick(&[60, 61, 62]), Refusal::Field)),
        Takes::UpTo(most) if most < top => {
            let some = rng.between(most + 1, top);
            Some((rng.pick(&[most + 1, top, some]), Refusal::Field))
        }
        Takes::SatelliteMask => Some((0, Refusal::MaskEmpty)),
        _ => None,
    }
}

/// A code too wide for the field: just so, by far, or the old one again if it is cut to the width, to 8,
/// 16 or 32 bits. None for 64 bits.
fn wide_code(rng: &mut Rng, field: Field, old: u64) -> Option<u64> {
    let bit = 1u64.checked_shl(field.width)?;
    let far = old | 1 << rng.pick(&[8, 16, 32, 63]).max(field.width);
    Some(rng.pick(&[bit, bit | old, far, u64::MAX]))
}

/// A valid sheet that ends before an entry.
pub fn cut_sheet(rng: &mut Rng, sheet: &Sheet) -> (Vec<u64>, Fault) {
    let all: Vec<usize> = (0..sheet.codes.len()).collect();
    let entry = some_entry(rng, sheet, &all).unwrap_or(0);
    (sheet.codes[..entry].to_vec(), Fault { why: Refusal::Short, entry })
}

/// A valid sheet with one code that its field does not take: too wide for it, or not.
pub fn wrong_sheet(rng: &mut Rng, sheet: &Sheet) -> Option<(Vec<u64>, Fault)> {
    let all: Vec<usize> = (0..sheet.codes.len()).collect();
    let entry = some_entry(rng, sheet, &all)?;
    let (field, mut codes) = (sheet.fields[entry], sheet.codes.clone());
    let wide = wide_code(rng, field, codes[entry]).map(|code| (code, Refusal::Field));
    let wrong = if rng.one_in(2) { wrong_code(rng, field) } else { None };
    let (code, why) = wrong.or(wide)?;
    codes[entry] = code;
    Some((codes, Fault { why, entry }))
}

/// The payload of a valid sheet, ending inside an entry or just before it. A payload has whole bytes, and at
/// least one: many an entry has no end of a byte in it.
pub fn cut_payload(rng: &mut Rng, sheet: &Sheet) -> Option<(Vec<u8>, Fault)> {
    let mut ends = Vec::new();
    let mut begins = 0;
    for (entry, field) in sheet.fields.iter().enumerate() {
        let after = begins + field.width as usize;
        ends.extend((begins.div_ceil(8).max(1)..after.div_ceil(8)).map(|end| (entry, end)));
        begins = after;
    }
    let entries: Vec<usize> = ends.iter().map(|&(entry, _)| entry).collect();
    let entry = some_entry(rng, sheet, &entries)?;
    let ends: Vec<usize> = ends.into_iter().filter(|&(of, _)| of == entry).map(|(_, end)| end).collect();
    let end = rng.pick(&ends);
    Some((sheet.payload()[..end].to_vec(), Fault { why: Refusal::Short, entry }))
}

/// The first bytes, 1,001 to 1,023, of a message that is longer than any payload: it is SHORT far behind. None if
/// no such message was found.
pub fn long_payload(rng: &mut Rng, type_: u64, subtype: u64) -> Option<(Sheet, Vec<u8>, Fault)> {
    let long = |made: &Sheet| made.bits() > 8 * LONGEST_PAYLOAD;
    let made = (0..4).map(|_| rich_sheet(rng, type_, subtype, 3, Vec::new())).find(long)?;
    let end = rng.between(1001, LONGEST_PAYLOAD as u64) as usize;
    let mut after = 0;
    let ends_in = |field: &Field| {
        after += field.width as usize;
        after > 8 * end
    };
    let entry = made.fields.iter().position(ends_in)?;
    let payload = made.payload()[..end].to_vec();
    Some((made, payload, Fault { why: Refusal::Short, entry }))
}

/// The payload of a valid sheet but for one code that its field does not take.
pub fn wrong_payload(rng: &mut Rng, sheet: &Sheet) -> Option<(Vec<u8>, Fault)> {
    let all = 0..sheet.codes.len();
    let narrow: Vec<usize> = all.filter(|&entry| wrong_code(rng, sheet.fields[entry]).is_some()).collect();
    let entry = some_entry(rng, sheet, &narrow)?;
    let (code, why) = wrong_code(rng, sheet.fields[entry])?;
    let mut other = sheet.clone();
    other.codes[entry] = code;
    Some((other.payload(), Fault { why, entry }))
}

/// A valid sheet of over 270,000 entries, far too long for a payload: 32 areas of HPAC with 127 nodes and
/// 63 or 64 satellites.
pub fn longest_sheet(rng: &mut Rng, subtype: u64) -> Sheet {
    let mask = &CONSTELLATIONS[subtype as usize];
    let full = u64::MAX >> (64 - mask.mask_sizes[3]);
    let row = |codes: &[u64], count: usize| codes.iter().copied().cycle().take(count).collect();
    let wanted = vec![
        (30, row(&[31], 1)),
        (39, row(&[127], 32)),
        (40, row(&[2], 64)),
        (mask.mask, row(&[3, full], 64)),
    ];
    rich_sheet(rng, 1, subtype, 0, wanted)
}

/// A payload that is read, with any fill and extra bytes behind it now and then.
pub fn payload(rng: &mut Rng, type_: u64, subtype: u64) -> Vec<u8> {
    let made = sheet(rng, type_, subtype);
    let mut bytes = made.payload();
    if rng.one_in(3) {
        // later bits are ignored
        let fill = bytes.len() * 8 - made.bits();
        if let Some(last) = bytes.last_mut() {
            *last |= rng.draw() as u8 & ((1u16 << fill) - 1) as u8;
        }
    }
    if rng.one_in(5) {
        let room = LONGEST_PAYLOAD.saturating_sub(bytes.len()) as u64;
        let most = rng.pick(&[room, room.min(4)]);
        let count = rng.below(most + 1) as usize;
        bytes.extend(rng.bytes(count));
    }
    bytes
}

/// A payload that is, mostly, refused or read as something else: spoilt codes, bits flipped, cut,
/// lengthened to and past 1,023 bytes, empty, or bytes of chance.
pub fn odd_payload(rng: &mut Rng, type_: u64, subtype: u64) -> Vec<u8> {
    let mut made = sheet(rng, type_, subtype);
    match rng.below(10) {
        0..=3 => {
            for _ in 0..rng.between(1, 2) {
                spoil(rng, &mut made);
            }
            made.payload()
        }
        4 | 5 => {
            let bytes = made.payload();
            damage(rng, &bytes)
        }
        6 => {
            let mut bytes = made.payload();
            let end = rng.below(bytes.len() as u64) as usize;
            bytes.truncate(end);
            bytes
        }
        7 => {
            let mut bytes = made.payload();
            bytes.resize(rng.between(1022, 1026) as usize, rng.draw() as u8);
            bytes
        }
        8 => {
            let count = rng.below(200) as usize;
            rng.bytes(count)
        }
        _ => rich_sheet(rng, type_, subtype, 3, Vec::new()).payload(),
    }
}

/// A payload for a frame that is refused so by its reader, if some tries make one.
fn refused_payload(rng: &mut Rng, type_: u64, subtype: u64, refusal: Refusal) -> Option<Vec<u8>> {
    (0..60).map(|_| odd_payload(rng, type_, subtype)).find(|odd| {
        let fits = (1..=LONGEST_PAYLOAD).contains(&odd.len());
        fits && open(type_, subtype, odd).is_err_and(|given| given.why == refusal)
    })
}

/// Bits flipped, a part cut away, or bytes put in.
pub fn damage(rng: &mut Rng, bytes: &[u8]) -> Vec<u8> {
    let mut damaged = bytes.to_vec();
    match rng.below(6) {
        0 if !damaged.is_empty() => {
            let end = rng.below(damaged.len() as u64) as usize;
            damaged.truncate(end);
        }
        1 => {
            let at = rng.below(damaged.len() as u64 + 1) as usize;
            let count = rng.between(1, 4) as usize;
            let put_in = rng.bytes(count);
            damaged.splice(at..at, put_in);
        }
        2 if !damaged.is_empty() => {
            let at = rng.below(damaged.len() as u64) as usize;
            damaged.remove(at);
        }
        _ => {
            for _ in 0..rng.between(1, 4) {
                if !damaged.is_empty() {
                    let at = rng.below(damaged.len() as u64) as usize;
                    damaged[at] ^= 1 << rng.below(8);
                }
            }
        }
    }
    damaged
}

// ---------------------------------------------------------------- frames

/// The parts of a plain frame, all in range: any of the types, both tag kinds, all check types.
pub fn parts(rng: &mut Rng) -> Plain {
    let (mut type_, mut subtype) = rng.pick(&TWELVE);
    if rng.one_in(3) {
        type_ = rng.below(128);
        type_ = rng.pick(&[type_, 4, 120, 127]);
        subtype = rng.below(16);
    }
    let tag_kind = rng.below(2);
    let solution = rng.below(128);
    let processor = rng.below(16);
    Plain {
        type_,
        check_type: rng.below(4),
        subtype,
        tag_kind,
        tag: tag(rng, tag_kind),
        solution: rng.pick(&[0, 127, solution]),
        processor: rng.pick(&[0, 15, processor]),
    }
}

/// A tag of a kind: kind 0 over 43,199 too, kind 1 up to its top.
pub fn tag(rng: &mut Rng, kind: u64) -> u64 {
    if kind == 0 {
        let some = rng.below(HALF_DAY);
        let over = rng.between(HALF_DAY, 65535);
        rng.pick(&[0, 43199, 43200, 65535, some, some, over])
    } else {
        let some = rng.below(1 << 32);
        rng.pick(&[0, 43199, 43200, 65536, u32::MAX as u64, some, some])
    }
}

/// Parts one of which may be out of its range: for the plain writer.
pub fn odd_parts(rng: &mut Rng) -> Plain {
    let mut made = parts(rng);
    match rng.below(9) {
        0 => made.type_ = rng.pick(&[128, u64::MAX]),
        1 => made.check_type = rng.pick(&[4, u64::MAX]),
        2 => made.subtype = rng.pick(&[16, u64::MAX]),
        3 => made.tag_kind = rng.pick(&[2, u64::MAX]),
        4 => (made.tag_kind, made.tag) = (0, rng.pick(&[65536, u64::MAX])),
        5 => (made.tag_kind, made.tag) = (1, rng.pick(&[1 << 32, u64::MAX])),
        6 => made.solution = rng.pick(&[128, u64::MAX]),
        7 => made.processor = rng.pick(&[16, u64::MAX]),
        _ => {}
    }
    made
}

/// A seal; with `counting` TF015 is 5 to 7 only where it does not count.
pub fn seal(rng: &mut Rng, counting: bool) -> Seal {
    let authentication = rng.below(8);
    let authentication_length = if counting && authentication > 1 { rng.below(5) } else { rng.below(8) };
    Seal { encryption: rng.below(16), sequence: rng.below(64), authentication, authentication_length }
}

/// The size of a payload: the ends now and then, mostly short.
fn payload_size(rng: &mut Rng) -> usize {
    let short = rng.between(1, 60);
    let some = rng.between(1, 1023);
    rng.pick(&[1, short, short, short, some, 1023]) as usize
}

/// A sealed frame of these parts, accepted by the check.
pub fn sealed(rng: &mut Rng, parts: &Plain, payload: &[u8]) -> Vec<u8> {
    let seal = seal(rng, true);
    let size = if seal.authentication > 1 {
        AUTHENTICATION_BYTES.get(seal.authentication_length as usize).copied().unwrap_or(0)
    } else {
        0
    };
    let authentication = rng.bytes(size);
    assemble(parts, Some(&seal), payload, &authentication)
}

/// A frame that the check accepts: plain or sealed, of a payload that is read or of chance.
pub fn frame(rng: &mut Rng) -> Vec<u8> {
    let parts = parts(rng);
    let size = payload_size(rng);
    let mut payload = rng.bytes(size);
    if rng.one_in(2) && crate::payload::known(parts.type_, parts.subtype) {
        payload = sheet(rng, parts.type_, parts.subtype).payload();
    }
    if rng.one_in(3) {
        sealed(rng, &parts, &payload)
    } else {
        assemble(&parts, None, &payload, &[])
    }
}

/// Bytes that, mostly, are no accepted frame: a wrong TF006 or TF018, TF003 of 0, TF015 of 5 to 7
/// where it counts, cut, another first byte, bits flipped.
pub fn odd_frame(rng: &mut Rng) -> Vec<u8> {
    let mut bytes = frame(rng);
    match rng.below(9) {
        0 => bytes[3] ^= rng.between(1, 15) as u8,
        1 => {
            let last = bytes.len() - 1;
            bytes[last] ^= rng.between(1, 255) as u8;
        }
        2 => {
            let parts = parts(rng);
            bytes = assemble(&parts, None, &[], &[]);
            let end = rng.between(0, bytes.len() as u64) as usize;
            bytes.truncate(rng.pick(&[end, 4, bytes.len()]));
        }
        3 => {
            let parts = parts(rng);
            let seal = Seal {
                authentication: rng.between(2, 7),
                authentication_length: rng.between(5, 7),
                ..seal(rng, false)
            };
            let size = payload_size(rng);
            let payload = rng.bytes(size);
            bytes = assemble(&parts, Some(&seal), &payload, &[]);
            let end = rng.between(4, 13) as usize;
            if rng.one_in(2) {
                bytes.truncate(end);
            }
        }
        4 => {
            let end = rng.below(bytes.len() as u64) as usize;
            let few = rng.below(14) as usize;
            bytes.truncate(rng.pick(&[end, few, bytes.len() - 1]));
        }
        5 => bytes[0] = rng.draw() as u8,
        6 => bytes = damage(rng, &bytes),
        7 => {
            // a flip behind the header: TF018 alone is wrong, or the frame's length differs
            let at = rng.between(4, bytes.len() as u64 - 1) as usize;
            bytes[at] ^= 1 << rng.below(8);
        }
        _ => {
            let count = rng.below(40) as usize;
            bytes = rng.bytes(count);
            if !bytes.is_empty() {
                bytes[0] = PREAMBLE;
            }
        }
    }
    bytes
}

// ---------------------------------------------------------------- streams

/// Noise: bytes of chance, zeros, or many preambles.
pub fn noise(rng: &mut Rng, count: usize) -> Vec<u8> {
    let kind = rng.below(4);
    (0..count)
        .map(|_| match kind {
            0 => 0,
            1 => rng.draw() as u8,
            2 => rng.pick(&[PREAMBLE, PREAMBLE, 0, 0xFF]),
            _ => rng.pick(&[1, 2, 3]),
        })
        .collect()
}

/// A frame with frames in its payload; its own check is right or wrong.
pub fn nested(rng: &mut Rng) -> Vec<u8> {
    let count = rng.below(5) as usize;
    let mut payload = noise(rng, count);
    for _ in 0..rng.between(1, 3) {
        let inner = if rng.one_in(4) { odd_frame(rng) } else { frame(rng) };
        if payload.len() + inner.len() <= LONGEST_PAYLOAD {
            payload.extend(inner);
        }
    }
    if payload.is_empty() {
        payload.push(PREAMBLE);
    }
    let parts = parts(rng);
    let mut outer =
        if rng.one_in(4) { sealed(rng, &parts, &payload) } else { assemble(&parts, None, &payload, &[]) };
    match rng.below(4) {
        0 => {}
        1 => {
            let end = rng.below(outer.len() as u64) as usize;
            outer.truncate(end);
        }
        _ => {
            let last = outer.len() - 1;
            outer[last] ^= 0x10;
        }
    }
    outer
}

/// Frames with noise, bad frames, cut frames and nested ones between them.
pub fn joined(rng: &mut Rng, frames: &[Vec<u8>]) -> Vec<u8> {
    let mut stream = Vec::new();
    for frame in frames {
        match rng.below(8) {
            0 | 1 => {
                let count = rng.between(1, 30) as usize;
                stream.extend(noise(rng, count));
            }
            2 => stream.extend(odd_frame(rng)),
            3 => stream.extend(nested(rng)),
            _ => {}
        }
        stream.extend_from_slice(frame);
    }
    if rng.one_in(2) {
        let end = rng.below(30) as usize;
        stream.extend(noise(rng, end));
    }
    if rng.one_in(3) {
        // the input ends within a frame
        let last = frame(rng);
        let end = rng.below(last.len() as u64) as usize;
        stream.extend_from_slice(&last[..end]);
    }
    stream
}

/// A stream of up to some twenty frames.
pub fn stream(rng: &mut Rng) -> Vec<u8> {
    let count = rng.below(20);
    let frames: Vec<Vec<u8>> = (0..count).map(|_| frame(rng)).collect();
    joined(rng, &frames)
}

/// A stream with noise at and beyond 65,535, before a frame or before the end.
pub fn noisy_stream(rng: &mut Rng) -> Vec<u8> {
    let mut stream = Vec::new();
    for _ in 0..rng.between(1, 2) {
        let few = rng.below(5);
        let about = rng.pick(&[MOST_NOISE - few, MOST_NOISE + few, 2 * MOST_NOISE + few, MOST_NOISE]);
        let value = rng.pick(&[0, 1, 0xFF]);
        stream.resize(stream.len() + about as usize, value);
        match rng.below(4) {
            0 => {}
            1 => stream.extend(nested(rng)),
            2 => stream.extend_from_slice(&[PREAMBLE, PREAMBLE, 0]),
            _ => stream.extend(frame(rng)),
        }
    }
    stream
}

/// The sizes of the portions of an input: they add up to it; some are empty, some are one byte.
pub fn cutting(rng: &mut Rng, length: usize) -> Vec<usize> {
    let mut cuts = Vec::new();
    let mut left = length;
    let most = rng.pick(&[1, 3, 50, 500, 5000, length as u64 + 1]);
    // no more than some thousand portions
    let most = most.max(length as u64 / 2000);
    while left > 0 {
        let some = rng.between(1, most);
        let size = rng.pick(&[0, 1, some, some]).min(left as u64) as usize;
        cuts.push(size);
        left -= size;
    }
    if rng.one_in(3) {
        cuts.push(0);
    }
    cuts
}

// ---------------------------------------------------------------- trays

/// A sound tray and its lent bytes (with surplus now and then).
pub fn tray(rng: &mut Rng) -> (Tray, Vec<u8>) {
    let mut held = Vec::new();
    let mut shown = 0;
    match rng.below(6) {
        0 => {}
        1 => {
            held = frame(rng);
            shown = held.len() as u64;
        }
        2 => {
            // a frame shown and more behind it
            held = frame(rng);
            shown = held.len() as u64;
            let count = rng.below(40) as usize;
            held.extend(noise(rng, count));
            held.truncate((shown as usize).max(LONGEST_FRAME));
        }
        3 => {
            let count = rng.pick(&[1, 2, 1102, 1103]);
            held = noise(rng, count);
        }
        4 => held = nested(rng),
        _ => held = odd_frame(rng),
    }
    held.truncate(LONGEST_FRAME);
    let some = rng.below(MOST_NOISE);
    let state = Tray {
        held: held.len() as u64,
        shown,
        noise: rng.pick(&[0, 0, 1, MOST_NOISE - 1, MOST_NOISE - 2, some]),
    };
    held.resize(LONGEST_FRAME, 0);
    if rng.one_in(3) {
        let surplus = rng.between(1, 9) as usize;
        held.extend(rng.bytes(surplus));
    }
    (state, held)
}

/// A tray that is not sound.
pub fn unsound_tray(rng: &mut Rng) -> (Tray, Vec<u8>) {
    let (mut state, mut bytes) = tray(rng);
    match rng.below(5) {
        0 => state.noise = rng.pick(&[MOST_NOISE, MOST_NOISE + 1, u64::MAX]),
        1 => state.held = rng.pick(&[1104, 1105, 65536, u64::MAX]),
        2 if state.held < LONGEST_FRAME as u64 => {
            let at = rng.between(state.held, LONGEST_FRAME as u64 - 1) as usize;
            let at = rng.pick(&[at, state.held as usize, LONGEST_FRAME - 1]);
            bytes[at] = rng.between(1, 255) as u8;
            // a byte put behind a frame that is only just held may complete nothing: still unsound
        }
        3 => state.shown = rng.pick(&[1104, u64::MAX, state.held + 1]),
        _ => {
            // a length other than that of the frame lying first
            let right = crate::frame::check(&bytes[..(state.held as usize).min(bytes.len())])
                .map_or(0, |frame| frame.length as u64);
            let wrong = rng.between(1, 1103);
            state.shown = if wrong == right { wrong + 1 } else { wrong };
        }
    }
    (state, bytes)
}

// ---------------------------------------------------------------- areas, books, kept books

/// An area that stays north of the pole.
pub fn area(rng: &mut Rng, id: u64) -> GadArea {
    let latitude = rng.below(1801);
    let longitude = rng.below(3601);
    let mut of = GadArea {
        id,
        latitude: rng.pick(&[1800, 900, latitude]),
        longitude: rng.pick(&[0, 3600, longitude]),
        latitude_count: rng.below(8),
        longitude_count: rng.below(8),
        latitude_spacing: rng.below(32),
        longitude_spacing: rng.below(32),
    };
    if rng.one_in(3) {
        of.latitude_count = rng.pick(&[0, 1]);
        of.longitude_count = rng.pick(&[0, 1]);
    }
    let reach = of.latitude_count * (of.latitude_spacing + 1);
    if of.latitude < reach || rng.one_in(6) {
        // just to the pole
        of.latitude = reach;
    }
    of
}

/// An area that runs over the pole, often by one step.
pub fn area_off(rng: &mut Rng, id: u64) -> GadArea {
    let mut of = area(rng, id);
    of.latitude_count = rng.between(1, 7);
    let reach = of.latitude_count * (of.latitude_spacing + 1);
    let some = rng.below(reach);
    of.latitude = rng.pick(&[reach - 1, 0, some]);
    of
}

/// A sound book as areas: ascending, none to 32, IDs at the ends now and then.
pub fn areas(rng: &mut Rng) -> Vec<GadArea> {
    let some = rng.below(33);
    let count = rng.pick(&[0, 1, 2, 31, 32, some]);
    let mut ids: Vec<u64> = Vec::new();
    let first = rng.pick(&[0, 256 - count, 1000]);
    while (ids.len() as u64) < count {
        let id = if first < 256 { first + ids.len() as u64 } else { rng.below(256) };
        let id = if id > 255 || ids.contains(&id) { rng.below(256) } else { id };
        if !ids.contains(&id) {
            ids.push(id);
        }
    }
    ids.sort();
    ids.into_iter().map(|id| area(rng, id)).collect()
}

/// A SIOU: 0 and 511, those whose SIOU + 1 is just of one and of two groups, any.
pub fn siou(rng: &mut Rng) -> u64 {
    let some = rng.below(TOP_SIOU + 1);
    rng.pick(&[0, TOP_SIOU, 126, 127, some, some, some, some])
}

/// A SIOU other than this one: the next, the one before, or any.
pub fn other_siou(rng: &mut Rng, than: u64) -> u64 {
    let count = TOP_SIOU + 1;
    let by = rng.between(1, count - 1);
    (than + rng.pick(&[1, 1, count - 1, by])) % count
}

/// The numbers of a book with so many areas: its SIOU is known, now and then it is not.
fn book_of(rng: &mut Rng, count: u64) -> Book {
    let (aiou, siou, unknown) = (rng.below(TOP_AIOU + 1), siou(rng), rng.one_in(4));
    if count == 0 {
        return Book::default();
    }
    Book { aiou: Some(aiou), siou: if unknown { None } else { Some(siou) }, count }
}

/// A sound book and its lent bytes: garbage past the areas, surplus now and then.
pub fn book(rng: &mut Rng) -> (Book, Vec<u8>) {
    let held = areas(rng);
    let of = book_of(rng, held.len() as u64);
    let surplus = rng.pick(&[0, 0, 1, 7]);
    let mut bytes = rng.bytes(BOOK_BYTES + surplus);
    put(&held, &mut bytes);
    (of, bytes)
}

/// A book that is, but for rare chance, not sound.
pub fn unsound_book(rng: &mut Rng) -> (Book, Vec<u8>) {
    let (mut of, mut bytes) = book(rng);
    let at = rng.below(of.count) as usize;
    match rng.below(10) {
        8 => of.siou = Some(rng.pick(&[512, 513, 1024, 512 + (1 << 32), u64::MAX])),
        // a SIOU where there is no AIOU: nothing else is wrong with it
        9 => of = Book { siou: Some(siou(rng)), ..Book::default() },
        0 => of.aiou = Some(rng.pick(&[16, 255, u64::MAX])),
        1 => of.count = rng.pick(&[33, 256, u64::MAX]),
        2 => of.aiou = if of.aiou.is_some() { None } else { Some(0) },
        3 if of.count > 0 => of.count = 0,
        4 if of.count > 0 => bytes[6 * at + 5] |= 1,
        5 if of.count > 0 => put(&[area_off(rng, bytes[6 * at] as u64)], &mut bytes[6 * at..]),
        6 if of.count > 0 => {
            // latitude 1801 or more, or longitude 3601 or more
            let mut bad = area(rng, bytes[6 * at] as u64);
            if rng.one_in(2) {
                bad.latitude = rng.pick(&[1801, 2047]);
            } else {
                bad.longitude = rng.pick(&[3601, 4095]);
            }
            put(&[bad], &mut bytes[6 * at..]);
        }
        _ if of.count > 1 => {
            // not ascending: a repeat or a swap
            let at = at.min(of.count as usize - 2);
            if rng.one_in(2) {
                bytes[6 * at + 6] = bytes[6 * at];
            } else {
                for i in 0..6 {
                    bytes.swap(6 * at + i, 6 * at + 6 + i);
                }
            }
        }
        _ => of.count = 33,
    }
    (of, bytes)
}

/// A kept book that is read, of either form.
pub fn kept(rng: &mut Rng) -> Vec<u8> {
    kept_numbers(rng).into_iter().flat_map(groups).collect()
}

/// A kept book that is read, of either form, as its numbers.
pub fn kept_numbers(rng: &mut Rng) -> Vec<u64> {
    let (form, held) = (rng.pick(&[FORM_1, FORM_2]), areas(rng));
    let of = book_of(rng, held.len() as u64);
    kept::numbers(form, &of, &held)
}

/// How many numbers a kept book has before its areas: form number, AIOU + 1, in form 2 SIOU + 1,
/// count.
pub fn kept_head(form: u64) -> usize {
    if form == FORM_1 {
        3
    } else {
        4
    }
}

/// What is put in the place of one number of a kept book that is read: those beside it, 0, the
/// limits of every number and those beside them, those that are it again if they are cut to 8, 16
/// or 32 bits; of an area others of its ID, at and over the bounds of their fields and off the
/// pole, and the same one with other IDs.
pub fn kept_changes(numbers: &[u64], at: usize) -> Vec<u64> {
    let number = numbers[at];
    let mut others = vec![number.wrapping_sub(1), number.wrapping_add(1)];
    for limit in [0, 1, 2, 3, TOP_AIOU + 1, MOST_AREAS, 128, 255, TOP_SIOU + 1, 1 << 47] {
        others.extend([limit, limit + 1]);
    }
    others.extend([number.wrapping_add(1 << 8), number.wrapping_add(1 << 16)]);
    others.extend([number.wrapping_add(1 << 32), 1 << 63, number | 1 << 63, u64::MAX]);
    let head = kept_head(numbers[0]);
    if let (true, Some(of)) = (at >= head, area_of(number)) {
        // the last ID that leaves room for those behind it
        let last = 255 - (numbers.len() - 1 - at) as u64;
        let before = at.checked_sub(head + 1).and_then(|place| area_of(numbers[head + place]));
        let reach = 7 * (of.latitude_spacing + 1);
        let mut areas = vec![
            GadArea { latitude: 1800, ..of },
            GadArea { latitude: 1801, ..of },
            GadArea { latitude: 2047, ..of },
            GadArea { longitude: 3600, ..of },
            GadArea { longitude: 3601, ..of },
            GadArea { longitude: 4095, ..of },
            GadArea { latitude_count: 7, latitude: reach, ..of },
            GadArea { latitude_count: 7, latitude: reach - 1, ..of },
            GadArea { longitude_count: of.longitude_count ^ 1, ..of },
            GadArea { id: of.id.saturating_sub(1), ..of },
            GadArea { id: (of.id + 1).min(255), ..of },
            GadArea { id: last, ..of },
            GadArea { id: (last + 1).min(255), ..of },
        ];
        areas.extend(before.iter().flat_map(|before| {
            [GadArea { id: before.id, ..of }, GadArea { id: (before.id + 1).min(255), ..of }]
        }));
        others.extend(areas.iter().map(area_number));
    }
    others.sort();
    others.dedup();
    others.retain(|&other| other != number);
    others
}

/// A kept book that, mostly, is not: cut, longer, a number out of range, not in shortest form, of
/// many groups, too large for any type, areas out of order, IDs that leave no room for the rest;
/// the numbers of the other form, a SIOU without an AIOU.
pub fn broken_kept(rng: &mut Rng) -> Vec<u8> {
    let mut numbers = kept_numbers(rng);
    let form = numbers[0];
    let head = kept_head(form);
    let count = (numbers.len() - head) as u64;
    let at = rng.below(numbers.len() as u64) as usize;
    // the area that stands there
    let held = if at >= head { area_of(numbers[at]) } else { None };
    match (rng.below(13), held) {
        (0, _) => numbers[0] = rng.pick(&[0, 3, 128, 257, 258, u64::MAX]),
        (1, _) => numbers[0] = FORM_1 + FORM_2 - form,
        (2, _) => numbers[1] = rng.pick(&[0, 1, 17, 128, u64::MAX]),
        (3, _) if form == FORM_2 => {
            let large = rng.between(513, 2000);
            numbers[2] = rng.pick(&[513, 513, 514, 1024, large, 512 + (1 << 32), u64::MAX]);
        }
        (4, _) if form == FORM_2 => {
            // a SIOU without an AIOU: with no area behind it, and with some
            let some = rng.between(1, 512);
            (numbers[1], numbers[2]) = (0, rng.pick(&[1, 512, 513, some]));
            if rng.one_in(2) {
                numbers[3] = 0;
                numbers.truncate(4);
            }
        }
        (5, _) => numbers[head - 1] = rng.pick(&[0, 33, 128, count + 1, u64::MAX]),
        (6, Some(some)) => {
            let lower = GadArea { latitude: 1801, ..some };
            let off = area_off(rng, some.id);
            numbers[at] = rng.pick(&[area_number(&off), area_number(&lower), 1 << 47, u64::MAX]);
        }
        (7, Some(_)) if at > head => numbers[at] = numbers[at - 1],
        (8, Some(some)) => {
            // an ID at or past the last that leaves room
            let left = (numbers.len() - 1 - at) as u64;
            let id = rng.pick(&[255, 255 - left, (256 - left).min(255)]);
            numbers[at] = area_number(&GadArea { id, ..some });
            if rng.one_in(2) {
                numbers.truncate(at + 1);
            }
        }
        _ => {}
    }
    let mut form: Vec<Vec<u8>> = numbers.iter().map(|&number| groups(number)).collect();
    let at = at.min(form.len() - 1);
    match rng.below(8) {
        0 => {
            // not in shortest form
            if let Some(last) = form[at].last_mut() {
                *last |= 0x80;
            }
            for _ in 0..rng.pick(&[0, 0, 1, 20]) {
                form[at].push(0x80);
            }
            form[at].push(0);
        }
        1 => {
            // a number of many groups, ended or not
            let count = rng.pick(&[7, 9, 10, 11, 300]);
            form[at] = vec![rng.pick(&[0x80, 0xFF]); count];
            if rng.one_in(2) {
                form[at].push(rng.pick(&[1, 2, 0x7F]));
            } else {
                form.truncate(at + 1);
            }
        }
        2 => {
            let count = rng.between(1, 3) as usize;
            form.push(rng.bytes(count));
        }
        3 | 4 => {
            let whole: Vec<u8> = form.concat();
            let end = rng.below(whole.len() as u64) as usize;
            return whole[..end].to_vec();
        }
        5 => {
            let whole: Vec<u8> = form.concat();
            return damage(rng, &whole);
        }
        _ => {}
    }
    form.concat()
}

// ---------------------------------------------------------------- entries of the run log

/// An entry that is read, of any kind; mostly an area placed.
pub fn entry(rng: &mut Rng) -> Entry {
    match rng.below(8) {
        0 => opened(rng),
        1 => left_out(rng),
        2..=4 => {
            // few numbers
            let (rows, columns, satellites) = (rng.between(1, 2), rng.between(1, 3), rng.below(4));
            placed(rng, rows, columns, satellites)
        }
        5 => {
            // many satellites, one node
            let most = rng.pick(&[MOST_SATELLITES, MOST_SATELLITES - 1]);
            let satellites = rng.between(1, most);
            let satellites = rng.pick(&[most, satellites]);
            placed(rng, 1, 1, satellites)
        }
        _ => {
            let (rows, columns, satellites) = (rng.between(1, 8), rng.between(1, 8), rng.below(9));
            placed(rng, rows, columns, satellites)
        }
    }
}

/// A run opened.
pub fn opened(rng: &mut Rng) -> Entry {
    let (some, tag) = (rng.between(1, MOST_COUNT), rng.below(HALF_DAY));
    let tag = rng.pick(&[0, 127, 128, 16383, 16384, HALF_DAY - 1, tag, tag]);
    if rng.one_in(4) {
        return Entry::Opened { tag, aiou: None, count: 0 };
    }
    Entry::Opened { tag, aiou: Some(rng.below(16)), count: rng.pick(&[1, MOST_COUNT, some, some]) }
}

/// An area left out.
pub fn left_out(rng: &mut Rng) -> Entry {
    Entry::LeftOut { id: some_id(rng), reason: rng.between(1, LAST_REASON) }
}

fn some_id(rng: &mut Rng) -> u64 {
    let id = rng.below(256);
    rng.pick(&[0, 127, 128, 255, id, id, id, id])
}

/// An area placed with so many rows and columns of nodes and so many satellites, with or without a
/// troposphere grid.
pub fn placed(rng: &mut Rng, rows: u64, columns: u64, satellites: u64) -> Entry {
    let id = some_id(rng);
    let mut of = area(rng, id);
    (of.latitude_count, of.longitude_count) = (rows - 1, columns - 1);
    of.latitude = of.latitude.max(of.latitude_count * (of.latitude_spacing + 1));
    let nodes = rows * columns;
    let troposphere = (!rng.one_in(3)).then(|| grid(rng, &[6, 8], nodes));
    let numbers = satellite_numbers(rng, satellites);
    let satellites =
        numbers.into_iter().map(|number| Satellite { number, grid: grid(rng, &[4, 7, 10, 14], nodes) });
    let satellites = satellites.collect();
    Entry::Placed(Placed { id, bits: area_number(&of), troposphere, satellites })
}

/// A size code by these widths, and residuals as the log has them.
fn grid(rng: &mut Rng, widths: &[u32], nodes: u64) -> entries::Grid {
    let size = rng.below(widths.len() as u64);
    let top = (1u64 << widths[size as usize]) - 1;
    let residuals = (0..nodes)
        .map(|_| {
            let some = rng.below(top + 1);
            rng.pick(&[0, 1, top, (top + 1) / 2, some, some, some, some])
        })
        .collect();
    entries::Grid { size, residuals }
}

/// So many satellite numbers of one band, ascending: the first ones, the last ones, or any.
fn satellite_numbers(rng: &mut Rng, count: u64) -> Vec<u64> {
    let mut numbers: Vec<u64> = BANDS[rng.below(2) as usize].clone().collect();
    let way = rng.below(4);
    while numbers.len() as u64 > count {
        let last = numbers.len() as u64 - 1;
        let any = rng.below(last + 1);
        numbers.remove([last, 0, any, any][way as usize] as usize);
    }
    numbers
}

/// Bytes that, mostly, don't begin with an entry: a number replaced, not in shortest form, of many
/// groups; cut, flipped, random.
pub fn broken_entry(rng: &mut Rng) -> Vec<u8> {
    let whole = entry(rng);
    let mut numbers = entries::numbers(&whole);
    let count = numbers.len() as u64;
    let (near, any) = (rng.below(count.min(8)), rng.below(count));
    let at = rng.pick(&[near, near, any]) as usize;
    let old = numbers[at];
    let beside = rng.pick(&[old.wrapping_sub(1), old + 1]);
    let small = rng.pick(&[0, 2, 3, 4, 5, 6, 16, 33, 64, 65]);
    let large = rng.pick(&[128, 192, 193, 255, 256, 257, 16384, 43200, 1 << 47, u64::MAX]);
    let limit = rng.pick(&[small, large]);
    let mut form: Vec<Vec<u8>> = numbers.iter().map(|&number| groups(number)).collect();
    match rng.below(7) {
        0 | 1 => {
            numbers[at] = rng.pick(&[beside, limit]);
            form[at] = groups(numbers[at]);
            if rng.one_in(2) {
                form.truncate(at + 1);
            }
        }
        2 => {
            // not in shortest form
            if let Some(last) = form[at].last_mut() {
                *last |= 0x80;
            }
            for _ in 0..rng.pick(&[0, 0, 1, 20]) {
                form[at].push(0x80);
            }
            form[at].push(0);
        }
        3 => {
            // a number of many groups, ended or not
            let count = rng.pick(&[1, 7, 9, 10, 11, 300]);
            form[at] = vec![rng.pick(&[0x80, 0xFF]); count];
            if rng.one_in(2) {
                form[at].push(rng.pick(&[0, 1, 2, 0x7F]));
            } else {
                form.truncate(at + 1);
            }
        }
        4 => {
            let whole: Vec<u8> = form.concat();
            return whole[..rng.below(whole.len() as u64) as usize].to_vec();
        }
        5 => {
            let whole: Vec<u8> = form.concat();
            return damage(rng, &whole);
        }
        _ => {
            let (kind, count) = (rng.below(5) as u8, rng.below(30) as usize);
            return [&[kind][..], &rng.bytes(count)].concat();
        }
    }
    form.concat()
}

// ---------------------------------------------------------------- seconds

/// A second of a first frame: 0, small, any, in the middle, at the end of the width.
pub fn first_second(rng: &mut Rng) -> u64 {
    let (small, any) = (rng.below(2000), rng.draw());
    let near_end = u64::MAX - rng.below(1000);
    rng.pick(&[0, 1, small, small, small, small, any, any, 1 << 63, u64::MAX - GAP, near_end, u64::MAX])
}

/// A second less than 450 after another one: the same, beside it, just no gap, or earlier.
pub fn near_second(rng: &mut Rng, last: u64) -> u64 {
    let (few, some, less, any) = (rng.below(4), rng.below(GAP), rng.between(1, 2 * GAP), rng.below(last));
    let later = rng.pick(&[0, 0, 1, few, few, some, GAP - 1]);
    let (later, earlier) = (last.saturating_add(later), last.saturating_sub(less));
    rng.pick(&[later, later, later, earlier, any])
}

/// A second 450 or more after another one: just so, one more, long after, at the end of the width.
/// None if the width ends before.
pub fn gap_second(rng: &mut Rng, last: u64) -> Option<u64> {
    let least = last.checked_add(GAP)?;
    let some = rng.between(least, least.saturating_add(100_000));
    // after the end of the width no gap comes any more, so that is rare
    let far = if rng.one_in(12) { u64::MAX } else { some };
    Some(rng.pick(&[least, least, least.saturating_add(1), far, far]))
}

/// A second for a frame after one at `last`: now and then a gap.
pub fn next_second(rng: &mut Rng, last: u64) -> u64 {
    let gap = if rng.one_in(3) { gap_second(rng, last) } else { None };
    gap.unwrap_or_else(|| near_second(rng, last))
}

/// A second for a desk as it stands: by its last one, or by none.
pub fn second_for(rng: &mut Rng, desk: &Desk) -> u64 {
    match desk.last {
        Last::At(last) => next_second(rng, last),
        _ => first_second(rng),
    }
}

// ---------------------------------------------------------------- desks

/// A desk with its two lent books.
#[derive(Clone, Debug)]
pub struct Table {
    pub desk: Desk,
    pub live: Vec<u8>,
    pub run: Vec<u8>,
}

/// A sound desk, with and without a run, with books of every size, with every kind of last second.
pub fn table(rng: &mut Rng) -> Table {
    let (live_book, live) = book(rng);
    let (mut run_book, mut run) = book(rng);
    if rng.one_in(3) {
        (run_book, run) = (live_book, live.clone());
        // the solver has restarted since the run was opened, and kept its AIOU; or the run's book
        // was taken in form 1
        if let (Some(siou), true) = (live_book.siou, rng.one_in(3)) {
            run_book.siou = if rng.one_in(4) { None } else { Some(other_siou(rng, siou)) };
        }
    }
    let tag = rng.below(HALF_DAY);
    let tag = rng.pick(&[0, 43199, tag]);
    let solution = rng.below(128);
    let processor = rng.below(16);
    let desk = Desk {
        solution: rng.pick(&[0, 127, solution]),
        processor: rng.pick(&[0, 15, processor]),
        constellation: rng.below(5),
        live: live_book,
        run: if rng.one_in(3) { None } else { Some(Run { tag, book: run_book }) },
        // a book without any frame before it is one that was kept, so rarely
        last: if rng.one_in(5) { Last::Never } else { Last::At(first_second(rng)) },
    };
    Table { desk, live, run }
}

/// A desk that is, but for rare chance, not sound. (With no run open the run's book does not count:
/// now and then it is broken there, and the desk is sound.)
pub fn unsound_table(rng: &mut Rng) -> Table {
    let mut made = table(rng);
    match rng.below(7) {
        0 => made.desk.solution = rng.pick(&[128, 255, u64::MAX]),
        1 => made.desk.processor = rng.pick(&[16, 255, u64::MAX]),
        2 => made.desk.constellation = rng.pick(&[5, 255, u64::MAX]),
        3 => (made.desk.live, made.live) = unsound_book(rng),
        4 => {
            let (run_book, run) = unsound_book(rng);
            made.run = run;
            if let Some(open) = &mut made.desk.run {
                open.book = run_book;
            }
        }
        5 => made.desk.last = Last::Neither,
        _ => {
            let tag = rng.pick(&[43200, 65535, u64::MAX]);
            let run_book = made.desk.run.map_or(Book::default(), |open| open.book);
            made.desk.run = Some(Run { tag, book: run_book });
        }
    }
    made
}

/// A GAD sheet of these areas.
pub fn gad_sheet(rng: &mut Rng, aiou: u64, siou: u64, areas: &[GadArea]) -> Sheet {
    let column = |of: fn(&GadArea) -> u64| areas.iter().map(of).collect::<VecDeque<u64>>();
    let wanted = vec![
        (5, VecDeque::from([siou])),
        (68, VecDeque::from([aiou])),
        (30, VecDeque::from([areas.len().saturating_sub(1) as u64])),
        (31, column(|area| area.id)),
        (32, column(|area| area.latitude)),
        (33, column(|area| area.longitude)),
        (34, column(|area| area.latitude_count)),
        (35, column(|area| area.longitude_count)),
        (36, column(|area| area.latitude_spacing)),
        (37, column(|area| area.longitude_spacing)),
    ];
    rich_sheet(rng, 2, 0, 0, wanted)
}

/// An HPAC sheet for a book: its own AIOU and SIOU or others, areas of the book with the right
/// number of nodes or another, areas not in the book.
pub fn hpac_sheet(rng: &mut Rng, subtype: u64, aiou: u64, siou: u64, known: &[GadArea]) -> Sheet {
    let most = rng.pick(&[1, 1, 2, 4, 12]);
    let count = rng.between(1, most);
    let mut ids = VecDeque::new();
    let mut node_counts = VecDeque::new();
    for _ in 0..count {
        if known.is_empty() || rng.one_in(5) {
            ids.push_back(rng.below(256));
            node_counts.push_back(rng.below(8));
            continue;
        }
        let area = rng.pick(known);
        let right = (area.latitude_count + 1) * (area.longitude_count + 1);
        ids.push_back(area.id);
        node_counts.push_back(rng.pick(&[right, right, right, right, right - 1, right + 1, 0, 127]));
    }
    let wanted = vec![
        (5, VecDeque::from([siou])),
        (68, VecDeque::from([aiou])),
        (30, VecDeque::from([count - 1])),
        (31, ids),
        (39, node_counts),
    ];
    for _ in 0..6 {
        let made = sheet_with(rng, 1, subtype, wanted.clone());
        if made.bits() <= 8 * LONGEST_PAYLOAD {
            return made;
        }
    }
    sheet(rng, 1, subtype)
}

/// A desk's arguments and a row of frames for it, with the second that each came in.
#[derive(Clone, Debug)]
pub struct Scene {
    pub solution: u64,
    pub processor: u64,
    pub constellation: u64,
    pub frames: Vec<Vec<u8>>,
    pub seconds: Vec<u64>,
}

/// A scene: GADs that begin, add, repeat, conflict, fill and overfill the book, run over the pole,
/// come with the same and with other AIOUs and SIOUs and changed grids; HPACs that are placed and
/// left out for all five reasons, with tags that stay, go on, go back, are over 43,199 or large;
/// frames of others, sealed ones, odd ones; seconds that stay, go on, go back, and in some scenes
/// gaps, and restarts of the solver, which keeps its AIOU.
pub fn scene(rng: &mut Rng) -> Scene {
    let count = rng.between(1, 40);
    scene_of(rng, count)
}

/// A scene of so many frames.
pub fn scene_of(rng: &mut Rng, count: u64) -> Scene {
    let solution = rng.below(128);
    let processor = rng.below(16);
    let constellation = rng.below(5);
    let (aiou, siou) = (rng.below(16), siou(rng));
    let mut provider = Provider { aiou, siou, told_with: None, known: Vec::new() };
    let mut time = rng.pick(&[0, 43195, 20000]);
    let mut frames = Vec::new();
    let mut seconds = Vec::new();
    // now and then every area at once, so that a 33rd comes soon
    let eager = rng.one_in(3);
    // one in so many frames comes after a gap; 0 for none
    let gaps = rng.pick(&[0, 0, 3, 8, 20]);
    // before one in so many frames the solver restarts; 0 for never
    let restarts = rng.pick(&[0, 0, 8, 12, 25]);
    let mut latest = first_second(rng);
    while (frames.len() as u64) < count {
        if restarts > 0 && rng.one_in(restarts) {
            provider.siou = other_siou(rng, provider.siou);
            // now and then the whole of it, frame by frame
            let row = if rng.one_in(3) {
                restart(rng, constellation, &mut provider, time % HALF_DAY)
            } else {
                Vec::new()
            };
            for (type_, tag, payload) in row.into_iter().take(count as usize - frames.len()) {
                let of = Plain {
                    type_,
                    check_type: rng.below(4),
                    subtype: if type_ == 1 { constellation } else { 0 },
                    tag_kind: 0,
                    tag,
                    solution,
                    processor,
                };
                frames.push(assemble(&of, None, &payload, &[]));
                let second = near_second(rng, latest);
                latest = latest.max(second);
                seconds.push(second);
            }
            continue;
        }
        let gap = if gaps > 0 && rng.one_in(gaps) { gap_second(rng, latest) } else { None };
        // often the areas after it are not those before it, though the AIOU is the same
        if gap.is_some() && rng.one_in(2) {
            provider.known.clear();
        }
        let second = gap.unwrap_or_else(|| near_second(rng, latest));
        latest = latest.max(second);
        seconds.push(second);
        let mut parts = Plain {
            type_: 1,
            check_type: rng.below(4),
            subtype: constellation,
            tag_kind: rng.below(2),
            tag: 0,
            solution,
            processor,
        };
        let step = rng.below(8);
        time = rng.pick(&[time, time, time, time + 1, time + step, time.saturating_sub(step)]);
        parts.tag = if parts.tag_kind == 0 { time % HALF_DAY } else { time + HALF_DAY * rng.below(9) };
        if rng.one_in(12) {
            parts.tag = tag(rng, parts.tag_kind);
        }
        let payload = if rng.below(5) < 2 {
            parts.type_ = 2;
            parts.subtype = 0;
            scene_gad(rng, eager, &mut provider)
        } else {
            let (aiou, other) = (provider.aiou, rng.below(16));
            let aiou = rng.pick(&[aiou, aiou, aiou, aiou, aiou, other]);
            // now and then one of another solution
            let (siou, other) = (provider.siou, other_siou(rng, provider.siou));
            let siou = if rng.one_in(15) { other } else { siou };
            hpac_sheet(rng, constellation, aiou, siou, &provider.known).payload()
        };
        frames.push(scene_frame(rng, parts, payload));
    }
    Scene { solution, processor, constellation, frames, seconds }
}

/// Who sends the frames of a scene: the AIOU and the SIOU of the messages to come, and what the
/// GADs so far have told.
struct Provider {
    aiou: u64,
    siou: u64,
    /// the SIOU of the GADs that told the areas known; none if it is unknown
    told_with: Option<u64>,
    known: Vec<GadArea>,
}

/// Type, tag and payload of a frame.
type Sent = (u64, u64, Vec<u8>);

/// A solver that restarts in the middle of a run and keeps its AIOU: a GAD of the solution before,
/// an HPAC that opens a run, a GAD of the new solution with the same IDs, an HPAC of each in that
/// run, and one of the new solution in the next run. Type, tag and payload of each.
fn restart(rng: &mut Rng, constellation: u64, provider: &mut Provider, tag: u64) -> Vec<Sent> {
    let (aiou, other) = (provider.aiou, rng.below(16));
    let old = other_siou(rng, provider.siou);
    let new = other_siou(rng, old);
    let areas = blocks(rng);
    // some of the grids are others
    let then: Vec<GadArea> =
        areas.iter().map(|&area| if rng.one_in(2) { changed(rng, area) } else { area }).collect();
    let mut hpac = |siou, later| {
        let aiou = if rng.one_in(12) { other } else { aiou };
        let payload = hpac_sheet(rng, constellation, aiou, siou, &areas).payload();
        (1, (tag + later) % HALF_DAY, payload)
    };
    let (first, late, early, next) = (hpac(old, 1), hpac(old, 1), hpac(new, 1), hpac(new, 2));
    let begins = (2, tag, gad_sheet(rng, aiou, old, &areas).payload());
    let restarts = (2, tag, gad_sheet(rng, aiou, new, &then).payload());
    (provider.siou, provider.told_with, provider.known) = (new, Some(new), then);
    vec![begins, first, restarts, late, early, next]
}

/// The next GAD of a scene, and what the book then knows.
fn scene_gad(rng: &mut Rng, eager: bool, provider: &mut Provider) -> Vec<u8> {
    let mut blocks: Vec<GadArea> = Vec::new();
    // a late one of another solution
    let now = provider.siou;
    let siou = if rng.one_in(25) { other_siou(rng, now) } else { now };
    // a solver that has restarted mostly keeps its AIOU
    let restarted = provider.told_with.is_some_and(|old| old != siou);
    let other_aiou = rng.one_in(if eager || restarted { 20 } else { 4 });
    if other_aiou {
        provider.aiou = (provider.aiou + rng.between(1, 15)) % 16;
    }
    let (aiou, known) = (provider.aiou, &mut provider.known);
    if other_aiou || provider.told_with != Some(siou) {
        // another AIOU or another SIOU: a new book, often with the old IDs and changed grids
        let old = std::mem::take(known);
        if rng.one_in(2) {
            for area_before in old {
                blocks.push(if rng.one_in(2) { area(rng, area_before.id) } else { area_before });
            }
        }
    }
    let more = if eager { rng.between(8, 32) } else { rng.pick(&[1, 1, 2, 5]) };
    for _ in 0..more {
        let id = rng.below(256);
        let id = rng.pick(&[id, id, 0, 255]);
        let other = known.iter().chain(&blocks).find(|area| area.id == id).copied();
        blocks.push(match other {
            Some(same) => same,
            None => area(rng, id),
        });
    }
    blocks.truncate(MOST_AREAS as usize);
    let mut refused = false;
    if rng.one_in(6) && !known.is_empty() {
        blocks.push(rng.pick(known));
    }
    if rng.one_in(9) {
        // the same ID, another definition
        let mut other = rng.pick(&blocks);
        other.longitude_spacing ^= 1;
        blocks.push(other);
        refused = true;
    }
    if rng.one_in(9) {
        let at = rng.below(blocks.len() as u64) as usize;
        blocks[at] = area_off(rng, blocks[at].id);
        refused = true;
    }
    blocks.truncate(MOST_AREAS as usize);
    if !refused {
        let mut then = known.clone();
        for block in &blocks {
            if !then.iter().any(|area| area.id == block.id) {
                then.push(*block);
            }
        }
        if then.len() as u64 <= MOST_AREAS {
            *known = then;
            provider.told_with = Some(siou);
        }
    }
    gad_sheet(rng, aiou, siou, &blocks).payload()
}

/// A frame of a scene: mostly plain and ours, now and then not.
fn scene_frame(rng: &mut Rng, parts: Plain, payload: Vec<u8>) -> Vec<u8> {
    match rng.below(28) {
        0 => assemble(&Plain { solution: (parts.solution + 1) % 128, ..parts }, None, &payload, &[]),
        1 => assemble(&Plain { processor: (parts.processor + 1) % 16, ..parts }, None, &payload, &[]),
        2 => assemble(&Plain { subtype: (parts.subtype + 1) % 16, ..parts }, None, &payload, &[]),
        3 => {
            let (type_, subtype) = rng.pick(&TWELVE);
            let mut other = sheet(rng, type_, subtype);
            // a desk does not read an OCB: any ephemeris type will do
            if type_ == 0 {
                other.codes[TYPE_ENTRY] = rng.below(other.fields[TYPE_ENTRY].top() + 1);
            }
            assemble(&Plain { type_, subtype, ..parts }, None, &other.payload(), &[])
        }
        4 => assemble(&Plain { type_: rng.pick(&[4, 120]), ..parts }, None, &payload, &[]),
        5 => sealed(rng, &parts, &payload),
        6 => {
            let other = Plain { solution: (parts.solution + 1) % 128, ..parts };
            sealed(rng, &other, &payload)
        }
        7 | 8 => {
            let mut odd = odd_payload(rng, parts.type_, parts.subtype);
            odd.truncate(LONGEST_PAYLOAD);
            if odd.is_empty() {
                odd.push(0);
            }
            // an HPAC without a satellite comes too rarely by chance
            if parts.type_ == 1 && rng.one_in(4) {
                let empty = refused_payload(rng, parts.type_, parts.subtype, Refusal::MaskEmpty);
                odd = empty.unwrap_or(odd);
            }
            assemble(&parts, None, &odd, &[])
        }
        9 => odd_frame(rng),
        10 => {
            // bytes after the frame, as a desk may be lent them
            let mut bytes = assemble(&parts, None, &payload, &[]);
            bytes.extend(rng.bytes(3));
            bytes
        }
        _ => assemble(&parts, None, &payload, &[]),
    }
}

/// A frame for a desk as it stands, and not for a scene: ours or not, read or refused.
pub fn frame_for(rng: &mut Rng, table: &Table) -> Vec<u8> {
    let desk = &table.desk;
    let live = crate::book::areas(&desk.live, &table.live).unwrap_or_default();
    let run_areas = desk.run.and_then(|open| crate::book::areas(&open.book, &table.run));
    let known = run_areas.unwrap_or_else(|| live.clone());
    let (some, some_siou) = (rng.below(16), siou(rng));
    let mut parts = Plain {
        type_: 1,
        check_type: rng.below(4),
        subtype: desk.constellation & 15,
        tag_kind: rng.below(2),
        tag: 0,
        solution: desk.solution & 127,
        processor: desk.processor & 15,
    };
    parts.tag = tag(rng, parts.tag_kind);
    if let (Some(open), false) = (desk.run, rng.one_in(3)) {
        parts.tag = open.tag & 0xFFFF;
    }
    let payload = if rng.one_in(2) {
        parts.type_ = 2;
        parts.subtype = 0;
        let told_with = desk.live.siou;
        let own = told_with.unwrap_or(some_siou) & TOP_SIOU;
        let mut provider = Provider {
            aiou: desk.live.aiou.unwrap_or(some) & 15,
            // now and then the solver has restarted
            siou: rng.pick(&[own, own, own, own, some_siou]),
            told_with,
            known: live,
        };
        let eager = rng.one_in(3);
        scene_gad(rng, eager, &mut provider)
    } else {
        let book = desk.run.map_or(desk.live, |open| open.book);
        let own = book.aiou.unwrap_or(some) & 15;
        let own_siou = book.siou.unwrap_or(some_siou) & TOP_SIOU;
        let (aiou, other) = (rng.pick(&[some, own, own]), other_siou(rng, own_siou));
        let siou = rng.pick(&[own_siou, own_siou, own_siou, own_siou, other]);
        let constellation = if desk.constellation <= 4 { desk.constellation } else { 0 };
        hpac_sheet(rng, constellation, aiou, siou, &known).payload()
    };
    scene_frame(rng, parts, payload)
}

/// What a frame is to be to a desk as it stands.
#[derive(Clone, Copy, PartialEq, Eq, PartialOrd, Ord, Debug)]
pub enum Sort {
    /// a GAD that no live book hinders
    Gad,
    /// a GAD that conflicts with the live book alone
    Against,
    /// a GAD that the live book alone has no room for
    Overfull,
    /// an HPAC of the open run's tag
    OfRun,
    /// an HPAC of another tag
    OtherTag,
    /// a GAD of another SIOU than the live book's, that conflicts with it but for that
    OtherSiou,
    /// a GAD over a live book of unknown SIOU, that conflicts with it but for that
    OverUnknown,
    /// an HPAC of the open run's tag, and of another SIOU than the run's book
    OfRunOtherSiou,
    /// a frame that is refused so where the live book is empty
    Refused(Refusal),
}

/// The sorts; the refusals are those of the frame, of the desk, of the payload, and of a GAD's blocks
/// by themselves. (No GAD has more than 32 areas, so none is BOOK_FULL over an empty book.)
pub const SORTS: [Sort; 20] = [
    Sort::Gad,
    Sort::Against,
    Sort::Overfull,
    Sort::OfRun,
    Sort::OtherTag,
    Sort::OtherSiou,
    Sort::OverUnknown,
    Sort::OfRunOtherSiou,
    Sort::Refused(Refusal::Short),
    Sort::Refused(Refusal::Preamble),
    Sort::Refused(Refusal::FrameCrc),
    Sort::Refused(Refusal::Length),
    Sort::Refused(Refusal::MessageCrc),
    Sort::Refused(Refusal::MaskEmpty),
    Sort::Refused(Refusal::Field),
    Sort::Refused(Refusal::Sealed),
    Sort::Refused(Refusal::Tag),
    Sort::Refused(Refusal::NotOurs),
    Sort::Refused(Refusal::AreaOff),
    Sort::Refused(Refusal::Conflict),
];

/// A frame of a sort for a sound desk. None where the desk has none: no run is open, the live book
/// is empty, or it has room for all, or its SIOU is unknown or known; or none was found.
pub fn frame_of(rng: &mut Rng, table: &Table, sort: Sort) -> Option<Vec<u8>> {
    let desk = &table.desk;
    let live = crate::book::areas(&desk.live, &table.live)?;
    let (some_aiou, some_siou) = (rng.below(16), siou(rng));
    let aiou = desk.live.aiou.unwrap_or(some_aiou);
    let siou = desk.live.siou.unwrap_or(some_siou);
    let gad = Plain {
        type_: 2,
        check_type: rng.below(4),
        subtype: 0,
        tag_kind: 0,
        tag: rng.below(65536),
        solution: desk.solution,
        processor: desk.processor,
    };
    let tag = desk.run.map_or(7, |open| open.tag);
    let hpac = Plain { type_: 1, subtype: desk.constellation, tag, ..gad };
    let plain = |parts: Plain, payload: &[u8]| Some(assemble(&parts, None, payload, &[]));
    match sort {
        Sort::Gad => {
            // areas that the book has, or new ones: of its AIOU if it has room, else of another
            let blocks = if live.is_empty() || rng.one_in(2) { blocks(rng) } else { vec![rng.pick(&live)] };
            let own = Gad { siou, aiou, reserved: 0, areas: blocks.clone() };
            let hinders = with_gad(&desk.live, &live, &own).is_err();
            let named = if hinders || rng.one_in(4) { (aiou + rng.between(1, 15)) % 16 } else { aiou };
            plain(gad, &gad_sheet(rng, named, siou, &blocks).payload())
        }
        Sort::Against => {
            // of an unknown SIOU no GAD is
            desk.live.siou?;
            let blocks = against(rng, &live)?;
            plain(gad, &gad_sheet(rng, aiou, siou, &blocks).payload())
        }
        Sort::OtherSiou => {
            let named = other_siou(rng, desk.live.siou?);
            let blocks = against(rng, &live)?;
            plain(gad, &gad_sheet(rng, aiou, named, &blocks).payload())
        }
        Sort::OverUnknown => {
            if desk.live.siou.is_some() {
                return None;
            }
            let blocks = against(rng, &live)?;
            plain(gad, &gad_sheet(rng, aiou, some_siou, &blocks).payload())
        }
        Sort::Overfull => {
            desk.live.siou?;
            let room = (MOST_AREAS as usize).checked_sub(live.len()).filter(|_| !live.is_empty())?;
            let new: Vec<u64> = (0..256).filter(|&id| live.iter().all(|area| area.id != id)).collect();
            let first = rng.below((new.len() - room) as u64) as usize;
            let ids = &new[first..first + room + 1];
            let blocks: Vec<GadArea> = ids.iter().map(|&id| area(rng, id)).collect();
            plain(gad, &gad_sheet(rng, aiou, siou, &blocks).payload())
        }
        Sort::OfRun | Sort::OfRunOtherSiou => {
            let open = desk.run?;
            let held = crate::book::areas(&open.book, &table.run)?;
            let named = open.book.aiou.unwrap_or(some_aiou);
            let named_siou = match sort {
                Sort::OfRun => open.book.siou.unwrap_or(some_siou),
                _ => other_siou(rng, open.book.siou?),
            };
            let later = open.tag + HALF_DAY * rng.below(9);
            let (tag_kind, tag) = rng.pick(&[(0, open.tag), (1, open.tag), (1, later)]);
            let payload = hpac_sheet(rng, desk.constellation, named, named_siou, &held).payload();
            plain(Plain { tag_kind, tag, ..hpac }, &payload)
        }
        Sort::OtherTag => {
            let by = rng.between(1, HALF_DAY - 1);
            let other = (tag + rng.pick(&[1, HALF_DAY - 1, by])) % HALF_DAY;
            let payload = hpac_sheet(rng, desk.constellation, aiou, siou, &live).payload();
            plain(Plain { tag: other, ..hpac }, &payload)
        }
        Sort::Refused(Refusal::AreaOff) => {
            // the live book may conflict at a block before it
            let mut blocks = blocks(rng);
            if !live.is_empty() && rng.one_in(2) {
                let one = rng.pick(&live);
                blocks = vec![changed(rng, one)];
            }
            let id = rng.below(256);
            blocks.push(area_off(rng, id));
            plain(gad, &gad_sheet(rng, aiou, siou, &blocks).payload())
        }
        Sort::Refused(Refusal::Conflict) => {
            let one = blocks(rng)[0];
            let blocks = [one, changed(rng, one)];
            plain(gad, &gad_sheet(rng, aiou, siou, &blocks).payload())
        }
        Sort::Refused(refusal) => refused_frame(rng, refusal, &gad, &hpac),
    }
}

/// Areas of a book, one of them with another definition; none if the book has none.
fn against(rng: &mut Rng, live: &[GadArea]) -> Option<Vec<GadArea>> {
    if live.is_empty() {
        return None;
    }
    let one = rng.pick(live);
    let mut blocks: Vec<GadArea> = live.iter().copied().filter(|area| area.id != one.id).collect();
    blocks.truncate(rng.below(4) as usize);
    blocks.insert(rng.below(blocks.len() as u64 + 1) as usize, changed(rng, one));
    Some(blocks)
}

/// The same ID, another definition.
fn changed(rng: &mut Rng, of: GadArea) -> GadArea {
    GadArea { longitude_spacing: of.longitude_spacing ^ rng.between(1, 31), ..of }
}

/// From one to five areas of IDs that differ.
fn blocks(rng: &mut Rng) -> Vec<GadArea> {
    let first = rng.below(250);
    (0..rng.between(1, 5)).map(|i| area(rng, first + i)).collect()
}

/// A frame for the desk that these parts are of, refused so before a book is looked at.
fn refused_frame(rng: &mut Rng, refusal: Refusal, gad: &Plain, hpac: &Plain) -> Option<Vec<u8>> {
    let parts = rng.pick(&[*gad, *hpac]);
    let right = sheet(rng, parts.type_, parts.subtype).payload();
    let mut frame = assemble(&parts, None, &right, &[]);
    match refusal {
        Refusal::Short if rng.one_in(2) => frame.truncate(rng.below(frame.len() as u64) as usize),
        Refusal::Preamble => frame[0] ^= rng.between(1, 255) as u8,
        Refusal::FrameCrc => frame[3] ^= rng.between(1, 15) as u8,
        Refusal::Length => frame = assemble(&parts, None, &[], &[]),
        Refusal::MessageCrc => {
            let last = frame.len() - 1;
            frame[last] ^= rng.between(1, 255) as u8;
        }
        Refusal::Sealed => frame = sealed(rng, &parts, &right),
        Refusal::NotOurs => {
            let other = match rng.below(3) {
                0 => Plain { solution: (parts.solution + 1) % 128, ..parts },
                1 => Plain { processor: (parts.processor + 1) % 16, ..parts },
                _ => Plain { subtype: (parts.subtype + 1) % 16, ..parts },
            };
            frame = assemble(&other, None, &right, &[]);
        }
        Refusal::Tag => {
            let right = sheet(rng, hpac.type_, hpac.subtype).payload();
            let tag = rng.between(HALF_DAY, 65535);
            frame = assemble(&Plain { tag: rng.pick(&[HALF_DAY, tag]), ..*hpac }, None, &right, &[]);
        }
        // SHORT, FIELD and MASK_EMPTY of the payload; a GAD has no mask
        _ => {
            let parts = if refusal == Refusal::MaskEmpty { hpac } else { &parts };
            let odd = refused_payload(rng, parts.type_, parts.subtype, refusal);
            frame = assemble(parts, None, &odd?, &[]);
        }
    }
    Some(frame)
}
