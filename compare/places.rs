//! Where payloads and sheets went wrong: the place by the entries before it, and which of all places were met.

use crate::judge::{Input, Judge, Must};
use second::answer::{Place, Refusal, Refused};
use second::bits::BitReader;
use second::payload::{message, Entries, Field, Takes};
use std::ops::RangeInclusive;

/// The bits of a payload, or the codes of a sheet.
enum Source<'a> {
    Bits(BitReader<'a>),
    Codes(&'a [u64]),
}

/// The fields that the walk of a layout asked for; the last one is at fault if it was refused.
struct Trail<'a> {
    from: Source<'a>,
    fields: Vec<Field>,
}

impl Entries for Trail<'_> {
    fn next(&mut self, field: Field) -> Result<u64, Refused> {
        let code = match &mut self.from {
            Source::Bits(bits) => bits.take(field.width),
            Source::Codes(codes) => codes.get(self.fields.len()).copied(),
        };
        self.fields.push(field);
        Ok(field.judge(code.ok_or(Refusal::Short)?)?)
    }
    fn count(&self) -> usize {
        self.fields.len()
    }
}

/// Reading or writing.
#[derive(Clone, Copy, PartialEq, Eq)]
enum Way {
    Reading,
    Writing,
}

impl Way {
    fn name(self) -> &'static str {
        match self {
            Way::Reading => "reading",
            Way::Writing => "writing",
        }
    }
}

/// The number of a refusal that carries a place, by name.
fn name(why: Refusal) -> &'static str {
    match why {
        Refusal::Short => "SHORT",
        Refusal::MaskEmpty => "MASK_EMPTY",
        _ => "FIELD",
    }
}

/// OCB, HPAC, GAD, BPAC, by their type.
const KINDS: [&str; 4] = ["OCB", "HPAC", "GAD", "BPAC"];

/// A payload that was refused.
pub fn read(judge: &mut Judge, input: &Input, of: (u64, u64), payload: &[u8], refused: &Refused) {
    met(judge, input, Way::Reading, of, Source::Bits(BitReader::new(payload)), refused);
}

/// A sheet that was refused.
pub fn written(judge: &mut Judge, input: &Input, of: (u64, u64), codes: &[u64], refused: &Refused) {
    met(judge, input, Way::Writing, of, Source::Codes(codes), refused);
}

/// Both said this. SHORT, FIELD and MASK_EMPTY have a place, no other number has one; its SF number is that of the field
/// that the layout has there, and the bits (entries) before it are those of the entries before it.
fn met(judge: &mut Judge, input: &Input, way: Way, of: (u64, u64), from: Source, refused: &Refused) {
    let has_place = [Refusal::Short, Refusal::Field, Refusal::MaskEmpty].contains(&refused.why);
    judge.same(input, "whether it has a place and must have one", &refused.place.is_some(), &has_place);
    if !has_place {
        return;
    }
    let mut trail = Trail { from, fields: Vec::new() };
    let again = message(&mut trail, of.0, of.1).err().map(|refused| refused.why);
    judge.same(input, "the refusal, and the same on the walk of the layout", &Some(refused.why), &again);
    let Some((field, before)) = trail.fields.split_last() else { return };
    let at = match way {
        Way::Reading => before.iter().map(|field| field.width as usize).sum(),
        Way::Writing => before.len(),
    };
    let must = Some(Place { sf: field.sf, at });
    judge.same(input, "the place, and the place by the entries before it", &refused.place, &must);
    count(judge, way, of.0, refused.why, field, before);
    match way {
        Way::Reading if at > 8000 => judge.mark("place: a bit over 8,000"),
        Way::Writing if at > 65_535 => judge.mark("place: a sheet entry over 65,535"),
        _ if at == 0 => judge.mark(format!("place, {}: the first of all", way.name())),
        _ => {}
    }
}

/// Counts what the place was.
fn count(judge: &mut Judge, way: Way, kind: u64, why: Refusal, field: &Field, before: &[Field]) {
    let named = |what: &str| format!("place, {}: {} {what}", way.name(), name(why));
    let kind = KINDS[kind as usize];
    match field.takes {
        Takes::MaskSize => judge.mark(named("at the size of a satellite mask")),
        Takes::SatelliteMask if why == Refusal::MaskEmpty => {
            judge.mark(named(&format!("at the bits of SF{:03} of {kind}", field.sf)))
        }
        Takes::SatelliteMask => judge.mark(named("at the bits of a satellite mask")),
        Takes::BiasSize => judge.mark(named("at the size of a bias mask")),
        Takes::BiasMask => judge.mark(named("at the bits of a bias mask")),
        Takes::NodeMask if before.last().is_some_and(|last| last.sf == 79) => {
            judge.mark(named("at a later group of SF079"))
        }
        Takes::NodeMask => judge.mark(named("at the first group of SF079")),
        _ if field.sf == 69 => judge.mark(named(&format!("at SF069 of {kind}"))),
        _ => {}
    }
    // a VTEC block has three entries and so has a phase bias: the same field of the one before lies three back
    let last = before.last().map_or(0, |last| last.sf);
    let third = before.len().checked_sub(3).map_or(0, |at| before[at].sf);
    let inside_residuals = match field.sf {
        52 | 53 | 64..=67 => last == field.sf,
        82 | 83 => third == 82 || third == 83,
        _ => false,
    };
    if inside_residuals {
        judge.mark(named(&format!("inside the residuals, at SF{:03}", field.sf)));
    }
    if third == field.sf && [(23, 20), (15, 23), (20, 15)].contains(&(field.sf, last)) {
        judge.mark(named("inside the phase biases"));
    }
    if (field.sf, last) == (29, 29) {
        judge.mark(named("inside the code biases"));
    }
}

/// Places, and refusals without one, of the calls above the readers and the writer.
const OTHERS: [&str; 4] = [
    "no place: SHORT of the frame itself",
    "place: a bit over 8,000",
    "place: a sheet entry over 65,535",
    "place: of a frame told by finish",
];

/// What a run of many inputs has to meet of places, as `count` names it. In reading a code has its field's width, and so
/// sizes, bias masks, node masks, residuals and the reserved bit are never FIELD.
pub fn all() -> Vec<String> {
    let both = |what: &str| [Way::Reading, Way::Writing].map(|way| format!("place, {}: {what}", way.name()));
    let writing = |what: &str| format!("place, writing: {what}");
    let mut all = OTHERS.map(String::from).to_vec();
    all.extend(both("the first of all"));
    for sf in [52, 53, 64, 65, 66, 67, 82, 83] {
        all.extend(both(&format!("SHORT inside the residuals, at SF{sf:03}")));
        all.push(writing(&format!("FIELD inside the residuals, at SF{sf:03}")));
    }
    for biases in ["phase", "code"] {
        all.extend(both(&format!("SHORT inside the {biases} biases")));
        all.extend(both(&format!("FIELD inside the {biases} biases")));
    }
    for (sf, kind) in MASKS.iter().flat_map(|sf| [(sf, "OCB"), (sf, "HPAC")]) {
        all.extend(both(&format!("MASK_EMPTY at the bits of SF{sf:03} of {kind}")));
    }
    let parts = ["size", "bits"].iter().flat_map(|part| [(part, "satellite"), (part, "bias")]);
    for (part, mask) in parts {
        all.extend(both(&format!("SHORT at the {part} of a {mask} mask")));
        all.push(writing(&format!("FIELD at the {part} of a {mask} mask")));
    }
    for group in ["the first group", "a later group"] {
        all.extend(both(&format!("SHORT at {group} of SF079")));
        all.push(writing(&format!("FIELD at {group} of SF079")));
    }
    // "The reserved bit is SF069", in all four headers
    for kind in KINDS {
        all.extend(["SHORT", "FIELD"].map(|why| writing(&format!("{why} at SF069 of {kind}"))));
    }
    all
}

/// The five satellite masks.
const MASKS: [u16; 5] = [11, 12, 93, 94, 95];

/// Source document 000, tables 6.3 to 6.28: the fields of the twelve payloads. In a sheet each can be missing, and each can
/// have a code that is too wide.
const FIELDS: [RangeInclusive<u16>; 4] = [5..=5, 8..=37, 39..=83, 93..=107];

/// Those at which a payload can end. It has whole bytes, at least one, and the header begins at its first bit: what lies
/// within bits 9 to 15 is there if bit 8 is. So are in OCB SF010, SF069, SF008, SF009 and the ephemeris types SF016, SF017,
/// SF096 and SF098 (BeiDou's, SF097, has bits 13 to 16), in HPAC and GAD SF068 and SF069, in BPAC SF069, SF070 and SF071.
const ENDS: [RangeInclusive<u16>; 8] =
    [5..=5, 11..=15, 18..=37, 39..=67, 72..=83, 93..=95, 97..=97, 99..=107];

/// Document 01, "Codes": those that do not take every code of their width; document 02, request 6: the ephemeris types.
const NARROW: [RangeInclusive<u16>; 12] = [
    16..=17,
    20..=21,
    29..=29,
    32..=33,
    40..=41,
    43..=43,
    45..=50,
    54..=54,
    57..=62,
    73..=74,
    80..=80,
    96..=98,
];

/// Document 02, request 6: "FIELD at the ephemeris field".
const TYPES: [RangeInclusive<u16>; 2] = [16..=17, 96..=98];

/// Which call has to have said what at which fields: the readers and the writer at all that there are, the desk and the joined
/// call at some of a GAD and of an HPAC message, residuals too, the book at some of a GAD, the views anywhere, that of a
/// satellite at the ephemeris types too. A GAD and a BPAC have no satellite mask.
pub fn must() -> Vec<Must> {
    let listed = |ranges: &[RangeInclusive<u16>]| ranges.iter().cloned().flatten().collect::<Vec<u16>>();
    let number = Refusal::number;
    let (short, mask_empty, field) =
        (number(Refusal::Short), number(Refusal::MaskEmpty), number(Refusal::Field));
    let mut must: Vec<Must> = Vec::new();
    for call in ["payload_judge", "payload_read"] {
        must.push((call, short, listed(&ENDS)));
        must.push((call, mask_empty, MASKS.to_vec()));
        must.push((call, field, listed(&NARROW)));
    }
    for call in ["sheet_judge", "sheet_write"] {
        must.push((call, short, listed(&FIELDS)));
        must.push((call, mask_empty, MASKS.to_vec()));
        must.push((call, field, listed(&FIELDS)));
    }
    for call in ["desk_take", "prepare, of a frame"] {
        must.push((call, short, vec![31, 33, 37, 52, 57, 61, 67]));
        must.push((call, mask_empty, MASKS.to_vec()));
        must.push((call, field, vec![32, 33, 40, 41, 54]));
    }
    must.push(("book_take", short, vec![31, 33, 37]));
    must.push(("book_take", field, vec![32, 33]));
    for call in ["satellite_at", "hpac_area"] {
        must.extend([short, mask_empty, field].map(|number| (call, number, Vec::new())));
    }
    must.push(("satellite_at", field, listed(&TYPES)));
    for call in ["gad_area", "bpac_area"] {
        must.extend([short, field].map(|number| (call, number, Vec::new())));
    }
    must
}
