//! Round trips and agreements over made-up inputs, and that the generator reaches every answer and
//! option that it promises.

use second::answer::{number, with_place, Place, Refusal, Refused};
use second::bits::BitReader;
use second::book::{self, Book};
use second::desk::{self, Last, Of};
use second::entries::{self, Coded, Entry, BANDS};
use second::frame::{self, check, Plain};
use second::generate::*;
use second::payload::{self, Message, Takes, CONSTELLATIONS};
use second::prepare::{self, Lent};
use second::stream::{self, Event};
use second::values::Residual;
use second::views::AreaId;
use second::{groups, kept, sheet, values, views};
use std::collections::{BTreeMap, BTreeSet};
use std::ops::RangeInclusive;

/// The numbers of a test. With SEED set to a number in the environment, other ones.
fn made_from(test: u64) -> Rng {
    let seed = std::env::var("SEED").ok().and_then(|seed| seed.parse().ok()).unwrap_or(0u64);
    Rng::new(seed.wrapping_mul(1000).wrapping_add(test))
}

#[test]
fn a_sheet_written_is_the_sheet_read_and_all_edges_come() {
    let mut rng = made_from(1);
    // (type, subtype, SF number): the codes seen
    let mut seen: BTreeMap<(u64, u64, u16), BTreeSet<u64>> = BTreeMap::new();
    let mut fields = BTreeMap::new();
    for round in 0..6000usize {
        let (type_, subtype) = TWELVE[round % 12];
        let made = second::generate::sheet(&mut rng, type_, subtype);
        for (code, field) in made.codes.iter().zip(&made.fields) {
            if !matches!(field.takes, Takes::SatelliteMask | Takes::BiasMask | Takes::NodeMask) {
                seen.entry((type_, subtype, field.sf)).or_default().insert(*code);
                fields.insert((type_, subtype, field.sf), *field);
            }
        }
        let mut out = lent_bytes(&mut rng, 1025);
        let as_lent = out.clone();
        let written = sheet::write(type_, subtype, &made.codes, &mut out).unwrap();
        assert_eq!(written.bits, made.bits());
        assert_eq!(written.bytes, written.bits.div_ceil(8));
        assert_eq!(out[written.bytes..], as_lent[written.bytes..]);
        assert_eq!(out[..written.bytes], made.payload());
        let mut back = lent_entries(&mut rng, 8185);
        let as_lent = back.clone();
        let read = sheet::read(type_, subtype, &out[..written.bytes], &mut back).unwrap();
        assert_eq!((read.entries, read.bits), (made.codes.len(), written.bits));
        assert_eq!(back[..read.entries], made.codes);
        assert_eq!(back[read.entries..], as_lent[read.entries..]);
    }
    for (key, field) in fields {
        let codes = &seen[&key];
        let top = field.top();
        let edges = match field.takes {
            Takes::Symmetric => vec![0, top / 2, top - 1],
            Takes::Residual => vec![0, top / 2, top - 1, top],
            Takes::Yaw => vec![0, 59, 63],
            // every ephemeris type with a meaning
            Takes::UpTo(last) if [16, 17, 96, 97, 98].contains(&field.sf) => (0..=last).collect(),
            Takes::UpTo(most) => vec![0, most],
            _ => vec![0, top],
        };
        for edge in edges {
            assert!(codes.contains(&edge), "{key:?} {edge}");
        }
    }
}

/// The size of a message by table 8.2, but for a satellite out of use, which has one bit.
fn size_of(message: &Message, subtype: u64) -> u64 {
    let c = &CONSTELLATIONS[subtype as usize];
    let polynomial = |small: [u64; 3], large: [u64; 3], size, equation| {
        (if size == 0 { small } else { large })[equation as usize]
    };
    match message {
        Message::Ocb(ocb) => {
            let header = 13 + c.ephemeris.1 as u64 + 2 + ocb.mask.width as u64;
            let satellite = |s: &payload::OcbSatellite| match &s.in_use {
                None => 1,
                Some(b) => {
                    let orbit = b.orbit.is_some() as u64 * (c.iode.1 as u64 + 42 + ocb.yaw_present * 6);
                    let clock = b.clock.is_some() as u64 * 20;
                    let bias = b.bias.as_ref().map_or(0, |bias| {
                        let masks = 2 + bias.phase_mask.width as u64 + bias.code_mask.width as u64;
                        masks + bias.phases.len() as u64 * 18 + bias.codes.len() as u64 * 11
                    });
                    7 + orbit + clock + bias
                }
            };
            header + ocb.satellites.iter().map(satellite).sum::<u64>()
        }
        Message::Hpac(hpac) => {
            let area = |area: &payload::HpacArea| {
                let troposphere = area.troposphere.as_ref().map_or(0, |t| {
                    let coefficients = polynomial([7, 21, 30], [9, 27, 38], t.large, t.equation);
                    let residual = |size: u64| [6, 8][size as usize];
                    15 + coefficients + t.grid.as_ref().map_or(0, |g| 1 + residual(g.size_code) * area.nodes)
                });
                let ionosphere = area.ionosphere.as_ref().map_or(0, |i| {
                    let satellite = |s: &payload::IonosphereSatellite| {
                        let coefficients = polynomial([12, 36, 49], [14, 42, 57], s.large, i.equation);
                        let residual = |size: u64| [4, 7, 10, 14][size as usize];
                        5 + coefficients
                            + s.grid.as_ref().map_or(0, |g| 2 + residual(g.size_code) * area.nodes)
                    };
                    3 + 2 + i.mask.width as u64 + i.satellites.iter().map(satellite).sum::<u64>()
                });
                19 + troposphere + ionosphere
            };
            19 + hpac.areas.iter().map(area).sum::<u64>()
        }
        Message::Gad(gad) => 19 + 47 * gad.areas.len() as u64,
        Message::Bpac(bpac) => {
            let area = |area: &payload::BpacArea| {
                let nodes = (area.latitude_count + 1) * (area.longitude_count + 1);
                43 + nodes + area.vtecs.iter().map(|v| 5 + [7, 11][v.large as usize]).sum::<u64>()
            };
            14 + bpac.areas.iter().map(area).sum::<u64>()
        }
    }
}

#[test]
fn sizes_are_those_of_table_8_2() {
    let mut rng = made_from(13);
    for round in 0..3000usize {
        let (type_, subtype) = TWELVE[round % 12];
        let made = second::generate::sheet(&mut rng, type_, subtype);
        let (message, bits) = sheet::close(type_, subtype, &made.codes).unwrap();
        assert_eq!(bits.bits.len() as u64, size_of(&message, subtype));
    }
}

/// 0, small, next to bounds, or any number at all
fn wild(rng: &mut Rng) -> u64 {
    let any = rng.draw();
    rng.pick(&[0, 1, 2, 6, 16, 32, 192, 1103, 65535, u64::MAX, any, any >> 32, any >> 52, any >> 60])
}

#[test]
fn any_numbers_at_all_are_answered() {
    let mut rng = made_from(14);
    for _ in 0..20000 {
        let n: Vec<u64> = (0..desk::PLACES).map(|_| wild(&mut rng)).collect();
        let numbers: desk::Numbers = std::array::from_fn(|i| n[i]);
        let mut buffer = |stated| {
            let size = buffer_size(&mut rng, stated);
            if rng.one_in(2) {
                vec![0; size]
            } else {
                lent_bytes(&mut rng, size)
            }
        };
        let (mut tray, mut live, mut run, mut log) = (buffer(1103), buffer(192), buffer(192), buffer(4096));
        let bytes = if rng.one_in(2) { odd_frame(&mut rng) } else { second::generate::frame(&mut rng) };
        let state = stream::Tray { held: n[0], shown: n[1], noise: n[2] };
        let _ = stream::call(&state, &mut tray, &bytes);
        let _ = stream::finish(&state, &mut tray);
        let desk = desk::Desk::of_numbers(&numbers);
        let _ = desk::new(n[0], n[1], n[2]);
        let _ = desk::take(&desk, &bytes, wild(&mut rng), &mut live, &mut run, &mut log);
        let _ = desk::look_up(&desk, &live, &run, AreaId(n[8]));
        let _ = desk::take_kept(&desk, &bytes, &mut live, &run);
        let (aiou, siou) = ((n[3] != 1).then_some(n[4]), n[6].checked_sub(1));
        let any = Book { aiou, siou, count: n[5] };
        for book in [any, Book::of_numbers(&[n[4], n[6], n[5]])] {
            let _ = book::take(&book, &mut live, &n);
            let _ = kept::write(&book, &live, &mut run);
            let _ = book.numbers();
        }
        let _ = kept::read(&bytes, &mut live);
        let _ = groups::read(&bytes);
        let _ = sheet::write(n[0] & 3, n[1] % 6, &n, &mut tray);
        let _ = sheet::read(n[0] & 3, n[1] % 6, &bytes, &mut [0; 8184]);
        let _ = values::value(n[0] as u16, n[1]);
        let _ = values::orbit(n[0], n[1], n[2]);
        let _ = views::satellite(n[0], &n, n[1]);
        let parts = Plain {
            type_: n[0],
            check_type: n[1],
            subtype: n[2],
            tag_kind: n[3],
            tag: n[4],
            solution: n[5],
            processor: n[6],
        };
        let _ = frame::write_plain(&parts, &bytes, &mut tray);
    }
}

#[test]
fn odd_sheets_reach_every_refusal_and_alter_nothing() {
    let mut rng = made_from(2);
    let mut reached = BTreeSet::new();
    for round in 0..8000usize {
        let (mut type_, mut subtype) = TWELVE[round % 12];
        let odd = odd_sheet(&mut rng, type_, subtype);
        if rng.one_in(20) {
            (type_, subtype) = (rng.below(6), rng.below(17));
        }
        let size = buffer_size(&mut rng, 1023);
        let mut out = lent_bytes(&mut rng, size);
        let as_lent = out.clone();
        let result = sheet::write(type_, subtype, &odd, &mut out);
        let upto = result.map_or(0, |written| written.bytes);
        assert_eq!(out[upto..], as_lent[upto..]);
        reached.insert(number(&result));
    }
    assert_eq!(reached, BTreeSet::from([0, 1, 4, 6, 7, 8, 9, 16]));
}

#[test]
fn odd_payloads_reach_every_refusal_and_what_is_read_is_written_back() {
    let mut rng = made_from(3);
    let mut reached = BTreeSet::new();
    for round in 0..8000usize {
        let (mut type_, mut subtype) = TWELVE[round % 12];
        let odd = if rng.one_in(4) {
            second::generate::payload(&mut rng, type_, subtype)
        } else {
            odd_payload(&mut rng, type_, subtype)
        };
        if rng.one_in(20) {
            (type_, subtype) = (rng.below(6), rng.below(17));
        }
        let size = buffer_size(&mut rng, 8184);
        let mut entries = vec![0xA5; size];
        let result = sheet::read(type_, subtype, &odd, &mut entries);
        let upto = result.map_or(0, |read| read.entries);
        assert!(entries[upto..].iter().all(|&entry| entry == 0xA5));
        reached.insert(number(&result));
        if let Ok(read) = result {
            let mut out = [0; 1023];
            let written = sheet::write(type_, subtype, &entries[..upto], &mut out).unwrap();
            assert_eq!(written.bits, read.bits);
            for bit in 0..8 * written.bytes {
                let of = |bytes: &[u8]| bytes[bit / 8] >> (7 - bit % 8) & 1;
                assert_eq!(of(&out), if bit < read.bits { of(&odd) } else { 0 });
            }
        }
    }
    assert_eq!(reached, BTreeSet::from([0, 1, 4, 6, 7, 8, 9]));
}

/// The SF numbers of the tables of document 000 that are in these ranges.
fn sf_numbers(ranges: &[RangeInclusive<u16>]) -> BTreeSet<u16> {
    ranges.iter().cloned().flatten().collect()
}

/// Does a refusal carry a place exactly if it is one that has to?
fn says_where(refused: &Refused) -> bool {
    let has_one = matches!(refused.why, Refusal::Short | Refusal::Field | Refusal::MaskEmpty);
    refused.place.is_some() == has_one
}

/// The SF numbers of the faults met, by the refusal.
type Met = BTreeMap<Refusal, BTreeSet<u16>>;

fn meet(met: &mut Met, expected: Refused) {
    met.entry(expected.why).or_default().insert(expected.place.unwrap().sf);
}

#[test]
fn a_fault_is_said_at_the_entry_it_was_put_at_and_every_sf_number_comes() {
    let mut rng = made_from(17);
    let (mut reading, mut writing) = (Met::new(), Met::new());
    let (mut out, mut entries) = ([0xA5; 1023], [0xA5; 8184]);
    for round in 0..12 * 250usize {
        let (type_, subtype) = TWELVE[round % 12];
        let made = second::generate::sheet(&mut rng, type_, subtype);
        for _ in 0..3 {
            let faulty = [Some(cut_sheet(&mut rng, &made)), wrong_sheet(&mut rng, &made)];
            for (codes, fault) in faulty.into_iter().flatten() {
                let expected = fault.written(&made);
                assert_eq!(sheet::close(type_, subtype, &codes).err(), Some(expected));
                assert_eq!(sheet::write(type_, subtype, &codes, &mut out), Err(expected));
                // for SHORT the entry is the sheet's length
                let at = expected.place.unwrap().at;
                assert_eq!(at == codes.len(), expected.why == Refusal::Short);
                meet(&mut writing, expected);
                // longer behind the fault, it is the same
                if expected.why != Refusal::Short {
                    let longer = [&codes[..], &[u64::MAX]].concat();
                    assert_eq!(sheet::close(type_, subtype, &longer).err(), Some(expected));
                }
            }
            let faulty = [cut_payload(&mut rng, &made), wrong_payload(&mut rng, &made)];
            for (payload, fault) in faulty.into_iter().flatten() {
                let expected = fault.read(&made);
                assert_eq!(sheet::open(type_, subtype, &payload).err(), Some(expected));
                assert_eq!(sheet::read(type_, subtype, &payload, &mut entries), Err(expected));
                meet(&mut reading, expected);
            }
        }
    }
    assert!(out.iter().all(|&byte| byte == 0xA5) && entries.iter().all(|&entry| entry == 0xA5));
    let masks = sf_numbers(&[11..=12, 93..=95]);
    // tables 6.3 to 6.28
    let all = sf_numbers(&[5..=5, 8..=37, 39..=83, 93..=107]);
    let expected =
        [(Refusal::Short, all.clone()), (Refusal::MaskEmpty, masks.clone()), (Refusal::Field, all)];
    assert_eq!(writing, expected.into());
    // A payload ends at the end of a byte, and the headers begin at its first bit: in OCB SF010, SF069,
    // SF008, SF009 and the ephemeris types but BeiDou's lie within bits 9 to 15, in HPAC and GAD SF068 and
    // SF069, in BPAC SF069 to SF071. None of these is ever SHORT.
    let short = sf_numbers(&[5..=5, 11..=15, 18..=37, 39..=67, 72..=83, 93..=95, 97..=97, 99..=107]);
    // "Codes": those that do not take their full width; document 02, request 6: the ephemeris types
    let field = sf_numbers(&[20..=21, 29..=29, 32..=33, 40..=41, 43..=43, 45..=50, 54..=54, 57..=62]);
    let field = &field | &sf_numbers(&[73..=74, 80..=80, 16..=17, 96..=98]);
    let expected = [(Refusal::Short, short), (Refusal::MaskEmpty, masks), (Refusal::Field, field)];
    assert_eq!(reading, expected.into());
}

/// Source document 000, section 6.4, rows SF016, SF017, SF096, SF097, SF098: SF number, bits, and how many types
/// have a meaning; all others are TBD. Then the SF number of the satellite mask.
const TYPES: [(u16, usize, u64, u16); 5] =
    [(16, 2, 1, 11), (17, 2, 1, 12), (96, 3, 3, 93), (97, 4, 6, 94), (98, 3, 3, 95)];

#[test]
fn a_type_without_a_meaning_is_field_whatever_lies_behind_it() {
    let mut rng = made_from(22);
    let (mut out, mut entries) = ([0xA5; 1023], [0xA5; 8184]);
    for (subtype, (sf, bits, meanings, mask)) in (0..).zip(TYPES) {
        for (code, behind) in (0..1 << bits).flat_map(|code| BEHIND.map(|behind| (code, behind))) {
            for _ in 0..4 {
                let made = typed_sheet(&mut rng, subtype, code, behind);
                assert_eq!(made.codes[TYPE_ENTRY], code);
                // by entry 5 and bit 13; a mask's size and bits come next
                let at = |why, sf, at| Some(Place { sf, at }.refuses(why));
                let (written, read) = match behind {
                    _ if code >= meanings => (at(Refusal::Field, sf, 5), at(Refusal::Field, sf, 13)),
                    Behind::EmptyMask => {
                        let bit = 13 + bits + 2;
                        (at(Refusal::MaskEmpty, mask, 7), at(Refusal::MaskEmpty, mask, bit))
                    }
                    // BeiDou's mask size lies in the fill
                    Behind::Nothing => {
                        let bit = if subtype == 3 { 19 } else { 13 + bits };
                        (at(Refusal::Short, mask, 6), at(Refusal::Short, mask, bit))
                    }
                    _ => (None, None),
                };
                let (codes, payload) = (&made.codes, made.payload());
                assert_eq!(sheet::close(0, subtype, codes).err(), written, "{made:?}");
                assert_eq!(sheet::open(0, subtype, &payload).err(), read, "{made:?}");
                assert_eq!(views::satellite(subtype, codes, 0).err(), written);
                assert_eq!(views::satellite_of(subtype, codes, 1).err(), written);
                let own = Some(Refusal::Field.into());
                assert_eq!(views::satellite_at(subtype, codes, 7).err(), written.or(own));
                if code >= meanings {
                    assert_eq!(sheet::write(0, subtype, codes, &mut out).err(), written);
                    assert_eq!(sheet::read(0, subtype, &payload, &mut entries).err(), read);
                    // longer, it is the same
                    let longer = [codes, &[0][..]].concat();
                    assert_eq!(sheet::close(0, subtype, &longer).err(), written);
                }
                let satellites = views::satellites(subtype, codes).unwrap_or_default();
                let orbits = satellites.iter().filter(|view| match &view.satellite {
                    views::Satellite::InUse(blocks) => blocks.orbit.is_some(),
                    views::Satellite::OutOfUse => false,
                });
                assert!(orbits.count() == 0 || behind == Behind::Satellites);
            }
        }
    }
    assert!(out.iter().all(|&byte| byte == 0xA5) && entries.iter().all(|&entry| entry == 0xA5));
}

#[test]
fn made_up_ocbs_have_every_type_and_odd_ones_every_type_without_a_meaning() {
    let mut rng = made_from(23);
    let type_of = |payload: &[u8], bits: usize| {
        let mut from = BitReader::new(payload);
        from.take(13).and(from.take(bits as u32)).unwrap()
    };
    for (subtype, (sf, bits, meanings, _)) in (0..).zip(TYPES) {
        let (mut valid, mut writing, mut reading) = (BTreeSet::new(), BTreeSet::new(), BTreeSet::new());
        for _ in 0..6000 {
            valid.insert(second::generate::sheet(&mut rng, 0, subtype).codes[TYPE_ENTRY]);
            let odd = odd_sheet(&mut rng, 0, subtype);
            let here = |at| Some(Place { sf, at }.refuses(Refusal::Field));
            if sheet::close(0, subtype, &odd).err() == here(5) && odd[5] < 1 << bits {
                writing.insert(odd[5]);
            }
            let odd = odd_payload(&mut rng, 0, subtype);
            if sheet::open(0, subtype, &odd).err() == here(13) {
                reading.insert(type_of(&odd, bits));
            }
        }
        assert_eq!(valid, (0..meanings).collect());
        assert_eq!(writing, (meanings..1 << bits).collect());
        assert_eq!(reading, (meanings..1 << bits).collect());
    }
}

#[test]
fn a_type_without_a_meaning_passes_in_a_frame_whose_payload_is_not_read() {
    let mut rng = made_from(24);
    for (subtype, (_, bits, meanings, _)) in (0..).zip(TYPES) {
        for code in meanings..1 << bits {
            let payload = typed_sheet(&mut rng, subtype, code, Behind::Satellites).payload();
            let parts = Plain { type_: 0, subtype, ..second::generate::parts(&mut rng) };
            let mut out = [0; 1103];
            let length = frame::write_plain(&parts, &payload, &mut out).unwrap();
            assert_eq!(out[check(&out[..length]).unwrap().payload], payload);
            let (mut live, mut run, mut log) = ([0; 192], [0; 192], [0; 4096]);
            let desk = desk::new(parts.solution, parts.processor, subtype).unwrap();
            let taken = desk::take(&desk, &out[..length], 0, &mut live, &mut run, &mut log);
            assert_eq!(taken.err(), Some(Refusal::NotOurs.into()));
        }
    }
}

#[test]
fn only_short_field_and_mask_empty_say_where_and_a_mask_at_its_bits() {
    let mut rng = made_from(18);
    let mut masks = BTreeSet::new();
    for round in 0..8000usize {
        let (type_, subtype) = TWELVE[round % 12];
        let told = if rng.one_in(20) { (rng.below(6), rng.below(17)) } else { (type_, subtype) };
        let codes = odd_sheet(&mut rng, type_, subtype);
        let size = buffer_size(&mut rng, 1023);
        let written = sheet::write(told.0, told.1, &codes, &mut vec![0; size]);
        let payload = odd_payload(&mut rng, type_, subtype);
        let size = buffer_size(&mut rng, 8184);
        let read = sheet::read(told.0, told.1, &payload, &mut vec![0; size]);
        for refused in written.err().iter().chain(&read.err()) {
            assert!(says_where(refused), "{refused:?}");
            let answer = with_place(&Err::<(), Refused>(*refused));
            let place = refused.place.unwrap_or(Place { sf: 0, at: 0 });
            assert_eq!(answer % 256, refused.why.number() as u64);
            assert_eq!((answer >> 8 & 0xFF_FFFF, answer >> 32), (place.sf as u64, place.at as u64));
        }
        let Err(Refused { why, place: Some(place) }) = written else { continue };
        // an entry at fault is on the sheet, and what stands there is what is wrong
        match why {
            Refusal::Short => assert_eq!(place.at, codes.len()),
            Refusal::MaskEmpty => {
                assert_eq!(codes[place.at], 0);
                assert!(codes[place.at - 1] <= 3);
                masks.insert((type_, place.sf));
                // with a bit in the mask the fault, if there is one left, is behind it
                let mut mended = codes.clone();
                mended[place.at] = 1;
                let then = sheet::close(told.0, told.1, &mended).err().and_then(|refused| refused.place);
                assert!(then.is_none_or(|then| then.at > place.at));
            }
            _ => {
                let mut mended = codes.clone();
                mended[place.at] = if mended[place.at] == 0 { 1 } else { 0 };
                let then = sheet::close(told.0, told.1, &mended).err();
                let here = |refused: Refused| refused.place == Some(place) && refused.why == Refusal::Field;
                assert!(!then.is_some_and(here));
            }
        }
    }
    let of = |type_: u64| [11, 12, 93, 94, 95].map(|sf| (type_, sf));
    assert_eq!(masks, of(0).into_iter().chain(of(1)).collect());
}

#[test]
fn the_longest_payloads_and_the_longest_sheet_of_all_say_where() {
    let mut rng = made_from(19);
    let mut met = BTreeSet::new();
    for round in 0..240usize {
        let (type_, subtype) = TWELVE[round % 12];
        let Some((made, payload, fault)) = long_payload(&mut rng, type_, subtype) else { continue };
        let expected = fault.read(&made);
        assert!(expected.place.unwrap().at > 7900);
        assert_eq!(sheet::open(type_, subtype, &payload).err(), Some(expected));
        met.insert(type_);
    }
    // 32 areas of GAD are 1,523 bits; a BPAC is rarely so long
    assert!(met.contains(&0) && met.contains(&1) && !met.contains(&2));
    for subtype in [0, 1] {
        let mut made = longest_sheet(&mut rng, subtype);
        let count = made.codes.len();
        assert!(count > 270_000);
        assert_eq!(sheet::close(1, subtype, &made.codes).err(), Some(Refusal::Length.into()));
        let last = made.fields[count - 1];
        let at = |why| Some(Place { sf: last.sf, at: count - 1 }.refuses(why));
        assert_eq!(sheet::close(1, subtype, &made.codes[..count - 1]).err(), at(Refusal::Short));
        made.codes[count - 1] = last.top() + 1;
        assert_eq!(sheet::close(1, subtype, &made.codes).err(), at(Refusal::Field));
    }
}

#[test]
fn every_code_of_every_valued_field_is_judged() {
    for sf in values::valued() {
        let mut taken = 0;
        for code in 0..40000 {
            match values::value(sf, code) {
                Ok(values::Value::Float(value)) => assert!(value.is_finite()),
                Ok(_) => {}
                Err(refusal) => assert_eq!(refusal, Refusal::Field),
            }
            taken += values::value(sf, code).is_ok() as u64;
        }
        assert!((4..=32767).contains(&taken), "SF{sf}");
    }
}

#[test]
fn views_agree_with_the_sheet() {
    let mut rng = made_from(4);
    for round in 0..1500usize {
        let (type_, subtype) = TWELVE[round % 12];
        let made = second::generate::sheet(&mut rng, type_, subtype);
        let codes = &made.codes;
        match type_ {
            0 => {
                let all = views::satellites(subtype, codes).unwrap();
                assert_eq!(all.len() as u64, codes[7].count_ones() as u64);
                for (place, view) in all.iter().enumerate() {
                    assert_eq!(views::satellite(subtype, codes, place as u64).as_ref(), Ok(view));
                    let found = views::satellite_of(subtype, codes, view.number).unwrap();
                    assert_eq!(found.as_ref(), Some(view));
                    let out_of_use = view.satellite == views::Satellite::OutOfUse;
                    assert_eq!(out_of_use, codes[view.entry] == 1);
                }
            }
            1 => {
                let all = views::hpac_areas(subtype, codes).unwrap();
                assert_eq!(all.len() as u64, codes[3] + 1);
                for view in &all {
                    let first = all.iter().find(|other| other.id == view.id);
                    assert_eq!(views::hpac_area(subtype, codes, view.id).unwrap().as_ref(), first);
                }
            }
            2 => assert_eq!(views::gad_areas(codes).unwrap().len() as u64, codes[3] + 1),
            _ => assert_eq!(views::bpac_areas(codes).unwrap().len() as u64, codes[3] + 1),
        }
        let odd = odd_sheet(&mut rng, type_, subtype);
        let place = rng.below(70);
        // a view's refusals are the writer's, place and all; its own FIELD has no place
        let own = |of| sheet::close(of, if of < 2 { subtype } else { 0 }, &odd).err();
        let seen = views::satellite(subtype, &odd, place).err();
        assert!(seen == own(0) || own(0).is_none() && seen == Some(Refusal::Field.into()));
        assert_eq!(views::hpac_area(subtype, &odd, AreaId(place)).err(), own(1));
        assert_eq!(views::gad_area(&odd, AreaId(place)).err(), own(2));
        let seen = views::bpac_area(&odd, views::BpacAreaId(place)).err();
        assert!(seen == own(3) || own(3).is_none() && place > 3 && seen == Some(Refusal::Field.into()));
    }
}

#[test]
fn frames_are_accepted_and_odd_ones_reach_every_refusal() {
    let mut rng = made_from(5);
    let mut reached = BTreeSet::new();
    let mut kinds = BTreeSet::new();
    for _ in 0..4000 {
        let bytes = second::generate::frame(&mut rng);
        let accepted = check(&bytes).unwrap();
        assert_eq!(accepted.length, bytes.len());
        kinds.insert((accepted.check_type, accepted.tag_kind, accepted.seal.map(|s| s.authentication > 1)));
        if accepted.seal.is_none() {
            let parts = Plain {
                type_: accepted.type_,
                check_type: accepted.check_type,
                subtype: accepted.subtype,
                tag_kind: accepted.tag_kind,
                tag: accepted.tag,
                solution: accepted.solution,
                processor: accepted.processor,
            };
            let mut out = [0; 1103];
            let length = frame::write_plain(&parts, &bytes[accepted.payload.clone()], &mut out).unwrap();
            assert_eq!(out[..length], bytes);
        }
        let odd = odd_frame(&mut rng);
        let checked = check(&odd);
        reached.insert(number(&checked));
        if let Ok(accepted) = checked {
            assert!(accepted.length <= odd.len());
        }
    }
    // by chance an odd one is accepted all the same
    reached.remove(&0);
    assert_eq!(reached, BTreeSet::from([1, 2, 3, 4, 5]));
    assert_eq!(kinds.len(), 4 * 2 * 3);
}

#[test]
fn odd_parts_reach_every_refusal_of_the_plain_writer() {
    let mut rng = made_from(6);
    let mut reached = BTreeSet::new();
    for _ in 0..2000 {
        let parts = odd_parts(&mut rng);
        let payload = vec![7; rng.pick(&[0, 1, 50, 1023, 1024])];
        let size = buffer_size(&mut rng, 1103);
        let mut out = lent_bytes(&mut rng, size);
        let as_lent = out.clone();
        let result = frame::write_plain(&parts, &payload, &mut out);
        let upto = result.unwrap_or(0);
        assert_eq!(out[upto..], as_lent[upto..]);
        if result.is_ok() {
            assert_eq!(check(&out[..upto]).unwrap().length, upto);
        }
        reached.insert(number(&result));
    }
    assert_eq!(reached, BTreeSet::from([0, 4, 8, 9]));
}

fn uncut(input: &[u8]) -> Vec<Event> {
    stream::scan(input).into_iter().map(|(event, _)| event).collect()
}

#[test]
fn a_stream_says_the_same_however_it_is_cut() {
    let mut rng = made_from(7);
    let mut frames = 0;
    for round in 0..400 {
        let input = if round % 40 == 0 { noisy_stream(&mut rng) } else { second::generate::stream(&mut rng) };
        let expected = uncut(&input);
        frames += expected.iter().filter(|event| matches!(event, Event::Frame { .. })).count();
        let told: u64 = expected
            .iter()
            .map(|event| match event {
                Event::Frame { length, .. } => *length,
                Event::Noise { count } => *count,
                _ => 0,
            })
            .sum();
        assert_eq!(told, input.len() as u64);
        let cuts = cutting(&mut rng, input.len());
        assert_eq!(cuts.iter().sum::<usize>(), input.len());
        assert_eq!(stream::run(&input, &cuts), expected);
    }
    assert!(frames > 2000);
}

#[test]
fn a_call_from_any_sound_tray_leaves_a_sound_one_and_an_unsound_one_is_state() {
    let mut rng = made_from(8);
    for _ in 0..3000 {
        let (tray, mut bytes) = tray(&mut rng);
        assert!(stream::sound(&tray, &bytes));
        let portion = if rng.one_in(3) { vec![] } else { second::generate::stream(&mut rng) };
        let before = bytes.clone();
        let step = if rng.one_in(3) {
            stream::finish(&tray, &mut bytes)
        } else {
            stream::call(&tray, &mut bytes, &portion)
        };
        let step = step.unwrap();
        assert!(stream::sound(&step.tray, &bytes));
        assert_eq!(bytes[1103..], before[1103..]);
        let (tray, mut bytes) = unsound_tray(&mut rng);
        let before = bytes.clone();
        assert_eq!(stream::call(&tray, &mut bytes, &portion), Err(Refusal::State));
        assert_eq!(stream::finish(&tray, &mut bytes), Err(Refusal::State));
        assert_eq!(bytes, before);
    }
}

/// The numbers of a kept book that begins with these, as many as it has, if there is such a book:
/// the one with the least numbers behind them is made up whole and judged as a book.
fn kept_beginning_with(given: &[u64]) -> Option<usize> {
    let at = |place: usize, least: u64| given.get(place).copied().unwrap_or(least);
    let form = at(0, 1);
    let (aiou, siou, head) = match form {
        1 => (at(1, 0), 0, 3),
        2 => (at(1, 0), at(2, 0), 4),
        _ => return None,
    };
    let count = at(head - 1, (aiou != 0) as u64);
    if count > 32 {
        return None;
    }
    let (mut bytes, mut next_id) = (Vec::new(), 0);
    for place in head..head + count as usize {
        // one node at the south pole, with the least ID that ascends
        let number = at(place, next_id << 39);
        if number >= 1 << 47 {
            return None;
        }
        next_id = (number >> 39) + 1;
        bytes.extend(&(number << 1).to_be_bytes()[2..]);
    }
    bytes.resize(192, 0);
    let book = Book { aiou: aiou.checked_sub(1), siou: siou.checked_sub(1), count };
    book::sound(&book, &bytes).then_some(head + count as usize)
}

/// What reading a kept book has to say, number by number, and how many numbers ended before it was
/// said: "the first fault in reading order, SHORT or FORM (a number not in shortest form, or one
/// after which no sound book can follow), then LEFTOVER".
fn kept_answer(kept: &[u8]) -> (Result<(), Refusal>, usize) {
    let (mut numbers, mut rest) = (Vec::new(), kept);
    loop {
        match kept_beginning_with(&numbers) {
            None => return (Err(Refusal::Form), numbers.len() - 1),
            Some(count) if count == numbers.len() => {
                let answer = if rest.is_empty() { Ok(()) } else { Err(Refusal::Leftover) };
                return (answer, numbers.len());
            }
            Some(_) => {}
        }
        match groups::read(rest) {
            Err(refusal) => return (Err(refusal), numbers.len()),
            Ok((number, used)) => {
                numbers.push(number);
                rest = &rest[used..];
            }
        }
    }
}

/// Kept bytes read, as they must be; what is read is written again. The answer, and the number it
/// was given at.
fn read_as_must_be(kept: &[u8]) -> (u8, usize) {
    let (expected, at) = kept_answer(kept);
    let mut bytes = [0xA5; 193];
    let result = kept::read(kept, &mut bytes);
    assert_eq!(result.map(|_| ()), expected, "{kept:02X?}");
    let upto = result.map_or(0, |book| 6 * book.count as usize);
    assert!(bytes[upto..].iter().all(|&byte| byte == 0xA5));
    if let Ok(book) = result {
        assert!(book::sound(&book, &bytes));
        let held = book::areas(&book, &bytes).unwrap();
        // no second string of bytes of a form is read as the same book; form 1 says nothing of the
        // SIOU
        let form = kept[0] as u64;
        assert!(form == kept::FORM_2 || book.siou.is_none());
        let again = kept::numbers(form, &book, &held).into_iter().flat_map(groups::groups);
        assert_eq!(again.collect::<Vec<u8>>(), kept);
        // written in form 2, which reads as the same
        let mut out = [0xA5; 230];
        let length = kept::write(&book, &bytes, &mut out).unwrap();
        assert!(out[0] == 2 && out[length..].iter().all(|&byte| byte == 0xA5));
        assert!(form == kept::FORM_1 || out[..length] == *kept);
        assert_eq!(kept::parse(&out[..length]), Ok((book, held)));
    }
    (number(&result), at)
}

#[test]
fn kept_books_come_back_and_broken_ones_reach_every_refusal() {
    let mut rng = made_from(9);
    let mut reached = BTreeSet::new();
    // the form, whether there is a book, whether its SIOU is known
    let mut kinds = BTreeSet::new();
    // the form as it was, the answer, and the number it was given at; an area's is that of the
    // first
    let mut places = BTreeMap::new();
    // SIOU + 1 where it was FORM: over 512, or not 0 without an AIOU
    let mut sious = BTreeSet::new();
    for _ in 0..6000 {
        let (book, bytes) = second::generate::book(&mut rng);
        assert!(book::sound(&book, &bytes));
        let mut out = lent_bytes(&mut rng, 230);
        let as_lent = out.clone();
        let length = kept::write(&book, &bytes, &mut out).unwrap();
        assert_eq!(out[length..], as_lent[length..]);
        let mut back = lent_bytes(&mut rng, 192);
        assert_eq!(kept::read(&out[..length], &mut back), Ok(book));
        assert_eq!(back[..6 * book.count as usize], bytes[..6 * book.count as usize]);
        let whole = second::generate::kept(&mut rng);
        assert_eq!(read_as_must_be(&whole).0, 0);
        let read = kept::read(&whole, &mut back).unwrap();
        kinds.insert((whole[0], read.aiou.is_some(), read.siou.is_some()));
        let broken = broken_kept(&mut rng);
        let size = buffer_size(&mut rng, 192);
        let mut lent = lent_bytes(&mut rng, size);
        let as_lent = lent.clone();
        let result = kept::read(&broken, &mut lent);
        let upto = result.map_or(0, |book| 6 * book.count as usize);
        assert_eq!(lent[upto..], as_lent[upto..]);
        reached.insert(number(&result));
        let (answer, at) = read_as_must_be(&broken);
        let form = broken.first().copied().unwrap_or(0);
        *places.entry((form, answer, at.min(4))).or_insert(0) += 1;
        if let (2, 18, 2, Some(&[aiou, ref rest @ ..])) = (form, answer, at, broken.get(1..)) {
            if let Ok((siou, _)) = groups::read(rest) {
                sious.insert((aiou == 0, siou > 512, siou == 513));
            }
        }
        let (book, bytes) = unsound_book(&mut rng);
        assert_eq!(kept::write(&book, &bytes, &mut out), Err(Refusal::State));
    }
    assert_eq!(reached, BTreeSet::from([0, 1, 9, 16, 18]));
    let with_book = [(1, true, false), (2, true, false), (2, true, true)];
    let without = [(1, false, false), (2, false, false)];
    assert_eq!(kinds, with_book.into_iter().chain(without).collect());
    let met = |form: u8, answer: u8, at: usize| places.get(&(form, answer, at)) > Some(&4);
    // FORM and SHORT at AIOU + 1, in form 2 at SIOU + 1, at the count and at an area; and LEFTOVER
    for at in 1..=4 {
        for (form, answer) in [(1, 18), (2, 18), (1, 1), (2, 1)] {
            assert!(met(form, answer, at), "{form} {answer} {at} {places:?}");
        }
    }
    assert!([1, 2].iter().all(|&form| met(form, 16, 4) && met(form, 0, 4)), "{places:?}");
    assert!(met(0, 18, 0) && met(3, 18, 0) && met(0, 1, 0), "{places:?}");
    let over = [(false, true, false), (false, true, true)];
    let alone = [(true, false, false), (true, true, true)];
    assert!(over.iter().chain(&alone).all(|kind| sious.contains(kind)), "{sious:?}");
}

#[test]
fn every_one_number_change_of_a_kept_book_is_answered_as_it_must_be() {
    let mut rng = made_from(20);
    // the form, the number changed (that of the first area for any), and the answer
    let mut reached = BTreeSet::new();
    let mut forms = BTreeMap::new();
    for _ in 0..60 {
        let numbers = kept_numbers(&mut rng);
        let form = numbers[0];
        *forms.entry((form, (numbers.len() - kept_head(form)).min(2))).or_insert(0) += 1;
        let write = |numbers: &[u64]| -> Vec<u8> {
            numbers.iter().flat_map(|&number| groups::groups(number)).collect()
        };
        let whole = write(&numbers);
        assert_eq!(read_as_must_be(&whole), (0, numbers.len()));
        for at in 0..numbers.len() {
            let mut reach = |answer: u8| reached.insert((form, at.min(kept_head(form)), answer));
            for other in kept_changes(&numbers, at) {
                let mut changed = numbers.clone();
                changed[at] = other;
                let bytes = write(&changed);
                reach(read_as_must_be(&bytes).0);
                // it ends with the number changed: FORM is said there or not at all
                let (answer, told_at) = read_as_must_be(&write(&changed[..=at]));
                assert!(answer == 18 && told_at == at || answer != 18 && told_at == at + 1);
                if answer == 18 {
                    assert_eq!(read_as_must_be(&bytes), (18, at));
                }
            }
            // the same number, not in shortest form
            let mut long = groups::groups(numbers[at]);
            *long.last_mut().unwrap() |= 0x80;
            let cut = [write(&numbers[..at]), long.clone()].concat();
            assert_eq!(read_as_must_be(&cut), (1, at));
            long.push(0);
            let behind = write(&numbers[at + 1..]);
            let all = [write(&numbers[..at]), long, behind].concat();
            assert_eq!(read_as_must_be(&all), (18, at));
        }
        // every beginning is SHORT, and with a byte behind it it is LEFTOVER
        for end in 0..whole.len() {
            assert_eq!(read_as_must_be(&whole[..end]).0, 1);
        }
        assert_eq!(read_as_must_be(&[&whole[..], &[0]].concat()), (16, numbers.len()));
    }
    // books of none, one and more areas in both forms
    assert_eq!(forms.len(), 6, "{forms:?}");
    // each number was changed to one that is read and to one that is FORM; the form number of a
    // book of form 1 to 2 and back leaves too few or too many numbers, or others
    for form in [1, 2] {
        for at in 1..=kept_head(form) {
            assert!(reached.contains(&(form, at, 18)), "{form} {at}");
        }
        assert!(reached.contains(&(form, 0, 18)) && reached.contains(&(form, 1, 0)));
        assert!(reached.contains(&(form, kept_head(form), 0)));
        assert!(reached.contains(&(form, kept_head(form) - 1, 1)));
        assert!(reached.contains(&(form, kept_head(form) - 1, 16)));
    }
    assert!(reached.contains(&(1, 0, 1)) && reached.contains(&(2, 0, 16)), "{reached:?}");
    assert!(reached.contains(&(2, 2, 0)), "another SIOU is read");
}

#[test]
fn books_of_every_kind_come_sound_and_unsound() {
    let mut rng = made_from(21);
    let (mut sound, mut unsound) = (BTreeSet::new(), BTreeMap::new());
    let mut next_to_bounds = BTreeSet::new();
    for _ in 0..3000 {
        let (book, bytes) = second::generate::book(&mut rng);
        assert!(book::sound(&book, &bytes));
        assert_eq!(Book::of_numbers(&book.numbers()), book);
        sound.insert((book.aiou.is_some(), book.siou.is_some()));
        let near = [0, 126, 127, 511];
        next_to_bounds.extend(book.siou.filter(|siou| near.contains(siou)));
        let siou = book.siou.unwrap_or(7);
        let other = other_siou(&mut rng, siou);
        assert!(other <= 511 && other != siou);
        let (book, bytes) = unsound_book(&mut rng);
        assert!(!book::sound(&book, &bytes));
        // unsound by its SIOU alone: over 511, or without an AIOU
        if book::sound(&Book { siou: None, ..book }, &bytes) {
            *unsound.entry(book.aiou.is_some()).or_insert(0) += 1;
        }
    }
    assert_eq!(sound, BTreeSet::from([(false, false), (true, false), (true, true)]));
    assert_eq!(next_to_bounds.len(), 4);
    assert!([false, true].iter().all(|kind| unsound[kind] > 50), "{unsound:?}");
}

/// What the calls say of an entry, index by index, is what stands in it; one index further is FIELD.
fn index_by_index(log: &[u8], entry: &Entry) {
    let no_grid = entries::Grid { size: 0, residuals: vec![] };
    let (grid, satellites) = match entry {
        Entry::Placed(placed) => (placed.troposphere.as_ref().unwrap_or(&no_grid), &placed.satellites[..]),
        _ => (&no_grid, &[][..]),
    };
    let logged = |coded: Coded| if coded.residual == Residual::Invalid { 0 } else { coded.code + 1 };
    for (node, &expected) in grid.residuals.iter().enumerate() {
        let coded = entries::troposphere(log, node as u64).unwrap();
        assert_eq!(logged(coded), expected);
        assert_eq!(values::residual([52, 53][grid.size as usize], coded.code), Ok(coded.residual));
    }
    for (k, satellite) in satellites.iter().enumerate() {
        let k = k as u64;
        assert_eq!(entries::satellite(log, k), Ok((satellite.number, satellite.grid.size)));
        let sf = [64, 65, 66, 67][satellite.grid.size as usize];
        for (node, &expected) in satellite.grid.residuals.iter().enumerate() {
            let coded = entries::residual(log, k, node as u64).unwrap();
            assert_eq!(logged(coded), expected);
            assert_eq!(values::residual(sf, coded.code), Ok(coded.residual));
        }
        let nodes = satellite.grid.residuals.len() as u64;
        assert_eq!(entries::residual(log, k, nodes), Err(Refusal::Field));
    }
    assert_eq!(entries::troposphere(log, grid.residuals.len() as u64), Err(Refusal::Field));
    assert_eq!(entries::satellite(log, satellites.len() as u64), Err(Refusal::Field));
    assert_eq!(entries::residual(log, satellites.len() as u64, 0), Err(Refusal::Field));
}

#[test]
fn entries_come_back_and_every_beginning_of_one_is_short() {
    let mut rng = made_from(13);
    let (mut kinds, mut reasons) = (BTreeSet::new(), BTreeSet::new());
    let mut satellites = BTreeSet::new();
    for round in 0..600 {
        let entry = entry(&mut rng);
        assert!(entries::sound(&entry));
        let mut log = entries::bytes(&entry);
        let used = log.len();
        kinds.insert(match &entry {
            Entry::Opened { aiou, .. } => (1, aiou.is_some(), false),
            Entry::Placed(placed) => (2, placed.troposphere.is_some(), placed.satellites.is_empty()),
            Entry::LeftOut { reason, .. } => {
                reasons.insert(*reason);
                (3, false, false)
            }
        });
        if let Entry::Placed(placed) = &entry {
            satellites.extend(placed.satellites.iter().map(|satellite| satellite.number));
        }
        for end in (0..used).filter(|end| used < 100 || end % 37 == round % 37) {
            assert_eq!(entries::read(&log[..end]), Err(Refusal::Short));
        }
        if used < 100 {
            index_by_index(&log, &entry);
        }
        let behind = rng.below(20) as usize;
        log.extend(rng.bytes(behind));
        assert_eq!(entries::read(&log), Ok((entry, used)));
    }
    let placed = [(2, false, false), (2, false, true), (2, true, false), (2, true, true)];
    let others = [(1, false, false), (1, true, false), (3, false, false)];
    assert_eq!(kinds, others.into_iter().chain(placed).collect());
    assert_eq!(satellites, BANDS.into_iter().flatten().collect());
    assert_eq!(reasons, (1..=5).collect());
}

#[test]
fn broken_entries_reach_every_refusal_and_what_is_accepted_is_one_string_of_bytes() {
    let mut rng = made_from(14);
    let (mut reached, mut reasons) = (BTreeMap::new(), BTreeSet::new());
    for _ in 0..8000 {
        let log = broken_entry(&mut rng);
        let result = entries::read(&log);
        *reached.entry(number(&result)).or_insert(0) += 1;
        // an area of one group and a reason of one group
        if let [3, 0..=0x7F, reason @ 0..=0x7F, ..] = log[..] {
            assert_eq!(number(&result), if (1..=5).contains(&reason) { 0 } else { 18 });
            reasons.insert(reason);
        }
        match result {
            Ok((entry, used)) => {
                assert!(entries::sound(&entry));
                assert_eq!(entries::bytes(&entry), log[..used]);
            }
            Err(refusal) => {
                // SHORT may end well or not; FORM stays FORM whatever comes behind, and some byte
                // began it: before that byte the bytes are SHORT
                for index in [0, 1, u64::MAX] {
                    assert_eq!(entries::troposphere(&log, index), Err(refusal));
                    assert_eq!(entries::satellite(&log, index), Err(refusal));
                    assert_eq!(entries::residual(&log, index, 0), Err(refusal));
                }
                if refusal == Refusal::Form {
                    let first =
                        (0..=log.len()).find(|&end| entries::read(&log[..end]).is_err_and(|r| r == refusal));
                    assert!(log[first.unwrap() - 1] < 0x80);
                    let longer = [&log[..], &[0, 0x80, 1]].concat();
                    assert_eq!(entries::read(&longer), Err(Refusal::Form));
                }
            }
        }
    }
    assert_eq!(reached.keys().copied().collect::<Vec<_>>(), [0, 1, 18]);
    assert!(reached.values().all(|&count| count > 200), "{reached:?}");
    assert!((0..=6).all(|reason| reasons.contains(&reason)), "{reasons:?}");
}

/// The numbers of a log, entry by entry: what kind it is and, for an area left out, why.
fn told(log: &[u8]) -> Vec<(u64, u64)> {
    let mut rest = log;
    let mut all = Vec::new();
    let next = |rest: &mut &[u8]| {
        let (number, used) = groups::read(rest).unwrap();
        *rest = &rest[used..];
        number
    };
    while !rest.is_empty() {
        let kind = next(&mut rest);
        match kind {
            1 => {
                let (tag, aiou, count) = (next(&mut rest), next(&mut rest), next(&mut rest));
                assert!(tag < 43200 && aiou <= 16 && count <= 32 && (aiou == 0) == (count == 0));
                all.push((1, 0));
            }
            2 => {
                let id = next(&mut rest);
                let area = book::area_of(next(&mut rest)).unwrap();
                assert_eq!(area.id, id);
                let nodes = book::nodes(&area);
                let t = next(&mut rest);
                if t != 0 {
                    assert_eq!(t, nodes);
                    let width = if next(&mut rest) == 0 { 6 } else { 8 };
                    (0..t).for_each(|_| assert!(next(&mut rest) < 1 << width));
                }
                for _ in 0..next(&mut rest) {
                    let number = next(&mut rest);
                    assert!((1..=64).contains(&number) || (193..=256).contains(&number));
                    let width = [4, 7, 10, 14][next(&mut rest) as usize];
                    (0..nodes).for_each(|_| assert!(next(&mut rest) < 1 << width));
                }
                all.push((2, 0));
            }
            _ => {
                assert_eq!(kind, 3);
                let (id, reason) = (next(&mut rest), next(&mut rest));
                assert!(id <= 255 && (1..=5).contains(&reason));
                all.push((3, reason));
            }
        }
    }
    all
}

/// What a stream told, call by call, and what it left.
struct Said {
    answers: Vec<(u8, Option<Place>)>,
    log: Vec<u8>,
    desk: desk::Desk,
    live: Vec<u8>,
    run: Vec<u8>,
    at_finish: u64,
}

/// A stream in one cutting, from a fresh tray and a new desk to done. The call that tells frame i is
/// handed second i; a call that tells none, any.
fn together(
    rng: &mut Rng,
    scene: &Scene,
    input: &[u8],
    cuts: &[usize],
    seconds: &[u64],
    books: (&[u8], &[u8]),
) -> Said {
    let (mut tray, mut live, mut run) = (vec![0; 1103], books.0.to_vec(), books.1.to_vec());
    let mut log = vec![0; 4096];
    let mut state = prepare::new(scene.solution, scene.processor, scene.constellation).unwrap();
    let (mut answers, mut told, mut at_finish) = (Vec::new(), Vec::new(), 0);
    let (mut at, mut end, mut cuts, mut finishing) = (0, 0, cuts.iter(), false);
    loop {
        // what the tray says tells which call this is
        let mut ahead = tray.clone();
        let step = if finishing {
            stream::finish(&state.tray, &mut ahead)
        } else {
            stream::call(&state.tray, &mut ahead, &input[at..end])
        };
        let frame = matches!(step.unwrap().event, Event::Frame { .. });
        let second = if frame { seconds[answers.len()] } else { first_second(rng) };
        let mut lent = Lent { tray: &mut tray, live: &mut live, run: &mut run, log: &mut log };
        let said = if finishing {
            prepare::finish(&state, &mut lent, second)
        } else {
            prepare::call(&state, &mut lent, &input[at..end], second)
        };
        let said = said.unwrap();
        if !frame {
            assert_eq!(said.state.desk, state.desk);
        }
        state = said.state;
        at += said.used;
        match said.event {
            prepare::Event::Hungry => match cuts.next() {
                Some(cut) => end += cut,
                None => finishing = true,
            },
            prepare::Event::Done => break,
            prepare::Event::Noise { .. } => {}
            prepare::Event::Frame { answer, place, logged, .. } => {
                answers.push((answer, place));
                told.extend_from_slice(&log[..logged]);
                at_finish += finishing as u64;
            }
        }
    }
    Said { answers, log: told, desk: state.desk, live, run, at_finish }
}

#[test]
fn scenes_reach_every_answer_and_entry_and_the_joined_call_agrees() {
    let mut rng = made_from(10);
    let (mut reached, mut places) = (BTreeSet::new(), BTreeSet::new());
    let (mut logged, mut solutions) = (BTreeMap::new(), BTreeMap::new());
    let mut longest = 0;
    // scenes in which some area is placed
    let mut placing = 0;
    // frames taken after a gap, and frames that finish told
    let (mut gaps, mut at_finish) = (0, 0);
    for _ in 0..250 {
        let scene = scene(&mut rng);
        let mut desk = desk::new(scene.solution, scene.processor, scene.constellation).unwrap();
        let mut live = lent_bytes(&mut rng, 192);
        let mut run = lent_bytes(&mut rng, 192);
        let (first_live, first_run) = (live.clone(), run.clone());
        let mut log = lent_bytes(&mut rng, 4096);
        // desk alone, frame by frame
        let mut places_some = false;
        for (frame, &second) in scene.frames.iter().zip(&scene.seconds) {
            let (before_live, before_run, as_lent) = (live.clone(), run.clone(), log.clone());
            let result = desk::take(&desk, frame, second, &mut live, &mut run, &mut log);
            reached.insert(number(&result));
            match result {
                Err(refused) => {
                    assert_eq!((&live, &run, &log), (&before_live, &before_run, &as_lent));
                    // the place is the payload's as its reader gives it; a frame's own SHORT has none
                    let own = check(frame).ok().filter(|_| [1, 7, 8].contains(&refused.why.number()));
                    let payload = own.map(|of| (of.type_, of.subtype, frame[of.payload].to_vec()));
                    let said =
                        payload.map(|(type_, subtype, of)| sheet::open(type_, subtype, &of).unwrap_err());
                    assert_eq!(refused.place, said.and_then(|said| said.place));
                    places.extend(refused.place.map(|_| refused.why));
                }
                Ok(taken) => {
                    let before = desk::judged_with(&desk, second);
                    desk = taken.desk;
                    assert!(desk::sound(&desk, &live, &run));
                    assert_eq!(log[taken.logged..], as_lent[taken.logged..]);
                    let told = told(&log[..taken.logged]);
                    for what in of_solutions(&before, &desk, frame, &told) {
                        *solutions.entry(what).or_insert(0) += 1;
                    }
                    places_some |= told.contains(&(2, 0));
                    for entry in told {
                        *logged.entry(entry).or_insert(0) += 1;
                    }
                    let mut at = 0;
                    while at < taken.logged {
                        let (entry, used) = entries::read(&log[at..taken.logged]).unwrap();
                        assert_eq!(entries::bytes(&entry), log[at..at + used]);
                        at += used;
                    }
                    longest = longest.max(taken.logged);
                    let held = 6 * desk.live.count as usize;
                    assert_eq!(live[held..], before_live[held..]);
                    if let Some(open) = desk.run {
                        let held = 6 * open.book.count as usize;
                        assert_eq!(run[held..], before_run[held..]);
                    }
                }
            }
            let id = rng.below(256);
            let (of, part) = desk::look_up(&desk, &live, &run, AreaId(id));
            let bytes = if of == Of::Live { &live } else { &run };
            assert!(part.is_empty() || bytes[part.start] as u64 == id);
        }
        placing += places_some as u64;
        // stream and desk apart, over the uncut scan; frame i has the same second in all that follow
        let input = joined(&mut rng, &scene.frames);
        let mut latest = first_second(&mut rng);
        let mut seconds = Vec::new();
        let mut apart = desk::new(scene.solution, scene.processor, scene.constellation).unwrap();
        let (mut live, mut run) = (first_live.clone(), first_run.clone());
        let mut apart_log = Vec::new();
        let mut apart_answers = Vec::new();
        for (event, at) in stream::scan(&input) {
            if let Event::Frame { .. } = event {
                let second = if rng.one_in(2) { latest } else { next_second(&mut rng, latest) };
                latest = latest.max(second);
                seconds.push(second);
                let result = desk::take(&apart, &input[at..], second, &mut live, &mut run, &mut log);
                apart_answers.push((number(&result), result.err().and_then(|refused| refused.place)));
                if let Ok(taken) = result {
                    gaps += desk::gap(&apart, second) as u64;
                    apart = taken.desk;
                    apart_log.extend_from_slice(&log[..taken.logged]);
                }
            }
        }
        // and together, in two cuttings
        for _ in 0..2 {
            let cuts = cutting(&mut rng, input.len());
            let said = together(&mut rng, &scene, &input, &cuts, &seconds, (&first_live, &first_run));
            assert_eq!((said.answers, said.log), (apart_answers.clone(), apart_log.clone()));
            assert_eq!((said.desk, said.live, said.run), (apart, live.clone(), run.clone()));
            at_finish += said.at_finish;
        }
    }
    assert!(gaps > 300 && at_finish > 50, "{gaps} {at_finish}");
    // SHORT to MESSAGE_CRC, MASK_EMPTY, FIELD, SEALED to BOOK_FULL
    let expected: BTreeSet<u8> = [0, 1, 2, 3, 4, 5, 7, 8, 10, 11, 12, 13, 14, 15].into();
    assert_eq!(reached, expected);
    assert_eq!(places, BTreeSet::from([Refusal::Short, Refusal::MaskEmpty, Refusal::Field]));
    let kinds: Vec<(u64, u64)> = logged.keys().copied().collect();
    assert_eq!(kinds, [(1, 0), (2, 0), (3, 1), (3, 2), (3, 3), (3, 4), (3, 5)]);
    // every reason comes often, and in most scenes areas are placed
    assert!(logged.values().all(|&count| count > 50), "{logged:?}");
    assert!(placing > 125, "{placing}");
    assert_eq!(solutions.len(), 8, "{solutions:?}");
    assert!(solutions.values().all(|&count| count > 9), "{solutions:?}");
    assert!(longest < 4096 && longest > 500, "{longest}");
}

/// What a frame, taken, was to the solutions that the desk knows of, and that nothing but what
/// request 5 lets be was told. `before` is the desk as the frame was judged with.
fn of_solutions(
    before: &desk::Desk,
    after: &desk::Desk,
    frame: &[u8],
    told: &[(u64, u64)],
) -> Vec<&'static str> {
    let of = check(frame).unwrap();
    let message = sheet::open(of.type_, of.subtype, &frame[of.payload]).unwrap().0;
    let mut met = Vec::new();
    match message {
        Message::Gad(gad) => {
            let (old, new) = (before.live, after.live);
            assert_eq!((new.aiou, new.siou), (Some(gad.aiou), Some(gad.siou)));
            assert_eq!((before.run, told), (after.run, &[][..]));
            let same = old.siou == new.siou;
            if !same || old.aiou != new.aiou {
                // a new book has no area but the message's
                assert!(new.count as usize <= gad.areas.len());
            } else {
                assert!(new.count >= old.count);
            }
            met.push(match (old.aiou == new.aiou, same) {
                (true, true) => "GAD: adds",
                (true, false) => "GAD: of the same AIOU and another SIOU",
                (false, true) => "GAD: of another AIOU and the same SIOU",
                (false, false) => "GAD: of others, or the first",
            });
        }
        Message::Hpac(hpac) => {
            let book = after.run.unwrap().book;
            assert_eq!(after.live, before.live);
            let areas = if told[0].0 == 1 { &told[1..] } else { told };
            assert_eq!(areas.len(), hpac.areas.len());
            // all blocks of a message share its AIOU and SIOU: 1, 2 and 5 are all's or none's
            let all_by = |reason| areas.iter().all(|&entry| entry == (3, reason));
            let reason = match book.aiou {
                None => 1,
                Some(aiou) if aiou != hpac.aiou => 2,
                _ if book.siou != Some(hpac.siou) => 5,
                _ => 0,
            };
            assert!([1, 2, 5].iter().all(|&one| all_by(one) == (one == reason)), "{told:?}");
            let placed = areas.contains(&(2, 0));
            let restarted = after.live.aiou == book.aiou && after.live.siou != book.siou;
            if reason == 5 && after.live.is_of(hpac.aiou, hpac.siou) {
                met.push("HPAC: of the live book's SIOU, the run's is older");
            } else if reason == 5 {
                met.push("HPAC: of a SIOU that no GAD brought yet, or no longer");
            }
            if placed && restarted {
                met.push("HPAC: placed by a book whose SIOU is no longer live");
            } else if placed {
                met.push("HPAC: placed");
            }
        }
        _ => panic!("a frame of ours"),
    }
    met
}

#[test]
fn desks_as_they_stand_and_unsound_ones() {
    let mut rng = made_from(11);
    let mut reached = BTreeSet::new();
    // the form, whether the SIOU is known, and 2 for an area placed or the reason
    let mut kept_met = BTreeMap::new();
    for _ in 0..3000 {
        let mut made = if rng.one_in(4) { unsound_table(&mut rng) } else { table(&mut rng) };
        let frame = frame_for(&mut rng, &made);
        let size = buffer_size(&mut rng, 4096);
        let mut log = vec![0xA5; size];
        let size = if rng.one_in(5) { buffer_size(&mut rng, 192) } else { made.run.len() };
        made.run.resize(size, 0);
        let before = made.clone();
        let sound = desk::sound(&made.desk, &made.live, &made.run);
        let second = second_for(&mut rng, &made.desk);
        let result = desk::take(&made.desk, &frame, second, &mut made.live, &mut made.run, &mut log);
        reached.insert(number(&result));
        match result {
            Err(_) => {
                assert_eq!((&made.live, &made.run), (&before.live, &before.run));
                assert!(log.iter().all(|&byte| byte == 0xA5));
            }
            Ok(taken) => {
                assert!(sound && desk::sound(&taken.desk, &made.live, &made.run));
                assert!(log[taken.logged..].iter().all(|&byte| byte == 0xA5));
                made.desk = taken.desk;
            }
        }
        for id in [0, 7, 255, rng.below(256)] {
            let (of, part) = desk::look_up(&made.desk, &made.live, &made.run, AreaId(id));
            assert!(part.is_empty() || part.len() == 6);
            assert!(!part.is_empty() || of == Of::Live);
        }
        let whole = if rng.one_in(2) { second::generate::kept(&mut rng) } else { broken_kept(&mut rng) };
        if let Ok(desk) = desk::take_kept(&made.desk, &whole, &mut made.live, &made.run) {
            assert_eq!((desk.run, desk.last), (made.desk.run, made.desk.last));
            assert!(desk::sound(&desk, &made.live, &made.run));
            made.desk = desk;
            after_kept(&mut rng, &made, whole[0], &mut kept_met);
        }
    }
    assert!(reached.contains(&9) && reached.contains(&17) && reached.contains(&0));
    // areas are placed by form 2 alone, where the SIOU is known; each form also comes without a
    // book
    let expected = [(1, false, 5), (2, false, 5), (2, true, 2), (1, false, 1), (2, false, 1)];
    assert_eq!(kept_met.keys().copied().collect::<BTreeSet<_>>(), expected.into());
    assert!(kept_met.values().all(|&count| count > 9), "{kept_met:?}");
    let (unsound, sound) = (0..400).fold((0, 0), |(unsound, sound), _| {
        let made = unsound_table(&mut rng);
        match desk::sound(&made.desk, &made.live, &made.run) {
            true => (unsound, sound + 1),
            false => (unsound + 1, sound),
        }
    });
    // with no run open a broken run's book does not count
    assert!(unsound > 300 && sound > 0);
}

/// A kept book of a form was taken in: what the next run's HPAC messages meet, and that a GAD of
/// its AIOU over an unknown SIOU begins a new book.
fn after_kept(rng: &mut Rng, made: &Table, form: u8, met: &mut BTreeMap<(u8, bool, u64), u64>) {
    let book = made.desk.live;
    assert!(form == 2 || book.siou.is_none());
    for sort in [Sort::OtherTag, Sort::OverUnknown] {
        let Some(frame) = frame_of(rng, made, sort) else { continue };
        let second = match made.desk.last {
            Last::At(last) => near_second(rng, last),
            _ => first_second(rng),
        };
        let (answer, now, _, _, log) = tried(made, &made.desk, &frame, second);
        assert_eq!(answer, 0);
        if sort == Sort::OverUnknown {
            assert!(now.live.siou.is_some() && now.live.aiou == book.aiou);
            continue;
        }
        let (opened, mut at) = entries::read(&log).unwrap();
        let tag = now.run.unwrap().tag;
        assert_eq!(opened, Entry::Opened { tag, aiou: book.aiou, count: book.count });
        // the log is filled up with a byte that begins no entry
        while let Ok((entry, used)) = entries::read(&log[at..]) {
            at += used;
            let told = match entry {
                Entry::Placed(_) => 2,
                Entry::LeftOut { reason, .. } if reason == 1 || reason == 5 => reason,
                // not in the book, or other nodes
                _ => continue,
            };
            *met.entry((form, book.siou.is_some(), told)).or_insert(0) += 1;
        }
    }
}

/// A frame taken on copies of the books: the answer, the new desk, both books and the log.
fn tried(
    made: &Table,
    desk: &desk::Desk,
    frame: &[u8],
    second: u64,
) -> (u8, desk::Desk, Vec<u8>, Vec<u8>, Vec<u8>) {
    let (mut live, mut run, mut log) = (made.live.clone(), made.run.clone(), vec![0xA5; 4097]);
    let result = desk::take(desk, frame, second, &mut live, &mut run, &mut log);
    (number(&result), result.map_or(*desk, |taken| taken.desk), live, run, log)
}

#[test]
fn after_a_gap_all_is_as_with_an_empty_live_book_and_else_as_without_seconds() {
    let mut rng = made_from(15);
    let mut met = BTreeMap::new();
    for round in 0..6000usize {
        let made = table(&mut rng);
        let sort = SORTS[round % SORTS.len()];
        let Some(frame) = frame_of(&mut rng, &made, sort) else { continue };
        let second = second_for(&mut rng, &made.desk);
        let gap = desk::gap(&made.desk, second);
        // a desk on which no time has passed: nothing of request 1 is in its answer
        let timeless = desk::Desk { last: Last::Never, ..made.desk };
        let over = if gap { desk::Desk { live: Book::default(), ..timeless } } else { timeless };
        let (expected, then, live, run, log) = tried(&made, &over, &frame, second);
        let (answer, now, live_now, run_now, log_now) = tried(&made, &made.desk, &frame, second);
        assert_eq!(answer, expected);
        assert_eq!((&live_now, &run_now, &log_now), (&live, &run, &log));
        if answer == 0 {
            let last = match made.desk.last {
                Last::At(last) if last > second => last,
                _ => second,
            };
            assert_eq!(now, desk::Desk { last: Last::At(last), ..then });
            assert!(desk::sound(&now, &live_now, &run_now));
            // the next run is opened by the book that is left
            let left = Table { desk: now, live: live_now.clone(), run: run_now };
            let next = frame_of(&mut rng, &left, Sort::OtherTag).unwrap();
            let (answer, _, _, _, log) = tried(&left, &now, &next, rng.below(last));
            assert_eq!(answer, 0);
            let (entry, _) = entries::read(&log).unwrap();
            let Entry::Opened { aiou, count, .. } = entry else { panic!("{entry:?}") };
            assert_eq!((aiou, count), (now.live.aiou, now.live.count));
            if gap && matches!(sort, Sort::OfRun | Sort::OtherTag | Sort::OfRunOtherSiou) {
                // no book, and no byte of it was written
                assert_eq!((aiou, count, &live_now), (None, 0, &made.live));
                assert_eq!(now.live, Book::default());
            }
            if sort == Sort::OfRunOtherSiou {
                let (entry, _) = entries::read(&log_now).unwrap();
                assert!(matches!(entry, Entry::LeftOut { reason: 5, .. }), "{entry:?}");
            }
            if matches!(sort, Sort::OtherSiou | Sort::OverUnknown) {
                // of the same AIOU, and yet none of the old areas stayed
                assert_ne!(now.live.siou, made.desk.live.siou);
                let check = check(&frame).unwrap();
                let gad = sheet::open(2, 0, &frame[check.payload]).unwrap().0;
                let Message::Gad(gad) = gad else { panic!("{gad:?}") };
                assert_eq!((now.live.aiou, now.live.siou), (made.desk.live.aiou, Some(gad.siou)));
                assert_eq!(now.live.count as usize, gad.areas.len());
            }
        } else {
            assert_eq!((now, &live_now), (made.desk, &made.live));
        }
        let number = match sort {
            Sort::Against if !gap => 14,
            Sort::Overfull if !gap => 15,
            Sort::Refused(refusal) => refusal.number(),
            _ => 0,
        };
        // a live book may refuse a block before the one that is faulty by itself
        let earlier = !gap && [13, 14].contains(&number) && [14, 15].contains(&answer);
        assert!(answer == number || earlier, "{sort:?} {gap} {answer}");
        *met.entry((sort, gap)).or_insert(0) += 1;
    }
    for sort in SORTS {
        for gap in [false, true] {
            assert!(met.get(&(sort, gap)).is_some_and(|&count| count >= 10), "{sort:?} {gap} {met:?}");
        }
    }
}

#[test]
fn the_seconds_of_every_kind_come() {
    let mut rng = made_from(16);
    let mut met = BTreeSet::new();
    for _ in 0..4000 {
        let last = first_second(&mut rng);
        met.insert(match last {
            0 => "first: 0",
            u64::MAX => "first: the last of all",
            _ if last > u64::MAX - 450 => "first: no gap can follow",
            _ if last >= 1 << 63 => "first: large",
            _ => "first: small",
        });
        let near = near_second(&mut rng, last);
        assert!(near.saturating_sub(last) < 450);
        met.insert(match near {
            _ if near < last => "near: earlier",
            _ if near == last => "near: the same",
            _ if near - last == 449 => "near: 449 after",
            _ => "near: later",
        });
        let gap = gap_second(&mut rng, last);
        assert_eq!(gap.is_none(), last > u64::MAX - 450);
        if let Some(gap) = gap {
            assert!(gap - last >= 450);
            met.insert(match gap - last {
                450 => "gap: 450 after",
                451 => "gap: 451 after",
                _ => "gap: long after",
            });
        }
        let next = next_second(&mut rng, last);
        met.insert(if next.saturating_sub(last) >= 450 { "next: a gap" } else { "next: no gap" });
    }
    assert_eq!(met.len(), 14, "{met:?}");
}

#[test]
fn gads_on_sheets_are_taken_by_the_book() {
    let mut rng = made_from(12);
    let (mut reached, mut kinds) = (BTreeSet::new(), BTreeSet::new());
    let mut book = Book::default();
    let mut bytes = lent_bytes(&mut rng, 192);
    for _ in 0..3000 {
        if rng.one_in(12) {
            (book, bytes) = second::generate::book(&mut rng);
        }
        let count = rng.between(1, 5);
        let blocks: Vec<_> = (0..count)
            .map(|_| {
                let id = rng.below(256);
                let known = book::areas(&book, &bytes).unwrap();
                match rng.below(8) {
                    0 => area_off(&mut rng, id),
                    1 | 2 if !known.is_empty() => rng.pick(&known),
                    _ => area(&mut rng, id),
                }
            })
            .collect();
        let same = book.aiou.unwrap_or(3);
        let other = rng.below(16);
        let aiou = rng.pick(&[same, same, same, same, same, same, other]);
        let same = book.siou.unwrap_or(3);
        let other = other_siou(&mut rng, same);
        let siou = rng.pick(&[same, same, same, same, same, same, other]);
        let sheet = gad_sheet(&mut rng, aiou, siou, &blocks);
        let before = bytes.clone();
        // cut, the sheet says an entry and the payload a bit
        let (codes, fault) = cut_sheet(&mut rng, &sheet);
        assert_eq!(book::take(&book, &mut bytes, &codes), Err(fault.written(&sheet)));
        let (payload, fault) = cut_payload(&mut rng, &sheet).unwrap();
        assert_eq!(book::take_payload(&book, &mut bytes, &payload), Err(fault.read(&sheet)));
        assert_eq!(bytes, before);
        let mut copy = bytes.clone();
        let result = book::take(&book, &mut bytes, &sheet.codes);
        assert_eq!(book::take_payload(&book, &mut copy, &sheet.payload()), result);
        assert_eq!(copy, bytes);
        assert!(result.err().is_none_or(|refused| says_where(&refused)));
        reached.insert(number(&result));
        match result {
            Err(_) => assert_eq!(bytes, before),
            Ok(then) => {
                // with both numbers the same it adds, else none of the old areas stays
                let adds = book.aiou == Some(aiou) && book.siou == Some(siou);
                let old = if adds { book::areas(&book, &before).unwrap() } else { vec![] };
                let ids: BTreeSet<u64> = old.iter().chain(&blocks).map(|area| area.id).collect();
                let count = ids.len() as u64;
                assert_eq!(then, Book { aiou: Some(aiou), siou: Some(siou), count });
                let same_aiou = book.aiou == Some(aiou);
                kinds.insert((same_aiou, book.siou == Some(siou), book.siou.is_some()));
                book = then;
                assert!(book::sound(&book, &bytes));
                for block in &blocks {
                    let part = book::find(&book, &bytes, AreaId(block.id));
                    assert_eq!(bytes[part], book::area_bytes(block));
                }
            }
        }
    }
    assert_eq!(reached, BTreeSet::from([0, 13, 14, 15]));
    // the same AIOU or another, over the same SIOU, another and an unknown one
    assert_eq!(kinds.len(), 6, "{kinds:?}");
}

#[test]
fn the_same_seed_gives_the_same_inputs() {
    for seed in [0, 1, u64::MAX] {
        let make = |seed| {
            let mut rng = Rng::new(seed);
            (second::generate::stream(&mut rng), scene(&mut rng).frames, broken_kept(&mut rng))
        };
        assert_eq!(make(seed), make(seed));
    }
}
