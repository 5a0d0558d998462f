//! The run log read an entry at a time: entries of every kind, every number of them changed, every beginning of them, other forms
//! of their numbers, bytes behind them, and the logs that desks wrote.

use crate::judge::{hex, Input, Judge};
use crate::lent::{self, Lent};
use crate::marks;
use crate::meanings::bits;
use homralgyu::raw;
use second::answer::{number, Refusal};
use second::book::{area_number, area_of, nodes};
use second::desk::HALF_DAY;
use second::entries::{self, Coded, Entry, Grid, Placed, Satellite};
use second::entries::{BANDS, LAST_REASON, MOST_COUNT, MOST_SATELLITES};
use second::generate::*;
use second::groups::groups;
use second::payload::GadArea;
use second::values::Residual;

/// The numbers that an entry wants room for, a residual's unit and code, a satellite's number and size code.
const ENTRY_ROOM: usize = 8;
const RESIDUAL_ROOM: usize = 2;
const SATELLITE_ROOM: usize = 2;

// ---- the calls, on both sides

/// Kind, bytes used, and what the kind has.
fn told(entry: &Entry, used: usize) -> Vec<u64> {
    let used = used as u64;
    match entry {
        Entry::Opened { tag, aiou, count } => vec![1, used, *tag, aiou.map_or(0, |aiou| aiou + 1), *count],
        Entry::LeftOut { id, reason } => vec![3, used, *id, *reason],
        Entry::Placed(p) => {
            let (count, size) = p.troposphere.as_ref().map_or((0, 0), |t| (t.residuals.len() as u64, t.size));
            vec![2, used, p.id, p.bits, count, size, p.satellites.len() as u64, nodes_of(p)]
        }
    }
}

/// The entry that the bytes begin with, with so many places lent for it.
fn read_into(
    rng: &mut Rng,
    judge: &mut Judge,
    bytes: &[u8],
    places: usize,
) -> Result<(Entry, usize), Refusal> {
    let mut entry = lent_entries(rng, places);
    let said = || format!("bytes {}, {places} places", hex(bytes));
    let input = Input { call: "entry_read", said: &said };
    let (our_bytes, mut our_entry) = (lent::bytes(bytes), lent::numbers(&entry));
    let answer = raw::entry_read(our_bytes.now(), our_entry.part());
    let result = if places < ENTRY_ROOM { Err(Refusal::Room) } else { entries::read(bytes) };
    judge.number(&input, answer, number(&result));
    if let Ok((of, used)) = &result {
        let told = told(of, *used);
        entry[..told.len()].copy_from_slice(&told);
    }
    judge.lent(&input, "the entry", &our_entry, &entry);
    judge.lent(&input, "the bytes", &our_bytes, bytes);
    result
}

fn read(rng: &mut Rng, judge: &mut Judge, bytes: &[u8]) -> Result<(Entry, usize), Refusal> {
    read_into(rng, judge, bytes, ENTRY_ROOM)
}

/// The unit as include/homralgyu.h numbers it, and the float.
fn unit(residual: &Residual) -> (u64, Option<f64>) {
    match *residual {
        Residual::Invalid => (0, None),
        Residual::Metres(x) => (1, Some(x)),
        Residual::Tecu(x) => (3, Some(x)),
    }
}

/// A residual: of satellite k, or of the troposphere.
fn residual(rng: &mut Rng, judge: &mut Judge, bytes: &[u8], k: Option<u64>, node: u64, rooms: [usize; 2]) {
    let (mut what, mut value) = (lent_entries(rng, rooms[0]), vec![1.25; rooms[1]]);
    let said = || format!("bytes {}, satellite {k:?}, node {node}, rooms of {rooms:?}", hex(bytes));
    let call = if k.is_some() { "entry_residual" } else { "entry_troposphere" };
    let input = Input { call, said: &said };
    let our_bytes = lent::bytes(bytes);
    let (mut our_what, mut our_value) = (lent::numbers(&what), Lent::new(&value, -7.5));
    let answer = match k {
        Some(k) => raw::entry_residual(our_bytes.now(), k, node, our_what.part(), our_value.part()),
        None => raw::entry_troposphere(our_bytes.now(), node, our_what.part(), our_value.part()),
    };
    let result = match k {
        _ if rooms[0] < RESIDUAL_ROOM || rooms[1] < 1 => Err(Refusal::Room),
        Some(k) => entries::residual(bytes, k, node),
        None => entries::troposphere(bytes, node),
    };
    judge.number(&input, answer, number(&result));
    if let Ok(Coded { code, residual }) = &result {
        let (unit, float) = unit(residual);
        what[..2].copy_from_slice(&[unit, *code]);
        if let Some(x) = float {
            value[0] = x;
        }
        marks::residual_read(judge, k.is_some(), residual);
    }
    judge.lent(&input, "the unit and the code", &our_what, &what);
    judge.lent(&input, "the value", &our_value, &value);
    judge.same(&input, "the value's bits", &bits(our_value.now()), &bits(&value));
    judge.lent(&input, "the bytes", &our_bytes, bytes);
}

/// A satellite's number and size code.
fn satellite(rng: &mut Rng, judge: &mut Judge, bytes: &[u8], k: u64, places: usize) {
    let mut satellite = lent_entries(rng, places);
    let said = || format!("bytes {}, satellite {k}, {places} places", hex(bytes));
    let input = Input { call: "entry_satellite", said: &said };
    let (our_bytes, mut ours) = (lent::bytes(bytes), lent::numbers(&satellite));
    let answer = raw::entry_satellite(our_bytes.now(), k, ours.part());
    let result = if places < SATELLITE_ROOM { Err(Refusal::Room) } else { entries::satellite(bytes, k) };
    judge.number(&input, answer, number(&result));
    if let Ok((number, size)) = result {
        satellite[..2].copy_from_slice(&[number, size]);
    }
    judge.lent(&input, "the satellite", &ours, &satellite);
    judge.lent(&input, "the bytes", &our_bytes, bytes);
}

/// The three calls at an index, inside or not.
fn at_index(rng: &mut Rng, judge: &mut Judge, bytes: &[u8], k: u64, node: u64) {
    residual(rng, judge, bytes, None, node, [RESIDUAL_ROOM, 1]);
    satellite(rng, judge, bytes, k, SATELLITE_ROOM);
    residual(rng, judge, bytes, Some(k), node, [RESIDUAL_ROOM, 1]);
}

/// What the wrapper makes of the numbers: the same entry, residual and satellite once more, as Rust says them.
fn wrapped(rng: &mut Rng, judge: &mut Judge, bytes: &[u8], entry: &Entry, used: usize) {
    use homralgyu::Troposphere;
    let said = || format!("bytes {}", hex(bytes));
    let input = Input { call: "the wrapper's read_entry", said: &said };
    let expected = match entry {
        Entry::Opened { tag, aiou, count } => {
            homralgyu::Entry::Opened { tag: *tag, aiou: aiou.map(|aiou| aiou as u8), count: *count }
        }
        Entry::LeftOut { id, reason } => homralgyu::Entry::LeftOut { id: *id as u8, reason: *reason },
        Entry::Placed(p) => homralgyu::Entry::Placed {
            id: p.id as u8,
            bits: p.bits,
            troposphere: p
                .troposphere
                .as_ref()
                .map(|grid| Troposphere { count: grid.residuals.len() as u64, size: grid.size }),
            satellites: p.satellites.len() as u64,
            nodes: nodes_of(p),
        },
    };
    judge.same(&input, "the entry", &homralgyu::read_entry(bytes), &Ok((expected, used)));
    let (k, node) = corner(rng, entry);
    let value = |coded: Coded| match coded.residual {
        Residual::Invalid => (coded.code, homralgyu::Residual::Invalid),
        Residual::Metres(x) => (coded.code, homralgyu::Residual::Metres(x)),
        Residual::Tecu(x) => (coded.code, homralgyu::Residual::Tecu(x)),
    };
    let refusal = |why: Refusal| homralgyu::Refusal(why.number());
    judge.same(
        &input,
        "entry_troposphere",
        &homralgyu::entry_troposphere(bytes, node),
        &entries::troposphere(bytes, node).map(value).map_err(refusal),
    );
    judge.same(
        &input,
        "entry_satellite",
        &homralgyu::entry_satellite(bytes, k),
        &entries::satellite(bytes, k).map_err(refusal),
    );
    judge.same(
        &input,
        "entry_residual",
        &homralgyu::entry_residual(bytes, k, node),
        &entries::residual(bytes, k, node).map(value).map_err(refusal),
    );
}

// ---- indexes

/// How many satellites and nodes an entry has.
fn extent(entry: &Entry) -> (u64, u64) {
    match entry {
        Entry::Placed(placed) => (placed.satellites.len() as u64, nodes_of(placed)),
        _ => (0, 0),
    }
}

fn nodes_of(placed: &Placed) -> u64 {
    nodes(&area_of(placed.bits).expect("a sound area"))
}

/// An index below a count, mostly at its end, or outside; also one that is inside if it is cut to 8, 16 or 32 bits.
fn index(rng: &mut Rng, count: u64) -> u64 {
    let inside = rng.below(count);
    let far = inside.wrapping_add(1 << rng.pick(&[8, 16, 32, 63]));
    rng.pick(&[inside, inside, 0, count.wrapping_sub(1), count, count + 1, far, u64::MAX])
}

fn corner(rng: &mut Rng, entry: &Entry) -> (u64, u64) {
    let (satellites, nodes) = extent(entry);
    (index(rng, satellites), index(rng, nodes))
}

/// The further calls on an accepted entry: at every index if it is small, else at some; and outside.
fn further(rng: &mut Rng, judge: &mut Judge, bytes: &[u8], entry: &Entry, used: usize) {
    let (satellites, nodes) = extent(entry);
    marks::entry_read(judge, entry, used);
    if bytes.len() > used {
        judge.mark("entry: bytes behind it");
    }
    if (satellites + 1) * nodes <= 40 {
        for node in 0..nodes + 1 {
            residual(rng, judge, bytes, None, node, [RESIDUAL_ROOM, 1]);
            for k in 0..satellites + 1 {
                residual(rng, judge, bytes, Some(k), node, [RESIDUAL_ROOM, 1]);
            }
        }
        for k in 0..satellites + 1 {
            satellite(rng, judge, bytes, k, SATELLITE_ROOM);
        }
    } else {
        // the first, the last and one further
        let ends = |count: u64| [0, count - 1, count];
        for (k, node) in ends(satellites.max(1)).into_iter().flat_map(|k| ends(nodes).map(|node| (k, node))) {
            residual(rng, judge, bytes, Some(k), node, [RESIDUAL_ROOM, 1]);
        }
        for at in [0, 1, 2] {
            satellite(rng, judge, bytes, ends(satellites.max(1))[at], SATELLITE_ROOM);
            residual(rng, judge, bytes, None, ends(nodes)[at], [RESIDUAL_ROOM, 1]);
        }
    }
    marks::outside(judge, entry);
    let (k, node) = corner(rng, entry);
    at_index(rng, judge, bytes, k, node);
    wrapped(rng, judge, bytes, entry, used);
}

// ---- the numbers of an entry

/// What a number of an entry is.
#[derive(Clone, Copy, PartialEq, Eq, Debug)]
pub enum Role {
    Kind,
    Tag,
    Aiou,
    Count,
    Id,
    Area,
    NodeCount,
    TroposphereSize,
    TroposphereResidual,
    SatelliteCount,
    Satellite,
    Size,
    Residual,
    Reason,
}

/// A number of an entry, and the most that may stand there after those before it.
#[derive(Clone, Copy)]
struct Place {
    role: Role,
    number: u64,
    most: u64,
}

fn places(entry: &Entry) -> Vec<Place> {
    let mut rules = vec![(Role::Kind, 3)];
    match entry {
        Entry::Opened { .. } => {
            rules.extend([(Role::Tag, HALF_DAY - 1), (Role::Aiou, 16), (Role::Count, MOST_COUNT)])
        }
        Entry::LeftOut { .. } => rules.extend([(Role::Id, 255), (Role::Reason, LAST_REASON)]),
        Entry::Placed(placed) => {
            let nodes = nodes_of(placed);
            rules.extend([(Role::Id, 255), (Role::Area, (1 << 47) - 1), (Role::NodeCount, nodes)]);
            if let Some(grid) = &placed.troposphere {
                let top = [63, 255][grid.size as usize];
                rules.push((Role::TroposphereSize, 1));
                rules.extend((0..nodes).map(|_| (Role::TroposphereResidual, top)));
            }
            rules.push((Role::SatelliteCount, MOST_SATELLITES));
            for (i, satellite) in placed.satellites.iter().enumerate() {
                let to_come = (placed.satellites.len() - 1 - i) as u64;
                let band = if satellite.number <= 64 { &BANDS[0] } else { &BANDS[1] };
                let top = [15, 127, 1023, 16383][satellite.grid.size as usize];
                rules.extend([(Role::Satellite, band.end() - to_come), (Role::Size, 3)]);
                rules.extend((0..nodes).map(|_| (Role::Residual, top)));
            }
        }
    }
    let numbers = entries::numbers(entry);
    assert_eq!(numbers.len(), rules.len());
    numbers.into_iter().zip(rules).map(|(number, (role, most))| Place { role, number, most }).collect()
}

/// The groups of a number of more than 64 bits.
pub fn wide(number: u128) -> Vec<u8> {
    let mut bytes = Vec::new();
    let mut rest = number;
    while rest >= 128 {
        bytes.push(rest as u8 & 0x7F | 0x80);
        rest >>= 7;
    }
    bytes.push(rest as u8);
    bytes
}

/// A number's groups, then zero groups up to a count, all with more to follow.
pub fn open(number: u64, count: usize) -> Vec<u8> {
    let mut form = groups(number);
    if let Some(last) = form.last_mut() {
        *last |= 0x80;
    }
    let size = form.len().max(count);
    form.resize(size, 0x80);
    form
}

/// What is put in the place of a number: other numbers, near and far, and other forms.
fn instead(rng: &mut Rng, all: &[Place], at: usize) -> Vec<Vec<u8>> {
    let Place { role, number, most } = all[at];
    let mut others = vec![0, number.wrapping_sub(1), number + 1, most, most + 1];
    // those that are the number again if they are cut to 8, 16, 32 bits, and those next to a sign or to the end
    others.extend([number + (1 << 8), number + (1 << 16), number + (1 << 32)]);
    others.extend([1 << 32, 1 << 63, number | 1 << 63, u64::MAX]);
    match role {
        Role::Satellite => {
            others.extend([1, 64, 65, 193 - 1, 193, 256, 257]);
            let before = all[..at].iter().rev().find(|place| place.role == Role::Satellite);
            others.extend(before.iter().flat_map(|before| [before.number, before.number + 1]));
        }
        Role::Area => others.extend(other_areas(rng, number)),
        _ => {}
    }
    others.sort();
    others.dedup();
    let mut forms: Vec<Vec<u8>> = others.into_iter().filter(|&other| other != number).map(groups).collect();
    // beyond 64 bits; the last ones are the number again if higher bits are lost
    forms.extend([wide(1 << 64), wide(u128::MAX), wide(1 << 64 | number as u128)]);
    let count = rng.pick(&[11, 18, 19, 20, 70, 300]);
    for last in [1, 0x7F, 0] {
        // with 0 it is no shortest form, whatever its length
        forms.push([open(number, count), vec![last]].concat());
    }
    forms.push([open(number, 0), vec![0]].concat());
    forms.push([open(0, 0), vec![0]].concat());
    forms.push([vec![0xFF; count], vec![rng.pick(&[0, 1, 0x7F])]].concat());
    forms
}

/// Other 47 bits with the same ID, and the same ones with another: at and over the bounds of their fields, and off the pole.
fn other_areas(rng: &mut Rng, number: u64) -> Vec<u64> {
    let of = area_of(number).expect("a sound area");
    let rows = rng.between(1, 7);
    let reach = rows * (of.latitude_spacing + 1);
    let areas = [
        GadArea { latitude: 1800, ..of },
        GadArea { latitude: 1801, ..of },
        GadArea { latitude: 2047, ..of },
        GadArea { longitude: 3600, ..of },
        GadArea { longitude: 3601, ..of },
        GadArea { longitude: 4095, ..of },
        GadArea { id: of.id ^ 1, ..of },
        GadArea { latitude_count: rows, latitude: reach, ..of },
        GadArea { latitude_count: rows, latitude: reach - 1, ..of },
        GadArea { latitude_count: rows, latitude: 0, ..of },
        GadArea { longitude_count: of.longitude_count ^ 1, ..of },
    ];
    areas.iter().map(area_number).chain([number | 1 << 47]).collect()
}

// ---- what is tried

/// Both read so, and it must be this.
fn must_be(
    judge: &Judge,
    bytes: &[u8],
    is: &Result<(Entry, usize), Refusal>,
    must: Result<(&Entry, usize), Refusal>,
) {
    let said = || format!("bytes {}", hex(bytes));
    let input = Input { call: "entry_read", said: &said };
    let is = is.as_ref().map(|(entry, used)| (entry, *used)).map_err(|why| *why);
    judge.same(&input, "what both say and what it must be", &is, &must);
}

/// The entry as it is, with bytes behind it, and the further calls.
fn as_it_is(rng: &mut Rng, judge: &mut Judge, entry: &Entry, bytes: &[u8]) {
    let behind = rng.pick(&[1, 2, 12]);
    let longer = [bytes, &rng.bytes(behind), &[0x80; 3]].concat();
    // a number not in shortest form, or one beyond 64 bits
    let faulty = if rng.one_in(2) { vec![0x80, 0] } else { [vec![0xFF; 10], vec![0x7F]].concat() };
    for lent in [bytes, &longer, &[bytes, &faulty].concat()] {
        let answer = read(rng, judge, lent);
        must_be(judge, lent, &answer, Ok((entry, bytes.len())));
        further(rng, judge, lent, entry, bytes.len());
    }
}

/// One beginning of the entry.
fn cut(rng: &mut Rng, judge: &mut Judge, bytes: &[u8], end: usize, role: Role) {
    let answer = read(rng, judge, &bytes[..end]);
    must_be(judge, &bytes[..end], &answer, Err(Refusal::Short));
    marks::short_at(judge, role);
    if end == 0 {
        judge.mark("entry: no byte");
    } else if bytes[end - 1] >= 0x80 {
        judge.mark("entry: cut inside a number");
    } else {
        judge.mark("entry: cut between two numbers");
    }
    if rng.one_in(12) {
        at_index(rng, judge, &bytes[..end], 0, 0);
    }
}

/// One number in another form, with the numbers behind it, without them, and without its own end.
fn change(rng: &mut Rng, judge: &mut Judge, all: &[Place], at: usize, form: &[u8]) {
    let write =
        |places: &[Place]| -> Vec<u8> { places.iter().flat_map(|place| groups(place.number)).collect() };
    let before = write(&all[..at]);
    let ended = [&before[..], form].concat();
    let place = all[at];
    match read(rng, judge, &ended) {
        Err(Refusal::Form) => marks::form_at(judge, place.role, form, place.most),
        Err(_) => {}
        Ok((entry, used)) => marks::entry_read(judge, &entry, used),
    }
    let whole = [&ended[..], &write(&all[at + 1..])].concat();
    if let Ok((entry, used)) = read(rng, judge, &whole) {
        marks::entry_read(judge, &entry, used);
    } else if rng.one_in(12) {
        let (k, node) = (rng.below(3), rng.below(3));
        at_index(rng, judge, &whole, k, node);
    }
    if form.len() > 1 {
        let not_ended = &ended[..ended.len() - 1];
        let answer = read(rng, judge, not_ended);
        must_be(judge, not_ended, &answer, Err(Refusal::Short));
        if form.len() > 100 {
            judge.mark("entry: SHORT, a number of over 100 groups that does not end");
        }
    }
}

/// A small entry: every beginning of it, every number of it changed.
pub fn small(rng: &mut Rng, judge: &mut Judge) {
    let (rows, columns, satellites) = (rng.between(1, 2), rng.between(1, 2), rng.below(4));
    let entry = match rng.below(6) {
        0 => opened(rng),
        1 => left_out(rng),
        2 | 3 => placed(rng, 1, 1, satellites),
        _ => placed(rng, rows, columns, satellites),
    };
    let bytes = entries::bytes(&entry);
    let all = places(&entry);
    as_it_is(rng, judge, &entry, &bytes);
    let roles = all.iter().flat_map(|place| vec![place.role; groups(place.number).len()]);
    for (end, role) in roles.enumerate() {
        cut(rng, judge, &bytes, end, role);
    }
    for at in 0..all.len() {
        for form in instead(rng, &all, at) {
            change(rng, judge, &all, at, &form);
        }
    }
}

/// A larger entry, up to 64 satellites with 64 nodes: some beginnings of it, some changes, most of them at its satellites and ends.
pub fn large(rng: &mut Rng, judge: &mut Judge) {
    let (rows, columns, satellites) = (rng.between(1, 8), rng.between(1, 8), rng.below(11));
    let entry = match rng.below(12) {
        0 => longest(rng),
        1..=4 => placed(rng, 1, 1, MOST_SATELLITES),
        5 | 6 => {
            let satellites = rng.between(30, MOST_SATELLITES);
            placed(rng, 1, 2, satellites)
        }
        _ => placed(rng, rows, columns, satellites),
    };
    let bytes = entries::bytes(&entry);
    let all = places(&entry);
    as_it_is(rng, judge, &entry, &bytes);
    let ends: Vec<usize> = all
        .iter()
        .scan(0, |end, place| {
            *end += groups(place.number).len();
            Some(*end)
        })
        .collect();
    for _ in 0..6 {
        let end = rng.below(bytes.len() as u64) as usize;
        let end = rng.pick(&[end, end, end, bytes.len() - 1]);
        cut(rng, judge, &bytes, end, all[ends.partition_point(|&after| after <= end)].role);
    }
    let at_satellites: Vec<usize> = (0..all.len()).filter(|&at| all[at].role == Role::Satellite).collect();
    // the last satellite is the one before it again
    if let [.., before, last] = at_satellites[..] {
        change(rng, judge, &all, last, &groups(all[before].number));
    }
    for _ in 0..6 {
        let any = rng.below(all.len() as u64) as usize;
        let satellite = if at_satellites.is_empty() { any } else { rng.pick(&at_satellites) };
        let at = rng.pick(&[any, satellite, satellite, all.len() - 1]);
        let forms = instead(rng, &all, at);
        for _ in 0..3 {
            let form = forms[rng.below(forms.len() as u64) as usize].clone();
            change(rng, judge, &all, at, &form);
        }
    }
}

/// 64 satellites with 64 nodes; often with all residuals of two groups, the longest entry.
fn longest(rng: &mut Rng) -> Entry {
    let mut entry = placed(rng, 8, 8, MOST_SATELLITES);
    if let (Entry::Placed(placed), true) = (&mut entry, rng.one_in(2)) {
        let mut full = |size, top| Grid { size, residuals: (0..64).map(|_| rng.between(128, top)).collect() };
        placed.troposphere = Some(full(1, 255));
        for (satellite, number) in placed.satellites.iter_mut().zip(BANDS[1].clone()) {
            *satellite =
                Satellite { number, grid: if number % 2 == 0 { full(2, 1023) } else { full(3, 16383) } };
        }
    }
    entry
}

/// Bytes that mostly don't begin with an entry, and buffers of any size.
pub fn odd(rng: &mut Rng, judge: &mut Judge) {
    let bytes = match rng.below(10) {
        0 => {
            let size = rng.below(40) as usize;
            rng.bytes(size)
        }
        1 => {
            // small numbers, so that many rules are met by chance
            let size = rng.below(12);
            (0..size).map(|_| rng.pick(&[0, 1, 2, 3, 4, 5, 0x80, 0x81])).collect()
        }
        2 => entries::bytes(&entry(rng)),
        _ => broken_entry(rng),
    };
    let places = rng.pick(&[0, 3, 7, 8, 8, 8, 8, 8, 8, 9, 12]);
    if let Ok((entry, used)) = read_into(rng, judge, &bytes, places) {
        marks::entry_read(judge, &entry, used);
        wrapped(rng, judge, &bytes, &entry, used);
    }
    let (k, node) = (index(rng, 3), index(rng, 4));
    let rooms = [rng.pick(&[0, 1, 2, 2, 2, 2, 3]), rng.pick(&[0, 1, 1, 1, 1, 2])];
    residual(rng, judge, &bytes, None, node, rooms);
    residual(rng, judge, &bytes, Some(k), node, rooms);
    let places = rng.pick(&[0, 1, 2, 2, 2, 2, 3]);
    satellite(rng, judge, &bytes, k, places);
}

/// A log that a desk wrote, read entry by entry to its end; written again, the entries are the log.
pub fn log(rng: &mut Rng, judge: &mut Judge, log: &[u8]) {
    let said = || format!("log {}", hex(log));
    let input = Input { call: "entry_read", said: &said };
    let mut again = Vec::new();
    while let Ok((entry, used)) = read(rng, judge, &log[again.len()..]) {
        let (k, node) = corner(rng, &entry);
        at_index(rng, judge, &log[again.len()..], k, node);
        marks::entry_read(judge, &entry, used);
        again.extend(entries::bytes(&entry));
        if again.len() >= log.len() {
            break;
        }
    }
    judge.same(&input, "the log as it reads", &again, &log.to_vec());
    if !log.is_empty() {
        judge.mark("entry: a desk's log to its end");
    }
}
