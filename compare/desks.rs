//! Desks: frames taken one after the other, each with its second, areas looked up, kept books taken in.

use crate::books;
use crate::entries;
use crate::judge::{hex, Input, Judge};
use crate::lent;
use crate::marks;
use crate::tables::{self, LentTable, Past, Table};
use crate::types;
use homralgyu::raw;
use second::answer::{number, with_place, Refusal};
use second::book::{self, Book, Numbers, BOOK_BYTES};
use second::desk::{self, Last, Of, LOG_BYTES, PLACES};
use second::frame::LONGEST_PAYLOAD;
use second::frame::{assemble, Plain};
use second::generate::*;
use second::groups::groups;
use second::kept::{self, FORM_1, FORM_2};
use second::payload::GadArea;
use second::views::AreaId;

/// The desk's numbers and both books afterwards.
pub fn same_table(judge: &Judge, input: &Input, ours: &LentTable, second: &Table) {
    judge.lent(input, "the desk's numbers", &ours.numbers, &second.numbers);
    judge.lent(input, "the live book", &ours.live, &second.live);
    judge.lent(input, "the run's book", &ours.run, &second.run);
}

pub fn new(rng: &mut Rng, judge: &mut Judge) {
    let any = [rng.draw() as u8, rng.draw() as u8, rng.draw() as u8];
    let solution = rng.pick(&[0, 127, 128, 255, any[0], any[0] & 127, any[0] & 127]);
    let processor = rng.pick(&[0, 15, 16, 255, any[1], any[1] & 15, any[1] & 15]);
    let constellation = rng.pick(&[0, 1, 2, 3, 4, 4, 5, 255, any[2]]);
    let places = rng.pick(&[0, 8, 9, 10, 11, 12, 13, 13, 13, 13, 13, 13, 13, 14, 20]);
    let mut desk = lent_entries(rng, places);
    let said = || format!("{solution} {processor} {constellation}, {places} places");
    let input = Input { call: "desk_new", said: &said };
    let mut ours = lent::numbers(&desk);
    let answer = raw::desk_new(solution, processor, constellation, ours.part());
    let made = if places < PLACES {
        Err(Refusal::Room)
    } else {
        desk::new(solution as u64, processor as u64, constellation as u64)
    };
    judge.number(&input, answer, number(&made));
    if let Ok(made) = made {
        desk[..PLACES].copy_from_slice(&made.numbers());
    }
    judge.lent(&input, "the desk's numbers", &ours, &desk);
}

pub fn sound(judge: &mut Judge, table: &Table) {
    let said = || table.said();
    let input = Input { call: "desk_is_sound", said: &said };
    let ours = table.lend();
    let answer = raw::desk_is_sound(ours.numbers.now(), ours.live.now(), ours.run.now());
    let second = match table.desk() {
        Some(desk) if table.live.len() >= BOOK_BYTES && table.run.len() >= BOOK_BYTES => {
            if desk::sound(&desk, &table.live, &table.run) {
                0
            } else {
                judge.mark(marks::unsound_by(&desk, table));
                17
            }
        }
        _ => 9,
    };
    judge.number(&input, answer, second);
    same_table(judge, &input, &ours, table);
}

pub fn find(rng: &mut Rng, judge: &mut Judge, table: &Table) {
    let id = table.id(rng);
    let (mut area, mut found) = books::find_room(rng);
    let rooms = (area.len(), found.len());
    let said = || format!("{}, ID {id}, rooms of {rooms:?}", table.said());
    let input = Input { call: "desk_find", said: &said };
    let (ours, mut our_area, mut our_found) = (table.lend(), lent::bytes(&area), lent::numbers(&found));
    let answer = raw::desk_find(
        ours.numbers.now(),
        ours.live.now(),
        ours.run.now(),
        id,
        our_area.part(),
        our_found.part(),
    );
    let part = match table.desk() {
        None => &[][..],
        Some(desk) => match desk::look_up(&desk, &table.live, &table.run, AreaId(id as u64)) {
            (Of::Live, part) => &table.live[part],
            (Of::Run, part) => &table.run[part],
        },
    };
    let second = books::tell_found(part, &mut area, &mut found);
    judge.number(&input, answer, second);
    judge.lent(&input, "the area", &our_area, &area);
    judge.lent(&input, "the bytes found", &our_found, &found);
    same_table(judge, &input, &ours, table);
    let open = table.desk().is_some_and(|desk| desk.run.is_some());
    judge.mark(match (second == 0 && !part.is_empty(), open) {
        (true, true) => "find: an area of the run's book",
        (true, false) => "find: an area of the live book",
        (false, true) => "find: none with a run open",
        (false, false) => "find: none with no run open",
    });
}

/// A frame taken that came in at a second. The table goes on.
pub fn take(
    rng: &mut Rng,
    judge: &mut Judge,
    table: &mut Table,
    (frame, second): (&[u8], u64),
    log_size: usize,
    places: usize,
) {
    let old = table.clone();
    let said = || {
        let table = old.said();
        format!("{table}, frame {}, second {second}, log of {log_size}, {places} places", hex(frame))
    };
    let input = Input { call: "desk_take", said: &said };
    let (mut log, mut written) = (vec![rng.draw() as u8; log_size], lent_entries(rng, places));
    let (mut ours, our_frame) = (table.lend(), lent::bytes(frame));
    let (mut our_log, mut our_written) = (lent::bytes(&log), lent::numbers(&written));
    let answer = raw::desk_take(
        our_frame.now(),
        second,
        ours.numbers.part(),
        ours.live.part(),
        ours.run.part(),
        our_log.part(),
        our_written.part(),
    );
    let result = match table.desk() {
        Some(desk) if places >= 1 => {
            desk::take(&desk, frame, second, &mut table.live, &mut table.run, &mut log)
        }
        _ => Err(Refusal::Room.into()),
    };
    judge.answer(&input, answer, with_place(&result));
    if with_place(&result) == Refusal::Short.number() as u64 {
        judge.mark("no place: SHORT of the frame itself");
    }
    marks::frame_given(judge, frame);
    if number(&result) == Refusal::NotOurs.number() {
        types::framed(judge, "desk_take: NOT_OURS, a TBD type", frame);
    }
    table.past = marks::second_given(judge, &old, frame, second, number(&result));
    if let Ok(taken) = result {
        table.put(&taken.desk);
        written[0] = taken.logged as u64;
        let before = old.desk().expect("a desk that took a frame");
        if !desk::gap(&before, second) {
            marks::frame_taken(judge, frame, &before, &taken.desk, &log[..taken.logged]);
        }
    }
    same_table(judge, &input, &ours, table);
    judge.lent(&input, "the log", &our_log, &log);
    judge.lent(&input, "the bytes written", &our_written, &written);
    judge.lent(&input, "the frame", &our_frame, frame);
    if let (Ok(taken), true) = (result, rng.one_in(2)) {
        entries::log(rng, judge, &our_log.now()[..taken.logged]);
    }
}

/// The live book of a sound desk, kept in a form; form 1 says nothing of its SIOU.
fn own_kept(table: &Table, form: u64) -> Option<Vec<u8>> {
    let desk = table.desk()?;
    let held = book::areas(&desk.live, &table.live)?;
    Some(kept::numbers(form, &desk.live, &held).into_iter().flat_map(groups).collect())
}

/// A kept book for the desk: that of its own live book in either form, another, or a broken one.
fn some_kept(rng: &mut Rng, table: &Table) -> Vec<u8> {
    match (rng.below(3), own_kept(table, rng.pick(&[FORM_1, FORM_2, FORM_2]))) {
        (0, Some(own)) => own,
        (1, _) => broken_kept(rng),
        _ => second::generate::kept(rng),
    }
}

/// A book taken in as the live one: read from its kept form, or any.
pub fn take_book(rng: &mut Rng, judge: &mut Judge, table: &mut Table) {
    let kept = some_kept(rng, table);
    let read = books::read_kept(rng, judge, &kept, BOOK_BYTES, book::PLACES);
    let (form, book) = match read {
        Some(book) if rng.one_in(2) => (Some(kept[0] as u64), book),
        _ => (None, books::some_book(rng)),
    };
    let places = books::places(rng);
    take_in(rng, judge, table, &book, (places, form));
}

/// This book, its numbers lent in so many places and its bytes, read from a kept book of a form or
/// not, taken in as the live one.
fn take_in(
    rng: &mut Rng,
    judge: &mut Judge,
    table: &mut Table,
    (held, numbers, bytes): &(Book, Numbers, Vec<u8>),
    (places, form): (usize, Option<u64>),
) {
    let numbers = books::lent_numbers(rng, numbers, places);
    let old = table.clone();
    let said = || format!("{}, book {numbers:?}, bytes {}", old.said(), hex(bytes));
    let input = Input { call: "desk_take_book", said: &said };
    let (our_book, our_bytes) = (lent::numbers(&numbers), lent::bytes(bytes));
    let mut ours = table.lend();
    let answer = raw::desk_take_book(
        ours.numbers.part(),
        ours.live.part(),
        ours.run.now(),
        our_book.now(),
        our_bytes.now(),
    );
    let result = match table.desk() {
        Some(desk) if numbers.len() >= book::PLACES => {
            desk::take_book(&desk, held, bytes, &mut table.live, &table.run)
        }
        _ => Err(Refusal::Room),
    };
    judge.number(&input, answer, number(&result));
    marks::book_taken_in(judge, &old, held, bytes, number(&result));
    if let Ok(desk) = result {
        table.put(&desk);
        let form_1 = form == Some(FORM_1) && held.count > 0;
        table.past = Past { taken_in: true, form_1, ..Past::default() };
    }
    same_table(judge, &input, &ours, table);
    judge.lent(&input, "the book's numbers", &our_book, &numbers);
    judge.lent(&input, "the book's bytes", &our_bytes, bytes);
}

/// A new desk and the frames of a day, with lookups and kept books between them.
pub fn history(rng: &mut Rng, judge: &mut Judge) {
    let scene = scene(rng);
    let made = desk::new(scene.solution, scene.processor, scene.constellation).expect("in range");
    let mut table = tables::fresh(rng, &made);
    for (frame, &second) in scene.frames.iter().zip(&scene.seconds) {
        // now and then, instead, a frame for the desk as it stands: of the run's book, which may no longer be live
        let own = if rng.one_in(3) { table.frame(rng) } else { frame.clone() };
        take(rng, judge, &mut table, (&own, second), LOG_BYTES, 1);
        match rng.below(12) {
            0..=3 => find(rng, judge, &table),
            4 => sound(judge, &table),
            5 if rng.one_in(3) => take_book(rng, judge, &mut table),
            _ => {}
        }
    }
}

/// A desk as it stands, frames of every sort with and without a gap before them, kept books taken between; after each the
/// next frame, without a gap, shows what was left.
pub fn gaps(rng: &mut Rng, judge: &mut Judge) {
    let made = second::generate::table(rng);
    let mut table = tables::of(made);
    for _ in 0..rng.between(1, 5) {
        if rng.one_in(4) {
            take_book(rng, judge, &mut table);
        }
        let accepted = rng.pick(&SORTS[..8]);
        let any = rng.pick(&SORTS);
        let sort = rng.pick(&[accepted, any]);
        let frame = table.frame_of(rng, sort);
        let second = match table.desk().expect("thirteen numbers").last {
            Last::At(last) if rng.one_in(2) => gap_second(rng, last).unwrap_or(u64::MAX),
            _ => table.second(rng),
        };
        take(rng, judge, &mut table, (&frame, second), LOG_BYTES, 1);
        if rng.one_in(2) {
            find(rng, judge, &table);
        }
        if rng.one_in(8) {
            sound(judge, &table);
        }
        let sort = rng.pick(&[Sort::OfRun, Sort::OtherTag, Sort::OtherTag, Sort::Gad, Sort::Against]);
        let next = table.frame_of(rng, sort);
        take_near(rng, judge, &mut table, &next);
    }
}

/// A frame taken without a gap before it.
fn take_near(rng: &mut Rng, judge: &mut Judge, table: &mut Table, frame: &[u8]) {
    let second = match table.desk().expect("thirteen numbers").last {
        Last::At(last) => near_second(rng, last),
        _ => first_second(rng),
    };
    take(rng, judge, table, (frame, second), LOG_BYTES, 1);
}

/// A kept book of a form, read and taken in by a new desk; then, without a gap, HPACs of its SIOU
/// and of others, and GADs of a solver that restarts and keeps its AIOU. Between them the live book
/// is kept and taken in again, in form 1 with its SIOU lost.
pub fn solutions(rng: &mut Rng, judge: &mut Judge) {
    let made = desk::new(rng.below(128), rng.below(16), rng.below(5)).expect("in range");
    let mut table = tables::fresh(rng, &made);
    let mut kept = second::generate::kept(rng);
    for _ in 0..rng.between(1, 3) {
        let book = books::read_kept(rng, judge, &kept, BOOK_BYTES, book::PLACES);
        let lent_as = (book::PLACES, Some(kept[0] as u64));
        take_in(rng, judge, &mut table, &book.expect("a kept book"), lent_as);
        for _ in 0..rng.between(1, 7) {
            let hpac = rng.pick(&[Sort::OfRun, Sort::OtherTag, Sort::OfRunOtherSiou]);
            let gad = rng.pick(&[Sort::OtherSiou, Sort::OverUnknown, Sort::Gad, Sort::Against]);
            let refused = rng.pick(&[Refusal::AreaOff, Refusal::Conflict]);
            let sort = rng.pick(&[hpac, hpac, hpac, gad, gad, Sort::Refused(refused)]);
            let frame = table.frame_of(rng, sort);
            take_near(rng, judge, &mut table, &frame);
        }
        find(rng, judge, &table);
        sound(judge, &table);
        kept = own_kept(&table, rng.pick(&[FORM_1, FORM_2])).expect("a sound desk");
    }
}

/// A message that fills its payload with residuals of four bits, for an area of 64 nodes: the longest logs.
pub fn full(rng: &mut Rng, judge: &mut Judge) {
    let made = desk::new(rng.below(128), rng.below(16), rng.below(5)).expect("in range");
    let mut table = tables::fresh(rng, &made);
    let (id, aiou, siou) = (rng.below(256), rng.below(16), siou(rng));
    let grid = GadArea { latitude_count: 7, longitude_count: 7, latitude: 900, ..area(rng, id) };
    let wanted = |sf, codes: &[u64]| (sf, codes.iter().copied().collect());
    let hpac = (0..20)
        .map(|_| {
            let residuals = wanted(63, &[0; 64]);
            let codes = vec![
                wanted(5, &[siou]),
                wanted(68, &[aiou]),
                wanted(30, &[0]),
                wanted(31, &[id]),
                wanted(39, &[64]),
                wanted(40, &[0, 2]),
                residuals,
            ];
            rich_sheet(rng, 1, made.constellation, 3, codes).payload()
        })
        .find(|payload| payload.len() <= LONGEST_PAYLOAD);
    let parts = Plain {
        type_: 2,
        check_type: rng.below(4),
        subtype: 0,
        tag_kind: 1,
        tag: rng.below(1 << 32),
        solution: made.solution,
        processor: made.processor,
    };
    let gad = assemble(&parts, None, &gad_sheet(rng, aiou, siou, &[grid]).payload(), &[]);
    let second = first_second(rng);
    take(rng, judge, &mut table, (&gad, second), LOG_BYTES, 1);
    if let Some(payload) = hpac {
        let parts = Plain { type_: 1, subtype: made.constellation, ..parts };
        let second = near_second(rng, second);
        take(rng, judge, &mut table, (&assemble(&parts, None, &payload, &[]), second), LOG_BYTES, 1);
    }
}

/// Each call on a desk of any kind, with buffers of any size.
pub fn odd(rng: &mut Rng, judge: &mut Judge) {
    let table = tables::any(rng);
    sound(judge, &table);
    find(rng, judge, &table);
    take_book(rng, judge, &mut table.clone());
    let frame = if rng.one_in(6) { odd_frame(rng) } else { table.frame(rng) };
    let log = if rng.one_in(6) { buffer_size(rng, LOG_BYTES) } else { LOG_BYTES };
    let places = rng.pick(&[1, 1, 1, 1, 1, 1, 1, 1, 1, 2, 0]);
    let second = table.second(rng);
    take(rng, judge, &mut table.clone(), (&frame, second), log, places);
}
