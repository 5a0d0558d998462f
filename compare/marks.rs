//! What was met of desks, their logs and what they read as, the events of a stream and the views of a sheet, counted by name.

use crate::entries::Role;
use crate::judge::Judge;
use crate::logs::{entries, Entry};
use crate::tables::{Past, Table, RUN_FLAG, SECOND_FLAG};
use second::answer::{number, Refusal, Refused};
use second::book::{self, Book};
use second::desk::{self, Desk, Last, Run, GAP, HALF_DAY, LOG_BYTES};
use second::entries;
use second::frame;
use second::generate::TWELVE;
use second::groups;
use second::kept::{self, KEPT_BYTES};
use second::payload::{Gad, Hpac, Message};
use second::prepare::Event;
use second::sheet;
use second::stream::MOST_NOISE;
use second::values::{Residual, Yaw};
use second::views::{Satellite, SatelliteView};

/// What a run of many inputs has to meet besides.
pub const MARKS: [&str; 54] = [
    "GAD: a book begins",
    "GAD: a book of 32",
    "GAD: the book grows",
    "GAD: the book stays",
    "HPAC: a 32-bit tag over 43,199",
    "HPAC: a run of a later tag",
    "HPAC: a run of an earlier tag",
    "HPAC: the first run",
    "HPAC: the run goes on",
    "HPAC: the run goes on, its AIOU no longer live",
    "HPAC: the run goes on, its SIOU no longer live",
    "HPAC: the run goes on, the live book having grown",
    "event: a frame refused",
    "event: a frame taken",
    "event: done",
    "event: hungry",
    "event: noise",
    "event: noise at 65,535",
    "find: an area of the live book",
    "find: an area of the run's book",
    "find: none with a run open",
    "find: none with no run open",
    "log: 1, run opened",
    "log: 2, placed by a book no longer live",
    "log: 2, placed with both",
    "log: 2, placed with satellites",
    "log: 2, placed with troposphere residuals",
    "log: 2, placed without a grid",
    "log: 3, left out by 1",
    "log: 3, left out by 2",
    "log: 3, left out by 3",
    "log: 3, left out by 4",
    "log: 3, left out by 5",
    "log: over 1,000 bytes of a frame",
    "unsound: constellation",
    "unsound: flag of the last second",
    "unsound: flag of the run",
    "unsound: live book",
    "unsound: live book, by its SIOU",
    "unsound: processor",
    "unsound: solution",
    "unsound: tag",
    "unsound: the run's book",
    "unsound: the run's book, by its SIOU",
    "view: a satellite with all blocks",
    "view: a satellite with no block",
    "view: an ID that repeats",
    "view: no biases",
    "view: no clock",
    "view: no orbit",
    "view: no troposphere or ionosphere",
    "view: yaw absent",
    "view: yaw an angle",
    "view: yaw invalid",
];

/// What a GAD of the same AIOU was to a live book of another SIOU, and to one of an unknown SIOU:
/// there was no gap before it. What it would have been is by the SIOU of the book.
pub const GADS: [[&str; 5]; 2] = [
    [
        "GAD: same AIOU, another SIOU begins a new book",
        "GAD: same AIOU, another SIOU, would have added",
        "GAD: same AIOU, another SIOU, would have been CONFLICT",
        "GAD: same AIOU, another SIOU, would have been BOOK_FULL",
        "GAD: same AIOU, another SIOU, refused: the old book stays",
    ],
    [
        "GAD: over a book of unknown SIOU",
        "GAD: over a book of unknown SIOU, would have added",
        "GAD: over a book of unknown SIOU, would have been CONFLICT",
        "GAD: over a book of unknown SIOU, would have been BOOK_FULL",
        "GAD: over a book of unknown SIOU, refused: the old book stays",
    ],
];

/// The same of a book by itself.
pub const BOOK_GADS: [[&str; 5]; 2] = [
    [
        "book: same AIOU, another SIOU begins a new book",
        "book: same AIOU, another SIOU, would have added",
        "book: same AIOU, another SIOU, would have been CONFLICT",
        "book: same AIOU, another SIOU, would have been BOOK_FULL",
        "book: same AIOU, another SIOU, refused: the old book stays",
    ],
    [
        "book: a GAD over an unknown SIOU",
        "book: a GAD over an unknown SIOU, would have added",
        "book: a GAD over an unknown SIOU, would have been CONFLICT",
        "book: a GAD over an unknown SIOU, would have been BOOK_FULL",
        "book: a GAD over an unknown SIOU, refused: the old book stays",
    ],
];

/// What else was met of the solutions that fill books, of books taken in, and of kept ones.
pub const SOLUTIONS: [&str; 39] = [
    "GAD: another AIOU, the same SIOU begins a new book",
    "GAD: CONFLICT, same AIOU and same SIOU",
    "HPAC: left out by 2, another SIOU too",
    "HPAC: left out by 5, a book taken in by form 1",
    "HPAC: left out by 5, an ID not in the book",
    "HPAC: left out by 5, neither book of its SIOU",
    "HPAC: left out by 5, several blocks",
    "HPAC: left out by 5, the live book of its SIOU",
    "HPAC: left out by 5, the run's book of unknown SIOU",
    "HPAC: placed by a book whose SIOU is no longer live",
    "book: another AIOU, the same SIOU begins a new book",
    "book: CONFLICT, same AIOU and same SIOU",
    "book: count 0, and AIOU and SIOU out of range",
    "book: unsound by its SIOU",
    "gap: GAD taken, of another SIOU than the old book",
    "gap: GAD taken, the old book of unknown SIOU",
    "gap: HPAC of the open run, left out by 5",
    "kept: FORM, SIOU + 1 of 513",
    "kept: FORM, SIOU + 1 not in shortest form",
    "kept: FORM, a SIOU without an AIOU",
    "kept: FORM, form number 0",
    "kept: FORM, form number 3",
    "kept: LEFTOVER, form 1",
    "kept: LEFTOVER, form 2",
    "kept: ROOM of 228 bytes",
    "kept: STATE by its SIOU",
    "kept: every number of form 1 changed",
    "kept: every number of form 2 changed",
    "kept: form 1 read",
    "kept: form 1 read, empty",
    "kept: form 2 read",
    "kept: form 2 read, SIOU 511",
    "kept: form 2 read, SIOU unknown",
    "kept: form 2 read, empty",
    "kept: written in all its room",
    "kept: written, SIOU unknown",
    "kept: written, empty",
    "taken in: STATE, the book by its SIOU",
    "taken in: a book of unknown SIOU",
];

/// The numbers of kept books at which they were FORM and SHORT, in form 1 and in form 2.
pub const KEPT_FORM: [&[&str]; 2] = [
    &[
        "kept: FORM at the form number",
        "kept: FORM at AIOU + 1, form 1",
        "kept: FORM at the count, form 1",
        "kept: FORM at an area, form 1",
    ],
    &[
        "kept: FORM at the form number",
        "kept: FORM at AIOU + 1, form 2",
        "kept: FORM at SIOU + 1",
        "kept: FORM at the count, form 2",
        "kept: FORM at an area, form 2",
    ],
];
pub const KEPT_SHORT: [&[&str]; 2] = [
    &[
        "kept: SHORT at the form number",
        "kept: SHORT at AIOU + 1, form 1",
        "kept: SHORT at the count, form 1",
        "kept: SHORT at an area, form 1",
    ],
    &[
        "kept: SHORT at the form number",
        "kept: SHORT at AIOU + 1, form 2",
        "kept: SHORT at SIOU + 1",
        "kept: SHORT at the count, form 2",
        "kept: SHORT at an area, form 2",
    ],
];

/// What the seconds were, and what a gap before a frame made of it: there was a live book to empty, unless it says otherwise.
pub const SECONDS: [&str; 40] = [
    "second: 449 after the last",
    "second: 450 after the last",
    "second: 451 after the last",
    "second: a frame told by finish",
    "second: before any accepted frame",
    "second: before any accepted frame, over a kept book",
    "second: earlier than the last",
    "second: large",
    "second: long after the last",
    "second: no gap can follow the last",
    "second: the end of u64",
    "second: the last one again",
    "second: the same in two cuttings",
    "second: under 449 after the last",
    "second: within 450 of the end of u64",
    "gap: 450 exactly, and a live book is emptied",
    "gap: GAD taken",
    "gap: GAD taken, it would have added to the old book",
    "gap: GAD taken, the old book alone against it",
    "gap: GAD taken, the old book alone without room",
    "gap: HPAC of another tag",
    "gap: HPAC of the open run, its copy empty",
    "gap: HPAC of the open run, its copy with areas",
    "gap: HPAC of the open run, then a run without a book",
    "gap: HPAC, no run open",
    "gap: ROOM, the live book lent short",
    "gap: STATE, the live book alone unsound",
    "gap: a book taken in since the last frame",
    "gap: at finish",
    "gap: before another portion",
    "gap: in another cutting",
    "gap: no live book to empty",
    "gap: refused by AREA_OFF, the old book by CONFLICT",
    "gap: refused, then no gap for the old book",
    "gap: refused, then the old book is emptied",
    "gap: to the end of u64",
    "no gap: CONFLICT with the live book alone",
    "no gap: a second earlier than the last, and the live book stays",
    "no gap: at 449 a run with a book",
    "no gap: the run goes on over an emptied live book",
];

/// The refusals after a gap over a live book, by their numbers.
pub const REFUSED: [(u8, &str); 12] = [
    (1, "gap: refused, SHORT"),
    (2, "gap: refused, PREAMBLE"),
    (3, "gap: refused, FRAME_CRC"),
    (4, "gap: refused, LENGTH"),
    (5, "gap: refused, MESSAGE_CRC"),
    (7, "gap: refused, MASK_EMPTY"),
    (8, "gap: refused, FIELD"),
    (10, "gap: refused, SEALED"),
    (11, "gap: refused, TAG"),
    (12, "gap: refused, NOT_OURS"),
    (13, "gap: refused, AREA_OFF"),
    (14, "gap: refused, CONFLICT"),
];

/// The twelve types, as `TWELVE` lists them.
pub const TYPES: [&str; 12] = [
    "frame of 0-0",
    "frame of 0-1",
    "frame of 0-2",
    "frame of 0-3",
    "frame of 0-4",
    "frame of 1-0",
    "frame of 1-1",
    "frame of 1-2",
    "frame of 1-3",
    "frame of 1-4",
    "frame of 2-0",
    "frame of 3-0",
];

/// Each view of each type: of OCB a satellite in use, one out of use, and a place past the last; of the others, as `TWELVE`
/// lists them, an ID that a block has and one that none has; of BPAC one over 3 besides.
pub const VIEWS: [&str; 30] = [
    "view of 0-0: in use",
    "view of 0-0: out of use",
    "view of 0-0: past the last",
    "view of 0-1: in use",
    "view of 0-1: out of use",
    "view of 0-1: past the last",
    "view of 0-2: in use",
    "view of 0-2: out of use",
    "view of 0-2: past the last",
    "view of 0-3: in use",
    "view of 0-3: out of use",
    "view of 0-3: past the last",
    "view of 0-4: in use",
    "view of 0-4: out of use",
    "view of 0-4: past the last",
    "view of 1-0: an area",
    "view of 1-0: no area",
    "view of 1-1: an area",
    "view of 1-1: no area",
    "view of 1-2: an area",
    "view of 1-2: no area",
    "view of 1-3: an area",
    "view of 1-3: no area",
    "view of 1-4: an area",
    "view of 1-4: no area",
    "view of 2-0: an area",
    "view of 2-0: no area",
    "view of 3-0: an area",
    "view of 3-0: no area",
    "view of 3-0: an ID over 3",
];

/// What was met of entries that were read, and refused.
pub const ENTRIES: [&str; 41] = [
    "entry: 1, opened with a book",
    "entry: 1, opened without a book",
    "entry: 2, placed with both",
    "entry: 2, placed with satellites",
    "entry: 2, placed with troposphere residuals",
    "entry: 2, placed without a grid",
    "entry: 3, left out by 1",
    "entry: 3, left out by 2",
    "entry: 3, left out by 3",
    "entry: 3, left out by 4",
    "entry: 3, left out by 5",
    "entry: 64 nodes",
    "entry: FORM, a number beyond 64 bits",
    "entry: FORM, a number not in shortest form",
    "entry: FORM, a number of over 100 groups",
    "entry: FORM, a number out of range",
    "entry: FORM, a satellite that leaves too few behind it",
    "entry: FORM, reason 6",
    "entry: SF051 of 0",
    "entry: SF051 of 1",
    "entry: SF063 of 0",
    "entry: SF063 of 1",
    "entry: SF063 of 2",
    "entry: SF063 of 3",
    "entry: SHORT, a number of over 100 groups that does not end",
    "entry: a desk's log to its end",
    "entry: a node past the last",
    "entry: a node where T is 0",
    "entry: a residual in TECU",
    "entry: a residual in metres",
    "entry: a satellite past the last",
    "entry: a satellite's residual invalid",
    "entry: a troposphere residual invalid",
    "entry: all satellites of 1 to 64",
    "entry: all satellites of 193 to 256",
    "entry: an index where no area is placed",
    "entry: bytes behind it",
    "entry: cut between two numbers",
    "entry: cut inside a number",
    "entry: no byte",
    "entry: over 8,500 bytes",
];

/// The numbers of entries, as `Role` lists them, at which one was too short.
pub const SHORT_AT: [&str; 14] = [
    "entry: SHORT at the kind",
    "entry: SHORT at the tag",
    "entry: SHORT at AIOU + 1",
    "entry: SHORT at the count of areas",
    "entry: SHORT at the ID",
    "entry: SHORT at the 47 bits",
    "entry: SHORT at T",
    "entry: SHORT at SF051",
    "entry: SHORT at a troposphere residual",
    "entry: SHORT at S",
    "entry: SHORT at a satellite's number",
    "entry: SHORT at SF063",
    "entry: SHORT at a satellite's residual",
    "entry: SHORT at the reason",
];

/// And those after which no entry could follow.
pub const FORM_AT: [&str; 14] = [
    "entry: FORM at the kind",
    "entry: FORM at the tag",
    "entry: FORM at AIOU + 1",
    "entry: FORM at the count of areas",
    "entry: FORM at the ID",
    "entry: FORM at the 47 bits",
    "entry: FORM at T",
    "entry: FORM at SF051",
    "entry: FORM at a troposphere residual",
    "entry: FORM at S",
    "entry: FORM at a satellite's number",
    "entry: FORM at SF063",
    "entry: FORM at a satellite's residual",
    "entry: FORM at the reason",
];

/// All that has to be met.
pub fn all() -> Vec<&'static str> {
    let refused = REFUSED.map(|(_, name)| name);
    let mut all = [&MARKS[..], &SECONDS, &refused, &TYPES, &VIEWS, &ENTRIES].concat();
    all.extend(SHORT_AT.into_iter().chain(FORM_AT));
    all.extend(SOLUTIONS);
    all.extend(GADS.into_iter().chain(BOOK_GADS).flatten());
    all.extend(KEPT_FORM.into_iter().chain(KEPT_SHORT).flatten());
    all
}

/// Counts the type of a frame that is given to a desk.
pub fn frame_given(judge: &mut Judge, frame: &[u8]) {
    let Ok(header) = frame::check(frame) else { return };
    if let Some(place) = TWELVE.iter().position(|&of| of == (header.type_, header.subtype)) {
        judge.mark(TYPES[place]);
    }
}

/// Counts what the second of a frame was to the desk, and what a gap made of the frame. What came before goes on with it.
pub fn second_given(judge: &mut Judge, before: &Table, frame: &[u8], second: u64, answer: u8) -> Past {
    let past = before.past;
    let Some(desk) = before.desk() else { return past };
    let (gap, held) = (desk::gap(&desk, second), desk.live.count > 0);
    // ROOM and STATE are answered before the second counts, of a live book too that would be emptied
    if [9, 17].contains(&answer) {
        let emptied = Desk { live: book::Book::default(), ..desk };
        if gap && answer == 9 && before.live.len() < book::BOOK_BYTES {
            judge.mark("gap: ROOM, the live book lent short");
        }
        if gap && answer == 17 && desk::sound(&emptied, &before.live, &before.run) {
            judge.mark("gap: STATE, the live book alone unsound");
        }
        return past;
    }
    if !gap {
        solution_given(judge, before, &desk, frame, answer);
    }
    judge.mark(match desk.last {
        Last::At(last) => match second.checked_sub(last) {
            None => "second: earlier than the last",
            Some(0) => "second: the last one again",
            Some(1..=448) => "second: under 449 after the last",
            Some(449) => "second: 449 after the last",
            Some(450) => "second: 450 after the last",
            Some(451) => "second: 451 after the last",
            Some(_) => "second: long after the last",
        },
        _ if held => "second: before any accepted frame, over a kept book",
        _ => "second: before any accepted frame",
    });
    if matches!(desk.last, Last::At(last) if last > u64::MAX - GAP) {
        judge.mark("second: no gap can follow the last");
    }
    match second {
        u64::MAX => judge.mark("second: the end of u64"),
        _ if second > u64::MAX - GAP => judge.mark("second: within 450 of the end of u64"),
        _ if second >= 1 << 63 => judge.mark("second: large"),
        _ => {}
    }
    if gap && !held {
        judge.mark("gap: no live book to empty");
    }
    if answer != 0 {
        if gap && held {
            refused_after_gap(judge, before, &desk, frame, answer);
        } else if !gap && answer == 14 && own_answer(before, &desk, frame) == 0 {
            judge.mark("no gap: CONFLICT with the live book alone");
        }
        return Past { refused: past.refused || gap && held, ..past };
    }
    let header = frame::check(frame).expect("a frame that was taken");
    let of_run = header.type_ == 1 && desk.run.is_some_and(|open| open.tag == header.tag % HALF_DAY);
    if !gap {
        taken_without_gap(judge, &desk, second, past, header.type_, of_run);
        // an HPAC of the same run leaves the live book as it was
        return Past { emptied: past.emptied && of_run, ..Past::default() };
    }
    if held {
        taken_after_gap(judge, before, &desk, frame, header.type_, of_run);
        if past.taken_in {
            judge.mark("gap: a book taken in since the last frame");
        }
        if past.refused {
            judge.mark("gap: refused, then the old book is emptied");
        }
        if second == u64::MAX {
            judge.mark("gap: to the end of u64");
        }
        if desk.last == Last::At(second - GAP) {
            judge.mark("gap: 450 exactly, and a live book is emptied");
        }
    }
    Past { emptied: of_run && held, ..Past::default() }
}

/// The answer to a frame, on copies, of a desk on which no time has passed.
fn timeless_answer(before: &Table, desk: &Desk, frame: &[u8]) -> (u8, Desk) {
    let desk = Desk { last: Last::Never, ..*desk };
    let (mut live, mut run) = (before.live.clone(), before.run.clone());
    let result = desk::take(&desk, frame, 0, &mut live, &mut run, &mut [0; LOG_BYTES]);
    (number(&result), result.map_or(desk, |taken| taken.desk))
}

/// The same, of the desk without its live book.
fn own_answer(before: &Table, desk: &Desk, frame: &[u8]) -> u8 {
    timeless_answer(before, &Desk { live: book::Book::default(), ..*desk }, frame).0
}

fn refused_after_gap(judge: &mut Judge, before: &Table, desk: &Desk, frame: &[u8], answer: u8) {
    if let Some((_, name)) = REFUSED.iter().find(|(number, _)| *number == answer) {
        judge.mark(*name);
    }
    if answer == 13 && timeless_answer(before, desk, frame).0 == 14 {
        judge.mark("gap: refused by AREA_OFF, the old book by CONFLICT");
    }
}

fn taken_without_gap(judge: &mut Judge, desk: &Desk, second: u64, past: Past, type_: u64, of_run: bool) {
    let held = desk.live.count > 0;
    if past.refused && held {
        judge.mark("gap: refused, then no gap for the old book");
    }
    if type_ != 1 {
        return;
    }
    if past.emptied && !held && of_run && desk.run.is_some_and(|open| open.book.count > 0) {
        judge.mark("no gap: the run goes on over an emptied live book");
    }
    if past.emptied && !held && !of_run {
        judge.mark("gap: HPAC of the open run, then a run without a book");
    }
    if let (Last::At(last), true, false) = (desk.last, held, of_run) {
        if second < last {
            judge.mark("no gap: a second earlier than the last, and the live book stays");
        }
        if second.checked_sub(last) == Some(449) {
            judge.mark("no gap: at 449 a run with a book");
        }
    }
}

/// A frame that emptied a live book.
fn taken_after_gap(judge: &mut Judge, before: &Table, desk: &Desk, frame: &[u8], type_: u64, of_run: bool) {
    if type_ == 2 {
        judge.mark("gap: GAD taken");
        return match timeless_answer(before, desk, frame) {
            (14, _) => judge.mark("gap: GAD taken, the old book alone against it"),
            (15, _) => judge.mark("gap: GAD taken, the old book alone without room"),
            (_, Desk { live: then, .. }) if then.aiou == desk.live.aiou => {
                let same_siou = then.siou == desk.live.siou;
                if desk.live.siou.is_none() {
                    judge.mark("gap: GAD taken, the old book of unknown SIOU")
                } else if !same_siou {
                    judge.mark("gap: GAD taken, of another SIOU than the old book")
                } else if then.count > desk.live.count {
                    judge.mark("gap: GAD taken, it would have added to the old book")
                }
            }
            _ => {}
        };
    }
    if let (Some(open), Some(Message::Hpac(hpac)), true) = (desk.run, message_of(frame), of_run) {
        if open.book.aiou == Some(hpac.aiou) && open.book.siou != Some(hpac.siou) {
            judge.mark("gap: HPAC of the open run, left out by 5");
        }
    }
    judge.mark(match desk.run {
        None => "gap: HPAC, no run open",
        Some(open) if of_run && open.book.count > 0 => "gap: HPAC of the open run, its copy with areas",
        Some(_) if of_run => "gap: HPAC of the open run, its copy empty",
        Some(_) => "gap: HPAC of another tag",
    });
}

/// The message of a frame that is accepted and read.
fn message_of(frame: &[u8]) -> Option<Message> {
    let header = frame::check(frame).ok()?;
    let payload = &frame[header.payload];
    sheet::open(header.type_, header.subtype, payload).ok().map(|(message, ..)| message)
}

/// Is a book sound but for its SIOU?
fn unsound_by_siou(book: &Book, bytes: &[u8]) -> bool {
    !book::sound(book, bytes) && book::sound(&Book { siou: None, ..*book }, bytes)
}

/// Counts what the AIOU and the SIOU of a frame were to the desk, which was sound; there was no gap
/// before it.
fn solution_given(judge: &mut Judge, before: &Table, desk: &Desk, frame: &[u8], answer: u8) {
    let ours = ![10, 11, 12].contains(&answer);
    match message_of(frame).filter(|_| ours) {
        Some(Message::Gad(gad)) => {
            let other_aiou = "GAD: another AIOU, the same SIOU begins a new book";
            let names = (&GADS, other_aiou, "GAD: CONFLICT, same AIOU and same SIOU");
            gad_met(judge, names, &desk.live, &before.live, &gad, answer);
        }
        Some(Message::Hpac(hpac)) if answer == 0 => {
            let tag = frame::check(frame).map_or(0, |header| header.tag % HALF_DAY);
            let of_run = desk.run.is_some_and(|open| open.tag == tag);
            let (book, bytes) = match desk.run {
                Some(open) if of_run => (open.book, &before.run),
                _ => (desk.live, &before.live),
            };
            hpac_met(judge, desk, &book, bytes, &hpac);
            if !of_run && before.past.form_1 && book.aiou == Some(hpac.aiou) {
                judge.mark("HPAC: left out by 5, a book taken in by form 1");
            }
        }
        _ => {}
    }
}

/// The names for what a GAD of the same AIOU met; of another AIOU; of CONFLICT.
type Names = (&'static [[&'static str; 5]; 2], &'static str, &'static str);

/// Counts what a GAD was to a sound book.
fn gad_met(judge: &mut Judge, names: Names, held: &Book, bytes: &[u8], gad: &Gad, answer: u8) {
    let (of_same_aiou, other_aiou, conflict) = names;
    if held.is_of(gad.aiou, gad.siou) {
        if answer == 14 {
            judge.mark(conflict);
        }
        return;
    }
    if held.aiou != Some(gad.aiou) {
        if answer == 0 && held.siou == Some(gad.siou) {
            judge.mark(other_aiou);
        }
        return;
    }
    let unknown = held.siou.is_none();
    let [begins, added, conflict, no_room, refused] = of_same_aiou[usize::from(unknown)];
    if answer != 0 {
        return judge.mark(refused);
    }
    judge.mark(begins);
    let areas = book::areas(held, bytes).expect("a sound book");
    match book::with_gad(&Book { siou: Some(gad.siou), ..*held }, &areas, gad) {
        Err(Refusal::Conflict) => judge.mark(conflict),
        Err(_) => judge.mark(no_room),
        Ok(then) if then.len() > areas.len() => judge.mark(added),
        Ok(_) => {}
    }
}

/// Counts what an HPAC was to the book that it is told by.
fn hpac_met(judge: &mut Judge, desk: &Desk, book: &Book, bytes: &[u8], hpac: &Hpac) {
    let areas = book::areas(book, bytes).expect("a sound book");
    let holds = |id: u64| areas.iter().any(|area| area.id == id);
    let same_siou = book.siou == Some(hpac.siou);
    match book.aiou {
        None => return,
        Some(aiou) if aiou != hpac.aiou => {
            if !same_siou {
                judge.mark("HPAC: left out by 2, another SIOU too");
            }
            return;
        }
        _ => {}
    }
    if same_siou {
        return;
    }
    let live_is = desk.live.is_of(hpac.aiou, hpac.siou);
    judge.mark(match book.siou {
        None => "HPAC: left out by 5, the run's book of unknown SIOU",
        _ if live_is => "HPAC: left out by 5, the live book of its SIOU",
        _ => "HPAC: left out by 5, neither book of its SIOU",
    });
    if hpac.areas.len() > 1 {
        judge.mark("HPAC: left out by 5, several blocks");
    }
    if hpac.areas.iter().any(|area| !holds(area.id)) {
        judge.mark("HPAC: left out by 5, an ID not in the book");
    }
}

/// Counts what a GAD's payload was to a book by itself.
pub fn gad_given(judge: &mut Judge, held: &Book, bytes: &[u8], payload: &[u8], answer: u8) {
    if answer == 17 && unsound_by_siou(held, bytes) {
        judge.mark("book: unsound by its SIOU");
    }
    if [9, 17].contains(&answer) {
        return;
    }
    if let Ok((Message::Gad(gad), ..)) = sheet::open(2, 0, payload) {
        let other_aiou = "book: another AIOU, the same SIOU begins a new book";
        let names = (&BOOK_GADS, other_aiou, "book: CONFLICT, same AIOU and same SIOU");
        gad_met(judge, names, held, bytes, &gad, answer);
    }
}

/// Counts what a book was to a desk that took it in, or did not.
pub fn book_taken_in(judge: &mut Judge, before: &Table, held: &Book, bytes: &[u8], answer: u8) {
    if answer == 0 && held.count > 0 && held.siou.is_none() {
        judge.mark("taken in: a book of unknown SIOU");
    }
    let desk = before.desk();
    let sound = desk.is_some_and(|desk| desk::sound(&desk, &before.live, &before.run));
    if answer == 17 && sound && unsound_by_siou(held, bytes) {
        judge.mark("taken in: STATE, the book by its SIOU");
    }
}

/// Counts what a book was that was kept, or was not.
pub fn book_kept(judge: &mut Judge, held: &Book, bytes: &[u8], result: &Result<usize, Refusal>) {
    match result {
        Err(Refusal::State) => {
            if unsound_by_siou(held, bytes) {
                judge.mark("kept: STATE by its SIOU");
            }
        }
        Err(_) => {}
        Ok(size) => {
            if *size == KEPT_BYTES {
                judge.mark("kept: written in all its room");
            }
            if held.count == 0 {
                judge.mark("kept: written, empty");
            } else if held.siou.is_none() {
                judge.mark("kept: written, SIOU unknown");
            }
        }
    }
}

/// Counts what kept bytes were that were read, or were not; by their form number if it is 1 or 2.
pub fn kept_given(judge: &mut Judge, bytes: &[u8], result: &Result<Book, Refusal>) {
    let form_2 = bytes.first() == Some(&2);
    match result {
        Ok(book) => judge.mark(match (form_2, book.count > 0, book.siou) {
            (false, true, _) => "kept: form 1 read",
            (false, false, _) => "kept: form 1 read, empty",
            (true, false, _) => "kept: form 2 read, empty",
            (true, true, None) => "kept: form 2 read, SIOU unknown",
            (true, true, Some(511)) => "kept: form 2 read, SIOU 511",
            (true, true, Some(_)) => "kept: form 2 read",
        }),
        Err(Refusal::Leftover) => {
            judge.mark(if form_2 { "kept: LEFTOVER, form 2" } else { "kept: LEFTOVER, form 1" })
        }
        Err(Refusal::Short) => {
            let names = KEPT_SHORT[usize::from(form_2)];
            judge.mark(names[kept_place(bytes).0.min(names.len() - 1)]);
        }
        Err(Refusal::Form) => {
            let names = KEPT_FORM[usize::from(form_2)];
            let (place, form) = kept_place(bytes);
            judge.mark(names[place.min(names.len() - 1)]);
            match (place, groups::read(form)) {
                (0, Ok((0, _))) => judge.mark("kept: FORM, form number 0"),
                (0, Ok((3, _))) => judge.mark("kept: FORM, form number 3"),
                (2, Ok(_)) if form_2 && bytes[1] == 0 => {
                    judge.mark("kept: FORM, a SIOU without an AIOU");
                }
                (2, Ok((513, _))) if form_2 => judge.mark("kept: FORM, SIOU + 1 of 513"),
                (2, Err(_)) if form_2 && form.last() == Some(&0) => {
                    judge.mark("kept: FORM, SIOU + 1 not in shortest form")
                }
                _ => {}
            }
        }
        Err(_) => {}
    }
}

/// How many numbers of kept bytes ended before the one at which they are FORM or SHORT; and that
/// one.
fn kept_place(bytes: &[u8]) -> (usize, &[u8]) {
    let ends: Vec<usize> = (1..=bytes.len()).filter(|&end| bytes[end - 1] < 0x80).collect();
    let place = ends.partition_point(|&end| kept::parse(&bytes[..end]) != Err(Refusal::Form));
    let first = if place == 0 { 0 } else { ends[place - 1] };
    (place, &bytes[first..ends.get(place).copied().unwrap_or(bytes.len())])
}

/// Counts what a frame was to the desk; there was no gap before it.
pub fn frame_taken(judge: &mut Judge, frame: &[u8], before: &Desk, after: &Desk, log: &[u8]) {
    let header = frame::check(frame).expect("a frame that was taken");
    if header.type_ == 2 {
        judge.mark(match (before.live, after.live) {
            (old, new) if old == new => "GAD: the book stays",
            (old, new) if old.aiou == new.aiou && old.siou == new.siou => "GAD: the book grows",
            _ => "GAD: a book begins",
        });
        if after.live.count == 32 {
            judge.mark("GAD: a book of 32");
        }
        return;
    }
    if header.tag_kind == 1 && header.tag >= HALF_DAY {
        judge.mark("HPAC: a 32-bit tag over 43,199");
    }
    let tag = header.tag % HALF_DAY;
    judge.mark(match before.run {
        None => "HPAC: the first run",
        Some(open) if open.tag == tag && open.book.aiou != before.live.aiou => {
            "HPAC: the run goes on, its AIOU no longer live"
        }
        Some(open) if open.tag == tag && open.book.siou != before.live.siou => {
            "HPAC: the run goes on, its SIOU no longer live"
        }
        Some(open) if open.tag == tag && open.book != before.live => {
            "HPAC: the run goes on, the live book having grown"
        }
        Some(open) if open.tag == tag => "HPAC: the run goes on",
        Some(open) if open.tag > tag => "HPAC: a run of an earlier tag",
        Some(_) => "HPAC: a run of a later tag",
    });
    if log.len() > 1000 {
        judge.mark("log: over 1,000 bytes of a frame");
    }
    let old_book = after.run.is_some_and(|open| open.book != after.live);
    let restarted = match after.run {
        Some(Run { book, .. }) => book.aiou == after.live.aiou && book.siou != after.live.siou,
        None => false,
    };
    for entry in entries(log) {
        if restarted && matches!(entry, Entry::Placed { .. }) {
            judge.mark("HPAC: placed by a book whose SIOU is no longer live");
        }
        judge.mark(match entry {
            Entry::Opened => "log: 1, run opened",
            Entry::Placed { .. } if old_book => "log: 2, placed by a book no longer live",
            Entry::Placed { troposphere: 0, satellites: 0 } => "log: 2, placed without a grid",
            Entry::Placed { satellites: 0, .. } => "log: 2, placed with troposphere residuals",
            Entry::Placed { troposphere: 0, .. } => "log: 2, placed with satellites",
            Entry::Placed { .. } => "log: 2, placed with both",
            Entry::LeftOut { reason: 1 } => "log: 3, left out by 1",
            Entry::LeftOut { reason: 2 } => "log: 3, left out by 2",
            Entry::LeftOut { reason: 3 } => "log: 3, left out by 3",
            Entry::LeftOut { reason: 4 } => "log: 3, left out by 4",
            Entry::LeftOut { .. } => "log: 3, left out by 5",
        });
    }
}

/// Counts what a satellite of a sheet was; `past` says that an accepted sheet has fewer.
pub fn satellite_seen(judge: &mut Judge, subtype: u64, past: bool, seen: &Result<SatelliteView, Refused>) {
    let first = 3 * subtype as usize;
    match seen {
        // the view's own, without a place
        Err(Refused { why: Refusal::Field, place: None }) if past => judge.mark(VIEWS[first + 2]),
        Err(_) => {}
        Ok(SatelliteView { satellite: Satellite::OutOfUse, .. }) => judge.mark(VIEWS[first + 1]),
        Ok(SatelliteView { satellite: Satellite::InUse(blocks), .. }) => {
            judge.mark(VIEWS[first]);
            let absent = [blocks.orbit.is_none(), blocks.clock.is_none(), blocks.biases.is_empty()];
            for (is, what) in absent.iter().zip(["view: no orbit", "view: no clock", "view: no biases"]) {
                if *is {
                    judge.mark(what);
                }
            }
            match absent {
                [true, true, true] => judge.mark("view: a satellite with no block"),
                [false, false, false] => judge.mark("view: a satellite with all blocks"),
                _ => {}
            }
            judge.mark(match blocks.yaw {
                Yaw::Absent => "view: yaw absent",
                Yaw::Invalid => "view: yaw invalid",
                Yaw::Degrees(_) => "view: yaw an angle",
            });
        }
    }
}

/// Counts what an area of a sheet was: the first number told is 1 if it was found.
pub fn area_seen(judge: &mut Judge, of: (u64, u64), numbers: &[u64], ids: &[u64], id: u64) {
    let place = TWELVE.iter().position(|&other| other == of).expect("an accepted sheet is of the twelve");
    judge.mark(VIEWS[15 + 2 * (place - 5) + usize::from(numbers[0] == 0)]);
    if ids.iter().filter(|&&other| other == id).count() > 1 {
        judge.mark("view: an ID that repeats");
    }
    if of.0 == 1 && numbers[0] == 1 && numbers[3..] == [0, 0] {
        judge.mark("view: no troposphere or ionosphere");
    }
}

/// What alone, or first, makes a desk unsound.
pub fn unsound_by(desk: &Desk, table: &Table) -> &'static str {
    match desk.run {
        _ if desk.solution > 127 => "unsound: solution",
        _ if desk.processor > 15 => "unsound: processor",
        _ if desk.constellation > 4 => "unsound: constellation",
        _ if table.numbers[RUN_FLAG] > 1 => "unsound: flag of the run",
        _ if table.numbers[SECOND_FLAG] > 1 => "unsound: flag of the last second",
        _ if unsound_by_siou(&desk.live, &table.live) => "unsound: live book, by its SIOU",
        _ if !book::sound(&desk.live, &table.live) => "unsound: live book",
        Some(open) if open.tag >= HALF_DAY => "unsound: tag",
        Some(Run { book, .. }) if unsound_by_siou(&book, &table.run) => {
            "unsound: the run's book, by its SIOU"
        }
        _ => "unsound: the run's book",
    }
}

/// Counts the events.
pub fn event(judge: &mut Judge, event: &Event) {
    judge.mark(match event {
        Event::Hungry => "event: hungry",
        Event::Frame { answer: 0, .. } => "event: a frame taken",
        Event::Frame { .. } => "event: a frame refused",
        Event::Noise { count: MOST_NOISE } => "event: noise at 65,535",
        Event::Noise { .. } => "event: noise",
        Event::Done => "event: done",
    });
}

/// Counts what an entry that was read was.
pub fn entry_read(judge: &mut Judge, entry: &entries::Entry, used: usize) {
    use entries::Entry;
    if used > 8500 {
        judge.mark("entry: over 8,500 bytes");
    }
    let placed = match entry {
        Entry::Opened { aiou: None, .. } => return judge.mark("entry: 1, opened without a book"),
        Entry::Opened { .. } => return judge.mark("entry: 1, opened with a book"),
        Entry::LeftOut { reason: 1, .. } => return judge.mark("entry: 3, left out by 1"),
        Entry::LeftOut { reason: 2, .. } => return judge.mark("entry: 3, left out by 2"),
        Entry::LeftOut { reason: 3, .. } => return judge.mark("entry: 3, left out by 3"),
        Entry::LeftOut { reason: 4, .. } => return judge.mark("entry: 3, left out by 4"),
        Entry::LeftOut { .. } => return judge.mark("entry: 3, left out by 5"),
        Entry::Placed(placed) => placed,
    };
    let satellites = &placed.satellites;
    judge.mark(match (&placed.troposphere, satellites.is_empty()) {
        (None, true) => "entry: 2, placed without a grid",
        (Some(_), true) => "entry: 2, placed with troposphere residuals",
        (None, false) => "entry: 2, placed with satellites",
        (Some(_), false) => "entry: 2, placed with both",
    });
    if let Some(grid) = &placed.troposphere {
        judge.mark(["entry: SF051 of 0", "entry: SF051 of 1"][grid.size as usize]);
        if grid.residuals.len() == 64 {
            judge.mark("entry: 64 nodes");
        }
    }
    for satellite in satellites {
        let size = satellite.grid.size as usize;
        judge
            .mark(["entry: SF063 of 0", "entry: SF063 of 1", "entry: SF063 of 2", "entry: SF063 of 3"][size]);
    }
    match satellites.first() {
        Some(first) if satellites.len() == 64 && first.number == 1 => {
            judge.mark("entry: all satellites of 1 to 64")
        }
        Some(first) if satellites.len() == 64 && first.number == 193 => {
            judge.mark("entry: all satellites of 193 to 256")
        }
        _ => {}
    }
}

/// Counts what a residual of an entry was.
pub fn residual_read(judge: &mut Judge, of_satellite: bool, residual: &Residual) {
    judge.mark(match residual {
        Residual::Invalid if of_satellite => "entry: a satellite's residual invalid",
        Residual::Invalid => "entry: a troposphere residual invalid",
        Residual::Metres(_) => "entry: a residual in metres",
        Residual::Tecu(_) => "entry: a residual in TECU",
    });
}

/// Counts what an index outside was to an entry.
pub fn outside(judge: &mut Judge, entry: &entries::Entry) {
    match entry {
        entries::Entry::Placed(placed) => {
            judge.mark("entry: a satellite past the last");
            judge.mark(match placed.troposphere {
                Some(_) => "entry: a node past the last",
                None => "entry: a node where T is 0",
            });
        }
        _ => judge.mark("entry: an index where no area is placed"),
    }
}

/// Counts at which number an entry was too short.
pub fn short_at(judge: &mut Judge, role: Role) {
    judge.mark(SHORT_AT[role as usize]);
}

/// Counts after which number, in which form, no entry could follow; of a satellite's number it is known how large it may be.
pub fn form_at(judge: &mut Judge, role: Role, form: &[u8], most: u64) {
    judge.mark(FORM_AT[role as usize]);
    if form.len() > 100 {
        judge.mark("entry: FORM, a number of over 100 groups");
    }
    match groups::read(form) {
        Ok((number, _)) => {
            judge.mark("entry: FORM, a number out of range");
            if role == Role::Reason && number == 6 {
                judge.mark("entry: FORM, reason 6");
            }
            let last = if most <= 64 { 64 } else { 256 };
            if role == Role::Satellite && most < number && number <= last {
                judge.mark("entry: FORM, a satellite that leaves too few behind it");
            }
        }
        Err(_) if form.last() == Some(&0) => judge.mark("entry: FORM, a number not in shortest form"),
        Err(_) => judge.mark("entry: FORM, a number beyond 64 bits"),
    }
}
