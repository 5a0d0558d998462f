//! compare [COUNT [SEED]]: the desk and the second program answer the same inputs, made up from a
//! seed. The first difference ends it, with the input and the seed. An input is a call with its buffers, or a whole
//! stream, history of a book or of a desk, or both together, call by call.

mod books;
mod desks;
mod entries;
mod frames;
mod judge;
mod lent;
mod logs;
mod marks;
mod meanings;
mod payloads;
mod places;
mod prepares;
mod streams;
mod tables;
mod types;
mod views;

use judge::Judge;
use second::generate::Rng;

type Case = fn(&mut Rng, &mut Judge);

/// What is tried, and its share of the turns.
const CASES: [(u64, Case); 30] = [
    (18, frames::check),
    (8, frames::write),
    (20, payloads::read),
    (16, payloads::write),
    (8, payloads::faults),
    (1, types::every),
    (6, meanings::value),
    (2, meanings::orbit),
    (12, views::satellite),
    (12, views::hpac),
    (4, views::gad),
    (4, views::bpac),
    (4, streams::plain),
    (10, streams::odd),
    (6, books::history),
    (5, books::keep),
    (5, books::read),
    (1, books::changed),
    (4, books::find),
    (2, desks::new),
    (12, desks::odd),
    (10, desks::history),
    (12, desks::gaps),
    (10, desks::solutions),
    (1, desks::full),
    (12, prepares::odd),
    (6, prepares::whole),
    (2, entries::small),
    (1, entries::large),
    (6, entries::odd),
];

/// The answer numbers that each call can give.
const CAN: [(&str, &[usize]); 30] = [
    ("frame_check", &[0, 1, 2, 3, 4, 5, 9]),
    ("frame_write", &[0, 4, 8, 9]),
    ("payload_judge", &[0, 1, 4, 6, 7, 8, 9]),
    ("payload_read", &[0, 1, 4, 6, 7, 8, 9]),
    ("sheet_judge", &[0, 1, 4, 6, 7, 8, 9, 16]),
    ("sheet_write", &[0, 1, 4, 6, 7, 8, 9, 16]),
    ("satellite_at", &[0, 1, 4, 6, 7, 8, 9, 16]),
    ("hpac_area", &[0, 1, 4, 6, 7, 8, 9, 16]),
    ("gad_area", &[0, 1, 8, 9, 16]),
    ("bpac_area", &[0, 1, 4, 8, 9, 16]),
    ("stream_call", &[0, 9, 17]),
    ("stream_finish", &[0, 9, 17]),
    ("book_take", &[0, 1, 4, 8, 9, 13, 14, 15, 17]),
    ("kept_write", &[0, 9, 17]),
    ("kept_read", &[0, 1, 9, 16, 18]),
    ("value", &[0, 8, 9]),
    ("orbit", &[0, 8, 9]),
    ("book_find", &[0, 9]),
    ("desk_new", &[0, 8, 9]),
    ("desk_is_sound", &[0, 9, 17]),
    ("desk_take", &[0, 1, 2, 3, 4, 5, 7, 8, 9, 10, 11, 12, 13, 14, 15, 17]),
    ("desk_find", &[0, 9]),
    ("desk_take_book", &[0, 9, 17]),
    ("prepare_call", &[0, 9, 17]),
    ("prepare_finish", &[0, 9, 17]),
    ("prepare, of a frame", &[0, 1, 7, 8, 10, 11, 12, 13, 14, 15]),
    ("entry_read", &[0, 1, 9, 18]),
    ("entry_troposphere", &[0, 1, 8, 9, 18]),
    ("entry_satellite", &[0, 1, 8, 9, 18]),
    ("entry_residual", &[0, 1, 8, 9, 18]),
];

/// One turn from its own seed: a case by chance, now and then a stream with much noise or a sheet of very many entries.
fn turn(seed: u64, judge: &mut Judge) {
    let mut rng = Rng::new(seed);
    judge.seed = seed;
    if rng.one_in(4000) {
        return streams::noisy(&mut rng, judge);
    }
    if rng.one_in(4000) {
        return prepares::noisy(&mut rng, judge);
    }
    if rng.one_in(8000) {
        return payloads::longest(&mut rng, judge);
    }
    let mut place = rng.below(CASES.iter().map(|(share, _)| share).sum());
    for (share, case) in CASES {
        if place < share {
            return case(&mut rng, judge);
        }
        place -= share;
    }
}

fn main() {
    let number = |n| std::env::args().nth(n).map(|s| s.parse().expect("a number"));
    let count: u64 = number(1).unwrap_or(100_000);
    let first: u64 = number(2).unwrap_or(1);
    println!("compare: {count} inputs from seed {first}");
    let mut judge = Judge::new(first);
    for place in 0..count {
        turn(first.wrapping_add(place), &mut judge);
    }
    println!(
        "compare: {count} inputs answered alike, {} calls; answer numbers and how often each came:",
        judge.calls
    );
    judge.tell();
    let mut all = marks::all().into_iter().map(String::from).collect::<Vec<_>>();
    all.extend(places::all().into_iter().chain(types::all()));
    let missed = judge.missed(&CAN, &places::must(), &all);
    if count >= 100_000 && !missed.is_empty() {
        println!("compare: never met: {}", missed.join(", "));
        std::process::exit(1);
    }
}
