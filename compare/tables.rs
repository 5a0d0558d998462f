//! A desk as it is lent: thirteen numbers and two books, of every kind.

use crate::judge::hex;
use crate::lent::{self, Lent};
use second::book;
use second::book::BOOK_BYTES;
use second::desk::{Desk, Last, PLACES};
use second::generate::{self, *};
use std::ops::Range;

/// The places of a desk's numbers: of the live book's AIOU and SIOU + 1, of the run's flag, of what
/// does not count without a run (its tag, its book's AIOU, SIOU + 1 and count), of the flag of the
/// last second and of that second.
pub const LIVE_AIOU: usize = 3;
pub const LIVE_SIOU: usize = 4;
pub const RUN_FLAG: usize = 6;
pub const OF_RUN: Range<usize> = 7..11;
pub const SECOND_FLAG: usize = 11;
pub const SECOND: usize = 12;

#[derive(Clone)]
pub struct Table {
    pub numbers: Vec<u64>,
    pub live: Vec<u8>,
    pub run: Vec<u8>,
    pub past: Past,
}

/// What came before on a desk, for counting what a frame then met.
#[derive(Clone, Copy, Default)]
pub struct Past {
    /// a book was taken in since the last frame that was answered OK
    pub taken_in: bool,
    /// and it has areas and came from a kept book of form 1
    pub form_1: bool,
    /// since the last frame that was answered OK, one was refused after a gap, over a live book
    pub refused: bool,
    /// the last frame that was answered OK was an HPAC of the open run, and emptied the live book
    pub emptied: bool,
}

/// The same, lent to a call.
pub struct LentTable {
    pub numbers: Lent<u64>,
    pub live: Lent<u8>,
    pub run: Lent<u8>,
}

impl Table {
    /// The desk of the numbers; none if they are under thirteen.
    pub fn desk(&self) -> Option<Desk> {
        let thirteen = self.numbers.get(..PLACES)?;
        Some(Desk::of_numbers(thirteen.try_into().expect("thirteen")))
    }

    /// The desk as a call left it.
    pub fn put(&mut self, desk: &Desk) {
        self.numbers[..PLACES].copy_from_slice(&desk.numbers());
    }

    pub fn lend(&self) -> LentTable {
        LentTable {
            numbers: lent::numbers(&self.numbers),
            live: lent::bytes(&self.live),
            run: lent::bytes(&self.run),
        }
    }

    pub fn said(&self) -> String {
        format!("desk {:?}, live {}, run {}", self.numbers, hex(&self.live), hex(&self.run))
    }

    /// A frame for the desk as it stands.
    pub fn frame(&self, rng: &mut Rng) -> Vec<u8> {
        match self.desk() {
            Some(desk) => {
                frame_for(rng, &generate::Table { desk, live: self.live.clone(), run: self.run.clone() })
            }
            None => frame(rng),
        }
    }

    /// A frame of a sort for a sound desk as it stands; where it has none, any.
    pub fn frame_of(&self, rng: &mut Rng, sort: Sort) -> Vec<u8> {
        let of_sort = self.desk().and_then(|desk| {
            frame_of(rng, &generate::Table { desk, live: self.live.clone(), run: self.run.clone() }, sort)
        });
        of_sort.unwrap_or_else(|| self.frame(rng))
    }

    /// A second for the desk as it stands.
    pub fn second(&self, rng: &mut Rng) -> u64 {
        match self.desk() {
            Some(desk) => second_for(rng, &desk),
            None => first_second(rng),
        }
    }

    /// An area ID: of the run's book, of the live book, or any.
    pub fn id(&self, rng: &mut Rng) -> u8 {
        let any = rng.below(256);
        let Some(desk) = self.desk() else { return any as u8 };
        let run_book = desk.run.map_or(desk.live, |open| open.book);
        let (book, bytes) = if rng.one_in(2) { (run_book, &self.run) } else { (desk.live, &self.live) };
        match book::areas(&book, bytes) {
            Some(held) if !held.is_empty() && !rng.one_in(4) => rng.pick(&held).id as u8,
            _ => any as u8,
        }
    }
}

/// A new desk's table; the books' bytes are as found.
pub fn fresh(rng: &mut Rng, desk: &Desk) -> Table {
    let surplus = rng.pick(&[0, 0, 1, 9]);
    Table {
        numbers: desk.numbers().to_vec(),
        live: lent_bytes(rng, BOOK_BYTES + surplus),
        run: lent_bytes(rng, BOOK_BYTES + surplus),
        past: Past::default(),
    }
}

/// A table of these.
pub fn of(made: generate::Table) -> Table {
    Table { numbers: made.desk.numbers().to_vec(), live: made.live, run: made.run, past: Past::default() }
}

/// A desk in the middle of its work, sound or not, with buffers of any size.
pub fn any(rng: &mut Rng) -> Table {
    let made = if rng.one_in(3) { unsound_table(rng) } else { table(rng) };
    let desk = made.desk;
    let mut table = of(made);
    // without an area neither AIOU nor SIOU counts
    if desk.live.count == 0 && rng.one_in(2) {
        table.numbers[LIVE_AIOU] = wild(rng, 0);
        table.numbers[LIVE_SIOU] = wild(rng, 0);
    }
    if desk.run.is_none() {
        for place in OF_RUN {
            table.numbers[place] = rng.pick(&[0, 1, 33, 513, 43200, u64::MAX]);
        }
    }
    // with flag 0 the second does not count, and is not always 0
    if desk.last == Last::Never && rng.one_in(2) {
        table.numbers[SECOND] = first_second(rng);
    }
    // a flag that says neither, cut to fewer bits it may be one that does
    if desk.last == Last::Neither || rng.one_in(12) {
        let flags = [2, 3, 255, 256, 257, 1 << 32, (1 << 32) + 1, 1 << 63, u64::MAX];
        table.numbers[SECOND_FLAG] = rng.pick(&flags);
        table.numbers[SECOND] = first_second(rng);
    }
    if rng.one_in(4) {
        let place = rng.below(PLACES as u64) as usize;
        table.numbers[place] = wild(rng, table.numbers[place]);
    }
    match rng.below(20) {
        0 => table.numbers.truncate(rng.pick(&[0, 3, 8, 10, 11, 12])),
        1 => table.live.truncate(rng.pick(&[0, 6, 191])),
        2 => table.run.truncate(rng.pick(&[0, 6, 191])),
        3 => table.numbers.push(rng.draw()),
        _ => {}
    }
    table
}

/// A number next to a bound of some field, or one that is the old one again if it is cut to 8, 16 or 32 bits.
fn wild(rng: &mut Rng, old: u64) -> u64 {
    let cut = old.wrapping_add(1 << rng.pick(&[8, 16, 32]));
    let small = rng.pick(&[0, 1, 2, 4, 5, 15, 16, 17, 32, 33]);
    let large = rng.pick(&[127, 128, 255, 511, 512, 513, 43199, 43200, u64::MAX]);
    rng.pick(&[cut, small, small, small, large, large, large])
}
