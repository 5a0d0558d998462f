//! Document 01, "Book and run", with document 02, request 5, "One solution update per book": the
//! area book.
//!
//! "The book holds one AIOU and up to 32 areas, ascending by ID, six bytes each: the 47 bits of the
//! GAD block and a zero bit, 192 bytes." Request 5: "The book now also holds the SIOU of the GAD
//! that filled it."

use crate::answer::{stop, Refusal, Refused};
use crate::payload::{gad_area, Entries, Field, Gad, GadArea, Message};
use crate::sheet::{close, open};
use crate::views::AreaId;
use std::ops::Range;

pub const MOST_AREAS: u64 = 32;
pub const AREA_BYTES: usize = 6;
pub const BOOK_BYTES: usize = 192;
pub const TOP_AIOU: u64 = 15;
/// "In a sound book the SIOU is 0 to 511 or unknown"
pub const TOP_SIOU: u64 = 511;

/// The book beside its lent bytes. Any numbers may stand here; `sound` judges them.
#[derive(Clone, Copy, PartialEq, Eq, Debug, Default)]
pub struct Book {
    pub aiou: Option<u64>,
    /// none if it is unknown
    pub siou: Option<u64>,
    pub count: u64,
}

/// How many numbers a book is.
pub const PLACES: usize = 3;

/// A book as numbers: AIOU, SIOU + 1 (0 if it is unknown), count.
pub type Numbers = [u64; PLACES];

impl Book {
    /// The book of three numbers. "numbers that a flag makes meaningless (the tag of a closed run,
    /// the AIOU of an empty book) do not count"; request 5: "where a book is lent as numbers, count
    /// 0 makes AIOU and SIOU not count". With areas, an AIOU over 15 or a SIOU + 1 over 512 gives a
    /// book that is not sound.
    pub fn of_numbers(numbers: &Numbers) -> Book {
        let [aiou, siou_plus_one, count] = *numbers;
        if count == 0 {
            return Book::default();
        }
        Book { aiou: Some(aiou), siou: siou_plus_one.checked_sub(1), count }
    }

    /// The three numbers of a sound book; 0 for those without meaning. (Some books that are not
    /// sound have none: an AIOU without an area, areas without an AIOU, a SIOU without either.)
    pub fn numbers(&self) -> Numbers {
        if self.count == 0 {
            return [0; PLACES];
        }
        // no SIOU is so large in a sound book, nor is what it becomes here
        let siou_plus_one = self.siou.map_or(0, |siou| siou.saturating_add(1));
        [self.aiou.unwrap_or(0), siou_plus_one, self.count]
    }

    /// Is it a book of this AIOU and of this SIOU? "Unknown equals no SIOU": a book whose SIOU is
    /// unknown is of none.
    pub fn is_of(&self, aiou: u64, siou: u64) -> bool {
        self.aiou == Some(aiou) && self.siou == Some(siou)
    }
}

/// An area's 47 bits as a number.
pub fn area_number(area: &GadArea) -> u64 {
    let mut number = 0;
    for (code, width) in [
        (area.id, 8),
        (area.latitude, 11),
        (area.longitude, 12),
        (area.latitude_count, 3),
        (area.longitude_count, 3),
        (area.latitude_spacing, 5),
        (area.longitude_spacing, 5),
    ] {
        number = number << width | code;
    }
    number
}

/// The area of 47 bits; none if a field is out of its range or there are more than 47 bits.
pub fn area_of(number: u64) -> Option<GadArea> {
    /// The bits not read yet, and how many they are.
    struct Bits(u64, u32);
    impl Entries for Bits {
        fn next(&mut self, field: Field) -> Result<u64, Refused> {
            self.1 = self.1.checked_sub(field.width).ok_or(Refusal::Short)?;
            let code = self.0 >> self.1;
            self.0 -= code << self.1;
            Ok(field.judge(code)?)
        }
        fn count(&self) -> usize {
            0
        }
    }
    if number >> 47 != 0 {
        return None;
    }
    gad_area(&mut Bits(number, 47)).ok()
}

/// The six bytes of an area: its 47 bits and a zero bit.
pub fn area_bytes(area: &GadArea) -> [u8; AREA_BYTES] {
    let eight = (area_number(area) << 1).to_be_bytes();
    [eight[2], eight[3], eight[4], eight[5], eight[6], eight[7]]
}

/// "AREA_OFF: grid runs south of -90.0 degrees": code < (rows - 1) x spacing in tenths.
pub fn off(area: &GadArea) -> bool {
    area.latitude < area.latitude_count * (area.latitude_spacing + 1)
}

/// lat x lon nodes
pub fn nodes(area: &GadArea) -> u64 {
    (area.latitude_count + 1) * (area.longitude_count + 1)
}

/// The areas held, if the book is sound: "A book has an AIOU exactly when it has an area, at most
/// 32, ascending, each with fields in range, the last bit zero and no AREA_OFF; bytes past them do
/// not count." "... AIOU and tag are in range." Request 5: "In a sound book the SIOU is 0 to 511 or
/// unknown, and unknown where there is no AIOU."
pub fn areas(book: &Book, bytes: &[u8]) -> Option<Vec<GadArea>> {
    let sound_numbers = book.aiou.is_some() == (book.count > 0)
        && book.aiou.is_none_or(|aiou| aiou <= TOP_AIOU)
        && book.siou.is_none_or(|siou| siou <= TOP_SIOU && book.aiou.is_some())
        && book.count <= MOST_AREAS;
    if !sound_numbers || bytes.len() < BOOK_BYTES {
        return None;
    }
    let mut held: Vec<GadArea> = Vec::new();
    for six in bytes.chunks(AREA_BYTES).take(book.count as usize) {
        let number = six.iter().fold(0u64, |number, &byte| number << 8 | byte as u64);
        if number & 1 != 0 {
            return None;
        }
        let area = area_of(number >> 1)?;
        if off(&area) || held.last().is_some_and(|before| before.id >= area.id) {
            return None;
        }
        held.push(area);
    }
    Some(held)
}

/// Is the book sound? (A short slice is ROOM where it is lent; here it is not sound.)
pub fn sound(book: &Book, bytes: &[u8]) -> bool {
    areas(book, bytes).is_some()
}

/// "A GAD with another AIOU begins a new book; with the same one it adds. An identical repeat
/// changes nothing. It is taken whole or refused at its first faulty block: AREA_OFF, CONFLICT,
/// BOOK_FULL." The blocks are judged in order against the book with the earlier ones added. Request
/// 5: "A GAD with another SIOU begins a new book, as another AIOU does": it is judged from an empty
/// one, and so is a GAD over a book whose SIOU is unknown.
pub fn with_gad(book: &Book, held: &[GadArea], gad: &Gad) -> Result<Vec<GadArea>, Refusal> {
    let mut areas = if book.is_of(gad.aiou, gad.siou) { held.to_vec() } else { Vec::new() };
    for block in &gad.areas {
        stop(off(block), Refusal::AreaOff)?;
        match areas.iter().find(|area| area.id == block.id) {
            Some(area) => stop(area != block, Refusal::Conflict)?,
            None => {
                stop(areas.len() as u64 == MOST_AREAS, Refusal::BookFull)?;
                areas.push(*block);
                areas.sort_by_key(|area| area.id);
            }
        }
    }
    Ok(areas)
}

/// Writes the areas held, six bytes each, and nothing past them.
pub fn put(areas: &[GadArea], bytes: &mut [u8]) {
    for (six, area) in bytes.chunks_mut(AREA_BYTES).zip(areas) {
        if six.len() == AREA_BYTES {
            six.copy_from_slice(&area_bytes(area));
        }
    }
}

/// Takes a GAD on a sheet: ROOM, STATE, the sheet's refusals, the book's. Request 2: "Every call above
/// passes the place on as it got it", here a sheet entry. The book's own refusals carry none.
pub fn take(book: &Book, bytes: &mut [u8], sheet: &[u64]) -> Result<Book, Refused> {
    ready(book, bytes)?;
    let (message, _) = close(2, 0, sheet)?;
    Ok(take_message(book, bytes, &message)?)
}

/// Takes the payload of a GAD: ROOM, STATE, the payload's refusals, the book's. The place passed on is a
/// bit here.
pub fn take_payload(book: &Book, bytes: &mut [u8], payload: &[u8]) -> Result<Book, Refused> {
    ready(book, bytes)?;
    let (message, _, _) = open(2, 0, payload)?;
    Ok(take_message(book, bytes, &message)?)
}

/// ROOM and STATE, or the areas held.
fn ready(book: &Book, bytes: &[u8]) -> Result<Vec<GadArea>, Refusal> {
    stop(bytes.len() < BOOK_BYTES, Refusal::Room)?;
    areas(book, bytes).ok_or(Refusal::State)
}

fn take_message(book: &Book, bytes: &mut [u8], message: &Message) -> Result<Book, Refusal> {
    match message {
        Message::Gad(gad) => take_gad(book, bytes, gad),
        _ => Err(Refusal::UnknownType),
    }
}

/// Takes a GAD into a sound book.
pub fn take_gad(book: &Book, bytes: &mut [u8], gad: &Gad) -> Result<Book, Refusal> {
    let held = ready(book, bytes)?;
    let areas = with_gad(book, &held, gad)?;
    put(&areas, bytes);
    // A GAD has at least one area, so the book has one. Where it added, both numbers are the old
    // ones.
    Ok(Book { aiou: Some(gad.aiou), siou: Some(gad.siou), count: areas.len() as u64 })
}

/// Finds an area: where its six bytes lie, or the empty part at the start if the ID is absent, the
/// bytes are short or the book is not sound.
pub fn find(book: &Book, bytes: &[u8], id: AreaId) -> Range<usize> {
    let held = areas(book, bytes).unwrap_or_default();
    match held.iter().position(|area| area.id == id.0) {
        Some(i) => AREA_BYTES * i..AREA_BYTES * (i + 1),
        None => 0..0,
    }
}

#[cfg(test)]
mod tests {
    use super::*;
    use crate::answer::Place;

    pub fn area(id: u64, latitude: u64, latitude_count: u64, latitude_spacing: u64) -> GadArea {
        GadArea {
            id,
            latitude,
            longitude: 3600,
            latitude_count,
            longitude_count: 1,
            latitude_spacing,
            longitude_spacing: 0,
        }
    }

    #[test]
    fn case_7_the_grid_may_reach_the_pole() {
        assert!(!off(&area(1, 224, 7, 31)));
        assert!(off(&area(1, 223, 7, 31)));
        assert!(!off(&area(1, 0, 0, 31)));
    }

    #[test]
    fn an_area_is_its_47_bits() {
        let of = area(255, 1800, 7, 31);
        assert_eq!(area_of(area_number(&of)), Some(of));
        assert_eq!(area_bytes(&of)[5] & 1, 0);
        assert_eq!(area_bytes(&of)[0], 255);
        assert_eq!(area_of(1 << 47), None);
        assert_eq!(area_of(1801 << 28), None);
        assert_eq!(area_of(3601 << 16), None);
    }

    /// a GAD of these blocks
    fn gad(aiou: u64, siou: u64, blocks: &[GadArea]) -> Gad {
        Gad { siou, aiou, reserved: 0, areas: blocks.to_vec() }
    }

    /// a book of so many areas
    fn book(aiou: u64, siou: Option<u64>, count: u64) -> Book {
        Book { aiou: Some(aiou), siou, count }
    }

    #[test]
    fn blocks_are_judged_in_order_against_the_earlier_ones() {
        let a = area(5, 900, 0, 0);
        let b = area(5, 901, 0, 0);
        let bad = area(5, 0, 1, 0);
        let none = Book::default();
        assert_eq!(with_gad(&none, &[], &gad(3, 7, &[a, a])), Ok(vec![a]));
        assert_eq!(with_gad(&none, &[], &gad(3, 7, &[a, b])), Err(Refusal::Conflict));
        assert_eq!(with_gad(&none, &[], &gad(3, 7, &[a, bad])), Err(Refusal::AreaOff));
        let one = book(3, Some(7), 1);
        assert_eq!(with_gad(&one, &[a], &gad(3, 7, &[b])), Err(Refusal::Conflict));
        assert_eq!(with_gad(&one, &[a], &gad(4, 7, &[b])), Ok(vec![b]));
        let full: Vec<_> = (0..32).map(|id| area(2 * id, 900, 0, 0)).collect();
        let of_32 = book(3, Some(7), 32);
        assert_eq!(with_gad(&of_32, &full, &gad(3, 7, &[full[7]])), Ok(full.clone()));
        assert_eq!(with_gad(&of_32, &full, &gad(3, 7, &[a])), Err(Refusal::BookFull));
        let conflict = gad(3, 7, &[area(4, 7, 0, 0)]);
        assert_eq!(with_gad(&of_32, &full, &conflict), Err(Refusal::Conflict));
        let added = with_gad(&book(3, Some(7), 31), &full[..31], &gad(3, 7, &[a])).unwrap();
        assert!(added.windows(2).all(|pair| pair[0].id < pair[1].id));
    }

    #[test]
    fn another_siou_begins_a_new_book_and_so_does_any_over_an_unknown_one() {
        let (a, b, c) = (area(5, 900, 0, 0), area(5, 901, 0, 0), area(9, 900, 0, 0));
        let full: Vec<_> = (0..32).map(|id| area(2 * id, 900, 0, 0)).collect();
        for old in [None, Some(0), Some(7), Some(511)] {
            for new in [0, 7, 8, 511] {
                let same = old == Some(new);
                // with the same AIOU and SIOU it adds, else it stands alone
                let expected = if same { vec![a, c] } else { vec![c] };
                assert_eq!(with_gad(&book(3, old, 1), &[a], &gad(3, new, &[c])), Ok(expected));
                assert_eq!(with_gad(&book(3, old, 1), &[a], &gad(4, new, &[c])), Ok(vec![c]));
                // CONFLICT and BOOK_FULL need both numbers to be the same
                let conflict = if same { Err(Refusal::Conflict) } else { Ok(vec![b]) };
                assert_eq!(with_gad(&book(3, old, 1), &[a], &gad(3, new, &[b])), conflict);
                let no_room = if same { Err(Refusal::BookFull) } else { Ok(vec![a]) };
                assert_eq!(with_gad(&book(3, old, 32), &full, &gad(3, new, &[a])), no_room);
            }
        }
    }

    #[test]
    fn a_gad_of_another_siou_that_is_refused_leaves_the_old_book_with_both_numbers() {
        let held = [area(5, 900, 0, 0), area(9, 900, 0, 0)];
        let old = book(3, Some(7), 2);
        let mut bytes = [0xA5; BOOK_BYTES];
        put(&held, &mut bytes);
        let before = bytes;
        // SIOU 8, AIOU 3: the second block is off, or conflicts with the first
        let off = [8, 3, 0, 1, 7, 900, 0, 0, 0, 0, 0, 8, 0, 0, 1, 0, 0, 0];
        assert_eq!(take(&old, &mut bytes, &off), Err(Refusal::AreaOff.into()));
        let twice = [8, 3, 0, 1, 7, 900, 0, 0, 0, 0, 0, 7, 901, 0, 0, 0, 0, 0];
        assert_eq!(take(&old, &mut bytes, &twice), Err(Refusal::Conflict.into()));
        assert_eq!(bytes, before);
        // taken, it has its own numbers and its own area; the bytes past it stay
        let new = [8, 3, 0, 0, 7, 900, 0, 0, 0, 0, 0];
        assert_eq!(take(&old, &mut bytes, &new), Ok(book(3, Some(8), 1)));
        assert_eq!((bytes[0], &bytes[6..]), (7, &before[6..]));
        // over an unknown SIOU an identical repeat leaves that area alone, and the SIOU is known
        let mut bytes = before;
        let repeat = [511, 3, 0, 0, 9, 900, 3600, 0, 1, 0, 0];
        assert_eq!(take(&book(3, None, 2), &mut bytes, &repeat), Ok(book(3, Some(511), 1)));
        assert_eq!(bytes[..6], before[6..12]);
        // an identical repeat of both numbers changes nothing
        let mut bytes = before;
        assert_eq!(take(&book(3, Some(511), 2), &mut bytes, &repeat), Ok(book(3, Some(511), 2)));
        assert_eq!(bytes, before);
    }

    #[test]
    fn a_book_as_three_numbers() {
        for siou in [None, Some(0), Some(1), Some(511)] {
            let made = book(15, siou, 2);
            assert_eq!(made.numbers(), [15, siou.map_or(0, |siou| siou + 1), 2]);
            assert_eq!(Book::of_numbers(&made.numbers()), made);
        }
        assert_eq!(Book::default().numbers(), [0, 0, 0]);
        // with count 0 neither AIOU nor SIOU counts
        for (aiou, siou) in [(0, 0), (3, 8), (16, 513), (u64::MAX, u64::MAX)] {
            assert_eq!(Book::of_numbers(&[aiou, siou, 0]), Book::default());
        }
        // with areas both do
        let mut bytes = [0u8; BOOK_BYTES];
        put(&[area(5, 900, 0, 0)], &mut bytes);
        let is_sound = |numbers| sound(&Book::of_numbers(&numbers), &bytes);
        assert!(is_sound([15, 512, 1]) && is_sound([0, 0, 1]));
        for large in [1 << 32, u64::MAX] {
            assert!(!is_sound([16, 0, 1]) && !is_sound([large, 1, 1]));
            assert!(!is_sound([3, 513, 1]) && !is_sound([3, large, 1]));
        }
        // an unsound one stays so
        let large = book(3, Some(u64::MAX), 1);
        assert!(!sound(&large, &bytes) && !is_sound(large.numbers()));
    }

    #[test]
    fn only_bytes_of_areas_held_are_written() {
        let mut bytes = [0xA5; 193];
        let none = Book::default();
        let sheet = [0, 3, 0, 1, 9, 900, 0, 0, 0, 0, 0, 5, 901, 0, 0, 0, 0, 0];
        let book = take(&none, &mut bytes, &sheet).unwrap();
        assert_eq!(book, Book { aiou: Some(3), siou: Some(0), count: 2 });
        assert!(bytes[12..].iter().all(|&byte| byte == 0xA5));
        assert_eq!((bytes[0], bytes[6]), (5, 9));
        assert_eq!(find(&book, &bytes, AreaId(9)), 6..12);
        assert_eq!(find(&book, &bytes, AreaId(6)), 0..0);
        assert_eq!(find(&book, &bytes[..191], AreaId(9)), 0..0);
        let before = bytes;
        assert_eq!(take(&book, &mut bytes[..191], &sheet), Err(Refusal::Room.into()));
        assert_eq!(take(&Book { count: 3, ..book }, &mut bytes, &sheet), Err(Refusal::State.into()));
        let missing = Place { sf: 37, at: 17 };
        assert_eq!(take(&book, &mut bytes, &sheet[..17]), Err(missing.refuses(Refusal::Short)));
        // the second block is off: nothing of the first is written
        let off = [0, 4, 0, 1, 7, 900, 0, 0, 0, 0, 0, 8, 0, 0, 1, 0, 0, 0];
        assert_eq!(take(&book, &mut bytes, &off), Err(Refusal::AreaOff.into()));
        assert_eq!(bytes, before);
        // another AIOU with one area: the bytes past it stay
        let new = [0, 4, 0, 0, 200, 900, 0, 0, 0, 0, 0];
        let alone = Book { aiou: Some(4), siou: Some(0), count: 1 };
        assert_eq!(take(&book, &mut bytes, &new), Ok(alone));
        assert_eq!(bytes[0], 200);
        assert_eq!(bytes[6..], before[6..]);
    }

    #[test]
    fn of_a_payload_the_place_is_a_bit() {
        // SIOU 0, AIOU 3, reserved 0, one area: ID 5, latitude 900, one node
        let mut payload = [0b00000000, 0b00011000, 0b00000000, 0b10101110, 0b00010000, 0, 0, 0, 0];
        let mut bytes = [0xA5; BOOK_BYTES];
        let none = Book::default();
        let short = |sf, at| Err(Place { sf, at }.refuses(Refusal::Short));
        assert_eq!(take_payload(&none, &mut bytes, &payload[..1]), short(5, 0));
        assert_eq!(take_payload(&none, &mut bytes, &payload[..2]), short(30, 14));
        assert_eq!(take_payload(&none, &mut bytes, &payload[..8]), short(37, 61));
        assert_eq!(take_payload(&none, &mut bytes, &[]), Err(Refusal::Length.into()));
        // latitude 1924: SF032 has bits 27 to 37
        payload[3] |= 0b00010000;
        let latitude = Place { sf: 32, at: 27 };
        assert_eq!(take_payload(&none, &mut bytes, &payload), Err(latitude.refuses(Refusal::Field)));
        assert_eq!(take_payload(&none, &mut bytes[..191], &payload), Err(Refusal::Room.into()));
        assert_eq!(bytes, [0xA5; BOOK_BYTES]);
        payload[3] &= 0b11101111;
        assert_eq!(take_payload(&none, &mut bytes, &payload), Ok(book(3, Some(0), 1)));
    }

    #[test]
    fn what_makes_a_book_unsound() {
        let mut bytes = [0u8; BOOK_BYTES];
        put(&[area(5, 900, 0, 0), area(9, 900, 0, 0)], &mut bytes);
        let book = book(15, Some(7), 2);
        assert!(sound(&book, &bytes));
        assert!(sound(&Book::default(), &[0xFF; BOOK_BYTES]));
        for siou in [None, Some(0), Some(7)] {
            assert!(!sound(&Book { aiou: Some(16), siou, count: 2 }, &bytes));
            assert!(!sound(&Book { aiou: None, siou, count: 2 }, &bytes));
            assert!(!sound(&Book { aiou: Some(1), siou, count: 0 }, &bytes));
            assert!(!sound(&Book { aiou: Some(1), siou, count: 33 }, &bytes));
            assert!(!sound(&Book { aiou: Some(1), siou, count: u64::MAX }, &bytes));
            assert!(sound(&Book { siou, ..book }, &bytes));
            // "unknown where there is no AIOU"
            assert_eq!(sound(&Book { siou, ..Book::default() }, &bytes), siou.is_none());
        }
        assert!(sound(&Book { siou: Some(511), ..book }, &bytes));
        for siou in [512, 513, 1 << 32, u64::MAX] {
            assert!(!sound(&Book { siou: Some(siou), ..book }, &bytes));
        }
        let mut other = bytes;
        other[5] |= 1;
        assert!(!sound(&book, &other));
        let mut other = bytes;
        other[0] = 9;
        assert!(!sound(&book, &other));
        let mut other = bytes;
        put(&[area(5, 0, 1, 0)], &mut other);
        assert!(!sound(&book, &other));
        let mut past = bytes;
        past[12..].fill(0xFF);
        assert!(sound(&book, &past));
    }
}
