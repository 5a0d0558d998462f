//! Books: GADs taken, areas looked up, kept books written and read, every number of a kept book
//! changed.

use crate::entries::{open, wide};
use crate::judge::{hex, Input, Judge};
use crate::lent;
use crate::marks;
use homralgyu::raw;
use second::answer::{number, with_place, Refusal};
use second::book::{self, Book, Numbers, BOOK_BYTES, PLACES, TOP_AIOU, TOP_SIOU};
use second::generate::*;
use second::groups::groups;
use second::kept;
use second::kept::KEPT_BYTES;
use second::views::AreaId;

/// A book that three numbers can say: with areas it has an AIOU, without any it has none and no
/// SIOU. Now and then a number is the old one again if it is cut to 8, 16 or 32 bits.
fn as_numbers(rng: &mut Rng, made: &Book) -> (Book, Numbers) {
    let mut numbers = made.numbers();
    if made.count == 0 {
        numbers[0] = rng.pick(&[0, 7, 15, 16, u64::MAX]);
        numbers[1] = rng.pick(&[0, 1, 512, 513, u64::MAX]);
    } else if made.aiou.is_none() {
        numbers[0] = 16;
    }
    if made.count > 0 && rng.one_in(20) {
        let place = rng.below(PLACES as u64) as usize;
        numbers[place] = numbers[place].wrapping_add(1 << rng.pick(&[8, 16, 32]));
    }
    (Book::of_numbers(&numbers), numbers)
}

pub fn some_book(rng: &mut Rng) -> (Book, Numbers, Vec<u8>) {
    let (made, mut bytes) = if rng.one_in(4) { unsound_book(rng) } else { book(rng) };
    if rng.one_in(20) {
        let size = buffer_size(rng, BOOK_BYTES);
        bytes.resize(size, 0);
    }
    let (made, numbers) = as_numbers(rng, &made);
    (made, numbers, bytes)
}

pub fn places(rng: &mut Rng) -> usize {
    rng.pick(&[0, 1, 2, 3, 3, 3, 3, 3, 3, 3, 3, 3, 3, 4])
}

/// A book's numbers as they are lent in so many places.
pub fn lent_numbers(rng: &mut Rng, numbers: &Numbers, places: usize) -> Vec<u64> {
    let mut state = numbers.to_vec();
    state.push(rng.draw());
    state.truncate(places);
    state
}

/// A payload that is taken as a GAD: of the book's AIOU and SIOU mostly, of one of them, of
/// neither.
fn some_gad(rng: &mut Rng, held: &Book, bytes: &[u8]) -> Vec<u8> {
    let aiou = if rng.one_in(3) { rng.below(16) } else { held.aiou.unwrap_or(3).min(15) };
    let own = held.siou.unwrap_or(3).min(TOP_SIOU);
    let siou = if rng.one_in(4) { other_siou(rng, own) } else { own };
    let mut blocks = areas(rng);
    if let Some(known) = book::areas(held, bytes) {
        for area in known {
            if rng.one_in(6) {
                blocks.push(area);
            }
        }
    }
    if rng.one_in(6) {
        let id = rng.below(256);
        let at = rng.below(blocks.len() as u64 + 1) as usize;
        blocks.insert(at, area_off(rng, id));
    }
    if rng.one_in(6) {
        if let Some(twice) = blocks.first().copied() {
            blocks.push(twice);
        }
    }
    blocks.truncate(32);
    if blocks.is_empty() {
        let id = rng.below(256);
        blocks.push(area(rng, id));
    }
    gad_sheet(rng, aiou, siou, &blocks).payload()
}

fn take_step(
    rng: &mut Rng,
    judge: &mut Judge,
    held: &mut Book,
    numbers: &mut Numbers,
    bytes: &mut Vec<u8>,
    payload: &[u8],
    places: usize,
) {
    let (old, old_bytes) = (*numbers, bytes.clone());
    let said =
        || format!("book {old:?} in {places} places, bytes {}, payload {}", hex(&old_bytes), hex(payload));
    let input = Input { call: "book_take", said: &said };
    let mut state = lent_numbers(rng, numbers, places);
    let (mut our_book, mut our_bytes) = (lent::numbers(&state), lent::bytes(bytes));
    let answer = raw::book_take(our_book.part(), our_bytes.part(), payload);
    if places < PLACES {
        judge.answer(&input, answer, 9);
    } else {
        let taken = book::take_payload(held, bytes, payload);
        judge.answer(&input, answer, with_place(&taken));
        marks::gad_given(judge, held, &old_bytes, payload, number(&taken));
        if let Ok(now) = taken {
            *held = now;
            *numbers = now.numbers();
            state[..PLACES].copy_from_slice(&numbers[..]);
        }
    }
    judge.lent(&input, "the book's numbers", &our_book, &state);
    judge.lent(&input, "the book's bytes", &our_bytes, bytes);
}

/// A book that takes GADs one after the other.
pub fn history(rng: &mut Rng, judge: &mut Judge) {
    let (mut held, mut numbers, mut bytes) = some_book(rng);
    for _ in 0..rng.between(1, 8) {
        let payload = match rng.below(10) {
            0 => odd_payload(rng, 2, 0),
            1 => payload(rng, 2, 0),
            _ => some_gad(rng, &held, &bytes),
        };
        let places = places(rng);
        take_step(rng, judge, &mut held, &mut numbers, &mut bytes, &payload, places);
    }
}

pub fn keep(rng: &mut Rng, judge: &mut Judge) {
    let (held, numbers, bytes) = some_book(rng);
    let room = buffer_size(rng, KEPT_BYTES);
    let out = lent_bytes(rng, room);
    let places = places(rng);
    let counts = rng.pick(&[0, 1, 1, 1, 1, 1, 1, 1, 2]);
    let written = lent_entries(rng, counts);
    let said =
        || format!("book {numbers:?} in {places} places, bytes {}, room of {room} and {counts}", hex(&bytes));
    let input = Input { call: "kept_write", said: &said };
    let state = lent_numbers(rng, &numbers, places);
    let (our_book, our_bytes) = (lent::numbers(&state), lent::bytes(&bytes));
    let (mut our_out, mut our_written) = (lent::bytes(&out), lent::numbers(&written));
    let answer = raw::kept_write(our_book.now(), our_bytes.now(), our_out.part(), our_written.part());
    let (mut out, mut written) = (out, written);
    if places < PLACES || counts < 1 {
        judge.number(&input, answer, 9);
    } else {
        let result = kept::write(&held, &bytes, &mut out);
        judge.number(&input, answer, number(&result));
        marks::book_kept(judge, &held, &bytes, &result);
        if result == Err(Refusal::Room) && room == KEPT_BYTES - 1 && bytes.len() >= BOOK_BYTES {
            judge.mark("kept: ROOM of 228 bytes");
        }
        if result.is_ok() && numbers[0] > TOP_AIOU && numbers[1] > TOP_SIOU + 1 {
            judge.mark("book: count 0, and AIOU and SIOU out of range");
        }
        if let Ok(n) = result {
            written[0] = n as u64;
        }
    }
    judge.lent(&input, "the kept book", &our_out, &out);
    judge.lent(&input, "the bytes written", &our_written, &written);
    judge.lent(&input, "the book's bytes", &our_bytes, &bytes);
    judge.lent(&input, "the book's numbers", &our_book, &state);
    // what was kept is read again, and one byte short of it
    if let (true, [size, ..]) = (answer == 0, our_written.now()) {
        let kept = our_out.now()[..*size as usize].to_vec();
        let again = read_kept(rng, judge, &kept, BOOK_BYTES, PLACES);
        let again = again.map(|(book, _, bytes)| (book, bytes[..6 * book.count as usize].to_vec()));
        judge.same(&input, "the book read again", &again, &Some((held, held_bytes(&held, &bytes))));
        read_kept(rng, judge, &kept[..kept.len() - 1], BOOK_BYTES, PLACES);
    }
}

/// The bytes of the areas held.
fn held_bytes(book: &Book, bytes: &[u8]) -> Vec<u8> {
    bytes[..6 * book.count as usize].to_vec()
}

/// Every number of a kept book of either form changed: to each of other numbers, and to other forms
/// of numbers; with the numbers behind it, without them, and without its own end.
pub fn changed(rng: &mut Rng, judge: &mut Judge) {
    let mut numbers = kept_numbers(rng);
    let head = kept_head(numbers[0]);
    // mostly few areas, so that many books are tried
    if numbers.len() > head + 3 && !rng.one_in(6) {
        numbers.truncate(head + rng.between(1, 3) as usize);
        numbers[head - 1] = (numbers.len() - head) as u64;
    }
    let write = |of: &[u64]| -> Vec<u8> { of.iter().flat_map(|&number| groups(number)).collect() };
    let whole = write(&numbers);
    let mut read = |bytes: &[u8]| read_kept(rng, judge, bytes, BOOK_BYTES, PLACES).is_some();
    assert!(read(&whole), "a kept book is read");
    assert!(!read(&[&whole[..], &[0]].concat()), "and none with a number behind it");
    assert!(!(0..whole.len()).any(|end| read(&whole[..end])), "and no beginning of it");
    for at in 0..numbers.len() {
        let (before, behind) = (write(&numbers[..at]), write(&numbers[at + 1..]));
        let mut forms: Vec<Vec<u8>> = kept_changes(&numbers, at).into_iter().map(groups).collect();
        // not in shortest form, of many groups, beyond 64 bits: the number again if bits are lost
        let number = numbers[at];
        forms.extend([0, 1, 0x7F].map(|last| [open(number, 0), vec![last]].concat()));
        forms.extend([0, 1].map(|last| [open(number, 19), vec![last]].concat()));
        forms.extend([wide(1 << 64), wide(1 << 64 | number as u128), wide(u128::MAX)]);
        for form in forms {
            let ended = [&before[..], &form].concat();
            read(&ended);
            read(&ended[..ended.len() - 1]);
            read(&[&ended[..], &behind].concat());
        }
    }
    judge.mark(match numbers[0] {
        kept::FORM_1 => "kept: every number of form 1 changed",
        _ => "kept: every number of form 2 changed",
    });
}

pub fn read(rng: &mut Rng, judge: &mut Judge) {
    let bytes = if rng.one_in(3) { second::generate::kept(rng) } else { broken_kept(rng) };
    let room = buffer_size(rng, BOOK_BYTES);
    let places = places(rng);
    read_kept(rng, judge, &bytes, room, places);
}

/// A kept book read: the book, its numbers and its bytes.
pub fn read_kept(
    rng: &mut Rng,
    judge: &mut Judge,
    bytes: &[u8],
    room: usize,
    places: usize,
) -> Option<(Book, Numbers, Vec<u8>)> {
    let mut book = lent_bytes(rng, room);
    let mut state = lent_entries(rng, places);
    let said = || format!("kept book {}, room of {room} and {places}", hex(bytes));
    let input = Input { call: "kept_read", said: &said };
    let lent_kept = lent::bytes(bytes);
    let (mut our_book, mut our_bytes) = (lent::numbers(&state), lent::bytes(&book));
    let answer = raw::kept_read(lent_kept.now(), our_book.part(), our_bytes.part());
    let result = if places < PLACES { Err(Refusal::Room) } else { kept::read(bytes, &mut book) };
    judge.number(&input, answer, number(&result));
    marks::kept_given(judge, bytes, &result);
    if let Ok(now) = result {
        state[..PLACES].copy_from_slice(&now.numbers());
    }
    judge.lent(&input, "the book's numbers", &our_book, &state);
    judge.lent(&input, "the book's bytes", &our_bytes, &book);
    judge.lent(&input, "the kept book", &lent_kept, bytes);
    result.ok().map(|now| (now, now.numbers(), book))
}

/// The room for six bytes and for a count, mostly enough.
pub fn find_room(rng: &mut Rng) -> (Vec<u8>, Vec<u64>) {
    let (area, found) = (rng.pick(&[6, 6, 6, 6, 6, 6, 7, 5, 0]), rng.pick(&[1, 1, 1, 1, 1, 1, 1, 2, 0]));
    (lent_bytes(rng, area), lent_entries(rng, found))
}

/// What a lookup tells: ROOM, or the six bytes and 6, or 0 alone.
pub fn tell_found(part: &[u8], area: &mut [u8], found: &mut [u64]) -> u8 {
    if area.len() < 6 || found.is_empty() {
        return 9;
    }
    area[..part.len()].copy_from_slice(part);
    found[0] = part.len() as u64;
    0
}

/// An area looked up in a book by itself.
pub fn find(rng: &mut Rng, judge: &mut Judge) {
    let (held, numbers, bytes) = some_book(rng);
    let id = match book::areas(&held, &bytes) {
        Some(areas) if !areas.is_empty() && !rng.one_in(4) => rng.pick(&areas).id,
        _ => rng.below(256),
    };
    let places = places(rng);
    let numbers = lent_numbers(rng, &numbers, places);
    let (mut area, mut found) = find_room(rng);
    let rooms = (area.len(), found.len());
    let said = || format!("book {numbers:?}, bytes {}, ID {id}, rooms of {rooms:?}", hex(&bytes));
    let input = Input { call: "book_find", said: &said };
    let (our_book, our_bytes) = (lent::numbers(&numbers), lent::bytes(&bytes));
    let (mut our_area, mut our_found) = (lent::bytes(&area), lent::numbers(&found));
    let answer = raw::book_find(our_book.now(), our_bytes.now(), id as u8, our_area.part(), our_found.part());
    let part = if numbers.len() < PLACES { 0..0 } else { book::find(&held, &bytes, AreaId(id)) };
    judge.number(&input, answer, tell_found(&bytes[part], &mut area, &mut found));
    judge.lent(&input, "the area", &our_area, &area);
    judge.lent(&input, "the bytes found", &our_found, &found);
    judge.lent(&input, "the book's numbers", &our_book, &numbers);
    judge.lent(&input, "the book's bytes", &our_bytes, &bytes);
}
