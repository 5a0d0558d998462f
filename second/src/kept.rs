//! Document 01: "Kept book: form number 1, AIOU + 1, count, areas as numbers, ascending. Empty
//! book: 1, 0, 0." Document 02, request 5: "The kept book gets form 2 with SIOU + 1 after AIOU + 1,
//! 0 for unknown or no book (229 bytes of room)." Form 2 is always written; both forms are read.

use crate::answer::{stop, Refusal};
use crate::book::{area_number, area_of, areas, off, put, Book};
use crate::book::{BOOK_BYTES, MOST_AREAS, TOP_AIOU, TOP_SIOU};
use crate::groups::{groups, read as read_number};
use crate::payload::GadArea;

/// "Writing checks ROOM (227 bytes), STATE." Request 5: "229 bytes of room".
pub const KEPT_BYTES: usize = 229;

/// Without a SIOU.
pub const FORM_1: u64 = 1;
/// "2, AIOU + 1, SIOU + 1, count, areas"
pub const FORM_2: u64 = 2;

/// The numbers of a sound book and its areas in a form. (Form 1 says nothing of the SIOU.)
pub fn numbers(form: u64, book: &Book, held: &[GadArea]) -> Vec<u64> {
    let mut all = vec![form, plus_one(book.aiou)];
    if form == FORM_2 {
        all.push(plus_one(book.siou));
    }
    all.push(book.count);
    all.extend(held.iter().map(area_number));
    all
}

/// "AIOU + 1", "SIOU + 1", 0 for none.
fn plus_one(number: Option<u64>) -> u64 {
    number.map_or(0, |number| number.saturating_add(1))
}

/// Writes a book, "always" in form 2; hands back the bytes written.
pub fn write(book: &Book, bytes: &[u8], out: &mut [u8]) -> Result<usize, Refusal> {
    stop(out.len() < KEPT_BYTES || bytes.len() < BOOK_BYTES, Refusal::Room)?;
    let held = areas(book, bytes).ok_or(Refusal::State)?;
    let kept: Vec<u8> = numbers(FORM_2, book, &held).into_iter().flat_map(groups).collect();
    // three numbers of one byte, one of at most two, and at most 32 of at most seven: 229
    out[..kept.len()].copy_from_slice(&kept);
    Ok(kept.len())
}

/// The book of kept bytes: "the first fault in reading order, SHORT or FORM (a number not in
/// shortest form, or one after which no sound book can follow), then LEFTOVER".
pub fn parse(kept: &[u8]) -> Result<(Book, Vec<GadArea>), Refusal> {
    let mut rest = kept;
    let mut next = || {
        let (number, used) = read_number(rest)?;
        rest = &rest[used..];
        Ok::<u64, Refusal>(number)
    };
    let form = next()?;
    stop(form != FORM_1 && form != FORM_2, Refusal::Form)?;
    let aiou_plus_one = next()?;
    stop(aiou_plus_one > TOP_AIOU + 1, Refusal::Form)?;
    // request 5: "Form 1 is still read, its SIOU unknown"
    let mut siou_plus_one = 0;
    if form == FORM_2 {
        siou_plus_one = next()?;
        // "the SIOU is 0 to 511 or unknown, and unknown where there is no AIOU": "SIOU + 1 up to
        // 512; with AIOU + 1 of 0 it is 0, else FORM there"
        stop(siou_plus_one > TOP_SIOU + 1, Refusal::Form)?;
        stop(aiou_plus_one == 0 && siou_plus_one != 0, Refusal::Form)?;
    }
    let count = next()?;
    // "A book has an AIOU exactly when it has an area, at most 32"
    stop((count == 0) != (aiou_plus_one == 0) || count > MOST_AREAS, Refusal::Form)?;
    let mut held: Vec<GadArea> = Vec::new();
    for i in 0..count {
        let area = area_of(next()?).ok_or(Refusal::Form)?;
        stop(off(&area), Refusal::Form)?;
        stop(held.last().is_some_and(|before| before.id >= area.id), Refusal::Form)?;
        // the areas still to come need IDs above this one
        let to_come = count - 1 - i;
        stop(area.id + to_come > 255, Refusal::Form)?;
        held.push(area);
    }
    stop(!rest.is_empty(), Refusal::Leftover)?;
    let (aiou, siou) = (aiou_plus_one.checked_sub(1), siou_plus_one.checked_sub(1));
    Ok((Book { aiou, siou, count }, held))
}

/// "Reading checks ROOM", still that of the book, then as `parse`. Hands back AIOU, SIOU and count,
/// and writes six bytes an area.
pub fn read(kept: &[u8], bytes: &mut [u8]) -> Result<Book, Refusal> {
    stop(bytes.len() < BOOK_BYTES, Refusal::Room)?;
    let (book, held) = parse(kept)?;
    put(&held, bytes);
    Ok(book)
}

#[cfg(test)]
mod tests {
    use super::*;

    fn area(id: u64) -> GadArea {
        GadArea {
            id,
            latitude: 1800,
            longitude: 0,
            latitude_count: 7,
            longitude_count: 7,
            latitude_spacing: 31,
            longitude_spacing: 31,
        }
    }

    fn kept(numbers: &[u64]) -> Vec<u8> {
        numbers.iter().flat_map(|&n| groups(n)).collect()
    }

    fn answer(bytes: &[u8]) -> Result<Book, Refusal> {
        let mut book = [0xA5; 193];
        let result = read(bytes, &mut book);
        let upto = 6 * result.map_or(0, |b| b.count as usize);
        assert!(book[upto..].iter().all(|&byte| byte == 0xA5));
        result
    }

    #[test]
    fn the_empty_book() {
        let mut out = [0xA5; KEPT_BYTES];
        assert_eq!(write(&Book::default(), &[0; BOOK_BYTES], &mut out), Ok(4));
        assert_eq!(out[..5], [2, 0, 0, 0, 0xA5]);
        assert_eq!(answer(&out[..4]), Ok(Book::default()));
        assert_eq!(answer(&out[..3]), Err(Refusal::Short));
        assert_eq!(answer(&out[..5]), Err(Refusal::Leftover));
        assert_eq!(read(&[], &mut [0; 191]), Err(Refusal::Room));
        assert_eq!(read(&[], &mut [0; 192]), Err(Refusal::Short));
        // and in form 1
        assert_eq!(answer(&[1, 0, 0]), Ok(Book::default()));
        assert_eq!(answer(&[1, 0]), Err(Refusal::Short));
        assert_eq!(answer(&[1, 0, 0, 0]), Err(Refusal::Leftover));
    }

    #[test]
    fn a_full_book_takes_229_bytes_and_comes_back() {
        let held: Vec<_> = (224..256).map(area).collect();
        let book = Book { aiou: Some(15), siou: Some(511), count: 32 };
        let mut bytes = [0u8; BOOK_BYTES];
        put(&held, &mut bytes);
        let mut out = [0u8; KEPT_BYTES];
        assert_eq!(write(&book, &bytes, &mut out[..228]), Err(Refusal::Room));
        assert_eq!(write(&book, &bytes[..191], &mut out), Err(Refusal::Room));
        // ROOM before STATE, however small the book is
        let unsound = Book { count: 31, aiou: None, siou: None };
        assert_eq!(write(&unsound, &bytes, &mut out[..228]), Err(Refusal::Room));
        assert_eq!(write(&unsound, &bytes, &mut out), Err(Refusal::State));
        for siou in [512, u64::MAX] {
            let unsound = Book { siou: Some(siou), ..book };
            assert_eq!(write(&unsound, &bytes, &mut out), Err(Refusal::State));
        }
        let unsound = Book { siou: Some(0), ..Book::default() };
        assert_eq!(write(&unsound, &bytes, &mut out), Err(Refusal::State));
        assert_eq!(write(&Book::default(), &bytes, &mut out[..228]), Err(Refusal::Room));
        assert_eq!(write(&book, &bytes, &mut out), Ok(KEPT_BYTES));
        let mut back = [0u8; BOOK_BYTES];
        assert_eq!(read(&out, &mut back), Ok(book));
        assert_eq!(back, bytes);
        for end in 0..KEPT_BYTES {
            assert_eq!(answer(&out[..end]), Err(Refusal::Short));
        }
        // the same in form 1: the SIOU is unknown, and is kept as such
        let old = Book { siou: None, ..book };
        let form_1 = kept(&numbers(FORM_1, &book, &held));
        assert_eq!((form_1[0], form_1.len()), (1, 227));
        assert_eq!(answer(&form_1), Ok(old));
        for end in 0..form_1.len() {
            assert_eq!(answer(&form_1[..end]), Err(Refusal::Short));
        }
        assert_eq!(write(&old, &bytes, &mut out), Ok(228));
        assert_eq!(out[..4], [2, 16, 0, 32]);
        assert_eq!(out[4..228], form_1[3..]);
        assert_eq!(answer(&out[..228]), Ok(old));
    }

    #[test]
    fn form_comes_as_soon_as_no_sound_book_can_follow() {
        for number in [0, 3, 4, 128, 257, u64::MAX] {
            assert_eq!(answer(&kept(&[number])), Err(Refusal::Form));
        }
        for begun in [&[FORM_1][..], &[FORM_2], &[1, 16], &[2, 16], &[2, 16, 512], &[2, 0, 0]] {
            assert_eq!(answer(&kept(begun)), Err(Refusal::Short));
        }
        for form in [FORM_1, FORM_2] {
            for number in [17, 18, 128, u64::MAX] {
                assert_eq!(answer(&kept(&[form, number])), Err(Refusal::Form));
            }
        }
        // SIOU + 1, up to 512 with an AIOU, 0 without
        for (aiou, siou, expected) in [
            (1, 0, Refusal::Short),
            (1, 1, Refusal::Short),
            (16, 511, Refusal::Short),
            (16, 512, Refusal::Short),
            (16, 513, Refusal::Form),
            (1, 514, Refusal::Form),
            (1, 512 + (1 << 32), Refusal::Form),
            (1, u64::MAX, Refusal::Form),
            (0, 0, Refusal::Short),
            (0, 1, Refusal::Form),
            (0, 512, Refusal::Form),
            (0, 513, Refusal::Form),
        ] {
            assert_eq!(answer(&kept(&[2, aiou, siou])), Err(expected), "{aiou} {siou}");
            // whatever comes behind it; 0 areas are no book of an AIOU
            let all = answer(&kept(&[2, aiou, siou, 0]));
            let empty = (aiou, siou) == (0, 0);
            assert_eq!(all, if empty { Ok(Book::default()) } else { Err(Refusal::Form) });
        }
        // in form 1 the third number is the count
        assert_eq!(answer(&kept(&[1, 1, 512])), Err(Refusal::Form));
        for begun in [&[1, 1][..], &[2, 1, 0], &[2, 1, 512]] {
            let with = |numbers: &[u64]| answer(&kept(&[begun, numbers].concat()));
            assert_eq!(with(&[0]), Err(Refusal::Form));
            assert_eq!(with(&[33]), Err(Refusal::Form));
            // area 0 of 2 may not be 255
            assert_eq!(with(&[2, area_number(&area(255))]), Err(Refusal::Form));
            assert_eq!(with(&[2, area_number(&area(254))]), Err(Refusal::Short));
            assert_eq!(with(&[32, area_number(&area(225))]), Err(Refusal::Form));
            let same = area_number(&area(7));
            assert_eq!(with(&[2, same, same]), Err(Refusal::Form));
            assert_eq!(with(&[1, 1 << 47]), Err(Refusal::Form));
            let off = GadArea { latitude: 223, ..area(7) };
            assert_eq!(with(&[1, area_number(&off)]), Err(Refusal::Form));
        }
        assert_eq!(answer(&kept(&[1, 0, 1])), Err(Refusal::Form));
        assert_eq!(answer(&kept(&[2, 0, 0, 1])), Err(Refusal::Form));
        // not in shortest form
        assert_eq!(answer(&[0x81, 0x00, 0, 0]), Err(Refusal::Form));
        assert_eq!(answer(&[0x82, 0x00, 0, 0, 0]), Err(Refusal::Form));
        assert_eq!(answer(&[2, 1, 0x81, 0x00]), Err(Refusal::Form));
        assert_eq!(answer(&[2, 1, 0x80, 0x84, 0x00]), Err(Refusal::Form));
        // one that does not end is SHORT, whatever its groups
        assert_eq!(answer(&[0x81, 0x80]), Err(Refusal::Short));
        assert_eq!(answer(&[2, 0, 0xFF, 0xFF, 0xFF]), Err(Refusal::Short));
    }
}
