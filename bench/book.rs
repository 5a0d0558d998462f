//! Books in Rust: six bytes an area, the 47 bits of its GAD block and a zero bit.
use crate::payload::{window, Judge};
use crate::walk::{full, Walk, Walked};

pub const BOOK: usize = 192;
pub const AREA_OFF: u64 = 13;
pub const CONFLICT: u64 = 14;
pub const BOOK_FULL: u64 = 15;

/// AIOU, SIOU + 1 (0 if it is unknown) and count of areas.
#[derive(Clone, Copy)]
pub struct Book {
    pub aiou: u64,
    pub siou_plus_one: u64,
    pub count: usize,
}

pub fn nodes(area: u64) -> u64 {
    ((area >> 13 & 7) + 1) * ((area >> 10 & 7) + 1)
}

fn is_off(area: u64) -> bool {
    (area >> 28 & 0x7FF) < (area >> 13 & 7) * ((area >> 5 & 31) + 1)
}

fn in_range(area: u64) -> bool {
    area >> 28 & 0x7FF <= 1800 && area >> 16 & 0xFFF <= 3600
}

fn area_of(six: &[u8; 6]) -> u64 {
    u64::from_be_bytes([0, 0, six[0], six[1], six[2], six[3], six[4], six[5]]) >> 1
}

fn sixes(bytes: &[u8]) -> &[[u8; 6]] {
    bytes[..BOOK].as_chunks::<6>().0
}

/// A book of these three numbers is sound. All areas are looked at, with no way out on the way.
pub fn is_sound(numbers: &[u64], bytes: &[u8]) -> bool {
    let (aiou, siou_plus_one, count) = (numbers[0], numbers[1], numbers[2]);
    if count > 32 || count > 0 && (aiou > 15 || siou_plus_one > 512) {
        return false;
    }
    // what must not fall below zero is joined, and looked at once by its sign
    let (mut joined, mut odd, mut least) = (0, 0, 0);
    for six in &sixes(bytes)[..count as usize] {
        let area = area_of(six);
        let (id, latitude, longitude) = (area >> 39, area >> 28 & 0x7FF, area >> 16 & 0xFFF);
        let south = (area >> 13 & 7) * ((area >> 5 & 31) + 1);
        joined |= 1800u64.wrapping_sub(latitude) | 3600u64.wrapping_sub(longitude);
        joined |= latitude.wrapping_sub(south) | id.wrapping_sub(least);
        odd |= six[5] & 1;
        least = id + 1;
    }
    joined as i64 >= 0 && odd == 0
}

impl Book {
    pub const EMPTY: Book = Book { aiou: 0, siou_plus_one: 0, count: 0 };

    /// The book that three numbers of a desk say.
    pub fn of(numbers: &[u64]) -> Book {
        Book { aiou: numbers[0], siou_plus_one: numbers[1], count: numbers[2] as usize }
    }

    pub fn numbers(self) -> [u64; 3] {
        [self.aiou, self.siou_plus_one, self.count as u64]
    }

    pub fn find(self, bytes: &[u8], id: u8) -> Option<u64> {
        sixes(bytes)[..self.count].iter().find(|six| six[0] == id).map(area_of)
    }
}

/// AIOU, SIOU and count of blocks of a GAD or an HPAC message.
pub fn head(j: &mut Judge) -> Walked<(u64, u64, usize)> {
    let siou = full(j, 5, 9)?;
    let aiou = full(j, 68, 4)?;
    full(j, 69, 1)?;
    Ok((aiou, siou, full(j, 30, 5)? as usize + 1))
}

/// A block of a GAD, in one piece; field by field where something is wrong with it.
#[inline]
pub fn block(j: &mut Judge) -> Walked<u64> {
    let area = window(j.payload, j.pos) >> 17;
    if j.pos + 47 <= 8 * j.payload.len() && in_range(area) {
        j.pos += 47;
        return Ok(area);
    }
    full(j, 31, 8)?;
    j.code(32, 11, 1800)?;
    j.code(33, 12, 3600)?;
    full(j, 34, 3)?;
    full(j, 35, 3)?;
    full(j, 36, 5)?;
    full(j, 37, 5)?;
    Ok(area)
}

/// Adds a block to areas that ascend by ID: AREA_OFF, CONFLICT, BOOK_FULL.
pub fn add(areas: &mut [u64; 32], count: &mut usize, block: u64) -> Walked<()> {
    if is_off(block) {
        return Err(AREA_OFF);
    }
    match areas[..*count].binary_search_by_key(&(block >> 39), |&area| area >> 39) {
        Ok(at) if areas[at] == block => Ok(()),
        Ok(_) => Err(CONFLICT),
        Err(_) if *count == areas.len() => Err(BOOK_FULL),
        Err(at) => {
            areas.copy_within(at..*count, at + 1);
            areas[at] = block;
            *count += 1;
            Ok(())
        }
    }
}

/// The same in the book's bytes.
pub fn add_in_place(bytes: &mut [u8], count: &mut usize, block: u64) -> Walked<()> {
    if is_off(block) {
        return Err(AREA_OFF);
    }
    let held = &sixes(bytes)[..*count];
    match held.binary_search_by_key(&((block >> 39) as u8), |six| six[0]) {
        Ok(at) if area_of(&held[at]) == block => Ok(()),
        Ok(_) => Err(CONFLICT),
        Err(_) if *count == 32 => Err(BOOK_FULL),
        Err(at) => {
            bytes.copy_within(6 * at..6 * *count, 6 * at + 6);
            bytes[6 * at..6 * at + 6].copy_from_slice(&(block << 1).to_be_bytes()[2..]);
            *count += 1;
            Ok(())
        }
    }
}

pub fn areas(bytes: &[u8], count: usize) -> [u64; 32] {
    let mut areas = [0; 32];
    areas.iter_mut().zip(&sixes(bytes)[..count]).for_each(|(area, six)| *area = area_of(six));
    areas
}

pub fn put_all(areas: &[u64], bytes: &mut [u8]) {
    for (six, area) in bytes.as_chunks_mut::<6>().0.iter_mut().zip(areas) {
        six.copy_from_slice(&(area << 1).to_be_bytes()[2..]);
    }
}
