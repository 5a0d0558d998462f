//! The layouts of the twelve payloads, walked once for readers, writers and judges alike: a walk
//! takes the codes in reading order, from a payload or from a sheet, and hands each on. A fault is
//! an answer: number + 2^8 * SF number + 2^32 * place.

pub const UNKNOWN_TYPE: u64 = 6;
pub const MASK_EMPTY: u64 = 7;
pub const FIELD: u64 = 8;
pub const LEFTOVER: u64 = 16;

pub type Walked<T> = Result<T, u64>;

pub fn fault(number: u64, sf: u32, place: usize) -> u64 {
    number | (sf as u64) << 8 | (place as u64) << 32
}

pub trait Walk {
    /// A code of so many bits up to a limit: SHORT, FIELD.
    fn code(&mut self, sf: u32, width: u32, most: u64) -> Walked<u64>;

    /// So many codes that take their full width.
    fn many(&mut self, sf: u32, width: u32, count: u64) -> Walked<()>;

    /// A refusal at the entry that was taken last, of so many bits.
    fn last(&self, number: u64, sf: u32, width: u32) -> u64;
}

#[inline(always)]
pub fn full<W: Walk>(w: &mut W, sf: u32, width: u32) -> Walked<u64> {
    w.code(sf, width, !0 >> (64 - width))
}

#[inline(always)]
pub fn steps<W: Walk>(w: &mut W, sf: u32, width: u32) -> Walked<u64> {
    w.code(sf, width, (1 << width) - 2)
}

/// What goes by the constellation: the satellite mask, the ephemeris type and its issue, the bias
/// masks; each with its SF number, then its widths; the type also with its highest code.
pub struct Constellation {
    mask: (u32, [u32; 4]),
    ephemeris: (u32, u32, u64),
    iode: (u32, u32),
    phases: u32,
    codes: u32,
    biases: [u32; 2],
}

#[rustfmt::skip]
pub static CONSTELLATIONS: [Constellation; 5] = [
    Constellation { mask: (11, [32, 44, 56, 64]), ephemeris: (16, 2, 0), iode: (18, 8),
        phases: 25, codes: 27, biases: [6, 11] },
    Constellation { mask: (12, [24, 36, 48, 63]), ephemeris: (17, 2, 0), iode: (19, 7),
        phases: 26, codes: 28, biases: [5, 9] },
    Constellation { mask: (93, [36, 45, 54, 64]), ephemeris: (96, 3, 2), iode: (99, 10),
        phases: 102, codes: 105, biases: [8, 15] },
    Constellation { mask: (94, [37, 46, 55, 64]), ephemeris: (97, 4, 5), iode: (100, 8),
        phases: 103, codes: 106, biases: [8, 15] },
    Constellation { mask: (95, [10, 40, 48, 64]), ephemeris: (98, 3, 2), iode: (101, 8),
        phases: 104, codes: 107, biases: [6, 11] },
];

/// A satellite mask that has a satellite, its first position at the top of the number.
#[inline]
pub fn mask<W: Walk>(w: &mut W, c: &Constellation) -> Walked<u64> {
    let (sf, widths) = c.mask;
    let size = full(w, sf, 2)?;
    let width = widths[(size & 3) as usize];
    let mask = full(w, sf, width)?;
    if mask == 0 {
        return Err(w.last(MASK_EMPTY, sf, width));
    }
    Ok(mask << (64 - width))
}

/// Constant, linear and product, each SF number and width.
#[inline]
pub fn polynomial<W: Walk>(w: &mut W, equation: u64, fields: [(u32, u32); 3]) -> Walked<()> {
    let [(a, constant), (b, linear), (c, product)] = fields;
    steps(w, a, constant)?;
    if equation >= 1 {
        steps(w, b, linear)?;
        steps(w, b, linear)?;
    }
    if equation >= 2 {
        steps(w, c, product)?;
    }
    Ok(())
}

/// Tables 6.17 and 6.18 behind their size, SF044; the equation is taken before.
#[inline]
pub fn troposphere<W: Walk>(w: &mut W) -> Walked<()> {
    let equation = w.code(41, 3, 2)?;
    full(w, 42, 3)?;
    steps(w, 43, 8)?;
    if full(w, 44, 1)? == 0 {
        polynomial(w, equation, [(45, 7), (46, 7), (47, 9)])
    } else {
        polynomial(w, equation, [(48, 9), (49, 9), (50, 11)])
    }
}

/// Tables 6.20 to 6.22 without the grid.
#[inline]
pub fn slant<W: Walk>(w: &mut W, equation: u64) -> Walked<()> {
    full(w, 55, 4)?;
    if full(w, 56, 1)? == 0 {
        polynomial(w, equation, [(57, 12), (58, 12), (59, 13)])
    } else {
        polynomial(w, equation, [(60, 14), (61, 14), (62, 15)])
    }
}

pub const TROPOSPHERE: [(u32, u32); 2] = [(52, 6), (53, 8)];
pub const IONOSPHERE: [(u32, u32); 4] = [(64, 4), (65, 7), (66, 10), (67, 14)];

fn hpac_area<W: Walk>(w: &mut W, c: &Constellation) -> Walked<()> {
    full(w, 31, 8)?;
    let points = full(w, 39, 7)?;
    let blocks = (w.code(40, 2, 2)?, w.code(40, 2, 2)?);
    if blocks.0 >= 1 {
        troposphere(w)?;
        if blocks.0 == 2 {
            let (sf, width) = TROPOSPHERE[(full(w, 51, 1)? & 1) as usize];
            w.many(sf, width, points)?;
        }
    }
    if blocks.1 >= 1 {
        let equation = w.code(54, 3, 2)?;
        for _ in 0..mask(w, c)?.count_ones() {
            slant(w, equation)?;
            if blocks.1 == 2 {
                let (sf, width) = IONOSPHERE[(full(w, 63, 2)? & 3) as usize];
                w.many(sf, width, points)?;
            }
        }
    }
    Ok(())
}

/// Tables 6.13 to 6.22.
fn hpac<W: Walk>(w: &mut W, c: &Constellation) -> Walked<()> {
    full(w, 5, 9)?;
    full(w, 68, 4)?;
    full(w, 69, 1)?;
    for _ in 0..=full(w, 30, 5)? {
        hpac_area(w, c)?;
    }
    Ok(())
}

/// Tables 6.7 to 6.12.
#[inline]
fn bias<W: Walk>(w: &mut W, c: &Constellation) -> Walked<()> {
    let size = full(w, c.phases, 1)?;
    let phases = full(w, c.phases, c.biases[(size & 1) as usize])?;
    for _ in 0..phases.count_ones() {
        full(w, 23, 1)?;
        full(w, 15, 3)?;
        steps(w, 20, 14)?;
    }
    let size = full(w, c.codes, 1)?;
    let codes = full(w, c.codes, c.biases[(size & 1) as usize])?;
    for _ in 0..codes.count_ones() {
        steps(w, 29, 11)?;
    }
    Ok(())
}

/// Table 6.4 of a satellite in use.
fn blocks<W: Walk>(w: &mut W, c: &Constellation, yaw: bool) -> Walked<()> {
    let present = full(w, 14, 3)?;
    full(w, 15, 3)?;
    if present & 4 != 0 {
        full(w, c.iode.0, c.iode.1)?;
        steps(w, 20, 14)?;
        steps(w, 20, 14)?;
        steps(w, 20, 14)?;
        if yaw {
            let angle = full(w, 21, 6)?;
            if angle > 59 && angle != 63 {
                return Err(w.last(FIELD, 21, 6));
            }
        }
    }
    if present & 2 != 0 {
        full(w, 22, 3)?;
        steps(w, 20, 14)?;
        full(w, 24, 3)?;
    }
    if present & 1 != 0 {
        bias(w, c)?;
    }
    Ok(())
}

/// Tables 6.3 to 6.12.
fn ocb<W: Walk>(w: &mut W, c: &Constellation) -> Walked<()> {
    full(w, 5, 9)?;
    full(w, 10, 1)?;
    full(w, 69, 1)?;
    let yaw = full(w, 8, 1)? == 1;
    full(w, 9, 1)?;
    let (sf, width, most) = c.ephemeris;
    w.code(sf, width, most)?;
    for _ in 0..mask(w, c)?.count_ones() {
        if full(w, 13, 1)? == 0 {
            blocks(w, c, yaw)?;
        }
    }
    Ok(())
}

/// Tables 6.23 and 6.24.
fn gad<W: Walk>(w: &mut W) -> Walked<()> {
    full(w, 5, 9)?;
    full(w, 68, 4)?;
    full(w, 69, 1)?;
    for _ in 0..=full(w, 30, 5)? {
        full(w, 31, 8)?;
        w.code(32, 11, 1800)?;
        w.code(33, 12, 3600)?;
        full(w, 34, 3)?;
        full(w, 35, 3)?;
        full(w, 36, 5)?;
        full(w, 37, 5)?;
    }
    Ok(())
}

fn bpac_area<W: Walk>(w: &mut W) -> Walked<()> {
    full(w, 72, 2)?;
    w.code(73, 8, 170)?;
    w.code(74, 9, 360)?;
    let nodes = (full(w, 75, 4)? + 1) * (full(w, 76, 4)? + 1);
    full(w, 77, 2)?;
    full(w, 78, 2)?;
    steps(w, 80, 12)?;
    let mut left = nodes;
    let mut set = 0;
    while left > 0 {
        let width = left.min(64);
        set += full(w, 79, width as u32)?.count_ones();
        left -= width;
    }
    for _ in 0..set {
        full(w, 55, 4)?;
        if full(w, 81, 1)? == 0 {
            full(w, 82, 7)?;
        } else {
            full(w, 83, 11)?;
        }
    }
    Ok(())
}

/// Tables 6.25 to 6.28.
fn bpac<W: Walk>(w: &mut W) -> Walked<()> {
    full(w, 5, 9)?;
    full(w, 69, 1)?;
    full(w, 70, 2)?;
    for _ in 0..=full(w, 71, 2)? {
        bpac_area(w)?;
    }
    Ok(())
}

pub fn is_known(kind: u8, subtype: u8) -> bool {
    match kind {
        0 | 1 => subtype < 5,
        2 | 3 => subtype == 0,
        _ => false,
    }
}

/// A payload of a known type.
pub fn walk<W: Walk>(kind: u8, subtype: u8, w: &mut W) -> Walked<()> {
    let c = &CONSTELLATIONS[subtype as usize];
    match kind {
        0 => ocb(w, c),
        1 => hpac(w, c),
        2 => gad(w),
        _ => bpac(w),
    }
}
