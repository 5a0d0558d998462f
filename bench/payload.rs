//! Payloads and sheets in Rust: judged, read and written. The careful side judges a whole message
//! before it stores anything; the hurried side stores as it goes.
use crate::frame::{LENGTH, ROOM, SHORT};
use crate::walk::{fault, is_known, walk, Walk, Walked, FIELD, LEFTOVER, UNKNOWN_TYPE};

pub const ENTRIES: usize = 8184;
pub const BYTES: usize = 1023;

/// 64 bits of a payload from a bit on, zeros behind its end; the low seven may be missing.
#[inline(always)]
pub fn window(payload: &[u8], pos: usize) -> u64 {
    let at = pos / 8;
    let word = match payload.get(at..at + 8) {
        Some(bytes) => u64::from_be_bytes(bytes.try_into().unwrap()),
        None => near_the_end(payload, at),
    };
    word << (pos % 8)
}

#[cold]
fn near_the_end(payload: &[u8], at: usize) -> u64 {
    let mut bytes = [0; 8];
    let rest = payload.get(at..).unwrap_or(&[]);
    bytes[..rest.len()].copy_from_slice(rest);
    u64::from_be_bytes(bytes)
}

/// So many bits, 1 to 64, that are there.
#[inline(always)]
pub fn bits(payload: &[u8], pos: usize, width: u32) -> u64 {
    if width <= 57 {
        return window(payload, pos) >> (64 - width);
    }
    let high = window(payload, pos) >> 32;
    let low = window(payload, pos + 32) >> (96 - width);
    high << (width - 32) | low
}

/// Judges a payload.
pub struct Judge<'a> {
    pub payload: &'a [u8],
    pub pos: usize,
    pub entries: usize,
}

impl<'a> Judge<'a> {
    pub fn of(payload: &'a [u8]) -> Judge<'a> {
        Judge { payload, pos: 0, entries: 0 }
    }
}

impl Walk for Judge<'_> {
    #[inline(always)]
    fn code(&mut self, sf: u32, width: u32, most: u64) -> Walked<u64> {
        if self.pos + width as usize > 8 * self.payload.len() {
            return Err(fault(SHORT as u64, sf, self.pos));
        }
        let code = bits(self.payload, self.pos, width);
        if code > most {
            return Err(fault(FIELD, sf, self.pos));
        }
        self.pos += width as usize;
        self.entries += 1;
        Ok(code)
    }

    /// Every code is taken, so none is looked at.
    #[inline(always)]
    fn many(&mut self, sf: u32, width: u32, count: u64) -> Walked<()> {
        let left = 8 * self.payload.len() - self.pos;
        if count as usize * width as usize > left {
            let fit = left / width as usize;
            return Err(fault(SHORT as u64, sf, self.pos + fit * width as usize));
        }
        self.pos += count as usize * width as usize;
        self.entries += count as usize;
        Ok(())
    }

    fn last(&self, number: u64, sf: u32, width: u32) -> u64 {
        fault(number, sf, self.pos - width as usize)
    }
}

/// Judges a payload and stores each code.
struct Reader<'a> {
    judge: Judge<'a>,
    sheet: &'a mut [u64],
}

impl Walk for Reader<'_> {
    #[inline(always)]
    fn code(&mut self, sf: u32, width: u32, most: u64) -> Walked<u64> {
        let at = self.judge.entries;
        let code = self.judge.code(sf, width, most)?;
        self.sheet[at] = code;
        Ok(code)
    }

    /// As many codes as one window has are taken from it.
    #[inline(always)]
    fn many(&mut self, sf: u32, width: u32, count: u64) -> Walked<()> {
        let (mut pos, at) = (self.judge.pos, self.judge.entries);
        self.judge.many(sf, width, count)?;
        let each = 57 / width as usize;
        for part in self.sheet[at..at + count as usize].chunks_mut(each) {
            let mut word = window(self.judge.payload, pos);
            for entry in part.iter_mut() {
                *entry = word >> (64 - width);
                word <<= width;
            }
            pos += part.len() * width as usize;
        }
        Ok(())
    }

    fn last(&self, number: u64, sf: u32, width: u32) -> u64 {
        self.judge.last(number, sf, width)
    }
}

fn refused_early(kind: u8, subtype: u8, payload: &[u8]) -> u64 {
    if !is_known(kind, subtype) {
        return UNKNOWN_TYPE;
    }
    if payload.is_empty() || payload.len() > BYTES {
        LENGTH as u64
    } else {
        0
    }
}

/// homralgyu_payload_judge.
#[inline(never)]
pub fn payload_judge(kind: u8, subtype: u8, payload: &[u8], counts: &mut [u64]) -> u64 {
    if counts.len() < 2 {
        return ROOM as u64;
    }
    let early = refused_early(kind, subtype, payload);
    if early != 0 {
        return early;
    }
    let mut judge = Judge::of(payload);
    match walk(kind, subtype, &mut judge) {
        Err(why) => why,
        Ok(()) => {
            counts[..2].copy_from_slice(&[judge.pos as u64, judge.entries as u64]);
            0
        }
    }
}

/// homralgyu_payload_read.
#[inline(never)]
pub fn payload_read<const HURRIED: bool>(
    kind: u8,
    subtype: u8,
    payload: &[u8],
    sheet: &mut [u64],
    counts: &mut [u64],
) -> u64 {
    if counts.len() < 2 || sheet.len() < ENTRIES {
        return ROOM as u64;
    }
    let early = refused_early(kind, subtype, payload);
    if early != 0 {
        return early;
    }
    if !HURRIED {
        if let Err(why) = walk(kind, subtype, &mut Judge::of(payload)) {
            return why;
        }
    }
    let mut reader = Reader { judge: Judge::of(payload), sheet: &mut sheet[..ENTRIES] };
    match walk(kind, subtype, &mut reader) {
        Err(why) => why,
        Ok(()) => {
            let Judge { pos, entries, .. } = reader.judge;
            counts[..2].copy_from_slice(&[pos as u64, entries as u64]);
            0
        }
    }
}

/// Judges a sheet.
struct SheetJudge<'a> {
    sheet: &'a [u64],
    at: usize,
    bits: usize,
}

impl Walk for SheetJudge<'_> {
    #[inline(always)]
    fn code(&mut self, sf: u32, width: u32, most: u64) -> Walked<u64> {
        let Some(&code) = self.sheet.get(self.at) else {
            return Err(fault(SHORT as u64, sf, self.at));
        };
        if code > most {
            return Err(fault(FIELD, sf, self.at));
        }
        self.at += 1;
        self.bits += width as usize;
        Ok(code)
    }

    /// The codes are joined, so that many are looked at together.
    #[inline(always)]
    fn many(&mut self, sf: u32, width: u32, count: u64) -> Walked<()> {
        let rest = &self.sheet[self.at..];
        let part = &rest[..rest.len().min(count as usize)];
        if part.iter().fold(0, |joined, &code| joined | code) >> width != 0 {
            let first = part.iter().position(|&code| code >> width != 0).unwrap_or(0);
            return Err(fault(FIELD, sf, self.at + first));
        }
        if part.len() < count as usize {
            return Err(fault(SHORT as u64, sf, self.sheet.len()));
        }
        self.at += count as usize;
        self.bits += count as usize * width as usize;
        Ok(())
    }

    fn last(&self, number: u64, sf: u32, _: u32) -> u64 {
        fault(number, sf, self.at - 1)
    }
}

/// Judges a sheet and writes each code. Fewer than 32 bits wait to be written.
struct Writer<'a> {
    judge: SheetJudge<'a>,
    out: &'a mut [u8],
    at: usize,
    waiting: u64,
    count: u32,
}

impl Writer<'_> {
    /// Up to 32 bits. Bytes that there is no room for are dropped; the caller refuses then.
    #[inline(always)]
    fn put(&mut self, width: u32, code: u64) {
        self.waiting = self.waiting << width | code;
        self.count += width;
        if self.count >= 32 {
            self.count -= 32;
            let four = ((self.waiting >> self.count) as u32).to_be_bytes();
            match self.out.get_mut(self.at..self.at + 4) {
                Some(out) => out.copy_from_slice(&four),
                None => self.near_the_end(&four),
            }
            self.at += 4;
        }
    }

    #[cold]
    fn near_the_end(&mut self, bytes: &[u8]) {
        let rest = self.out.get_mut(self.at..).unwrap_or(&mut []);
        rest.iter_mut().zip(bytes).for_each(|(out, &byte)| *out = byte);
    }

    fn finish(&mut self) {
        let last = ((self.waiting << (32 - self.count)) as u32).to_be_bytes();
        self.near_the_end(&last[..(self.count as usize).div_ceil(8)]);
    }
}

impl Walk for Writer<'_> {
    #[inline(always)]
    fn code(&mut self, sf: u32, width: u32, most: u64) -> Walked<u64> {
        let code = self.judge.code(sf, width, most)?;
        if width > 32 {
            self.put(width - 32, code >> 32);
            self.put(32, code & 0xFFFF_FFFF);
        } else {
            self.put(width, code);
        }
        Ok(code)
    }

    #[inline(always)]
    fn many(&mut self, sf: u32, width: u32, count: u64) -> Walked<()> {
        let at = self.judge.at;
        self.judge.many(sf, width, count)?;
        let sheet = self.judge.sheet;
        sheet[at..at + count as usize].iter().for_each(|&code| self.put(width, code));
        Ok(())
    }

    fn last(&self, number: u64, sf: u32, width: u32) -> u64 {
        self.judge.last(number, sf, width)
    }
}

/// The bits of a sheet's payload: the first fault, LEFTOVER, LENGTH.
fn judged(kind: u8, subtype: u8, sheet: &[u64]) -> Walked<usize> {
    let mut judge = SheetJudge { sheet, at: 0, bits: 0 };
    walk(kind, subtype, &mut judge)?;
    end(&judge)
}

fn end(judge: &SheetJudge) -> Walked<usize> {
    if judge.at < judge.sheet.len() {
        return Err(LEFTOVER);
    }
    if judge.bits > 8 * BYTES {
        Err(LENGTH as u64)
    } else {
        Ok(judge.bits)
    }
}

/// homralgyu_sheet_judge.
#[inline(never)]
pub fn sheet_judge(kind: u8, subtype: u8, sheet: &[u64], counts: &mut [u64]) -> u64 {
    if counts.len() < 2 {
        return ROOM as u64;
    }
    if !is_known(kind, subtype) {
        return UNKNOWN_TYPE;
    }
    match judged(kind, subtype, sheet) {
        Err(why) => why,
        Ok(bits) => {
            counts[..2].copy_from_slice(&[bits as u64, bits.div_ceil(8) as u64]);
            0
        }
    }
}

/// homralgyu_sheet_write.
#[inline(never)]
pub fn sheet_write<const HURRIED: bool>(
    kind: u8,
    subtype: u8,
    sheet: &[u64],
    out: &mut [u8],
    counts: &mut [u64],
) -> u64 {
    if counts.len() < 2 || out.len() < BYTES {
        return ROOM as u64;
    }
    if !is_known(kind, subtype) {
        return UNKNOWN_TYPE;
    }
    if !HURRIED {
        if let Err(why) = judged(kind, subtype, sheet) {
            return why;
        }
    }
    let judge = SheetJudge { sheet, at: 0, bits: 0 };
    let mut writer = Writer { judge, out: &mut out[..BYTES], at: 0, waiting: 0, count: 0 };
    match walk(kind, subtype, &mut writer).and_then(|()| end(&writer.judge)) {
        Err(why) => why,
        Ok(bits) => {
            writer.finish();
            counts[..2].copy_from_slice(&[bits as u64, bits.div_ceil(8) as u64]);
            0
        }
    }
}
