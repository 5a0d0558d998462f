//! Document 01, "The sheet: a lent slice of u64, one code per field in reading order", with document 02,
//! request 2: SHORT, FIELD and MASK_EMPTY say where. ROOM, UNKNOWN_TYPE, LENGTH and LEFTOVER are of no
//! entry and carry no place.

use crate::answer::{stop, Place, Refusal, Refused};
use crate::bits::{BitReader, BitWriter};
use crate::frame::LONGEST_PAYLOAD;
use crate::payload::{known, message, Entries, Field, Message};

/// "Reading wants 8,184 entries"
pub const SHEET_ENTRIES: usize = 8184;

/// What a payload read comes to: entries written, bits read (no fill).
#[derive(Clone, Copy, PartialEq, Eq, Debug)]
pub struct Read {
    pub entries: usize,
    pub bits: usize,
}

/// What a sheet written comes to: bits of the message, bytes written.
#[derive(Clone, Copy, PartialEq, Eq, Debug)]
pub struct Written {
    pub bits: usize,
    pub bytes: usize,
}

/// Codes out of bits. "at one entry SHORT, FIELD, MASK_EMPTY"
struct FromBits<'a> {
    bits: BitReader<'a>,
    codes: Vec<u64>,
}

impl Entries for FromBits<'_> {
    /// A fault carries "the SF number and the bit where that entry begins", counted from the payload's
    /// first bit; "For SHORT it is where the entry would begin."
    fn next(&mut self, field: Field) -> Result<u64, Refused> {
        let place = Place { sf: field.sf, at: self.bits.read };
        let code = self.bits.take(field.width).ok_or(place.refuses(Refusal::Short))?;
        self.codes.push(field.judge(code).map_err(|why| place.refuses(why))?);
        Ok(code)
    }
    fn count(&self) -> usize {
        self.codes.len()
    }
}

/// Codes out of a sheet, and their bits.
struct FromSheet<'a> {
    sheet: &'a [u64],
    taken: usize,
    bits: BitWriter,
}

impl Entries for FromSheet<'_> {
    /// "from the writer, the SF number and the sheet entry", counted from 0: "for SHORT it is the sheet's
    /// length, with the SF number of the entry missing there".
    fn next(&mut self, field: Field) -> Result<u64, Refused> {
        let place = Place { sf: field.sf, at: self.taken };
        let code = *self.sheet.get(self.taken).ok_or(place.refuses(Refusal::Short))?;
        field.judge(code).map_err(|why| place.refuses(why))?;
        self.bits.put(code, field.width);
        self.taken += 1;
        Ok(code)
    }
    fn count(&self) -> usize {
        self.taken
    }
}

/// A payload as message and sheet: "UNKNOWN_TYPE, LENGTH, then the first fault in reading order".
/// "Reading stops at the message's own end; later bits are ignored".
pub fn open(type_: u64, subtype: u64, payload: &[u8]) -> Result<(Message, Vec<u64>, Read), Refused> {
    stop(!known(type_, subtype), Refusal::UnknownType)?;
    stop(payload.is_empty() || payload.len() > LONGEST_PAYLOAD, Refusal::Length)?;
    let mut from = FromBits { bits: BitReader::new(payload), codes: Vec::new() };
    let message = message(&mut from, type_, subtype)?;
    let read = Read { entries: from.codes.len(), bits: from.bits.read };
    Ok((message, from.codes, read))
}

/// "Reading order of checks: ROOM, UNKNOWN_TYPE, LENGTH, then the first fault in reading order"
pub fn read(type_: u64, subtype: u64, payload: &[u8], sheet: &mut [u64]) -> Result<Read, Refused> {
    stop(sheet.len() < SHEET_ENTRIES, Refusal::Room)?;
    let (_, codes, read) = open(type_, subtype, payload)?;
    // 1,023 bytes have 8,184 bits and an entry has at least one: the codes always fit.
    sheet[..codes.len()].copy_from_slice(&codes);
    Ok(read)
}

/// A whole sheet as message and bits: "UNKNOWN_TYPE, first fault, LEFTOVER, LENGTH".
/// "The lent sheet's length is the sheet."
pub fn close(type_: u64, subtype: u64, sheet: &[u64]) -> Result<(Message, BitWriter), Refused> {
    let mut from = FromSheet { sheet, taken: 0, bits: BitWriter::new() };
    let message = message(&mut from, type_, subtype)?;
    stop(from.taken < sheet.len(), Refusal::Leftover)?;
    stop(from.bits.bits.len() > 8 * LONGEST_PAYLOAD, Refusal::Length)?;
    Ok((message, from.bits))
}

/// "Writing: ROOM, UNKNOWN_TYPE, first fault, LEFTOVER, LENGTH." "writing 1,023 bytes of room"
/// "The writer fills the last byte with zeros."
pub fn write(type_: u64, subtype: u64, sheet: &[u64], out: &mut [u8]) -> Result<Written, Refused> {
    stop(out.len() < LONGEST_PAYLOAD, Refusal::Room)?;
    let (_, bits) = close(type_, subtype, sheet)?;
    let bytes = bits.bytes();
    out[..bytes.len()].copy_from_slice(&bytes);
    Ok(Written { bits: bits.bits.len(), bytes: bytes.len() })
}

#[cfg(test)]
mod tests {
    use super::*;

    fn written(type_: u64, subtype: u64, sheet: &[u64]) -> Result<(Written, Vec<u8>), Refused> {
        let mut out = [0xA5u8; 1025];
        let result = write(type_, subtype, sheet, &mut out);
        let upto = result.map(|w| w.bytes).unwrap_or(0);
        assert!(out[upto..].iter().all(|&byte| byte == 0xA5));
        result.map(|w| (w, out[..upto].to_vec()))
    }

    fn read_back(type_: u64, subtype: u64, payload: &[u8]) -> Result<(Read, Vec<u64>), Refused> {
        let mut sheet = [0xA5A5u64; 8186];
        let result = read(type_, subtype, payload, &mut sheet);
        let upto = result.map(|r| r.entries).unwrap_or(0);
        assert!(sheet[upto..].iter().all(|&entry| entry == 0xA5A5));
        result.map(|r| (r, sheet[..upto].to_vec()))
    }

    /// A refusal without a place.
    fn plain<T>(why: Refusal) -> Result<T, Refused> {
        Err(why.into())
    }

    /// A refusal at a field, at a bit or a sheet entry.
    fn at<T>(why: Refusal, sf: u16, at: usize) -> Result<T, Refused> {
        Err(Place { sf, at }.refuses(why))
    }

    /// GPS: SIOU, EOS, reserved, yaw, datum, ephemeris, mask size, mask, SF013
    const UNUSED: [u64; 9] = [1, 0, 0, 1, 0, 0, 0, 1, 1];

    #[test]
    fn case_4_gps_ocb_one_unused_satellite() {
        let (w, bytes) = written(0, 0, &UNUSED).unwrap();
        assert_eq!(w, Written { bits: 50, bytes: 7 });
        assert_eq!(read_back(0, 0, &bytes), Ok((Read { entries: 9, bits: 50 }, UNUSED.to_vec())));
    }

    #[test]
    fn case_5_beidou_ocb_one_unused_satellite() {
        let (w, bytes) = written(0, 3, &UNUSED).unwrap();
        assert_eq!(w, Written { bits: 57, bytes: 8 });
        assert_eq!(read_back(0, 3, &bytes), Ok((Read { entries: 9, bits: 57 }, UNUSED.to_vec())));
    }

    /// AIOU 1, one area: ID 5, 1800, 3600, counts and spacings
    const GAD: [u64; 11] = [7, 1, 0, 0, 5, 1800, 3600, 7, 7, 31, 31];

    #[test]
    fn case_6_one_area_gad() {
        let (w, bytes) = written(2, 0, &GAD).unwrap();
        assert_eq!(w, Written { bits: 66, bytes: 9 });
        assert_eq!(read_back(2, 0, &bytes), Ok((Read { entries: 11, bits: 66 }, GAD.to_vec())));
    }

    #[test]
    fn cases_1_2_3_codes_out_of_range_are_field() {
        let orbit = |radial, yaw| vec![1, 0, 0, 1, 0, 0, 0, 1, 0, 4, 0, 9, radial, 0, 16382, yaw];
        assert!(written(0, 0, &orbit(0, 0)).is_ok());
        assert!(written(0, 0, &orbit(16382, 59)).is_ok());
        assert!(written(0, 0, &orbit(8191, 63)).is_ok());
        assert_eq!(written(0, 0, &orbit(16383, 0)), at(Refusal::Field, 20, 12));
        for yaw in [60, 61, 62, 64] {
            assert_eq!(written(0, 0, &orbit(0, yaw)), at(Refusal::Field, 21, 15));
        }
        let mut gad = GAD;
        gad[5] = 1801;
        assert_eq!(written(2, 0, &gad), at(Refusal::Field, 32, 5));
        gad[5] = 0;
        gad[6] = 3601;
        assert_eq!(written(2, 0, &gad), at(Refusal::Field, 33, 6));
    }

    #[test]
    fn the_writers_order() {
        assert_eq!(write(9, 9, &[], &mut [0; 1022]), plain(Refusal::Room));
        assert_eq!(written(0, 5, &[]), plain(Refusal::UnknownType));
        assert_eq!(written(1, 5, &[]), plain(Refusal::UnknownType));
        assert_eq!(written(2, 1, &[]), plain(Refusal::UnknownType));
        assert_eq!(written(3, 1, &[]), plain(Refusal::UnknownType));
        assert_eq!(written(4, 0, &[]), plain(Refusal::UnknownType));
        assert_eq!(written(u64::MAX, 0, &[]), plain(Refusal::UnknownType));
        assert_eq!(written(0, 0, &[]), at(Refusal::Short, 5, 0));
        assert_eq!(written(0, 0, &UNUSED[..8]), at(Refusal::Short, 13, 8));
        let mut sheet = UNUSED.to_vec();
        sheet.push(0);
        assert_eq!(written(0, 0, &sheet), plain(Refusal::Leftover));
        // the bits of the mask are entry 7, its size is entry 6
        sheet[7] = 0;
        assert_eq!(written(0, 0, &sheet), at(Refusal::MaskEmpty, 11, 7));
        sheet[7] = 1 << 32;
        assert_eq!(written(0, 0, &sheet), at(Refusal::Field, 11, 7));
        sheet[6] = 4;
        assert_eq!(written(0, 0, &sheet), at(Refusal::Field, 11, 6));
    }

    #[test]
    fn a_message_too_long_is_length_after_leftover() {
        // one area with 127 residuals of 14 bits for each of 5 satellites
        let mut sheet = vec![0, 0, 0, 0, 5, 127, 0, 2, 0, 0, 0b11111];
        for _ in 0..5 {
            sheet.extend_from_slice(&[0, 0, 0, 3]);
            sheet.extend([16383; 127]);
        }
        assert_eq!(written(1, 0, &sheet), plain(Refusal::Length));
        sheet.push(1);
        assert_eq!(written(1, 0, &sheet), plain(Refusal::Leftover));
        // a fault wins over both, wherever it is
        let last = sheet.len() - 2;
        sheet[last] = 16384;
        assert_eq!(written(1, 0, &sheet), at(Refusal::Field, 67, last));
        assert_eq!(written(1, 0, &sheet[..last]), at(Refusal::Short, 67, last));
    }

    #[test]
    fn the_readers_order() {
        assert_eq!(read(9, 9, &[], &mut [0; 8183]), plain(Refusal::Room));
        assert_eq!(read_back(4, 0, &[]), plain(Refusal::UnknownType));
        assert_eq!(read_back(0, 0, &[]), plain(Refusal::Length));
        assert_eq!(read_back(0, 0, &[0; 1024]), plain(Refusal::Length));
        // the size of the mask is at bit 15, its bits are at bit 17
        assert_eq!(read_back(0, 0, &[0; 1023]), at(Refusal::MaskEmpty, 11, 17));
        let (_, bytes) = written(0, 0, &UNUSED).unwrap();
        assert_eq!(read_back(0, 0, &bytes[..6]), at(Refusal::Short, 11, 17));
        assert_eq!(read_back(0, 0, &bytes[..2]), at(Refusal::Short, 11, 15));
        assert_eq!(read_back(0, 0, &bytes[..1]), at(Refusal::Short, 5, 0));
        // BeiDou's ephemeris type is at bits 13 to 16
        assert_eq!(read_back(0, 3, &bytes[..2]), at(Refusal::Short, 97, 13));
        // also where no type with a meaning begins with the three bits that are there
        assert_eq!(read_back(0, 3, &[0, 0b111]), at(Refusal::Short, 97, 13));
        // SF040 of the ionosphere at bit 19 + 8 + 7 + 2
        let mut hpac = [0; 9];
        hpac[4] = 0b00001100;
        assert_eq!(read_back(1, 0, &hpac), at(Refusal::Field, 40, 36));
        hpac[4] = 0b00000100;
        // SF054 at bit 38, mask size at 41, mask at 43
        assert_eq!(read_back(1, 4, &hpac), at(Refusal::MaskEmpty, 95, 43));
        assert_eq!(read_back(1, 0, &hpac), at(Refusal::Short, 11, 43));
    }

    /// Document 02, request 6: the ephemeris types that have a meaning in document 000, the TBD ones, and the SF
    /// number of the field.
    const TYPES: [(u16, &[u64], &[u64]); 5] = [
        (16, &[0], &[1, 2, 3]),
        (17, &[0], &[1, 2, 3]),
        (96, &[0, 1, 2], &[3, 4, 5, 6, 7]),
        (97, &[0, 1, 2, 3, 4, 5], &[6, 7, 8, 9, 10, 11, 12, 13, 14, 15]),
        (98, &[0, 1, 2], &[3, 4, 5, 6, 7]),
    ];

    /// UNUSED in the constellation, with a code at its ephemeris type, as its bits.
    fn bits_of_type(subtype: u64, code: u64) -> Vec<u8> {
        let (_, mut bytes) = written(0, subtype, &UNUSED).unwrap();
        let width = [2, 2, 3, 4, 3][subtype as usize];
        // the type's last bit is bit 12 + width; bits 13 to 16 lie in the second and the third byte
        let put = (code << (24 - 13 - width)) as u32;
        bytes[1] |= (put >> 8) as u8;
        bytes[2] |= put as u8;
        bytes
    }

    #[test]
    fn types_with_a_meaning_are_taken_and_tbd_ones_are_field() {
        for (subtype, (sf, meanings, tbd)) in (0..).zip(TYPES) {
            for code in meanings.iter().chain(tbd).copied() {
                let mut sheet = UNUSED;
                sheet[5] = code;
                let bytes = bits_of_type(subtype, code);
                if meanings.contains(&code) {
                    let (w, out) = written(0, subtype, &sheet).unwrap();
                    assert_eq!(out, bytes);
                    let read = Read { entries: 9, bits: w.bits };
                    assert_eq!(read_back(0, subtype, &bytes), Ok((read, sheet.to_vec())));
                } else {
                    assert_eq!(written(0, subtype, &sheet), at(Refusal::Field, sf, 5));
                    assert_eq!(read_back(0, subtype, &bytes), at(Refusal::Field, sf, 13));
                }
            }
            // too wide for the field, however it ends
            for code in [meanings.len() + tbd.len(), 256, 1 << 32] {
                let mut sheet = UNUSED;
                sheet[5] = code as u64;
                assert_eq!(written(0, subtype, &sheet), at(Refusal::Field, sf, 5));
            }
        }
    }

    #[test]
    fn a_tbd_type_is_field_after_what_is_before_it_and_before_what_is_behind_it() {
        let masks = [11, 12, 93, 94, 95];
        for (subtype, (sf, _, tbd)) in (0..).zip(TYPES) {
            for &code in tbd {
                let mut sheet = UNUSED.to_vec();
                sheet[5] = code;
                let here = at(Refusal::Field, sf, 5);
                assert_eq!(written(0, subtype, &sheet[..5]), at(Refusal::Short, sf, 5));
                assert_eq!(written(0, subtype, &sheet[..6]), here);
                sheet[7] = 0;
                assert_eq!(written(0, subtype, &sheet), here);
                sheet[6] = 4;
                assert_eq!(written(0, subtype, &sheet), here);
                sheet.push(0);
                assert_eq!(written(0, subtype, &sheet), here);
                sheet[4] = 2;
                assert_eq!(written(0, subtype, &sheet), at(Refusal::Field, 9, 4));
                // the payload ends with the type's last byte; all of the mask is zero
                let bytes = bits_of_type(subtype, code);
                let last = if subtype == 3 { 3 } else { 2 };
                assert_eq!(read_back(0, subtype, &bytes[..last]), at(Refusal::Field, sf, 13));
                let mut empty = bytes[..last].to_vec();
                empty.resize(1023, 0);
                assert_eq!(read_back(0, subtype, &empty), at(Refusal::Field, sf, 13));
                empty.push(0);
                assert_eq!(read_back(0, subtype, &empty), plain(Refusal::Length));
            }
            // with a meaning it is the mask that is at fault
            let mask = masks[subtype as usize];
            let mut sheet = UNUSED;
            sheet[7] = 0;
            assert_eq!(written(0, subtype, &sheet), at(Refusal::MaskEmpty, mask, 7));
            let bit = 13 + [2, 2, 3, 4, 3][subtype as usize];
            assert_eq!(read_back(0, subtype, &[0; 1023]), at(Refusal::MaskEmpty, mask, bit + 2));
            let last = if subtype == 3 { 3 } else { 2 };
            let short = if subtype == 3 { bit + 2 } else { bit };
            assert_eq!(read_back(0, subtype, &[0; 3][..last]), at(Refusal::Short, mask, short));
        }
    }

    /// What the tables of document 000 say of one message each: SF number and bits of every entry.
    type Rows = Vec<(u16, usize)>;

    /// The rows of a constellation's OCB, tables 6.3 to 6.12: two satellites, the first out of use, the
    /// second with all blocks, the yaw, two phase biases and two code biases.
    fn ocb_rows(constellation: [(u16, usize); 5], bias_bits: usize) -> Rows {
        let [ephemeris, (mask, mask_bits), iode, (phases, _), (codes, _)] = constellation;
        let mut rows = vec![(5, 9), (10, 1), (69, 1), (8, 1), (9, 1), ephemeris];
        rows.extend([(mask, 2), (mask, mask_bits)]);
        rows.extend([(13, 1), (13, 1), (14, 3), (15, 3)]);
        rows.extend([iode, (20, 14), (20, 14), (20, 14), (21, 6)]);
        rows.extend([(22, 3), (20, 14), (24, 3)]);
        rows.extend([(phases, 1), (phases, bias_bits)]);
        rows.extend([(23, 1), (15, 3), (20, 14), (23, 1), (15, 3), (20, 14)]);
        rows.extend([(codes, 1), (codes, bias_bits), (29, 11), (29, 11)]);
        rows
    }

    /// Its codes, all of them 0 but for flags and masks.
    #[rustfmt::skip]
    const OCB: [u64; 32] = [
        0, 0, 0, 1, 0, 0, 0, 3, // yaw present, two satellites
        1, 0, 7, 0, // out of use; in use with all blocks
        0, 0, 0, 0, 0, 0, 0, 0, // orbit, yaw, clock
        0, 3, 0, 0, 0, 0, 0, 0, // two phase biases
        0, 3, 0, 0, // two code biases
    ];

    /// An HPAC of one area, tables 6.13 to 6.22: equation types 2, both size indicators at these, residuals of
    /// these sizes, two nodes, two satellites.
    fn hpac(large: u64, troposphere: u64, ionosphere: u64, mask: (u16, usize)) -> (Vec<u64>, Rows) {
        let mut rows = vec![(5, 9), (68, 4), (69, 1), (30, 5), (31, 8), (39, 7), (40, 2), (40, 2)];
        let mut codes = vec![0, 0, 0, 0, 0, 2, 2, 2];
        rows.extend([(41, 3), (42, 3), (43, 8), (44, 1)]);
        codes.extend([2, 0, 0, large]);
        rows.extend(match large {
            0 => [(45, 7), (46, 7), (46, 7), (47, 9)],
            _ => [(48, 9), (49, 9), (49, 9), (50, 11)],
        });
        rows.push((51, 1));
        rows.extend([[(52, 6), (53, 8)][troposphere as usize]; 2]);
        codes.extend([0, 0, 0, 0, troposphere, 0, 0]);
        rows.extend([(54, 3), (mask.0, 2), mask]);
        codes.extend([2, 0, 3]);
        for _ in 0..2 {
            rows.extend([(55, 4), (56, 1)]);
            rows.extend(match large {
                0 => [(57, 12), (58, 12), (58, 12), (59, 13)],
                _ => [(60, 14), (61, 14), (61, 14), (62, 15)],
            });
            rows.push((63, 2));
            rows.extend([[(64, 4), (65, 7), (66, 10), (67, 14)][ionosphere as usize]; 2]);
            codes.extend([0, large, 0, 0, 0, 0, ionosphere, 0, 0]);
        }
        (codes, rows)
    }

    /// A message of each layout, with its rows.
    fn messages() -> Vec<(u64, u64, Vec<u64>, Rows)> {
        let mut all = Vec::new();
        // ephemeris type, mask, IODE, phase bias mask, code bias mask; bits of a bias mask of size 0
        let constellations = [
            ([(16, 2), (11, 32), (18, 8), (25, 6), (27, 6)], 6),
            ([(17, 2), (12, 24), (19, 7), (26, 5), (28, 5)], 5),
            ([(96, 3), (93, 36), (99, 10), (102, 8), (105, 8)], 8),
            ([(97, 4), (94, 37), (100, 8), (103, 8), (106, 8)], 8),
            ([(98, 3), (95, 10), (101, 8), (104, 6), (107, 6)], 6),
        ];
        for (subtype, (of, bias_bits)) in constellations.into_iter().enumerate() {
            all.push((0, subtype as u64, OCB.to_vec(), ocb_rows(of, bias_bits)));
            for (large, troposphere, ionosphere) in [(0, 0, 0), (1, 1, 1), (0, 1, 2), (1, 0, 3)] {
                let (codes, rows) = hpac(large, troposphere, ionosphere, of[1]);
                all.push((1, subtype as u64, codes, rows));
            }
        }
        let mut rows = vec![(5, 9), (68, 4), (69, 1), (30, 5)];
        let area = [(31, 8), (32, 11), (33, 12), (34, 3), (35, 3), (36, 5), (37, 5)];
        rows.extend(area.iter().chain(&area));
        all.push((2, 0, [vec![0, 0, 0, 1], vec![0; 14]].concat(), rows));
        // 16 x 5 nodes, in groups of 64 and 16 bits; a small and a large residual
        let mut rows = vec![(5, 9), (69, 1), (70, 2), (71, 2), (72, 2), (73, 8), (74, 9)];
        rows.extend([(75, 4), (76, 4), (77, 2), (78, 2), (80, 12), (79, 64), (79, 16)]);
        rows.extend([(55, 4), (81, 1), (82, 7), (55, 4), (81, 1), (83, 11)]);
        all.push((3, 0, vec![0, 0, 0, 0, 0, 0, 0, 15, 4, 0, 0, 0, 1, 1, 0, 0, 0, 0, 1, 0], rows));
        all
    }

    #[test]
    fn the_place_of_every_entry_is_that_of_the_tables() {
        let mut met = std::collections::BTreeSet::new();
        for (type_, subtype, codes, rows) in messages() {
            assert_eq!(codes.len(), rows.len(), "{type_}-{subtype}");
            let (w, bytes) = written(type_, subtype, &codes).unwrap();
            assert_eq!(w.bits, rows.iter().map(|(_, bits)| bits).sum::<usize>());
            let mut begins: usize = 0;
            for (entry, &(sf, bits)) in rows.iter().enumerate() {
                met.insert(sf);
                // the sheet ends before it, or its code is too wide for it
                assert_eq!(written(type_, subtype, &codes[..entry]), at(Refusal::Short, sf, entry));
                if bits < 64 {
                    let mut wide = codes.clone();
                    wide[entry] = 1 << bits;
                    assert_eq!(written(type_, subtype, &wide), at(Refusal::Field, sf, entry));
                }
                // the payload ends in it
                for end in begins.div_ceil(8).max(1)..(begins + bits).div_ceil(8) {
                    assert_eq!(read_back(type_, subtype, &bytes[..end]), at(Refusal::Short, sf, begins));
                }
                begins += bits;
            }
        }
        // all SF numbers of tables 6.3 to 6.28
        let all = [5].into_iter().chain(8..=37).chain(39..=83).chain(93..=107);
        assert_eq!(met, all.collect());
    }

    #[test]
    fn later_bits_are_ignored() {
        let (_, mut bytes) = written(0, 0, &UNUSED).unwrap();
        bytes[6] |= 0x3F;
        bytes.extend_from_slice(&[1; 300]);
        assert_eq!(read_back(0, 0, &bytes), Ok((Read { entries: 9, bits: 50 }, UNUSED.to_vec())));
    }

    #[test]
    fn the_node_mask_goes_in_groups_of_64_from_the_left() {
        // 9 x 8 nodes: groups of 64 and 8 bits; the first and the last node present
        let sheet = [3, 0, 3, 0, 2, 170, 360, 8, 7, 3, 0, 4094, 1 << 63, 1, 15, 0, 127, 0, 1, 2047];
        let (w, bytes) = written(3, 0, &sheet).unwrap();
        assert_eq!(w.bits, 14 + 43 + 72 + 12 + 16);
        assert_eq!(read_back(3, 0, &bytes).unwrap().1, sheet);
        let mut wide = sheet;
        wide[13] = 256;
        assert_eq!(written(3, 0, &wide), at(Refusal::Field, 79, 13));
        // a node mask without a bit is accepted
        assert!(written(3, 0, &[3, 0, 3, 0, 2, 170, 360, 0, 0, 3, 0, 4094, 0]).is_ok());
        let average = [3, 0, 3, 0, 2, 170, 360, 0, 0, 3, 0, 4095, 0];
        assert_eq!(written(3, 0, &average), at(Refusal::Field, 80, 11));
    }
}
