//! The desk's calls for Rust: slices in, `Result` out. Safe: each call hands pointer and length of a
//! slice to the proved library, which writes inside it and nowhere else.
//!
//! A stream, portion by portion (`example.rs` is this as a program):
//!
//! ```
//! # fn main() -> Result<(), homralgyu::Refusal> {
//! let mut stream = homralgyu::Stream::new();
//! let mut input: &[u8] = &[0x00, 0x73, 0x00];
//! loop {
//!     let (event, used) = stream.call(input)?;
//!     input = &input[used..];
//!     match event {
//!         homralgyu::Event::Frame(header) => println!("frame {}", header.length),
//!         homralgyu::Event::Noise(count) => println!("noise {count}"),
//!         _ => break,
//!     }
//! }
//! # Ok(())
//! # }
//! ```

use std::fmt;

/// The longest payload, in bytes (document 01).
pub const LONGEST_PAYLOAD: usize = 1023;
/// The longest frame, in bytes; also a tray.
pub const LONGEST_FRAME: usize = 1103;
/// The entries that reading a payload wants.
pub const SHEET_ROOM: usize = 8184;
/// The bytes of a book.
pub const BOOK_BYTES: usize = 192;
/// The bytes that writing a kept book wants.
pub const KEPT_ROOM: usize = 229;
/// The bytes of log that a frame wants.
pub const LOG_ROOM: usize = 4096;

/// The functions of `include/homralgyu.h`, on slices of any size: what document 01 calls ROOM is theirs to say. An answer of
/// 64 bits is number + 2^8 * SF number + 2^32 * place.
pub mod raw {
    extern "C" {
        fn homralgyu_frame_check(
            bytes: *const u8,
            bytes_len: usize,
            header: *mut u64,
            header_len: usize,
        ) -> u8;
        fn homralgyu_frame_write(
            message_type: u8,
            check_type: u8,
            subtype: u8,
            tag_kind: u8,
            tag: u64,
            solution: u8,
            processor: u8,
            payload: *const u8,
            payload_len: usize,
            out: *mut u8,
            out_len: usize,
            size: *mut u64,
            size_len: usize,
        ) -> u8;
        fn homralgyu_payload_judge(
            kind: u8,
            subtype: u8,
            payload: *const u8,
            payload_len: usize,
            counts: *mut u64,
            counts_len: usize,
        ) -> u64;
        fn homralgyu_payload_read(
            kind: u8,
            subtype: u8,
            payload: *const u8,
            payload_len: usize,
            sheet: *mut u64,
            sheet_len: usize,
            counts: *mut u64,
            counts_len: usize,
        ) -> u64;
        fn homralgyu_sheet_judge(
            kind: u8,
            subtype: u8,
            sheet: *const u64,
            sheet_len: usize,
            counts: *mut u64,
            counts_len: usize,
        ) -> u64;
        fn homralgyu_sheet_write(
            kind: u8,
            subtype: u8,
            sheet: *const u64,
            sheet_len: usize,
            out: *mut u8,
            out_len: usize,
            counts: *mut u64,
            counts_len: usize,
        ) -> u64;
        fn homralgyu_stream_call(
            bytes: *mut u8,
            bytes_len: usize,
            tray: *mut u64,
            tray_len: usize,
            input: *const u8,
            input_len: usize,
            told: *mut u64,
            told_len: usize,
            header: *mut u64,
            header_len: usize,
        ) -> u8;
        fn homralgyu_stream_finish(
            bytes: *mut u8,
            bytes_len: usize,
            tray: *mut u64,
            tray_len: usize,
            told: *mut u64,
            told_len: usize,
            header: *mut u64,
            header_len: usize,
        ) -> u8;
        fn homralgyu_book_take(
            book: *mut u64,
            book_len: usize,
            bytes: *mut u8,
            bytes_len: usize,
            payload: *const u8,
            payload_len: usize,
        ) -> u64;
        fn homralgyu_kept_write(
            book: *const u64,
            book_len: usize,
            bytes: *const u8,
            bytes_len: usize,
            out: *mut u8,
            out_len: usize,
            written: *mut u64,
            written_len: usize,
        ) -> u8;
        fn homralgyu_kept_read(
            kept: *const u8,
            kept_len: usize,
            book: *mut u64,
            book_len: usize,
            bytes: *mut u8,
            bytes_len: usize,
        ) -> u8;
        fn homralgyu_value(
            sf: u16,
            code: u64,
            what: *mut u64,
            what_len: usize,
            value: *mut f64,
            value_len: usize,
        ) -> u8;
        fn homralgyu_orbit(
            radial: u64,
            along_track: u64,
            cross_track: u64,
            orbit: *mut f64,
            orbit_len: usize,
        ) -> u8;
        fn homralgyu_desk_new(
            solution: u8,
            processor: u8,
            constellation: u8,
            desk: *mut u64,
            desk_len: usize,
        ) -> u8;
        fn homralgyu_desk_is_sound(
            desk: *const u64,
            desk_len: usize,
            live: *const u8,
            live_len: usize,
            run: *const u8,
            run_len: usize,
        ) -> u8;
        fn homralgyu_desk_take(
            frame: *const u8,
            frame_len: usize,
            second: u64,
            desk: *mut u64,
            desk_len: usize,
            live: *mut u8,
            live_len: usize,
            run: *mut u8,
            run_len: usize,
            log: *mut u8,
            log_len: usize,
            written: *mut u64,
            written_len: usize,
        ) -> u64;
        fn homralgyu_desk_take_book(
            desk: *mut u64,
            desk_len: usize,
            live: *mut u8,
            live_len: usize,
            run: *const u8,
            run_len: usize,
            book: *const u64,
            book_len: usize,
            bytes: *const u8,
            bytes_len: usize,
        ) -> u8;
        fn homralgyu_desk_find(
            desk: *const u64,
            desk_len: usize,
            live: *const u8,
            live_len: usize,
            run: *const u8,
            run_len: usize,
            id: u8,
            area: *mut u8,
            area_len: usize,
            found: *mut u64,
            found_len: usize,
        ) -> u8;
        fn homralgyu_book_find(
            book: *const u64,
            book_len: usize,
            bytes: *const u8,
            bytes_len: usize,
            id: u8,
            area: *mut u8,
            area_len: usize,
            found: *mut u64,
            found_len: usize,
        ) -> u8;
    }

    // Each call below hands on pointer and length of the slices that it is lent, which are valid for so long.

    pub fn frame_check(bytes: &[u8], header: &mut [u64]) -> u8 {
        unsafe { homralgyu_frame_check(bytes.as_ptr(), bytes.len(), header.as_mut_ptr(), header.len()) }
    }

    pub fn frame_write(parts: &super::Parts, payload: &[u8], out: &mut [u8], size: &mut [u64]) -> u8 {
        unsafe {
            homralgyu_frame_write(
                parts.message_type,
                parts.check_type,
                parts.subtype,
                parts.tag_kind,
                parts.tag,
                parts.solution,
                parts.processor,
                payload.as_ptr(),
                payload.len(),
                out.as_mut_ptr(),
                out.len(),
                size.as_mut_ptr(),
                size.len(),
            )
        }
    }

    pub fn payload_judge(kind: u8, subtype: u8, payload: &[u8], counts: &mut [u64]) -> u64 {
        unsafe {
            homralgyu_payload_judge(
                kind,
                subtype,
                payload.as_ptr(),
                payload.len(),
                counts.as_mut_ptr(),
                counts.len(),
            )
        }
    }

    pub fn payload_read(kind: u8, subtype: u8, payload: &[u8], sheet: &mut [u64], counts: &mut [u64]) -> u64 {
        unsafe {
            homralgyu_payload_read(
                kind,
                subtype,
                payload.as_ptr(),
                payload.len(),
                sheet.as_mut_ptr(),
                sheet.len(),
                counts.as_mut_ptr(),
                counts.len(),
            )
        }
    }

    pub fn sheet_judge(kind: u8, subtype: u8, sheet: &[u64], counts: &mut [u64]) -> u64 {
        unsafe {
            homralgyu_sheet_judge(
                kind,
                subtype,
                sheet.as_ptr(),
                sheet.len(),
                counts.as_mut_ptr(),
                counts.len(),
            )
        }
    }

    pub fn sheet_write(kind: u8, subtype: u8, sheet: &[u64], out: &mut [u8], counts: &mut [u64]) -> u64 {
        unsafe {
            homralgyu_sheet_write(
                kind,
                subtype,
                sheet.as_ptr(),
                sheet.len(),
                out.as_mut_ptr(),
                out.len(),
                counts.as_mut_ptr(),
                counts.len(),
            )
        }
    }

    pub fn stream_call(
        bytes: &mut [u8],
        tray: &mut [u64],
        input: &[u8],
        told: &mut [u64],
        header: &mut [u64],
    ) -> u8 {
        unsafe {
            homralgyu_stream_call(
                bytes.as_mut_ptr(),
                bytes.len(),
                tray.as_mut_ptr(),
                tray.len(),
                input.as_ptr(),
                input.len(),
                told.as_mut_ptr(),
                told.len(),
                header.as_mut_ptr(),
                header.len(),
            )
        }
    }

    pub fn stream_finish(bytes: &mut [u8], tray: &mut [u64], told: &mut [u64], header: &mut [u64]) -> u8 {
        unsafe {
            homralgyu_stream_finish(
                bytes.as_mut_ptr(),
                bytes.len(),
                tray.as_mut_ptr(),
                tray.len(),
                told.as_mut_ptr(),
                told.len(),
                header.as_mut_ptr(),
                header.len(),
            )
        }
    }

    pub fn book_take(book: &mut [u64], bytes: &mut [u8], payload: &[u8]) -> u64 {
        unsafe {
            homralgyu_book_take(
                book.as_mut_ptr(),
                book.len(),
                bytes.as_mut_ptr(),
                bytes.len(),
                payload.as_ptr(),
                payload.len(),
            )
        }
    }

    pub fn kept_write(book: &[u64], bytes: &[u8], out: &mut [u8], written: &mut [u64]) -> u8 {
        unsafe {
            homralgyu_kept_write(
                book.as_ptr(),
                book.len(),
                bytes.as_ptr(),
                bytes.len(),
                out.as_mut_ptr(),
                out.len(),
                written.as_mut_ptr(),
                written.len(),
            )
        }
    }

    pub fn kept_read(kept: &[u8], book: &mut [u64], bytes: &mut [u8]) -> u8 {
        unsafe {
            homralgyu_kept_read(
                kept.as_ptr(),
                kept.len(),
                book.as_mut_ptr(),
                book.len(),
                bytes.as_mut_ptr(),
                bytes.len(),
            )
        }
    }

    pub fn value(sf: u16, code: u64, what: &mut [u64], value: &mut [f64]) -> u8 {
        unsafe { homralgyu_value(sf, code, what.as_mut_ptr(), what.len(), value.as_mut_ptr(), value.len()) }
    }

    pub fn orbit(radial: u64, along_track: u64, cross_track: u64, orbit: &mut [f64]) -> u8 {
        unsafe { homralgyu_orbit(radial, along_track, cross_track, orbit.as_mut_ptr(), orbit.len()) }
    }

    pub fn desk_new(solution: u8, processor: u8, constellation: u8, desk: &mut [u64]) -> u8 {
        unsafe { homralgyu_desk_new(solution, processor, constellation, desk.as_mut_ptr(), desk.len()) }
    }

    pub fn desk_is_sound(desk: &[u64], live: &[u8], run: &[u8]) -> u8 {
        unsafe {
            homralgyu_desk_is_sound(
                desk.as_ptr(),
                desk.len(),
                live.as_ptr(),
                live.len(),
                run.as_ptr(),
                run.len(),
            )
        }
    }

    #[allow(clippy::too_many_arguments)]
    pub fn desk_take(
        frame: &[u8],
        second: u64,
        desk: &mut [u64],
        live: &mut [u8],
        run: &mut [u8],
        log: &mut [u8],
        written: &mut [u64],
    ) -> u64 {
        unsafe {
            homralgyu_desk_take(
                frame.as_ptr(),
                frame.len(),
                second,
                desk.as_mut_ptr(),
                desk.len(),
                live.as_mut_ptr(),
                live.len(),
                run.as_mut_ptr(),
                run.len(),
                log.as_mut_ptr(),
                log.len(),
                written.as_mut_ptr(),
                written.len(),
            )
        }
    }

    pub fn desk_take_book(desk: &mut [u64], live: &mut [u8], run: &[u8], book: &[u64], bytes: &[u8]) -> u8 {
        unsafe {
            homralgyu_desk_take_book(
                desk.as_mut_ptr(),
                desk.len(),
                live.as_mut_ptr(),
                live.len(),
                run.as_ptr(),
                run.len(),
                book.as_ptr(),
                book.len(),
                bytes.as_ptr(),
                bytes.len(),
            )
        }
    }

    pub fn desk_find(
        desk: &[u64],
        live: &[u8],
        run: &[u8],
        id: u8,
        area: &mut [u8],
        found: &mut [u64],
    ) -> u8 {
        unsafe {
            homralgyu_desk_find(
                desk.as_ptr(),
                desk.len(),
                live.as_ptr(),
                live.len(),
                run.as_ptr(),
                run.len(),
                id,
                area.as_mut_ptr(),
                area.len(),
                found.as_mut_ptr(),
                found.len(),
            )
        }
    }

    pub fn book_find(book: &[u64], bytes: &[u8], id: u8, area: &mut [u8], found: &mut [u64]) -> u8 {
        unsafe {
            homralgyu_book_find(
                book.as_ptr(),
                book.len(),
                bytes.as_ptr(),
                bytes.len(),
                id,
                area.as_mut_ptr(),
                area.len(),
                found.as_mut_ptr(),
                found.len(),
            )
        }
    }

    // views of a sheet
    extern "C" {
        fn homralgyu_satellite_at(
            subtype: u8,
            sheet: *const u64,
            sheet_len: usize,
            place: u64,
            view: *mut u64,
            view_len: usize,
            floats: *mut f64,
            floats_len: usize,
        ) -> u64;
        fn homralgyu_gad_area(
            id: u8,
            sheet: *const u64,
            sheet_len: usize,
            view: *mut u64,
            view_len: usize,
            floats: *mut f64,
            floats_len: usize,
        ) -> u64;
        fn homralgyu_hpac_area(
            subtype: u8,
            id: u8,
            sheet: *const u64,
            sheet_len: usize,
            view: *mut u64,
            view_len: usize,
        ) -> u64;
        fn homralgyu_bpac_area(
            id: u8,
            sheet: *const u64,
            sheet_len: usize,
            view: *mut u64,
            view_len: usize,
            floats: *mut f64,
            floats_len: usize,
        ) -> u64;
    }

    pub fn satellite_at(subtype: u8, sheet: &[u64], place: u64, view: &mut [u64], floats: &mut [f64]) -> u64 {
        unsafe {
            homralgyu_satellite_at(
                subtype,
                sheet.as_ptr(),
                sheet.len(),
                place,
                view.as_mut_ptr(),
                view.len(),
                floats.as_mut_ptr(),
                floats.len(),
            )
        }
    }

    pub fn gad_area(id: u8, sheet: &[u64], view: &mut [u64], floats: &mut [f64]) -> u64 {
        unsafe {
            homralgyu_gad_area(
                id,
                sheet.as_ptr(),
                sheet.len(),
                view.as_mut_ptr(),
                view.len(),
                floats.as_mut_ptr(),
                floats.len(),
            )
        }
    }

    pub fn hpac_area(subtype: u8, id: u8, sheet: &[u64], view: &mut [u64]) -> u64 {
        unsafe {
            homralgyu_hpac_area(subtype, id, sheet.as_ptr(), sheet.len(), view.as_mut_ptr(), view.len())
        }
    }

    pub fn bpac_area(id: u8, sheet: &[u64], view: &mut [u64], floats: &mut [f64]) -> u64 {
        unsafe {
            homralgyu_bpac_area(
                id,
                sheet.as_ptr(),
                sheet.len(),
                view.as_mut_ptr(),
                view.len(),
                floats.as_mut_ptr(),
                floats.len(),
            )
        }
    }

    // stream and desk together
    extern "C" {
        fn homralgyu_prepare_call(
            bytes: *mut u8,
            bytes_len: usize,
            tray: *mut u64,
            tray_len: usize,
            desk: *mut u64,
            desk_len: usize,
            live: *mut u8,
            live_len: usize,
            run: *mut u8,
            run_len: usize,
            log: *mut u8,
            log_len: usize,
            input: *const u8,
            input_len: usize,
            second: u64,
            told: *mut u64,
            told_len: usize,
            header: *mut u64,
            header_len: usize,
        ) -> u8;
        fn homralgyu_prepare_finish(
            bytes: *mut u8,
            bytes_len: usize,
            tray: *mut u64,
            tray_len: usize,
            desk: *mut u64,
            desk_len: usize,
            live: *mut u8,
            live_len: usize,
            run: *mut u8,
            run_len: usize,
            log: *mut u8,
            log_len: usize,
            second: u64,
            told: *mut u64,
            told_len: usize,
            header: *mut u64,
            header_len: usize,
        ) -> u8;
    }

    #[allow(clippy::too_many_arguments)]
    pub fn prepare_call(
        bytes: &mut [u8],
        tray: &mut [u64],
        desk: &mut [u64],
        live: &mut [u8],
        run: &mut [u8],
        log: &mut [u8],
        input: &[u8],
        second: u64,
        told: &mut [u64],
        header: &mut [u64],
    ) -> u8 {
        unsafe {
            homralgyu_prepare_call(
                bytes.as_mut_ptr(),
                bytes.len(),
                tray.as_mut_ptr(),
                tray.len(),
                desk.as_mut_ptr(),
                desk.len(),
                live.as_mut_ptr(),
                live.len(),
                run.as_mut_ptr(),
                run.len(),
                log.as_mut_ptr(),
                log.len(),
                input.as_ptr(),
                input.len(),
                second,
                told.as_mut_ptr(),
                told.len(),
                header.as_mut_ptr(),
                header.len(),
            )
        }
    }

    #[allow(clippy::too_many_arguments)]
    pub fn prepare_finish(
        bytes: &mut [u8],
        tray: &mut [u64],
        desk: &mut [u64],
        live: &mut [u8],
        run: &mut [u8],
        log: &mut [u8],
        second: u64,
        told: &mut [u64],
        header: &mut [u64],
    ) -> u8 {
        unsafe {
            homralgyu_prepare_finish(
                bytes.as_mut_ptr(),
                bytes.len(),
                tray.as_mut_ptr(),
                tray.len(),
                desk.as_mut_ptr(),
                desk.len(),
                live.as_mut_ptr(),
                live.len(),
                run.as_mut_ptr(),
                run.len(),
                log.as_mut_ptr(),
                log.len(),
                second,
                told.as_mut_ptr(),
                told.len(),
                header.as_mut_ptr(),
                header.len(),
            )
        }
    }

    // the run log, read
    extern "C" {
        fn homralgyu_entry_read(bytes: *const u8, bytes_len: usize, entry: *mut u64, entry_len: usize) -> u8;
        fn homralgyu_entry_troposphere(
            bytes: *const u8,
            bytes_len: usize,
            node: u64,
            what: *mut u64,
            what_len: usize,
            value: *mut f64,
            value_len: usize,
        ) -> u8;
        fn homralgyu_entry_satellite(
            bytes: *const u8,
            bytes_len: usize,
            k: u64,
            satellite: *mut u64,
            satellite_len: usize,
        ) -> u8;
        fn homralgyu_entry_residual(
            bytes: *const u8,
            bytes_len: usize,
            k: u64,
            node: u64,
            what: *mut u64,
            what_len: usize,
            value: *mut f64,
            value_len: usize,
        ) -> u8;
    }

    pub fn entry_read(bytes: &[u8], entry: &mut [u64]) -> u8 {
        unsafe { homralgyu_entry_read(bytes.as_ptr(), bytes.len(), entry.as_mut_ptr(), entry.len()) }
    }

    pub fn entry_troposphere(bytes: &[u8], node: u64, what: &mut [u64], value: &mut [f64]) -> u8 {
        unsafe {
            homralgyu_entry_troposphere(
                bytes.as_ptr(),
                bytes.len(),
                node,
                what.as_mut_ptr(),
                what.len(),
                value.as_mut_ptr(),
                value.len(),
            )
        }
    }

    pub fn entry_satellite(bytes: &[u8], k: u64, satellite: &mut [u64]) -> u8 {
        unsafe {
            homralgyu_entry_satellite(bytes.as_ptr(), bytes.len(), k, satellite.as_mut_ptr(), satellite.len())
        }
    }

    pub fn entry_residual(bytes: &[u8], k: u64, node: u64, what: &mut [u64], value: &mut [f64]) -> u8 {
        unsafe {
            homralgyu_entry_residual(
                bytes.as_ptr(),
                bytes.len(),
                k,
                node,
                what.as_mut_ptr(),
                what.len(),
                value.as_mut_ptr(),
                value.len(),
            )
        }
    }
}

/// A refusal by its number in document 01, 1 to 18; displayed by its name there.
#[derive(Clone, Copy, PartialEq, Eq, Debug)]
pub struct Refusal(pub u8);

const NAMES: [&str; 18] = [
    "SHORT",
    "PREAMBLE",
    "FRAME_CRC",
    "LENGTH",
    "MESSAGE_CRC",
    "UNKNOWN_TYPE",
    "MASK_EMPTY",
    "FIELD",
    "ROOM",
    "SEALED",
    "TAG",
    "NOT_OURS",
    "AREA_OFF",
    "CONFLICT",
    "BOOK_FULL",
    "LEFTOVER",
    "STATE",
    "FORM",
];

impl fmt::Display for Refusal {
    fn fmt(&self, f: &mut fmt::Formatter<'_>) -> fmt::Result {
        match NAMES.get(usize::from(self.0).wrapping_sub(1)) {
            Some(name) => f.write_str(name),
            None => write!(f, "number {}", self.0),
        }
    }
}

impl std::error::Error for Refusal {}

/// What a place counts: bits of a payload, for the calls that read one, or entries of a sheet, for those that are lent one.
#[derive(Clone, Copy, PartialEq, Eq, Debug)]
pub enum Unit {
    Bit,
    Entry,
}

/// Where a payload or a sheet is at fault; displayed as `SF040, bit 34`.
#[derive(Clone, Copy, PartialEq, Eq, Debug)]
pub struct Place {
    /// the number of the field, 40 for SF040; the reserved bit is SF069
    pub sf: u32,
    pub unit: Unit,
    /// the bit of the payload or the entry of the sheet, from 0 on, where the field's entry begins; for SHORT where it would
    /// begin. Bit b of a payload is `payload[b / 8] & (0x80 >> b % 8)`, with `b = at as usize`; of SHORT, b may be the bits that
    /// the payload has, where no bit lies
    pub at: u32,
}

impl fmt::Display for Place {
    fn fmt(&self, f: &mut fmt::Formatter<'_>) -> fmt::Result {
        let unit = match self.unit {
            Unit::Bit => "bit",
            Unit::Entry => "entry",
        };
        write!(f, "SF{:03}, {unit} {}", self.sf, self.at)
    }
}

/// A refusal and its place: SHORT, FIELD and MASK_EMPTY of a payload or of a sheet have one, all other refusals none, nor do
/// the SHORT of a frame and the FIELD of an argument. Displayed in words that can go to the provider's support:
///
/// ```
/// use homralgyu::{Fault, Place, Refusal, Unit};
/// let fault = Fault { refusal: Refusal(8), place: Some(Place { sf: 40, unit: Unit::Bit, at: 34 }) };
/// assert_eq!(fault.to_string(), "FIELD at SF040, bit 34");
/// assert_eq!(Fault::from(Refusal(9)).to_string(), "ROOM");
/// ```
///
/// By `?` a `Refusal` becomes a `Fault`; the other way, which loses the place, has to be asked for: `fault.refusal`.
/// SHORT names the field that no longer fits, which need not be the wrong one: the cause may be a count, a size or a mask
/// before it. FIELD names the first code that cannot be. Ephemeris types that document 000 marks TBD are such codes: GPS
/// and GLONASS 1 to 3, Galileo and QZSS 3 to 7, BeiDou 6 to 15.
#[derive(Clone, Copy, PartialEq, Eq, Debug)]
pub struct Fault {
    pub refusal: Refusal,
    pub place: Option<Place>,
}

impl fmt::Display for Fault {
    fn fmt(&self, f: &mut fmt::Formatter<'_>) -> fmt::Result {
        match self.place {
            Some(place) => write!(f, "{} at {place}", self.refusal),
            None => self.refusal.fmt(f),
        }
    }
}

impl std::error::Error for Fault {}

impl From<Refusal> for Fault {
    fn from(refusal: Refusal) -> Fault {
        Fault { refusal, place: None }
    }
}

fn answer<T>(number: u8, value: T) -> Result<T, Refusal> {
    if number == 0 {
        Ok(value)
    } else {
        Err(Refusal(number))
    }
}

/// An answer of 64 bits, whose place is counted in this unit.
fn placed(answer: u64, unit: Unit) -> Result<(), Fault> {
    if answer == 0 {
        return Ok(());
    }
    let (sf, at) = ((answer >> 8) as u32 & 0xFF_FFFF, (answer >> 32) as u32);
    Err(Fault { refusal: Refusal(answer as u8), place: (sf != 0).then_some(Place { sf, unit, at }) })
}

/// TF002, TF005, TF007 to TF011 of a plain frame.
#[derive(Clone, Copy, PartialEq, Eq, Debug)]
pub struct Parts {
    pub message_type: u8,
    pub check_type: u8,
    pub subtype: u8,
    pub tag_kind: u8,
    pub tag: u64,
    pub solution: u8,
    pub processor: u8,
}

/// The header of an accepted frame.
#[derive(Clone, Copy, PartialEq, Eq, Debug)]
pub struct Header {
    pub length: usize,
    pub parts: Parts,
    /// TF012 to TF015 of a sealed frame
    pub sealing: Option<[u8; 4]>,
    pub payload_at: usize,
    pub payload_length: usize,
}

fn header_of(n: &[u64; 15]) -> Header {
    Header {
        length: n[0] as usize,
        parts: Parts {
            message_type: n[1] as u8,
            check_type: n[4] as u8,
            subtype: n[5] as u8,
            tag_kind: n[6] as u8,
            tag: n[7],
            solution: n[8] as u8,
            processor: n[9] as u8,
        },
        sealing: (n[3] == 1).then_some([n[10] as u8, n[11] as u8, n[12] as u8, n[13] as u8]),
        payload_at: n[14] as usize,
        payload_length: n[2] as usize,
    }
}

/// Checks the frame that lies first in the bytes.
pub fn check(bytes: &[u8]) -> Result<Header, Refusal> {
    let mut header = [0; 15];
    answer(raw::frame_check(bytes, &mut header), ()).map(|()| header_of(&header))
}

/// The frame's header and its payload as a part of the bytes.
pub fn open(bytes: &[u8]) -> Result<(Header, &[u8]), Refusal> {
    let header = check(bytes)?;
    Ok((header, &bytes[header.payload_at..header.payload_at + header.payload_length]))
}

/// Writes a plain frame into `out`, which has 1,103 bytes or more: the frame's length.
pub fn write(parts: &Parts, payload: &[u8], out: &mut [u8]) -> Result<usize, Refusal> {
    let mut size = [0];
    answer(raw::frame_write(parts, payload, out, &mut size), ()).map(|()| size[0] as usize)
}

/// Reads a payload into a sheet of 8,184 entries or more: the bits read and the entries written. A fault of the payload has
/// its place, in bits.
pub fn read_payload(
    kind: u8,
    subtype: u8,
    payload: &[u8],
    sheet: &mut [u64],
) -> Result<(usize, usize), Fault> {
    let mut counts = [0; 2];
    placed(raw::payload_read(kind, subtype, payload, sheet, &mut counts), Unit::Bit)?;
    Ok((counts[0] as usize, counts[1] as usize))
}

/// Writes a sheet as a payload into 1,023 bytes or more: the bits and the bytes written. A fault of the sheet has its place,
/// in entries.
pub fn write_sheet(kind: u8, subtype: u8, sheet: &[u64], out: &mut [u8]) -> Result<(usize, usize), Fault> {
    let mut counts = [0; 2];
    placed(raw::sheet_write(kind, subtype, sheet, out, &mut counts), Unit::Entry)?;
    Ok((counts[0] as usize, counts[1] as usize))
}

/// What a field's code means.
#[derive(Clone, Copy, PartialEq, Debug)]
pub enum Value {
    Invalid,
    Metres(f64),
    Degrees(f64),
    Tecu(f64),
    Coefficient(f64),
    Count(u64),
}

/// What a code of a field, SF020 by its number 20, means in its unit.
pub fn value(sf: u16, code: u64) -> Result<Value, Refusal> {
    let (mut what, mut value) = ([0; 2], [0.0]);
    answer(raw::value(sf, code, &mut what, &mut value), ())?;
    Ok(value_of(&what, &value))
}

fn value_of(what: &[u64; 2], value: &[f64; 1]) -> Value {
    match what[0] {
        1 => Value::Metres(value[0]),
        2 => Value::Degrees(value[0]),
        3 => Value::Tecu(value[0]),
        4 => Value::Coefficient(value[0]),
        5 => Value::Count(what[1]),
        _ => Value::Invalid,
    }
}

/// The orbit corrections in metres: radial, along-track, cross-track.
pub fn orbit(radial: u64, along_track: u64, cross_track: u64) -> Result<[f64; 3], Refusal> {
    let mut orbit = [0.0; 3];
    answer(raw::orbit(radial, along_track, cross_track, &mut orbit), orbit).map(|_| orbit)
}

/// The yaw of a satellite.
#[derive(Clone, Copy, PartialEq, Debug)]
pub enum Yaw {
    Absent,
    Invalid,
    Degrees(f64),
}

/// IODE, and the corrections in metres: radial, along-track, cross-track.
#[derive(Clone, Copy, PartialEq, Debug)]
pub struct OrbitBlock {
    pub iode: u64,
    pub corrections: [f64; 3],
}

/// SF022, the correction in metres, SF024.
#[derive(Clone, Copy, PartialEq, Debug)]
pub struct ClockBlock {
    pub continuity: u64,
    pub correction: f64,
    pub error: u64,
}

/// Where biases are on the sheet: the entry of the first, behind the size and the bits of their mask, and how many there are.
/// A phase bias has three entries, a code bias one.
#[derive(Clone, Copy, PartialEq, Eq, Debug)]
pub struct Biases {
    pub phases_at: usize,
    pub phases: usize,
    pub codes_at: usize,
    pub codes: usize,
}

/// The blocks of a satellite in use, with SF015.
#[derive(Clone, Copy, PartialEq, Debug)]
pub struct Blocks {
    pub continuity: u64,
    pub orbit: Option<OrbitBlock>,
    pub yaw: Yaw,
    pub clock: Option<ClockBlock>,
    pub biases: Option<Biases>,
}

/// A satellite of OCB: its number, and its blocks if it is in use.
#[derive(Clone, Copy, PartialEq, Debug)]
pub struct Satellite {
    pub number: u64,
    pub blocks: Option<Blocks>,
}

/// The satellite at a place, from 0 on in the mask's order, of an OCB sheet. A fault of the sheet has its place, in entries,
/// here and in the views below; FIELD for a satellite that is not there has none.
pub fn satellite_at(subtype: u8, sheet: &[u64], place: u64) -> Result<Satellite, Fault> {
    let (mut n, mut x) = ([0; 14], [0.0; 5]);
    placed(raw::satellite_at(subtype, sheet, place, &mut n, &mut x), Unit::Entry)?;
    let blocks = Blocks {
        continuity: n[2],
        orbit: (n[3] == 1).then_some(OrbitBlock { iode: n[4], corrections: [x[0], x[1], x[2]] }),
        yaw: match n[5] {
            0 => Yaw::Invalid,
            2 => Yaw::Degrees(x[3]),
            _ => Yaw::Absent,
        },
        clock: (n[6] == 1).then_some(ClockBlock { continuity: n[7], correction: x[4], error: n[8] }),
        biases: (n[9] == 1).then_some(Biases {
            phases_at: n[10] as usize,
            phases: n[11] as usize,
            codes_at: n[12] as usize,
            codes: n[13] as usize,
        }),
    };
    Ok(Satellite { number: n[0], blocks: (n[1] == 1).then_some(blocks) })
}

/// An area's grid: reference corner and spacings in degrees, counts of nodes.
#[derive(Clone, Copy, PartialEq, Debug)]
pub struct Grid {
    pub latitude: f64,
    pub longitude: f64,
    pub rows: u64,
    pub columns: u64,
    pub latitude_spacing: f64,
    pub longitude_spacing: f64,
}

/// The first block with this ID of a GAD sheet.
pub fn gad_area(id: u8, sheet: &[u64]) -> Result<Option<Grid>, Fault> {
    let (mut n, mut x) = ([0; 3], [0.0; 4]);
    placed(raw::gad_area(id, sheet, &mut n, &mut x), Unit::Entry)?;
    Ok((n[0] == 1).then_some(Grid {
        latitude: x[0],
        longitude: x[1],
        rows: n[1],
        columns: n[2],
        latitude_spacing: x[2],
        longitude_spacing: x[3],
    }))
}

/// An area of HPAC: SF039 and both SF040; its block starts at the sheet's entry `start`.
#[derive(Clone, Copy, PartialEq, Eq, Debug)]
pub struct HpacArea {
    pub start: usize,
    pub points: u64,
    pub troposphere_blocks: u64,
    pub ionosphere_blocks: u64,
}

/// The first block with this ID of an HPAC sheet.
pub fn hpac_area(subtype: u8, id: u8, sheet: &[u64]) -> Result<Option<HpacArea>, Fault> {
    let mut n = [0; 5];
    placed(raw::hpac_area(subtype, id, sheet, &mut n), Unit::Entry)?;
    Ok((n[0] == 1).then_some(HpacArea {
        start: n[1] as usize,
        points: n[2],
        troposphere_blocks: n[3],
        ionosphere_blocks: n[4],
    }))
}

/// An area of BPAC: its grid, its average VTEC in TECU; its block starts at the sheet's entry `start`.
#[derive(Clone, Copy, PartialEq, Debug)]
pub struct BpacArea {
    pub start: usize,
    pub grid: Grid,
    pub average: f64,
}

/// The first block with this BPAC area ID, 0 to 3, of a BPAC sheet. FIELD for an ID over 3 has no place.
pub fn bpac_area(id: u8, sheet: &[u64]) -> Result<Option<BpacArea>, Fault> {
    let (mut n, mut x) = ([0; 4], [0.0; 5]);
    placed(raw::bpac_area(id, sheet, &mut n, &mut x), Unit::Entry)?;
    Ok((n[0] == 1).then_some(BpacArea {
        start: n[1] as usize,
        grid: Grid {
            latitude: x[0],
            longitude: x[1],
            rows: n[2],
            columns: n[3],
            latitude_spacing: x[2],
            longitude_spacing: x[3],
        },
        average: x[4],
    }))
}

/// What a stream says.
#[derive(Clone, Copy, PartialEq, Eq, Debug)]
pub enum Event {
    /// all input is used and nothing is due
    Hungry,
    /// a frame, the bytes of `Stream::frame`
    Frame(Header),
    /// so many bytes of noise
    Noise(u64),
    /// after the end of the stream: all is told
    Done,
}

/// A stream's tray.
#[derive(Clone, Debug)]
pub struct Stream {
    bytes: [u8; LONGEST_FRAME],
    tray: [u64; 3],
}

impl Default for Stream {
    fn default() -> Self {
        Self::new()
    }
}

impl Stream {
    pub fn new() -> Stream {
        Stream { bytes: [0; LONGEST_FRAME], tray: [0; 3] }
    }

    /// Takes input until an event is due or all of it is used: the event, and how many bytes were used.
    pub fn call(&mut self, input: &[u8]) -> Result<(Event, usize), Refusal> {
        let (mut told, mut header) = ([0; 3], [0; 15]);
        let number = raw::stream_call(&mut self.bytes, &mut self.tray, input, &mut told, &mut header);
        answer(number, ()).map(|()| (event(&told, &header), told[1] as usize))
    }

    /// The stream has ended; called until it says done.
    pub fn finish(&mut self) -> Result<Event, Refusal> {
        let (mut told, mut header) = ([0; 3], [0; 15]);
        let number = raw::stream_finish(&mut self.bytes, &mut self.tray, &mut told, &mut header);
        answer(number, ()).map(|()| event(&told, &header))
    }

    /// The frame that was told last, while no other call was made.
    pub fn frame(&self) -> &[u8] {
        &self.bytes[..self.tray[1] as usize]
    }
}

fn event(told: &[u64; 3], header: &[u64; 15]) -> Event {
    match told[0] {
        0 => Event::Hungry,
        1 => Event::Frame(header_of(header)),
        2 => Event::Noise(told[2]),
        _ => Event::Done,
    }
}

/// An area book: AIOU, SIOU, count and the areas' bytes.
#[derive(Clone, Debug)]
pub struct Book {
    /// AIOU, SIOU + 1 or 0 if it is unknown, count of areas; without areas the first two are 0
    numbers: [u64; 3],
    bytes: [u8; BOOK_BYTES],
}

impl Default for Book {
    fn default() -> Self {
        Self::new()
    }
}

impl Book {
    /// an empty book
    pub fn new() -> Book {
        Book { numbers: [0; 3], bytes: [0; BOOK_BYTES] }
    }

    /// Takes a GAD payload, whole or not at all. One with another AIOU or another SIOU than the book's begins a new book, one
    /// with both the same adds to it; over a book of unknown SIOU every SIOU is another. A fault of the payload has its place,
    /// in bits; the book's refusals have none.
    pub fn take(&mut self, payload: &[u8]) -> Result<(), Fault> {
        placed(raw::book_take(&mut self.numbers, &mut self.bytes, payload), Unit::Bit)
    }

    /// SF068 of the GAD that filled the book; an empty book has none.
    pub fn aiou(&self) -> Option<u8> {
        (self.numbers[2] != 0).then_some(self.numbers[0] as u8)
    }

    /// SF005 of the GAD that filled the book; none if it is unknown, as in an empty book, and in one that an older version
    /// kept. No area of a book of unknown SIOU is ever placed: the next GAD that is taken begins a new one.
    pub fn siou(&self) -> Option<u16> {
        (self.numbers[1] != 0).then(|| (self.numbers[1] - 1) as u16)
    }

    /// The areas, six bytes each, ascending by ID.
    pub fn areas(&self) -> &[u8] {
        &self.bytes[..6 * self.numbers[2] as usize]
    }

    /// Writes the book as a kept book, of form 2, into `KEPT_ROOM` bytes or more: the bytes written.
    pub fn keep(&self, out: &mut [u8]) -> Result<usize, Refusal> {
        let mut written = [0];
        answer(raw::kept_write(&self.numbers, &self.bytes, out, &mut written), ())
            .map(|()| written[0] as usize)
    }

    /// The book that a kept book holds, of form 1 or 2; one of form 1 has an unknown SIOU.
    pub fn kept(kept: &[u8]) -> Result<Book, Refusal> {
        let mut book = Book::new();
        answer(raw::kept_read(kept, &mut book.numbers, &mut book.bytes), ())?;
        Ok(book)
    }

    /// The six bytes of the area with this ID.
    pub fn find(&self, id: u8) -> Option<[u8; 6]> {
        let (mut area, mut found) = ([0; 6], [0]);
        raw::book_find(&self.numbers, &self.bytes, id, &mut area, &mut found);
        (found[0] == 6).then_some(area)
    }
}

/// A desk: what it was made for, its live book and its run, with the bytes of both books, and the second of the last frame
/// that it accepted.
///
/// Each frame is handed in with the second it came in: a running count of seconds that the caller keeps, as of a clock that
/// nobody sets, and no second of the day. If 450 or more have passed since the last accepted frame, the frame is judged and
/// handled with an empty live book (SF068); if it is refused, the old book stays. Before the first accepted frame no time
/// counts as passed. An open run keeps its copy, which has no second: a message of its tag is told by it after any outage,
/// also one of 510 seconds, after which SF005 has the solution taken as changed, and one of twelve hours, after which the tag
/// comes round.
///
/// Every accepted frame counts, HPAC too: while HPAC messages alone keep coming, a live book is used however long ago its
/// GAD came. But it places by its own SIOU alone: where that of HPAC messages moves on, none of their areas is placed until a
/// GAD of the new SIOU has come and after it a run has opened.
///
/// The same count goes on over the life of a desk. An earlier second counts as that of the last accepted frame. So on a desk
/// that is kept over a restart of the machine or handed to another, where the count has another start, no gap is seen until
/// the new count has caught up with the old one; where it is 450 or more ahead, a gap is seen at once. A second that is too
/// far ahead, once, is kept if its frame is accepted, and hides gaps until the count has caught up with it, which may be
/// never. A clock that stands still while the machine sleeps, as `std::time::Instant` does on Linux, does not count that
/// time.
#[derive(Clone, Debug)]
pub struct Desk {
    numbers: [u64; 13],
    live: [u8; BOOK_BYTES],
    run: [u8; BOOK_BYTES],
}

impl Desk {
    /// A desk for one solution, processor and constellation (0 GPS to 4 QZSS), without a book, a run and a last accepted frame.
    pub fn new(solution: u8, processor: u8, constellation: u8) -> Result<Desk, Refusal> {
        let mut desk = Desk { numbers: [0; 13], live: [0; BOOK_BYTES], run: [0; BOOK_BYTES] };
        answer(raw::desk_new(solution, processor, constellation, &mut desk.numbers), ())?;
        Ok(desk)
    }

    /// Takes a frame with the second it came in, by the caller's running count, and with 4,096 bytes or more lent for the
    /// log: the bytes that it adds to the run log. A fault of the payload has its place, in bits from the payload's first on;
    /// SHORT without a place is the frame's own.
    pub fn take(&mut self, frame: &[u8], second: u64, log: &mut [u8]) -> Result<usize, Fault> {
        let mut written = [0];
        let answer = raw::desk_take(
            frame,
            second,
            &mut self.numbers,
            &mut self.live,
            &mut self.run,
            log,
            &mut written,
        );
        placed(answer, Unit::Bit).map(|()| written[0] as usize)
    }

    /// The second of the last accepted frame, as it counted; before the first one there is none. A refused frame moves none.
    pub fn last_second(&self) -> Option<u64> {
        (self.numbers[11] == 1).then_some(self.numbers[12])
    }

    /// Takes a book, as one that was kept, as the live book; an open run stays as it is, and so does the second of the last
    /// accepted frame. A book taken before any frame was accepted is used however old it is, since no frame has dated it;
    /// one taken later counts as old as the last accepted frame: if the next accepted one comes 450 seconds or more after
    /// that, the book is emptied, however new it is. One that an older version kept places nothing until a GAD comes.
    pub fn take_book(&mut self, book: &Book) -> Result<(), Refusal> {
        let number =
            raw::desk_take_book(&mut self.numbers, &mut self.live, &self.run, &book.numbers, &book.bytes);
        answer(number, ())
    }

    /// The live book, to be kept. After a gap it is the old one until a frame is accepted.
    pub fn book(&self) -> Book {
        Book { numbers: [self.numbers[3], self.numbers[4], self.numbers[5]], bytes: self.live }
    }

    /// The six bytes of the area with this ID, out of the run's book if a run is open, else out of the live book, which after
    /// a gap is the old one until a frame is accepted.
    pub fn find(&self, id: u8) -> Option<[u8; 6]> {
        let (mut area, mut found) = ([0; 6], [0]);
        raw::desk_find(&self.numbers, &self.live, &self.run, id, &mut area, &mut found);
        (found[0] == 6).then_some(area)
    }
}

// ---- stream and desk together

/// What a stream says whose frames go to a desk.
#[derive(Clone, Copy, PartialEq, Eq, Debug)]
pub enum Prepared {
    /// all input is used and nothing is due
    Hungry,
    /// a frame, the bytes of `Prepare::frame`, and what the desk said of it: a fault of its payload has its place, in bits
    Frame(Header, Result<(), Fault>),
    /// so many bytes of noise
    Noise(u64),
    /// after the end of the stream: all is told
    Done,
}

/// A stream, the desk that its frames go to, and the run log's entries of the last of them.
#[derive(Clone, Debug)]
pub struct Prepare {
    stream: Stream,
    desk: Desk,
    log: [u8; LOG_ROOM],
    logged: usize,
}

impl Prepare {
    /// The start of a stream to this desk.
    pub fn new(desk: Desk) -> Prepare {
        Prepare { stream: Stream::new(), desk, log: [0; LOG_ROOM], logged: 0 }
    }

    /// Takes input until an event is due or all of it is used: the event, and how many bytes were used. A frame that it tells
    /// is handed to the desk with this second, of the caller's running count as `Desk` says. A frame may be told by a later
    /// call than the one that brought its last byte; it then has the later second, and behind a stall it counts as come after
    /// the gap.
    pub fn call(&mut self, input: &[u8], second: u64) -> Result<(Prepared, usize), Refusal> {
        let (mut told, mut header) = ([0; 7], [0; 15]);
        let number = raw::prepare_call(
            &mut self.stream.bytes,
            &mut self.stream.tray,
            &mut self.desk.numbers,
            &mut self.desk.live,
            &mut self.desk.run,
            &mut self.log,
            input,
            second,
            &mut told,
            &mut header,
        );
        self.logged = told[4] as usize;
        answer(number, ())?;
        Ok((prepared(&told, &header), told[1] as usize))
    }

    /// The stream has ended; called until it says done. The second is as in `call`.
    pub fn finish(&mut self, second: u64) -> Result<Prepared, Refusal> {
        let (mut told, mut header) = ([0; 7], [0; 15]);
        let number = raw::prepare_finish(
            &mut self.stream.bytes,
            &mut self.stream.tray,
            &mut self.desk.numbers,
            &mut self.desk.live,
            &mut self.desk.run,
            &mut self.log,
            second,
            &mut told,
            &mut header,
        );
        self.logged = told[4] as usize;
        answer(number, ())?;
        Ok(prepared(&told, &header))
    }

    /// The frame that was told last, while no other call was made.
    pub fn frame(&self) -> &[u8] {
        self.stream.frame()
    }

    /// The entries that the last call added to the run log.
    pub fn log(&self) -> &[u8] {
        &self.log[..self.logged]
    }

    /// The desk as it is now.
    pub fn desk(&self) -> &Desk {
        &self.desk
    }
}

fn prepared(told: &[u64; 7], header: &[u64; 15]) -> Prepared {
    match told[0] {
        0 => Prepared::Hungry,
        1 => {
            let answer = told[3] + (told[5] << 8) + (told[6] << 32);
            Prepared::Frame(header_of(header), placed(answer, Unit::Bit))
        }
        2 => Prepared::Noise(told[2]),
        _ => Prepared::Done,
    }
}

// ---- the run log, read

/// T, the count of troposphere residuals, with their size code SF051.
#[derive(Clone, Copy, PartialEq, Eq, Debug)]
pub struct Troposphere {
    pub count: u64,
    pub size: u64,
}

/// An entry of the run log.
#[derive(Clone, Copy, PartialEq, Eq, Debug)]
pub enum Entry {
    /// a run was opened, with so many areas in its book, whose SIOU is not told
    Opened { tag: u64, aiou: Option<u8>, count: u64 },
    /// an area was placed: its 47 bits, its troposphere residuals if there are any, and so many satellites. Its grid has
    /// so many nodes: every satellite has one residual a node, also where there are no troposphere residuals.
    ///
    /// The 47 bits are SF031 (8 bits), SF032 (11), SF033 (12), SF034 (3), SF035 (3), SF036 (5) and SF037 (5), the first
    /// highest; `value` gives degrees for SF032, SF033, SF036 and SF037, and the counts of nodes for SF034 and SF035.
    Placed { id: u8, bits: u64, troposphere: Option<Troposphere>, satellites: u64, nodes: u64 },
    /// an area was left out for this reason, the first that applies of 1 the run has no book, 2 the message has another AIOU
    /// than the run's book, 5 it has another SIOU, or that of the book is unknown, 3 the ID is not in that book, 4 SF039
    /// differs from the area's count of nodes
    LeftOut { id: u8, reason: u64 },
}

/// A residual of an entry: invalid, or a float in its unit.
#[derive(Clone, Copy, PartialEq, Debug)]
pub enum Residual {
    Invalid,
    Metres(f64),
    Tecu(f64),
}

fn residual_of(what: &[u64; 2], value: &[f64; 1]) -> Residual {
    match what[0] {
        1 => Residual::Metres(value[0]),
        3 => Residual::Tecu(value[0]),
        _ => Residual::Invalid,
    }
}

/// The entry that the bytes begin with, and how many of them it takes. Bytes that are SHORT, `Refusal(1)`, may become an
/// entry when more bytes come behind them; those that are FORM, `Refusal(18)`, never will. An entry has at most 8,525 bytes.
pub fn read_entry(bytes: &[u8]) -> Result<(Entry, usize), Refusal> {
    let mut n = [0; 8];
    answer(raw::entry_read(bytes, &mut n), ())?;
    let entry = match n[0] {
        1 => Entry::Opened { tag: n[2], aiou: (n[3] != 0).then(|| (n[3] - 1) as u8), count: n[4] },
        2 => Entry::Placed {
            id: n[2] as u8,
            bits: n[3],
            troposphere: (n[4] != 0).then_some(Troposphere { count: n[4], size: n[5] }),
            satellites: n[6],
            nodes: n[7],
        },
        _ => Entry::LeftOut { id: n[2] as u8, reason: n[3] },
    };
    Ok((entry, n[1] as usize))
}

/// The troposphere residual at a node, from 0 on, of the entry that the bytes begin with: its code, and invalid or its metres.
pub fn entry_troposphere(bytes: &[u8], node: u64) -> Result<(u64, Residual), Refusal> {
    let (mut what, mut value) = ([0; 2], [0.0]);
    answer(raw::entry_troposphere(bytes, node, &mut what, &mut value), ())?;
    Ok((what[1], residual_of(&what, &value)))
}

/// Satellite k, from 0 on, of the entry that the bytes begin with: its number and its SF063 code.
pub fn entry_satellite(bytes: &[u8], k: u64) -> Result<(u64, u64), Refusal> {
    let mut n = [0; 2];
    answer(raw::entry_satellite(bytes, k, &mut n), ())?;
    Ok((n[0], n[1]))
}

/// The residual of satellite k at a node, both from 0 on, of the entry that the bytes begin with: its code, and invalid or
/// its TECU.
pub fn entry_residual(bytes: &[u8], k: u64, node: u64) -> Result<(u64, Residual), Refusal> {
    let (mut what, mut value) = ([0; 2], [0.0]);
    answer(raw::entry_residual(bytes, k, node, &mut what, &mut value), ())?;
    Ok((what[1], residual_of(&what, &value)))
}
