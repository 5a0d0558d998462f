//! The three sides of a race behind one face: the calls that ship, the careful Rust and the hurried
//! Rust (`Rust<true>`), each on the same lent slices.
use crate::desk::Lent;
use crate::homralgyu::raw;
use crate::prepare::Held;
use crate::{desk, entries, frame, payload, prepare, stream};

pub trait Side {
    /// It keeps every promise, so that all that it leaves is compared, refusals too.
    const CAREFUL: bool;
    fn frame_check(bytes: &[u8], header: &mut [u64]) -> u8;
    fn stream_call(t: &mut Tray, input: &[u8]) -> u8;
    fn stream_finish(t: &mut Tray) -> u8;
    fn payload_judge(kind: u8, subtype: u8, payload: &[u8], counts: &mut [u64]) -> u64;
    fn payload_read(kind: u8, subtype: u8, payload: &[u8], out: &mut Sheet) -> u64;
    fn sheet_judge(kind: u8, subtype: u8, sheet: &[u64], counts: &mut [u64]) -> u64;
    fn sheet_write(kind: u8, subtype: u8, sheet: &[u64], out: &mut Written) -> u64;
    fn desk_take(d: &mut Desk, frame: &[u8], second: u64) -> u64;
    fn prepare_call(t: &mut Tray, d: &mut Desk, input: &[u8], second: u64) -> u8;
    fn prepare_finish(t: &mut Tray, d: &mut Desk, second: u64) -> u8;
    fn entry_read(bytes: &[u8], entry: &mut [u64]) -> u8;
    fn entry_residual(bytes: &[u8], k: u64, node: u64, out: &mut Residual) -> u8;
}

/// A tray and what is told of it.
#[derive(Clone, PartialEq)]
pub struct Tray {
    pub bytes: [u8; 1103],
    pub tray: [u64; 3],
    pub told: [u64; 7],
    pub header: [u64; 15],
}

impl Tray {
    pub fn new() -> Tray {
        Tray { bytes: [0; 1103], tray: [0; 3], told: [0; 7], header: [0; 15] }
    }
}

#[derive(Clone, PartialEq)]
pub struct Sheet {
    pub sheet: Vec<u64>,
    pub counts: [u64; 2],
}

#[derive(Clone, PartialEq)]
pub struct Written {
    pub out: [u8; 1023],
    pub counts: [u64; 2],
}

#[derive(Clone, PartialEq)]
pub struct Desk {
    pub desk: [u64; desk::DESK],
    pub live: [u8; 192],
    pub run: [u8; 192],
    pub log: [u8; 4096],
    pub written: [u64; 1],
}

impl Desk {
    /// The desk that the made frames are for.
    pub fn new() -> Desk {
        let mut desk = [0; desk::DESK];
        (desk[0], desk[1]) = (5, 11);
        Desk { desk, live: [0; 192], run: [0; 192], log: [0; 4096], written: [0] }
    }

    fn lent(&mut self) -> (Lent<'_>, &mut [u64]) {
        let Desk { desk, live, run, log, written } = self;
        (Lent { desk, live, run, log }, written)
    }
}

#[derive(Clone, PartialEq, Debug)]
pub struct Residual {
    pub what: [u64; 2],
    pub value: [f64; 1],
}

pub struct Ours;

impl Side for Ours {
    const CAREFUL: bool = true;

    fn frame_check(bytes: &[u8], header: &mut [u64]) -> u8 {
        raw::frame_check(bytes, header)
    }

    fn stream_call(t: &mut Tray, input: &[u8]) -> u8 {
        raw::stream_call(&mut t.bytes, &mut t.tray, input, &mut t.told, &mut t.header)
    }

    fn stream_finish(t: &mut Tray) -> u8 {
        raw::stream_finish(&mut t.bytes, &mut t.tray, &mut t.told, &mut t.header)
    }

    fn payload_judge(kind: u8, subtype: u8, payload: &[u8], counts: &mut [u64]) -> u64 {
        raw::payload_judge(kind, subtype, payload, counts)
    }

    fn payload_read(kind: u8, subtype: u8, payload: &[u8], out: &mut Sheet) -> u64 {
        raw::payload_read(kind, subtype, payload, &mut out.sheet, &mut out.counts)
    }

    fn sheet_judge(kind: u8, subtype: u8, sheet: &[u64], counts: &mut [u64]) -> u64 {
        raw::sheet_judge(kind, subtype, sheet, counts)
    }

    fn sheet_write(kind: u8, subtype: u8, sheet: &[u64], out: &mut Written) -> u64 {
        raw::sheet_write(kind, subtype, sheet, &mut out.out, &mut out.counts)
    }

    fn desk_take(d: &mut Desk, frame: &[u8], second: u64) -> u64 {
        let Desk { desk, live, run, log, written } = d;
        raw::desk_take(frame, second, desk, live, run, log, written)
    }

    fn prepare_call(t: &mut Tray, d: &mut Desk, input: &[u8], second: u64) -> u8 {
        let Tray { bytes, tray, told, header } = t;
        let Desk { desk, live, run, log, .. } = d;
        raw::prepare_call(bytes, tray, desk, live, run, log, input, second, told, header)
    }

    fn prepare_finish(t: &mut Tray, d: &mut Desk, second: u64) -> u8 {
        let Tray { bytes, tray, told, header } = t;
        let Desk { desk, live, run, log, .. } = d;
        raw::prepare_finish(bytes, tray, desk, live, run, log, second, told, header)
    }

    fn entry_read(bytes: &[u8], entry: &mut [u64]) -> u8 {
        raw::entry_read(bytes, entry)
    }

    fn entry_residual(bytes: &[u8], k: u64, node: u64, out: &mut Residual) -> u8 {
        raw::entry_residual(bytes, k, node, &mut out.what, &mut out.value)
    }
}

pub struct Rust<const HURRIED: bool>;

impl<const HURRIED: bool> Side for Rust<HURRIED> {
    const CAREFUL: bool = !HURRIED;

    fn frame_check(bytes: &[u8], header: &mut [u64]) -> u8 {
        if HURRIED {
            frame::hurried_check(bytes, header)
        } else {
            frame::frame_check(bytes, header)
        }
    }

    fn stream_call(t: &mut Tray, input: &[u8]) -> u8 {
        let Tray { bytes, tray, told, header } = t;
        stream::stream_call::<HURRIED>(bytes, tray, input, told, header)
    }

    fn stream_finish(t: &mut Tray) -> u8 {
        let Tray { bytes, tray, told, header } = t;
        stream::stream_finish::<HURRIED>(bytes, tray, told, header)
    }

    fn payload_judge(kind: u8, subtype: u8, payload: &[u8], counts: &mut [u64]) -> u64 {
        payload::payload_judge(kind, subtype, payload, counts)
    }

    fn payload_read(kind: u8, subtype: u8, payload: &[u8], out: &mut Sheet) -> u64 {
        payload::payload_read::<HURRIED>(kind, subtype, payload, &mut out.sheet, &mut out.counts)
    }

    fn sheet_judge(kind: u8, subtype: u8, sheet: &[u64], counts: &mut [u64]) -> u64 {
        payload::sheet_judge(kind, subtype, sheet, counts)
    }

    fn sheet_write(kind: u8, subtype: u8, sheet: &[u64], out: &mut Written) -> u64 {
        payload::sheet_write::<HURRIED>(kind, subtype, sheet, &mut out.out, &mut out.counts)
    }

    fn desk_take(d: &mut Desk, frame: &[u8], second: u64) -> u64 {
        let (mut lent, written) = d.lent();
        desk::desk_take::<HURRIED>(frame, second, &mut lent, written)
    }

    fn prepare_call(t: &mut Tray, d: &mut Desk, input: &[u8], second: u64) -> u8 {
        let Tray { bytes, tray, told, header } = t;
        let held = &mut Held { bytes, tray, lent: d.lent().0, told, header };
        prepare::prepare_call::<HURRIED>(held, input, second)
    }

    fn prepare_finish(t: &mut Tray, d: &mut Desk, second: u64) -> u8 {
        let Tray { bytes, tray, told, header } = t;
        let held = &mut Held { bytes, tray, lent: d.lent().0, told, header };
        prepare::prepare_finish::<HURRIED>(held, second)
    }

    fn entry_read(bytes: &[u8], entry: &mut [u64]) -> u8 {
        entries::entry_read::<HURRIED>(bytes, entry)
    }

    fn entry_residual(bytes: &[u8], k: u64, node: u64, out: &mut Residual) -> u8 {
        entries::entry_residual::<HURRIED>(bytes, k, node, &mut out.what, &mut out.value)
    }
}
