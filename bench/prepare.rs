//! Stream and desk together in Rust. State is tested once a call, and a frame that the stream has
//! checked is not checked again for the desk.
use crate::book::BOOK;
use crate::desk::{self, Lent};
use crate::frame::{LONGEST_FRAME, ROOM};
use crate::stream::{self, event, Said, Told, STATE};

/// What both calls are lent beside the input.
pub struct Held<'a> {
    pub bytes: &'a mut [u8],
    pub tray: &'a mut [u64],
    pub lent: Lent<'a>,
    pub told: &'a mut [u64],
    pub header: &'a mut [u64],
}

impl Held<'_> {
    fn is_short(&self) -> bool {
        let Lent { desk, live, run, log } = &self.lent;
        self.tray.len() < 3
            || desk.len() < desk::DESK
            || self.told.len() < 7
            || self.header.len() < 15
            || self.bytes.len() < LONGEST_FRAME
            || live.len() < BOOK
            || run.len() < BOOK
            || log.len() < desk::LOG
    }

    fn is_sound(&self) -> bool {
        stream::is_sound(self.bytes, self.tray)
            && desk::is_sound(self.lent.desk, self.lent.live, self.lent.run)
    }

    fn tell<const TRUST: bool>(&mut self, said: Told, second: u64) {
        let mut told = [event(&said.said), said.used as u64, said.noise, 0, 0, 0, 0];
        if let Said::Frame(frame) = said.said {
            match desk::accept::<TRUST>(&frame, self.bytes, second, &mut self.lent) {
                Ok(written) => told[4] = written as u64,
                Err(why) => {
                    told[3] = why & 255;
                    told[5] = why >> 8 & 0xFF_FFFF;
                    told[6] = why >> 32;
                }
            }
            frame.put(self.header);
        }
        self.told[..7].copy_from_slice(&told);
    }
}

/// homralgyu_prepare_call.
#[inline(never)]
pub fn prepare_call<const TRUST: bool>(held: &mut Held, input: &[u8], second: u64) -> u8 {
    if held.is_short() {
        return ROOM;
    }
    if !TRUST && !held.is_sound() {
        return STATE;
    }
    let said = stream::go::<TRUST>(held.bytes, held.tray, input);
    held.tell::<TRUST>(said, second);
    0
}

/// homralgyu_prepare_finish.
#[inline(never)]
pub fn prepare_finish<const TRUST: bool>(held: &mut Held, second: u64) -> u8 {
    if held.is_short() {
        return ROOM;
    }
    if !TRUST && !held.is_sound() {
        return STATE;
    }
    let said = stream::end(held.bytes, held.tray);
    held.tell::<TRUST>(said, second);
    0
}
