//! Stream and desk together, one event a call.
//!
//! "Each frame event goes to the desk in order; the run log is its entries joined, and a refused
//! frame adds none." A call tests ROOM of every lent buffer, then STATE of tray and desk, then takes
//! its step. What the desk says of a frame is an event of the call with its number, not a refusal.
//! Document 02, request 1: the second "is an argument of each call and of finish, and counts for the
//! frame told by it"; a call that tells none makes nothing of it. Request 2: "In the joined call a refused
//! frame is an event, so what it tells gains SF number and bit."

use crate::answer::{number, stop, Place, Refusal};
use crate::book::BOOK_BYTES;
use crate::desk::{self, Desk, LOG_BYTES};
use crate::frame::LONGEST_FRAME;
use crate::stream::{self, Step, Tray};

/// What stands between two calls, beside the lent bytes.
#[derive(Clone, Copy, PartialEq, Eq, Debug)]
pub struct State {
    pub tray: Tray,
    pub desk: Desk,
}

/// What is lent to a call besides the portion.
pub struct Lent<'a> {
    pub tray: &'a mut [u8],
    pub live: &'a mut [u8],
    pub run: &'a mut [u8],
    pub log: &'a mut [u8],
}

#[derive(Clone, Copy, PartialEq, Eq, Debug)]
pub enum Event {
    Hungry,
    Done,
    Noise {
        count: u64,
    },
    /// a frame, what the desk said of it (0 for OK), where it went wrong if the desk says it, and the log
    /// bytes it wrote
    Frame {
        length: u64,
        type_: u64,
        subtype: u64,
        answer: u8,
        place: Option<Place>,
        logged: usize,
    },
}

/// The new state, what is said, and the bytes of the portion used.
#[derive(Clone, Copy, PartialEq, Eq, Debug)]
pub struct Prepared {
    pub state: State,
    pub event: Event,
    pub used: usize,
}

/// A new preparation: an empty tray (its lent bytes must be zeros) and a new desk.
pub fn new(solution: u64, processor: u64, constellation: u64) -> Result<State, Refusal> {
    Ok(State { tray: Tray::default(), desk: desk::new(solution, processor, constellation)? })
}

pub fn call(state: &State, lent: &mut Lent, portion: &[u8], second: u64) -> Result<Prepared, Refusal> {
    ready(state, lent)?;
    let step = stream::call(&state.tray, lent.tray, portion)?;
    told(state, lent, step, second)
}

pub fn finish(state: &State, lent: &mut Lent, second: u64) -> Result<Prepared, Refusal> {
    ready(state, lent)?;
    let step = stream::finish(&state.tray, lent.tray)?;
    told(state, lent, step, second)
}

fn ready(state: &State, lent: &Lent) -> Result<(), Refusal> {
    let room = lent.tray.len() >= LONGEST_FRAME
        && lent.live.len() >= BOOK_BYTES
        && lent.run.len() >= BOOK_BYTES
        && lent.log.len() >= LOG_BYTES;
    stop(!room, Refusal::Room)?;
    let sound = stream::sound(&state.tray, lent.tray) && desk::sound(&state.desk, lent.live, lent.run);
    stop(!sound, Refusal::State)
}

fn told(state: &State, lent: &mut Lent, step: Step, second: u64) -> Result<Prepared, Refusal> {
    let mut desk = state.desk;
    let event = match step.event {
        stream::Event::Hungry => Event::Hungry,
        stream::Event::Done => Event::Done,
        stream::Event::Noise { count } => Event::Noise { count },
        stream::Event::Frame { length, type_, subtype } => {
            let frame = &lent.tray[..step.tray.held as usize];
            let taken = desk::take(&desk, frame, second, lent.live, lent.run, lent.log);
            let logged = taken.map_or(0, |taken| taken.logged);
            desk = taken.map_or(desk, |taken| taken.desk);
            let place = taken.err().and_then(|refused| refused.place);
            Event::Frame { length, type_, subtype, answer: number(&taken), place, logged }
        }
    };
    Ok(Prepared { state: State { tray: step.tray, desk }, event, used: step.used })
}

#[cfg(test)]
mod tests {
    use super::*;
    use crate::frame::{assemble, Plain};

    #[test]
    fn a_refused_frame_is_an_event_and_adds_no_entry() {
        let mut input = vec![0xFF];
        for tag in [43199, 43200, 43199] {
            input.extend(plain(1, tag, &HPAC));
        }
        let (mut tray, mut live, mut run, mut log) =
            (vec![0; LONGEST_FRAME], vec![0; BOOK_BYTES], vec![0; BOOK_BYTES], vec![0; LOG_BYTES]);
        let mut lent = Lent { tray: &mut tray, live: &mut live, run: &mut run, log: &mut log };
        let mut state = new(5, 11, 0).unwrap();
        let mut joined = Vec::new();
        let mut answers = Vec::new();
        let mut at = 0;
        loop {
            let said = call(&state, &mut lent, &input[at..], 0).unwrap();
            state = said.state;
            at += said.used;
            match said.event {
                Event::Hungry => break,
                Event::Noise { count } => answers.push(100 + count as u8),
                Event::Frame { answer, logged, .. } => {
                    answers.push(answer);
                    joined.extend_from_slice(&lent.log[..logged]);
                }
                Event::Done => unreachable!(),
            }
        }
        assert_eq!(answers, [101, 0, 11, 0]);
        assert_eq!(joined, [0x01, 0xBF, 0xD1, 0x02, 0x00, 0x00, 0x03, 0x05, 0x01, 3, 5, 1]);
        let said = finish(&state, &mut lent, 0).unwrap();
        assert_eq!(said.event, Event::Done);
        assert_eq!(said.state.tray, Tray::default());
    }

    #[test]
    fn a_refused_frame_says_where_the_desk_says_it() {
        let mut bad = HPAC;
        bad[4] |= 0x30; // SF040 of 3, at bit 34
        let mut mask = [&HPAC[..], &[0; 5]].concat();
        mask[4] |= 0x04; // SF040 of the ionosphere 1, its mask empty at bit 43
        let told = [
            (plain(1, 7, &HPAC), 0, None),
            (plain(1, 7, &HPAC[..4]), 1, Some(Place { sf: 39, at: 27 })),
            (plain(1, 7, &bad), 8, Some(Place { sf: 40, at: 34 })),
            (plain(1, 7, &mask), 7, Some(Place { sf: 11, at: 43 })),
            (plain(2, 7, &GAD[..2]), 1, Some(Place { sf: 30, at: 14 })),
            (plain(1, 43200, &HPAC), 11, None),
            (plain(0, 7, &[0]), 12, None),
        ];
        let mut line = Line::new();
        for (frame, expected, where_) in told {
            let [tray, live, run, log] = &mut line.buffers;
            let mut lent = Lent { tray, live, run, log };
            let said = call(&line.state, &mut lent, &frame, 0).unwrap();
            line.state = said.state;
            let Event::Frame { answer, place, .. } = said.event else { panic!("{:?}", said.event) };
            assert_eq!((answer, place), (expected, where_));
        }
    }

    #[test]
    fn room_of_all_comes_before_the_state_of_any() {
        let mut state = new(5, 11, 0).unwrap();
        state.tray.held = 2000;
        state.desk.solution = 128;
        let sizes = [LONGEST_FRAME, BOOK_BYTES, BOOK_BYTES, LOG_BYTES];
        for short in 0..5 {
            let mut buffers: Vec<Vec<u8>> =
                sizes.iter().enumerate().map(|(i, &size)| vec![0; size - (i == short) as usize]).collect();
            let mut parts = buffers.iter_mut();
            let mut part = || &mut parts.next().unwrap()[..];
            let mut lent = Lent { tray: part(), live: part(), run: part(), log: part() };
            let expected = if short < 4 { Refusal::Room } else { Refusal::State };
            assert_eq!(call(&state, &mut lent, &[1], 0), Err(expected));
            assert_eq!(finish(&state, &mut lent, 0), Err(expected));
        }
    }
    /// A desk of solution 5 with the tray empty and both books as found; the log of each frame told.
    struct Line {
        state: State,
        buffers: [Vec<u8>; 4],
    }

    impl Line {
        fn new() -> Line {
            let sizes = [LONGEST_FRAME, BOOK_BYTES, BOOK_BYTES, LOG_BYTES];
            Line { state: new(5, 11, 0).unwrap(), buffers: sizes.map(|size| vec![0; size]) }
        }

        /// All of a portion, or finish to done, at a second: the logs of the frames told, the noise.
        fn at(&mut self, second: u64, portion: Option<&[u8]>) -> (Vec<Vec<u8>>, u64) {
            let (mut logs, mut noise, mut used) = (Vec::new(), 0, 0);
            loop {
                let [tray, live, run, log] = &mut self.buffers;
                let mut lent = Lent { tray, live, run, log };
                let said = match portion {
                    Some(portion) => call(&self.state, &mut lent, &portion[used..], second).unwrap(),
                    None => finish(&self.state, &mut lent, second).unwrap(),
                };
                self.state = said.state;
                used += said.used;
                match said.event {
                    Event::Hungry | Event::Done => return (logs, noise),
                    Event::Noise { count } => noise += count,
                    Event::Frame { answer, logged, .. } => {
                        assert_eq!(answer, 0);
                        logs.push(self.buffers[3][..logged].to_vec());
                    }
                }
            }
        }
    }

    fn plain(type_: u64, tag: u64, payload: &[u8]) -> Vec<u8> {
        let parts = Plain { type_, check_type: 0, subtype: 0, tag_kind: 0, tag, solution: 5, processor: 11 };
        assemble(&parts, None, payload, &[])
    }

    /// SIOU 0, AIOU 3, reserved 0, one area: ID 5, SF039 0, SF040 0 and 0
    const HPAC: [u8; 5] = [0b00000000, 0b00011000, 0b00000000, 0b10100000, 0];
    /// SIOU 0, AIOU 3, reserved 0, one area: ID 5, latitude 900, one node
    const GAD: [u8; 9] = [0b00000000, 0b00011000, 0b00000000, 0b10101110, 0b00010000, 0, 0, 0, 0];

    #[test]
    fn a_second_counts_for_the_frame_that_its_call_tells() {
        let next = plain(1, 7, &HPAC);
        let (first, second) = next.split_at(9);
        for (told_at, opened) in [(1449, [1, 7, 4, 1, 2]), (1450, [1, 7, 0, 0, 3])] {
            let mut line = Line::new();
            assert_eq!(line.at(1000, Some(&plain(2, 0, &GAD))), (vec![vec![]], 0));
            // noise and the first half of a frame: no frame is told, so these seconds don't count
            assert_eq!(line.at(u64::MAX, Some(&[0, 0, 0])), (vec![], 0));
            assert_eq!(line.at(1100, Some(first)), (vec![], 0));
            assert_eq!(line.at(u64::MAX, Some(&[])), (vec![], 0));
            assert_eq!(line.state.desk.last, desk::Last::At(1000));
            let (logs, noise) = line.at(told_at, Some(second));
            assert_eq!((&logs[0][..5], noise), (&opened[..], 3));
            assert_eq!(line.state.desk.last, desk::Last::At(told_at));
        }
    }

    #[test]
    fn the_second_of_finish_counts_for_the_frames_that_finish_tells() {
        // two frames inside one that ends before its check does
        let inner = [plain(1, 7, &HPAC), plain(1, 8, &HPAC)].concat();
        let mut outer = plain(9, 0, &inner);
        outer.pop();
        for (finished_at, opened) in [(1449, [4, 1]), (1450, [0, 0])] {
            let mut line = Line::new();
            line.at(1000, Some(&plain(2, 0, &GAD)));
            assert_eq!(line.at(1001, Some(&outer)), (vec![], 0));
            assert_eq!(line.state.desk.last, desk::Last::At(1000));
            let (logs, noise) = line.at(finished_at, None);
            assert_eq!((logs.len(), noise), (2, (outer.len() - inner.len()) as u64));
            assert_eq!(logs[0][..4], [&[1, 7], &opened[..]].concat());
            // no time passes between the two, but the book is gone
            assert_eq!(logs[1][..4], [&[1, 8], &opened[..]].concat());
            assert_eq!(line.state.desk.last, desk::Last::At(finished_at));
        }
    }
}
