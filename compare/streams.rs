//! Streams told portion by portion, and trays of every kind.

use crate::frames::header_of;
use crate::judge::{hex, Input, Judge};
use crate::lent;
use crate::types;
use homralgyu::raw;
use second::answer::number;
use second::frame::LONGEST_FRAME;
use second::frame;
use second::generate::*;
use second::stream::{self, Event, Step, Tray};

/// The buffers of a call beside the tray's bytes.
struct Places {
    tray: usize,
    told: usize,
    header: usize,
}

/// One call on both sides: the tray and its bytes go on. None if it was refused.
fn step(
    rng: &mut Rng,
    judge: &mut Judge,
    tray: &mut Tray,
    bytes: &mut Vec<u8>,
    portion: Option<&[u8]>,
    places: &Places,
) -> Option<Step> {
    let (old_tray, old_bytes) = (*tray, bytes.clone());
    let said = || {
        let portion = portion.map_or("finish".to_string(), |p| format!("portion {}", hex(p)));
        let (t, o, h) = (places.tray, places.told, places.header);
        format!("{old_tray:?} bytes {} {portion}, places {t} {o} {h}", hex(&old_bytes))
    };
    let input = Input { call: if portion.is_some() { "stream_call" } else { "stream_finish" }, said: &said };
    let mut numbers = vec![tray.held, tray.shown, tray.noise, rng.draw()];
    numbers.truncate(places.tray);
    let (told, header) = (lent_entries(rng, places.told), lent_entries(rng, places.header));
    let mut our_bytes = lent::bytes(bytes);
    let (mut our_tray, mut our_told, mut our_header) =
        (lent::numbers(&numbers), lent::numbers(&told), lent::numbers(&header));
    let answer = match portion {
        Some(portion) => {
            raw::stream_call(our_bytes.part(), our_tray.part(), portion, our_told.part(), our_header.part())
        }
        None => raw::stream_finish(our_bytes.part(), our_tray.part(), our_told.part(), our_header.part()),
    };
    let (mut told, mut header) = (told, header);
    let mut went = None;
    if places.tray < 3 || places.told < 3 || places.header < 15 {
        judge.number(&input, answer, 9);
    } else {
        let result = match portion {
            Some(portion) => stream::call(tray, bytes, portion),
            None => stream::finish(tray, bytes),
        };
        judge.number(&input, answer, number(&result));
        if let Ok(done) = result {
            *tray = done.tray;
            numbers[..3].copy_from_slice(&[tray.held, tray.shown, tray.noise]);
            let (event, noise) = match done.event {
                Event::Hungry => (0, 0),
                Event::Frame { .. } => (1, 0),
                Event::Noise { count } => (2, count),
                Event::Done => (3, 0),
            };
            told[..3].copy_from_slice(&[event, done.used as u64, noise]);
            if let Event::Frame { length, .. } = done.event {
                let shown = frame::check(bytes).expect("a shown frame is accepted");
                judge.same(&input, "the length of the frame shown", &(shown.length as u64), &length);
                header[..15].copy_from_slice(&header_of(&shown));
                types::framed(judge, "stream: a TBD type", bytes);
            }
            went = Some(done);
        }
    }
    judge.lent(&input, "the tray's bytes", &our_bytes, bytes);
    judge.lent(&input, "the tray's numbers", &our_tray, &numbers);
    judge.lent(&input, "what was told", &our_told, &told);
    judge.lent(&input, "the header", &our_header, &header);
    went
}

const ENOUGH: Places = Places { tray: 3, told: 3, header: 15 };

/// A whole stream, cut anyhow, from a fresh tray to done.
pub fn whole(rng: &mut Rng, judge: &mut Judge, input: &[u8]) {
    let cuts = cutting(rng, input.len());
    let mut tray = Tray::default();
    let mut bytes = vec![0; LONGEST_FRAME];
    let mut rest = input;
    for size in cuts.into_iter().chain([usize::MAX]) {
        let (mut portion, behind) = rest.split_at(size.min(rest.len()));
        rest = behind;
        loop {
            let went = step(rng, judge, &mut tray, &mut bytes, Some(portion), &ENOUGH).expect("a sound tray");
            portion = &portion[went.used..];
            if went.event == Event::Hungry {
                break;
            }
        }
    }
    loop {
        let went = step(rng, judge, &mut tray, &mut bytes, None, &ENOUGH).expect("a sound tray");
        if went.event == Event::Done {
            break;
        }
    }
}

pub fn plain(rng: &mut Rng, judge: &mut Judge) {
    let input = stream(rng);
    whole(rng, judge, &input);
}

/// Noise beyond 65,535.
pub fn noisy(rng: &mut Rng, judge: &mut Judge) {
    let input = noisy_stream(rng);
    whole(rng, judge, &input);
}

/// One call on a tray of any kind, with buffers of any size.
pub fn odd(rng: &mut Rng, judge: &mut Judge) {
    let (mut tray, mut bytes) = if rng.one_in(2) { unsound_tray(rng) } else { tray(rng) };
    if rng.one_in(12) {
        let size = buffer_size(rng, LONGEST_FRAME);
        bytes.resize(size, 0);
    }
    let places = if rng.one_in(8) {
        Places {
            tray: rng.pick(&[0, 2, 3, 4]),
            told: rng.pick(&[0, 2, 3, 4]),
            header: rng.pick(&[0, 14, 15, 16]),
        }
    } else {
        ENOUGH
    };
    let portion = match rng.below(4) {
        0 => Vec::new(),
        1 => odd_frame(rng),
        2 => frame(rng),
        _ => {
            let size = rng.below(50) as usize;
            noise(rng, size)
        }
    };
    let portion = if rng.one_in(3) { None } else { Some(&portion[..]) };
    step(rng, judge, &mut tray, &mut bytes, portion, &places);
}
