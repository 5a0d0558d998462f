//! Stream and desk together: portion by portion, each call with its second, with trays and desks of every kind.

use crate::desks::same_table;
use crate::entries;
use crate::frames::header_of;
use crate::judge::{hex, Input, Judge};
use crate::lent;
use crate::marks;
use crate::tables::{self, Table};
use crate::types;
use homralgyu::raw;
use second::answer::{number, Place, Refusal};
use second::desk::LOG_BYTES;
use second::desk;
use second::frame::LONGEST_FRAME;
use second::frame::{self, assemble};
use second::generate::*;
use second::prepare::{self, Event, Prepared, State};
use second::stream::{self, Tray};

/// The sizes of a call's buffers beside the tray's bytes and the desk.
struct Places {
    tray: usize,
    log: usize,
    told: usize,
    header: usize,
}

/// What is told: event, bytes used, noise, what the desk said, bytes of the log, SF number and bit.
const TOLD: usize = 7;

const ENOUGH: Places = Places { tray: 3, log: LOG_BYTES, told: TOLD, header: 15 };

/// What goes on from call to call.
struct Job {
    tray: Tray,
    bytes: Vec<u8>,
    table: Table,
    /// the second and the answer, number and place, of each frame that was told, and the log so far
    told: Vec<(u64, u64)>,
    log: Vec<u8>,
}

impl Job {
    fn new(tray: Tray, bytes: Vec<u8>, table: Table) -> Job {
        Job { tray, bytes, table, told: Vec::new(), log: Vec::new() }
    }

    /// Will the call tell a frame? Asked of the second program's tray, on a copy.
    fn tells_frame(&self, portion: Option<&[u8]>) -> bool {
        let mut bytes = self.bytes.clone();
        let step = match portion {
            Some(portion) => stream::call(&self.tray, &mut bytes, portion),
            None => stream::finish(&self.tray, &mut bytes),
        };
        step.is_ok_and(|step| matches!(step.event, stream::Event::Frame { .. }))
    }
}

/// Where the seconds of a stream come from.
enum Seconds<'a> {
    /// each portion has one, and finish one
    OfPortions,
    /// each frame has its own; a call that tells none is handed any
    OfFrames(&'a [(u64, u64)]),
}

/// One call on both sides: the job goes on. None if it was refused.
fn step(
    rng: &mut Rng,
    judge: &mut Judge,
    job: &mut Job,
    (portion, second): (Option<&[u8]>, u64),
    places: &Places,
) -> Option<Prepared> {
    let (old_tray, old_bytes, old_table) = (job.tray, job.bytes.clone(), job.table.clone());
    let said = || {
        let portion = portion.map_or("finish".to_string(), |p| format!("portion {}", hex(p)));
        let (t, l, o, h) = (places.tray, places.log, places.told, places.header);
        let (bytes, table) = (hex(&old_bytes), old_table.said());
        format!("{old_tray:?} bytes {bytes}, {table}, {portion}, second {second}, places {t} {l} {o} {h}")
    };
    let call = if portion.is_some() { "prepare_call" } else { "prepare_finish" };
    let input = Input { call, said: &said };
    let mut numbers = vec![job.tray.held, job.tray.shown, job.tray.noise, rng.draw()];
    numbers.truncate(places.tray);
    let mut log = vec![rng.draw() as u8; places.log];
    let (mut told, mut header) = (lent_entries(rng, places.told), lent_entries(rng, places.header));
    let (mut our_bytes, mut our_tray) = (lent::bytes(&job.bytes), lent::numbers(&numbers));
    let (mut ours, mut our_log) = (job.table.lend(), lent::bytes(&log));
    let (mut our_told, mut our_header) = (lent::numbers(&told), lent::numbers(&header));
    let answer = match portion {
        Some(portion) => raw::prepare_call(
            our_bytes.part(),
            our_tray.part(),
            ours.numbers.part(),
            ours.live.part(),
            ours.run.part(),
            our_log.part(),
            portion,
            second,
            our_told.part(),
            our_header.part(),
        ),
        None => raw::prepare_finish(
            our_bytes.part(),
            our_tray.part(),
            ours.numbers.part(),
            ours.live.part(),
            ours.run.part(),
            our_log.part(),
            second,
            our_told.part(),
            our_header.part(),
        ),
    };
    let result = match job.table.desk() {
        Some(desk) if places.tray >= 3 && places.told >= TOLD && places.header >= 15 => {
            let state = State { tray: job.tray, desk };
            let mut lent = prepare::Lent {
                tray: &mut job.bytes,
                live: &mut job.table.live,
                run: &mut job.table.run,
                log: &mut log,
            };
            match portion {
                Some(portion) => prepare::call(&state, &mut lent, portion, second),
                None => prepare::finish(&state, &mut lent, second),
            }
        }
        _ => Err(Refusal::Room),
    };
    judge.number(&input, answer, number(&result));
    if let Ok(done) = &result {
        marks::event(judge, &done.event);
        job.tray = done.state.tray;
        job.table.put(&done.state.desk);
        numbers[..3].copy_from_slice(&[job.tray.held, job.tray.shown, job.tray.noise]);
        told[..TOLD].copy_from_slice(&told_of(done));
        if let Event::Frame { length, answer, place, logged, .. } = done.event {
            let shown = frame::check(&job.bytes).expect("a shown frame is accepted");
            judge.same(&input, "the length of the frame shown", &(shown.length as u64), &length);
            header[..15].copy_from_slice(&header_of(&shown));
            let in_one = in_one(answer, place);
            judge.count_answer("prepare, of a frame", in_one);
            if answer == Refusal::NotOurs.number() {
                types::framed(judge, "prepare: NOT_OURS, a TBD type", &job.bytes);
            }
            job.table.past = marks::second_given(judge, &old_table, &job.bytes, second, answer);
            let before = old_table.desk().expect("a desk that was shown a frame");
            if answer == 0 && !desk::gap(&before, second) {
                marks::frame_taken(judge, &job.bytes, &before, &done.state.desk, &log[..logged]);
            }
            if portion.is_none() {
                judge.mark("second: a frame told by finish");
            }
            if portion.is_none() && place.is_some() {
                judge.mark("place: of a frame told by finish");
            }
            job.told.push((second, in_one));
            job.log.extend_from_slice(&our_log.now()[..logged]);
        }
    }
    judge.lent(&input, "the tray's bytes", &our_bytes, &job.bytes);
    judge.lent(&input, "the tray's numbers", &our_tray, &numbers);
    same_table(judge, &input, &ours, &job.table);
    judge.lent(&input, "the log", &our_log, &log);
    judge.lent(&input, "what was told", &our_told, &told);
    judge.lent(&input, "the header", &our_header, &header);
    if let (Ok(Prepared { event: Event::Frame { logged, .. }, .. }), true) = (&result, rng.one_in(2)) {
        entries::log(rng, judge, &our_log.now()[..*logged]);
    }
    result.ok()
}

/// Event, bytes used, noise, what the desk said, bytes of the log; SF number and bit of a frame refused with a place.
fn told_of(done: &Prepared) -> [u64; TOLD] {
    let used = done.used as u64;
    match done.event {
        Event::Hungry => [0, used, 0, 0, 0, 0, 0],
        Event::Frame { answer, place, logged, .. } => {
            let (sf, bit) = place.map_or((0, 0), |place| (place.sf as u64, place.at as u64));
            [1, used, 0, answer as u64, logged as u64, sf, bit]
        }
        Event::Noise { count } => [2, used, count, 0, 0, 0, 0],
        Event::Done => [3, used, 0, 0, 0, 0, 0],
    }
}

/// What the desk said of a frame, number and place in one.
fn in_one(answer: u8, place: Option<Place>) -> u64 {
    place.map_or(answer as u64, |place| answer as u64 + ((place.sf as u64) << 8) + ((place.at as u64) << 32))
}

/// Frames for one desk as a stream, with noise, nested and cut frames between them.
pub fn whole(rng: &mut Rng, judge: &mut Judge) {
    let most = rng.pick(&[3, 10, 25]);
    let count = rng.between(1, most);
    let mut scene = scene_of(rng, count);
    for frame in &mut scene.frames {
        if rng.one_in(10) && frame.len() <= 1000 {
            *frame = around(rng, frame);
        }
    }
    let mut input = joined(rng, &scene.frames);
    if rng.one_in(3) {
        // the last frame lies in one that ends too soon, so finish tells it
        let last = scene.frames.iter().rev().take(3).find(|frame| frame.len() <= 1000);
        input.extend(last.map_or(Vec::new(), |frame| unfinished(rng, frame)));
    }
    prepare_all(rng, judge, &scene, &input);
}

/// Noise beyond 65,535 before the desk's frames.
pub fn noisy(rng: &mut Rng, judge: &mut Judge) {
    let scene = scene_of(rng, 3);
    let mut input = noisy_stream(rng);
    input.extend(joined(rng, &scene.frames));
    prepare_all(rng, judge, &scene, &input);
}

/// A frame around a frame: found inside if the outer check is wrong, passed over if it is right.
fn around(rng: &mut Rng, inner: &[u8]) -> Vec<u8> {
    let parts = parts(rng);
    let mut outer = assemble(&parts, None, inner, &[]);
    if !rng.one_in(4) {
        let last = outer.len() - 1;
        outer[last] ^= 1;
    }
    outer
}

/// A frame around a frame, that ends before its own check does.
fn unfinished(rng: &mut Rng, inner: &[u8]) -> Vec<u8> {
    let parts = parts(rng);
    let mut outer = assemble(&parts, None, inner, &[]);
    let check = parts.check_type + 1;
    outer.truncate(outer.len() - rng.between(1, check) as usize);
    outer
}

/// A stream cut anyhow, from a fresh tray and a new desk to done; then in another cutting, where frame i has the second
/// that it had in the first: the same answers and the same log, and the same is left.
fn prepare_all(rng: &mut Rng, judge: &mut Judge, scene: &Scene, input: &[u8]) {
    let made = desk::new(scene.solution, scene.processor, scene.constellation).expect("in range");
    let table = tables::fresh(rng, &made);
    let one = prepare_cut(rng, judge, &table, input, Seconds::OfPortions);
    let two = prepare_cut(rng, judge, &table, input, Seconds::OfFrames(&one.told));
    let said = || format!("{}, stream {}, frames {:?}", table.said(), hex(input), one.told);
    let input = Input { call: "prepare_call", said: &said };
    judge.same(&input, "seconds and answers of two cuttings", &one.told, &two.told);
    judge.same(&input, "the log of two cuttings", &one.log, &two.log);
    judge.same(&input, "the desk's numbers of two cuttings", &one.table.numbers, &two.table.numbers);
    judge.same(&input, "the live book of two cuttings", &one.table.live, &two.table.live);
    judge.same(&input, "the run's book of two cuttings", &one.table.run, &two.table.run);
    if one.told.len() > 1 {
        judge.mark("second: the same in two cuttings");
    }
}

/// One cutting.
fn prepare_cut(rng: &mut Rng, judge: &mut Judge, table: &Table, input: &[u8], seconds: Seconds) -> Job {
    let mut job = Job::new(Tray::default(), vec![0; LONGEST_FRAME], table.clone());
    let cuts = cutting(rng, input.len());
    let mut rest = input;
    let mut latest = first_second(rng);
    // of many small portions most have the second of the one before, so that books grow between two gaps
    let tenth = cuts.len() as u64 / 10 + 1;
    let (gaps, steps) = (tenth * rng.pick(&[3, 10]), tenth * 2);
    // none is finish
    for size in cuts.into_iter().chain([usize::MAX]).map(Some).chain([None]) {
        let of_portion = match size {
            _ if rng.one_in(gaps) => gap_second(rng, latest).unwrap_or(latest),
            None if rng.one_in(2) => next_second(rng, latest),
            _ if rng.one_in(steps) => near_second(rng, latest),
            _ => latest,
        };
        latest = latest.max(of_portion);
        let mut portion = size.map(|size| {
            let (portion, behind) = rest.split_at(size.min(rest.len()));
            rest = behind;
            portion
        });
        loop {
            let second = match seconds {
                Seconds::OfPortions => of_portion,
                Seconds::OfFrames(of) if job.tells_frame(portion) => {
                    of.get(job.told.len()).map_or(0, |(second, _)| *second)
                }
                Seconds::OfFrames(_) => first_second(rng),
            };
            let before = job.table.desk().expect("thirteen numbers");
            let went = step(rng, judge, &mut job, (portion, second), &ENOUGH).expect("a sound job");
            portion = portion.map(|portion| &portion[went.used..]);
            match went.event {
                Event::Hungry | Event::Done => break,
                Event::Frame { answer: 0, .. } if desk::gap(&before, second) && before.live.count > 0 => {
                    judge.mark(match (&seconds, portion) {
                        (Seconds::OfPortions, Some(_)) => "gap: before another portion",
                        (Seconds::OfPortions, None) => "gap: at finish",
                        (Seconds::OfFrames(_), _) => "gap: in another cutting",
                    });
                }
                _ => {}
            }
        }
    }
    job
}

/// One call on a tray and a desk of any kind, with buffers of any size.
pub fn odd(rng: &mut Rng, judge: &mut Judge) {
    let table = tables::any(rng);
    let (tray, bytes) = match rng.below(4) {
        0 => unsound_tray(rng),
        1 => {
            // a frame of the desk is held, not shown yet
            let frame = table.frame(rng);
            let mut bytes = frame.clone();
            bytes.resize(LONGEST_FRAME, 0);
            (Tray { held: frame.len().min(LONGEST_FRAME) as u64, shown: 0, noise: rng.below(2) }, bytes)
        }
        _ => tray(rng),
    };
    let mut job = Job::new(tray, bytes, table);
    if rng.one_in(12) {
        let size = buffer_size(rng, LONGEST_FRAME);
        job.bytes.resize(size, 0);
    }
    let places = if rng.one_in(8) {
        Places {
            tray: rng.pick(&[0, 2, 3, 3, 4]),
            log: buffer_size(rng, LOG_BYTES),
            told: rng.pick(&[0, 5, 6, 7, 7, 8]),
            header: rng.pick(&[0, 14, 15, 15, 16]),
        }
    } else {
        ENOUGH
    };
    let mut portion = match rng.below(4) {
        0 => Vec::new(),
        1 => odd_frame(rng),
        _ => job.table.frame(rng),
    };
    if rng.one_in(4) {
        let more = rng.below(20) as usize;
        portion.extend(noise(rng, more));
    }
    let portion = if rng.one_in(3) { None } else { Some(&portion[..]) };
    let second = job.table.second(rng);
    step(rng, judge, &mut job, (portion, second), &places);
}
