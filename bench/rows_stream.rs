//! Rows of frames: found in a stream, checked where they lie, and prepared.
use crate::made::{self, Random};
use crate::race::Tables;
use crate::sides::{Desk, Ours, Rust, Side, Tray};
use std::hint::black_box;

/// What is kept of an event: the answer, the tray's numbers, what was told, a frame's header.
type Event = (u8, [u64; 3], [u64; 7], [u64; 15]);

/// A stream in portions until all is told; each event is handed on.
fn listen<S: Side>(t: &mut Tray, stream: &[u8], portion: usize, mut event: impl FnMut(&Tray, u8)) {
    for part in stream.chunks(portion) {
        let mut rest = part;
        loop {
            let answer = S::stream_call(t, black_box(rest));
            event(t, answer);
            if t.told[0] == 0 {
                break;
            }
            rest = &rest[t.told[1] as usize..];
        }
    }
    loop {
        let answer = S::stream_finish(t);
        event(t, answer);
        if t.told[0] == 3 {
            break;
        }
    }
}

/// The same into a desk. A call's second is its running number over so many.
fn prepare<S: Side>(
    t: &mut Tray,
    d: &mut Desk,
    stream: &[u8],
    portion: usize,
    mut event: impl FnMut(&Tray, &Desk, u8),
) {
    for (i, part) in stream.chunks(portion).enumerate() {
        let second = (i * portion / 1600) as u64;
        let mut rest = part;
        loop {
            let answer = S::prepare_call(t, d, black_box(rest), second);
            event(t, d, answer);
            if t.told[0] == 0 {
                break;
            }
            rest = &rest[t.told[1] as usize..];
        }
    }
    loop {
        let answer = S::prepare_finish(t, d, stream.len() as u64);
        event(t, d, answer);
        if t.told[0] == 3 {
            break;
        }
    }
}

/// All events of a side; with every byte of the tray where it is careful.
fn events<S: Side>(stream: &[u8], portion: usize) -> (Vec<Event>, u64) {
    let (mut all, mut trays) = (vec![], 0u64);
    listen::<S>(&mut Tray::new(), stream, portion, |t, answer| {
        all.push((answer, t.tray, t.told, t.header));
        let held = if S::CAREFUL { 1103 } else { t.tray[0] as usize };
        trays = t.bytes[..held]
            .iter()
            .enumerate()
            .filter(|(_, byte)| **byte != 0)
            .fold(trays, |sum, (i, &byte)| {
                sum.wrapping_mul(31).wrapping_add(i as u64 ^ byte as u64)
            });
    });
    (all, trays)
}

fn agree(name: &str, stream: &[u8], portion: usize) {
    let ours = events::<Ours>(stream, portion);
    assert!(ours == events::<Rust<false>>(stream, portion), "{name}: the careful side differs");
    let hurried = events::<Rust<true>>(stream, portion);
    assert!(ours == hurried, "{name}: the hurried side differs");
}

/// A row of a stream in portions.
pub fn listen_row(tables: &Tables, name: &str, stream: &[u8], portion: usize) {
    let stream = &stream[..stream.len().min(if portion == 1 { 16 << 10 } else { usize::MAX })];
    agree(name, &stream[..stream.len().min(64 << 10)], portion);
    let (mut a, mut b, mut c) = (Tray::new(), Tray::new(), Tray::new());
    tables.race(
        name,
        stream.len() as f64,
        [
            &mut || listen::<Ours>(&mut a, stream, portion, |_, _| {}),
            &mut || listen::<Rust<false>>(&mut b, stream, portion, |_, _| {}),
            &mut || listen::<Rust<true>>(&mut c, stream, portion, |_, _| {}),
        ],
    );
}

/// All events of a side, each with a number for what desk, books, log and tray have.
fn prepared<S: Side>(stream: &[u8], portion: usize) -> Vec<(Event, u64)> {
    let mut all = vec![];
    prepare::<S>(&mut Tray::new(), &mut Desk::new(), stream, portion, |t, d, answer| {
        let held = [&t.bytes[..], &d.live, &d.run, &d.log].concat();
        let sum =
            held.iter().fold(0, |sum: u64, &byte| sum.wrapping_mul(31).wrapping_add(byte as u64));
        let sum = d.desk.iter().fold(sum, |sum, &number| sum.wrapping_mul(31).wrapping_add(number));
        all.push(((answer, t.tray, t.told, t.header), sum));
    });
    all
}

/// The hurried side is compared up to the first message that the desk refuses after its bits were
/// read, since it has written by then.
fn agree_prepared(stream: &[u8], portion: usize) {
    let ours = prepared::<Ours>(stream, portion);
    let careful = prepared::<Rust<false>>(stream, portion);
    assert!(ours == careful, "prepare: the careful side differs");
    for (i, (ours, hurried)) in ours.iter().zip(prepared::<Rust<true>>(stream, portion)).enumerate()
    {
        if [1, 7, 8, 11, 13, 14, 15].contains(&ours.0 .2[3]) {
            break;
        }
        assert!(ours.0 == hurried.0, "prepare: the hurried side differs at event {i}");
    }
}

pub fn stream(tables: &Tables) {
    let random = &mut Random::new();
    let size = 128 << 10;
    let streams = [
        ("full frames", made::frames(random, 1000, size)),
        ("short frames", made::frames(random, 40, size)),
        ("noise", made::noise(random, size)),
        ("random bytes", random.bytes(size)),
        ("preambles alone", vec![0x73; size]),
        ("a mix", made::mix(random, size)),
    ];
    tables.head("Finding frames", "a byte");
    for (name, stream) in &streams {
        for portion in [1, 64, 4096] {
            listen_row(tables, &format!("{name}, portions of {portion}"), stream, portion);
        }
    }
}

pub fn prepare_rows(tables: &Tables) {
    let stream = made::mix(&mut Random::new(), 128 << 10);
    tables.head("Preparing", "a byte");
    for portion in [1, 64, 4096] {
        let stream = &stream[..if portion == 1 { 16 << 10 } else { stream.len() }];
        agree_prepared(&stream[..stream.len().min(32 << 10)], portion);
        let mut trays = [Tray::new(), Tray::new(), Tray::new()];
        let mut desks = [Desk::new(), Desk::new(), Desk::new()];
        let [a, b, c] = &mut trays;
        let [x, y, z] = &mut desks;
        tables.race(
            &format!("a mix, portions of {portion}"),
            stream.len() as f64,
            [
                &mut || prepare::<Ours>(a, x, stream, portion, |_, _, _| {}),
                &mut || prepare::<Rust<false>>(b, y, stream, portion, |_, _, _| {}),
                &mut || prepare::<Rust<true>>(c, z, stream, portion, |_, _, _| {}),
            ],
        );
    }
}

fn check<S: Side>(frame: &[u8]) {
    let mut header = [0; 15];
    black_box(S::frame_check(black_box(frame), &mut header));
    black_box(&header);
}

fn checked<S: Side>(frame: &[u8]) -> (u8, [u64; 15]) {
    let mut header = [9; 15];
    (S::frame_check(frame, &mut header), header)
}

pub fn frames(tables: &Tables) {
    let random = &mut Random::new();
    tables.head("Checking a frame", "a frame");
    for (name, size) in [("1,000 bytes of payload", 1000), ("40 bytes of payload", 40)] {
        for kind in 0..4 {
            let frame = made::framed(1, kind, 7, &random.bytes(size));
            // as it is, cut anywhere, and with any byte damaged
            for end in 0..=frame.len() {
                assert_eq!(checked::<Ours>(&frame[..end]), checked::<Rust<false>>(&frame[..end]));
            }
            for at in 0..frame.len() {
                let mut damaged = frame.clone();
                damaged[at] ^= 1 << (at % 8);
                assert_eq!(checked::<Ours>(&damaged), checked::<Rust<false>>(&damaged));
            }
            assert_eq!(checked::<Ours>(&frame), checked::<Rust<true>>(&frame));
            tables.race(
                &format!("TF005 {kind}, {name}"),
                1.0,
                [&mut || check::<Ours>(&frame), &mut || check::<Rust<false>>(&frame), &mut || {
                    check::<Rust<true>>(&frame)
                }],
            );
        }
    }
}
