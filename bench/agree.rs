//! The careful side answers as ours does, and leaves the same, on inputs that no row times: states
//! that are not sound, sealed frames, gaps, restarts of a solver that keeps its AIOU, damaged
//! messages in frames with right checks, sheets that are too long.
use crate::frame::{write, Parts};
use crate::made::{self, gad, history, ids, issue, Random};
use crate::rows_entries::entry;
use crate::sides::{Desk, Ours, Rust, Side, Tray, Written};

type Careful = Rust<false>;

fn frames(random: &mut Random) {
    for round in 0..20_000 {
        let mut frame = made::any_frame(random);
        match round % 4 {
            0 => frame.truncate(random.below(frame.len() as u64) as usize),
            1 => {
                let at = random.below(frame.len() as u64) as usize;
                frame[at] ^= 1 << random.below(8);
            }
            _ => {}
        }
        let (mut ours, mut theirs) = ([7; 15], [7; 15]);
        let answer = Ours::frame_check(&frame, &mut ours);
        assert_eq!(answer, Careful::frame_check(&frame, &mut theirs), "{frame:02X?}");
        assert_eq!(ours, theirs, "{frame:02X?}");
    }
}

/// Frames, starts of frames and preambles in portions of any size; now and then the tray is spoilt.
fn streams(random: &mut Random) {
    let (mut ours, mut theirs) = (Tray::new(), Tray::new());
    let mut waiting = Vec::new();
    for round in 0..40_000 {
        while waiting.len() < 1_300 {
            let frame = made::any_frame(random);
            let whole = frame.len() as u64;
            let end = [whole, random.below(12), random.below(whole)][random.below(3) as usize];
            waiting.extend(&frame[..end.min(whole) as usize]);
        }
        let most = [3, 100, 1_300][random.below(3) as usize];
        let portion = random.below(most) as usize;
        let (answer, careful) = if round % 50 == 49 {
            (Ours::stream_finish(&mut ours), Careful::stream_finish(&mut theirs))
        } else {
            let input = &waiting[..portion];
            (Ours::stream_call(&mut ours, input), Careful::stream_call(&mut theirs, input))
        };
        assert!(answer == careful && ours == theirs, "stream: round {round}");
        if answer == 0 && round % 50 != 49 {
            waiting.drain(..ours.told[1] as usize);
        }
        if random.below(200) == 0 {
            ours.bytes[random.below(1103) as usize] ^= 1;
            ours.tray[random.below(3) as usize] =
                [0, 3, 1103, 1104, 65534, 65535][random.below(6) as usize];
            theirs = ours.clone();
        } else if answer != 0 {
            (ours, theirs) = (Tray::new(), Tray::new());
        }
    }
}

/// The frames of a history, those of one with the same AIOU and another SIOU, and two books beside
/// them.
fn messages(random: &mut Random) -> Vec<Vec<u8>> {
    let mut messages = history(random, 30, 299);
    messages.extend(history(random, 30, 300));
    let all = (1..=32).collect::<Vec<_>>();
    messages.push(made::framed(2, 2, 0, &gad(random, issue(1), &all, 8, 8)));
    messages.push(made::framed(2, 2, 0, &gad(random, issue(2), &ids(), 2, 2)));
    messages
}

/// How often each reason is given in a frame's entries, by the reader of the run log.
fn count_reasons(mut log: &[u8], reasons: &mut [usize; 6]) {
    let mut entry = [0; 8];
    while !log.is_empty() {
        assert_eq!(Careful::entry_read(log, &mut entry), 0, "an entry that a desk wrote");
        if entry[0] == 3 {
            reasons[entry[3] as usize] += 1;
        }
        log = &log[entry[1] as usize..];
    }
}

/// One of the messages, its payload damaged now and then, in a frame with right checks.
fn damaged(random: &mut Random, messages: &[Vec<u8>]) -> Vec<u8> {
    let frame = &messages[random.below(messages.len() as u64) as usize];
    let mut payload = frame[8..frame.len() - 3].to_vec();
    let at = random.below(payload.len() as u64) as usize;
    match random.below(30) {
        0..8 => payload[at] ^= 1 << random.below(8),
        8..12 => {
            let end = payload.len().min(at + 9);
            payload[at..end].fill(0);
        }
        12 => payload.truncate(1 + at),
        13..16 => return made::any_frame(random),
        _ => {}
    }
    let parts = Parts {
        message_type: frame[1] >> 1,
        subtype: 0,
        kind: random.below(4) as usize,
        tag: [100, 101, 43_199, 43_200, 50_000][random.below(5) as usize],
        solution: 5,
        processor: 11,
    };
    write(parts, &payload)
}

/// By a clock that jumps; now and then the desk is spoilt.
fn desks(random: &mut Random) {
    let messages = messages(random);
    let (mut ours, mut theirs, mut second) = (Desk::new(), Desk::new(), 5);
    let (mut seen, mut reasons, mut restarts) = ([0; 32], [0; 6], 0);
    for round in 0..60_000 {
        let before = ours.desk;
        let message = damaged(random, &messages);
        second += [0, 1, 0, 1, 2, 3, 449, 450, 451][random.below(9) as usize];
        let answer = Ours::desk_take(&mut ours, &message, second);
        let careful = Careful::desk_take(&mut theirs, &message, second);
        assert_eq!(answer, careful, "desk: round {round}");
        assert!(ours == theirs, "desk: round {round} leaves something else");
        seen[(answer & 31) as usize] += 1;
        if answer == 0 {
            count_reasons(&ours.log[..ours.written[0] as usize], &mut reasons);
            let same_aiou = before[5] > 0 && ours.desk[5] > 0 && before[3] == ours.desk[3];
            restarts += (same_aiou && before[4] != ours.desk[4]) as usize;
        }
        if random.below(60) == 0 {
            let some = [0, 1, 3, 15, 16, 32, 33, 512, 513, 43_199, 43_200];
            ours.desk[random.below(12) as usize] = some[random.below(11) as usize];
            if random.below(2) == 0 {
                ours.live[random.below(192) as usize] ^= 1 << random.below(8);
                ours.run[random.below(192) as usize] ^= 1 << random.below(8);
            }
            theirs = ours.clone();
        } else if answer == 17 {
            (ours, theirs) = (Desk::new(), Desk::new());
        } else if random.below(20) == 0 {
            // another SIOU, or an unknown one, in the live book or in the run's
            let siou_plus_one = [0, 0, 300, 301, 512][random.below(5) as usize];
            ours.desk[[4, 9][random.below(2) as usize]] = siou_plus_one;
            theirs = ours.clone();
        }
    }
    for number in [0, 1, 7, 8, 11, 12, 13, 14, 15, 17] {
        assert!(seen[number] > 0, "desk: no frame was answered with {number}");
    }
    for (reason, count) in reasons.iter().enumerate().skip(1) {
        assert!(*count > 0, "desk: no area was left out for reason {reason}");
    }
    assert!(restarts > 0, "desk: no GAD of the book's AIOU had another SIOU");
}

/// The same messages as a stream, in portions of any size.
fn prepares(random: &mut Random) {
    let messages = messages(random);
    let (mut ours, mut theirs) = ((Tray::new(), Desk::new()), (Tray::new(), Desk::new()));
    let (mut waiting, mut placed) = (Vec::new(), 0);
    for round in 0..40_000 {
        while waiting.len() < 2_000 {
            waiting.extend(damaged(random, &messages));
        }
        let most = [3, 100, 2_000][random.below(3) as usize];
        let (input, second) = (&waiting[..random.below(most) as usize], round / 9);
        let answer = Ours::prepare_call(&mut ours.0, &mut ours.1, input, second);
        let careful = Careful::prepare_call(&mut theirs.0, &mut theirs.1, input, second);
        assert!(answer == careful && ours == theirs, "prepare: round {round}");
        waiting.drain(..ours.0.told[1] as usize);
        placed += (ours.0.told[6] > 0) as usize;
    }
    assert!(placed > 0, "prepare: no refusal had a place");
}

/// Sheets of many areas, most of which are too long for a payload.
fn sheets(random: &mut Random) {
    for round in 0..2_000 {
        let (kind, areas) = ([1, 3][round % 2], random.below(12));
        let chosen = vec![(30, areas), (71, areas % 4)];
        let sheet = made::sheet(random, kind, 0, chosen, vec![]);
        let mut ours = Written { out: [0xEE; 1023], counts: [5; 2] };
        let mut theirs = ours.clone();
        let answer = Ours::sheet_write(kind, 0, &sheet, &mut ours);
        assert_eq!(answer, Careful::sheet_write(kind, 0, &sheet, &mut theirs), "a long sheet");
        assert!(ours == theirs, "a long sheet leaves something else");
    }
}

/// Small entries, one byte changed and cut anywhere, so that SHORT and FORM come close together.
fn entries(random: &mut Random) {
    for round in 0..40_000 {
        let mut bytes = match round % 8 {
            0 => vec![1, random.below(128) as u8, random.below(20) as u8, random.below(36) as u8],
            1 => vec![3, random.below(128) as u8, random.below(8) as u8],
            _ => entry(1, 1 + random.below(2), random.below(6), random.below(4) as usize),
        };
        let at = random.below(bytes.len() as u64) as usize;
        bytes[at] = random.below(70) as u8;
        bytes.truncate(random.below(bytes.len() as u64 + 1) as usize);
        let (mut ours, mut theirs) = ([7; 8], [7; 8]);
        let answer = Ours::entry_read(&bytes, &mut ours);
        assert_eq!(answer, Careful::entry_read(&bytes, &mut theirs), "{bytes:?}");
        assert_eq!(ours, theirs, "{bytes:?}");
    }
}

pub fn agree() {
    let random = &mut Random::new();
    frames(random);
    streams(random);
    desks(random);
    prepares(random);
    sheets(random);
    entries(random);
}
