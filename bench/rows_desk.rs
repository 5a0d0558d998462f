//! Rows of the desk: one frame or two over and over, and an hour's history.
use crate::frame::{self, Parts};
use crate::made::{framed, gad, history, hpac, ids, issue, Area, Issue, Random};
use crate::race::Tables;
use crate::sides::{Desk, Ours, Rust, Side};
use std::hint::black_box;

/// Takes frames from a running number on; the number is the second over so many.
fn take_all<S: Side>(d: &mut Desk, frames: &[Vec<u8>], count: &mut u64, each: u64) {
    for frame in frames {
        black_box(S::desk_take(d, black_box(frame), *count / each));
        *count += 1;
    }
}

/// All sides take the frames, twice those of the round. All that the careful one leaves is
/// compared; the hurried one up to the first message that is refused after its bits were read.
fn agree(name: &str, before: &[Vec<u8>], round: &[Vec<u8>], each: u64) {
    let (mut ours, mut careful, mut hurried) = (Desk::new(), Desk::new(), Desk::new());
    let mut spoilt = false;
    for (i, frame) in before.iter().chain(round).chain(round).enumerate() {
        let second = i as u64 / each;
        let answer = Ours::desk_take(&mut ours, frame, second);
        let theirs = Rust::<false>::desk_take(&mut careful, frame, second);
        assert_eq!(answer, theirs, "{name}: frame {i}");
        assert!(ours == careful, "{name}: frame {i} leaves something else");
        spoilt |= [1, 7, 8, 11, 13, 14, 15].contains(&(answer & 255));
        if !spoilt {
            let theirs = Rust::<true>::desk_take(&mut hurried, frame, second);
            assert_eq!(answer, theirs, "{name}: frame {i} of the hurried side");
            let held = ours.written[0] as usize;
            let alike = ours.desk == hurried.desk
                && ours.live == hurried.live
                && ours.run == hurried.run
                && ours.log[..held] == hurried.log[..held];
            assert!(alike, "{name}: frame {i} of the hurried side leaves something else");
        }
    }
}

/// A row: frames over and over, on a desk that `before` has left.
pub fn row(tables: &Tables, name: &str, before: &[Vec<u8>], round: &[Vec<u8>], each: u64) {
    agree(name, before, round, each);
    let (mut a, mut b, mut c) = (Desk::new(), Desk::new(), Desk::new());
    let mut counts = [0; 3];
    let [x, y, z] = &mut counts;
    take_all::<Ours>(&mut a, before, x, each);
    take_all::<Rust<false>>(&mut b, before, y, each);
    take_all::<Rust<true>>(&mut c, before, z, each);
    tables.race(
        name,
        round.len() as f64,
        [
            &mut || take_all::<Ours>(&mut a, round, x, each),
            &mut || take_all::<Rust<false>>(&mut b, round, y, each),
            &mut || take_all::<Rust<true>>(&mut c, round, z, each),
        ],
    );
}

/// An hour from a new desk on.
fn hour(tables: &Tables, name: &str, frames: &[Vec<u8>]) {
    agree(name, &[], frames, 4);
    fn whole<S: Side>(frames: &[Vec<u8>]) {
        let mut count = 0;
        take_all::<S>(&mut Desk::new(), frames, &mut count, 4);
    }
    tables.race(
        name,
        frames.len() as f64,
        [&mut || whole::<Ours>(frames), &mut || whole::<Rust<false>>(frames), &mut || {
            whole::<Rust<true>>(frames)
        }],
    );
}

pub fn desk(tables: &Tables) {
    let random = &mut Random::new();
    let ids = ids();
    let area = |id, blocks, satellites| Area { id, points: 16, blocks, satellites };
    let gad_of =
        |random: &mut Random, of, ids: &[u64]| framed(2, 2, 0, &gad(random, of, ids, 4, 4));
    let (whole, one) = (gad_of(random, issue(3), &ids), gad_of(random, issue(3), &ids[..1]));
    let other = gad_of(random, issue(4), &ids);
    let known = [area(7, 2, 10), area(14, 2, 10), area(21, 2, 10)];
    let large = vec![framed(1, 2, 100, &hpac(random, issue(3), &known))];
    let left = [area(8, 2, 10), area(15, 2, 10), area(22, 2, 10)];
    let left = vec![framed(1, 2, 100, &hpac(random, issue(3), &left))];
    // of a solver that was restarted and kept its AIOU
    let bumped = Issue { siou: issue(3).siou + 1, aiou: 3 };
    let next = vec![framed(1, 2, 100, &hpac(random, bumped, &known))];
    let renewed = gad_of(random, bumped, &ids);
    let small = framed(1, 2, 100, &hpac(random, issue(3), &[area(7, 2, 2)]));
    let later = framed(1, 2, 101, &hpac(random, issue(3), &[area(7, 2, 2)]));
    let plain = framed(1, 2, 100, &hpac(random, issue(3), &[area(7, 1, 10), area(14, 1, 10)]));
    let ocb = framed(0, 2, 0, &random.bytes(200));
    let (message_type, solution) = (1, 6);
    let parts = Parts { message_type, subtype: 0, kind: 2, tag: 100, solution, processor: 11 };
    let foreign = frame::write(parts, &random.bytes(200));
    let (held, few) = (vec![whole.clone()], vec![one.clone()]);
    tables.head("The desk", "a frame");
    row(tables, "HPAC, large grids", &held, &large, 1);
    row(tables, "HPAC, large grids, book of one area", &few, &large, 1);
    row(tables, "HPAC, large grids, areas left out", &held, &left, 1);
    row(tables, "HPAC, large grids, another SIOU", &held, &next, 1);
    row(tables, "HPAC, a small grid", &held, &[small.clone()], 1);
    row(tables, "HPAC, no grids", &held, &[plain], 1);
    row(tables, "HPAC, a run opened each time", &held, &[small, later], 1);
    row(tables, "GAD, one area", &[], &few, 1);
    row(tables, "GAD, 32 areas that are known", &held, &held, 1);
    row(tables, "GAD, 32 areas of a new book", &held, &[other, whole.clone()], 1);
    row(tables, "GAD, 32 areas of another SIOU", &held, &[renewed, whole], 1);
    row(tables, "foreign: OCB", &held, &[ocb], 1);
    row(tables, "foreign: another solution", &held, &[foreign], 1);
    hour(tables, "an hour's history", &history(random, 3600, 299));
}
