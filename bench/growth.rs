//! How cost grows: the same work while the stream, the areas or the grid double.
use crate::made::{self, framed, gad, hpac, ids, issue, Area, Random};
use crate::race::Tables;
use crate::rows_desk;
use crate::rows_stream::listen_row;
use crate::sides::{Desk, Ours, Rust, Side, Tray};
use std::hint::black_box;

fn streams(tables: &Tables) {
    let random = &mut Random::new();
    let most = 8 << 20;
    let area = |id| Area { id, points: 16, blocks: 2, satellites: 10 };
    let frame = framed(1, 2, 100, &hpac(random, issue(3), &[area(7), area(14), area(21)]));
    let frames: Vec<u8> = frame.iter().copied().cycle().take(most).collect();
    let inputs = [
        ("noise", made::noise(random, most)),
        ("random bytes", random.bytes(most)),
        ("HPAC frames", frames),
    ];
    tables.head("Growth with the stream, portions of 4,096", "a byte");
    for (name, stream) in &inputs {
        for size in [1, 2, 4, 8] {
            listen_row(tables, &format!("{name}, {size} MiB"), &stream[..size << 20], 4096);
        }
    }
}

/// A byte of noise, with a live book and a run's book of so many areas.
fn quiet<S: Side>(t: &mut Tray, d: &mut Desk) {
    black_box(S::prepare_call(t, d, black_box(&[0]), 1));
}

fn held<S: Side>(frames: &[Vec<u8>]) -> Desk {
    let mut desk = Desk::new();
    frames.iter().for_each(|frame| assert_eq!(S::desk_take(&mut desk, frame, 0), 0));
    desk
}

fn areas(tables: &Tables) {
    let (random, ids) = (&mut Random::new(), ids());
    tables.head("Growth with the areas", "a call");
    let counts = [1, 2, 4, 8, 16, 32];
    for count in counts {
        let book = framed(2, 2, 0, &gad(random, issue(3), &ids[..count], 4, 4));
        let area = Area { id: 7, points: 16, blocks: 2, satellites: 2 };
        let open = framed(1, 2, 100, &hpac(random, issue(3), &[area]));
        let frames = [book, open];
        let (mut a, mut b, mut c) = (Tray::new(), Tray::new(), Tray::new());
        let mut x = held::<Ours>(&frames);
        let mut y = held::<Rust<false>>(&frames);
        let mut z = held::<Rust<true>>(&frames);
        for _ in 0..100_000 {
            quiet::<Ours>(&mut a, &mut x);
            quiet::<Rust<false>>(&mut b, &mut y);
            assert!(a == b && x == y, "noise with {count} areas");
        }
        tables.race(
            &format!("a byte of noise, two books of {count}"),
            1.0,
            [
                &mut || quiet::<Ours>(&mut a, &mut x),
                &mut || quiet::<Rust<false>>(&mut b, &mut y),
                &mut || quiet::<Rust<true>>(&mut c, &mut z),
            ],
        );
    }
    for count in counts {
        let book = vec![framed(2, 2, 0, &gad(random, issue(3), &ids[..count], 4, 4))];
        rows_desk::row(tables, &format!("GAD of {count} that are known"), &book, &book, 1);
    }
}

fn grids(tables: &Tables) {
    let random = &mut Random::new();
    tables.head("Growth with the grid", "a frame");
    for (rows, columns) in [(2, 2), (2, 4), (4, 4), (4, 8), (8, 8)] {
        let points = rows * columns;
        let book = framed(2, 2, 0, &gad(random, issue(3), &[7], rows, columns));
        let area = Area { id: 7, points, blocks: 2, satellites: 8 };
        let frame = framed(1, 2, 100, &hpac(random, issue(3), &[area]));
        rows_desk::row(
            tables,
            &format!("HPAC, {points} nodes, 8 satellites"),
            &[book],
            &[frame],
            1,
        );
    }
}

pub fn growth(tables: &Tables) {
    streams(tables);
    areas(tables);
    grids(tables);
}
