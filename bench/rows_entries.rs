//! Rows of the run log's reader.
use crate::made::Random;
use crate::race::Tables;
use crate::sides::{Ours, Residual, Rust, Side};
use std::hint::black_box;

fn put(bytes: &mut Vec<u8>, mut x: u64) {
    while x >= 128 {
        bytes.push(128 + (x % 128) as u8);
        x /= 128;
    }
    bytes.push(x as u8);
}

/// An area placed on rows x columns nodes, with satellites of a size; residuals of all values.
pub fn entry(rows: u64, columns: u64, satellites: u64, size: usize) -> Vec<u8> {
    let (mut bytes, nodes, random) = (vec![], rows * columns, &mut Random::new());
    let area = 5 << 39 | 1800 << 28 | (rows - 1) << 13 | (columns - 1) << 10;
    [2, 5, area, nodes, 1].into_iter().for_each(|x| put(&mut bytes, x));
    (0..nodes).for_each(|_| put(&mut bytes, random.below(256)));
    put(&mut bytes, satellites);
    for satellite in 1..=satellites {
        put(&mut bytes, satellite);
        put(&mut bytes, size as u64);
        (0..nodes).for_each(|_| put(&mut bytes, random.below([16, 128, 1024, 16384][size])));
    }
    bytes
}

fn read<S: Side>(bytes: &[u8]) -> (u8, [u64; 8]) {
    let mut entry = [9; 8];
    (S::entry_read(bytes, &mut entry), entry)
}

fn residual<S: Side>(bytes: &[u8], k: u64, node: u64) -> (u8, Residual) {
    let mut out = Residual { what: [9; 2], value: [9.0] };
    (S::entry_residual(bytes, k, node, &mut out), out)
}

/// The entry, the entry cut anywhere, and with damage anywhere.
fn agree(name: &str, bytes: &[u8]) {
    assert_eq!(read::<Ours>(bytes), read::<Rust<true>>(bytes), "{name}");
    let random = &mut Random::new();
    for round in 0..400 {
        let mut other = bytes.to_vec();
        if round > 0 {
            other[random.below(bytes.len() as u64) as usize] = random.below(256) as u8;
        }
        if round % 3 == 1 {
            other.truncate(random.below(bytes.len() as u64) as usize);
        }
        let (k, node) = (random.below(20), random.below(30));
        assert_eq!(read::<Ours>(&other), read::<Rust<false>>(&other), "{name}");
        let ours = residual::<Ours>(&other, k, node);
        assert_eq!(ours, residual::<Rust<false>>(&other, k, node), "{name}: a residual");
        if round == 0 && bytes[0] == 2 {
            assert_eq!(ours, residual::<Rust<true>>(&other, k, node), "{name}: a residual");
        }
    }
}

fn timed<S: Side>(bytes: &[u8]) {
    black_box(read::<S>(black_box(bytes)));
}

fn timed_residual<S: Side>(bytes: &[u8]) {
    black_box(residual::<S>(black_box(bytes), 11, 19));
}

pub fn entries(tables: &Tables) {
    let entries = [
        ("run opened", vec![1, 0xbf, 0xd1, 2, 4, 2]),
        ("left out", vec![3, 5, 5]),
        ("2 x 2 nodes, 8 satellites", entry(2, 2, 8, 1)),
        ("4 x 5 nodes, 12 satellites", entry(4, 5, 12, 2)),
        ("8 x 8 nodes, 64 satellites", entry(8, 8, 64, 3)),
    ];
    tables.head("The run log read", "a call");
    for (name, bytes) in &entries {
        agree(name, bytes);
        tables.race(
            &format!("entry_read: {name}"),
            1.0,
            [&mut || timed::<Ours>(bytes), &mut || timed::<Rust<false>>(bytes), &mut || {
                timed::<Rust<true>>(bytes)
            }],
        );
    }
    for (name, bytes) in &entries[3..] {
        tables.race(
            &format!("residual: {name}"),
            1.0,
            [
                &mut || timed_residual::<Ours>(bytes),
                &mut || timed_residual::<Rust<false>>(bytes),
                &mut || timed_residual::<Rust<true>>(bytes),
            ],
        );
    }
}
