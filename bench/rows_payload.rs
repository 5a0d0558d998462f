//! Rows of payloads and sheets: judged, read, written.
use crate::made::{self, Random};
use crate::race::Tables;
use crate::sides::{Ours, Rust, Sheet, Side, Written};
use std::hint::black_box;

/// Type, subtype and sheet.
struct Message {
    name: &'static str,
    kind: u8,
    subtype: u8,
    sheet: Vec<u64>,
    payload: Vec<u8>,
}

/// Rich messages. A GAD of 32 areas, the longest there is, has 191 bytes.
fn messages() -> Vec<Message> {
    let random = &mut Random::new();
    let mut grids = vec![(30, 2)];
    (0..3).for_each(|_| grids.extend([(39, 16), (40, 2), (40, 2)]));
    let mut nodes = vec![(71, 1)];
    (0..2).for_each(|_| nodes.extend([(75, 15), (76, 7)]));
    let wanted = [
        ("OCB of GPS", 0, 0, vec![(8, 1)], vec![16]),
        ("OCB of Galileo", 0, 2, vec![(8, 0)], vec![14]),
        ("HPAC", 1, 0, grids, vec![10, 10, 10]),
        ("GAD", 2, 0, vec![(30, 31)], vec![]),
        ("BPAC", 3, 0, nodes, vec![]),
    ];
    let made = wanted.into_iter().map(|(name, kind, subtype, chosen, satellites)| {
        let sheet = made::sheet(random, kind, subtype, chosen, satellites);
        let payload = made::payload(kind, subtype, &sheet);
        Message { name, kind, subtype, sheet, payload }
    });
    made.collect()
}

fn lent() -> Sheet {
    Sheet { sheet: vec![77; 8184], counts: [5, 5] }
}

fn out() -> Written {
    Written { out: [0xEE; 1023], counts: [5, 5] }
}

/// All four calls of a side on a payload and a sheet, with what they leave.
fn all_of<S: Side>(
    m: &Message,
    payload: &[u8],
    sheet: &[u64],
) -> ([u64; 4], [u64; 4], Sheet, Written) {
    let (mut read, mut written, mut counts) = (lent(), out(), [5; 4]);
    let (payload_counts, sheet_counts) = counts.split_at_mut(2);
    let answers = [
        S::payload_judge(m.kind, m.subtype, payload, payload_counts),
        S::payload_read(m.kind, m.subtype, payload, &mut read),
        S::sheet_judge(m.kind, m.subtype, sheet, sheet_counts),
        S::sheet_write(m.kind, m.subtype, sheet, &mut written),
    ];
    (answers, counts, read, written)
}

/// The message, the message cut anywhere, and with damage anywhere.
fn agree(m: &Message) {
    let ours = all_of::<Ours>(m, &m.payload, &m.sheet);
    assert_eq!(ours.0, [0; 4], "{} is taken", m.name);
    assert!(ours == all_of::<Rust<true>>(m, &m.payload, &m.sheet), "{}: hurried", m.name);
    let random = &mut Random::new();
    let same = |payload: &[u8], sheet: &[u64], what: &str| {
        let ours = all_of::<Ours>(m, payload, sheet);
        let careful = all_of::<Rust<false>>(m, payload, sheet);
        assert_eq!(ours.0, careful.0, "{}, {what}", m.name);
        assert!(ours == careful, "{}, {what}: something else is left", m.name);
    };
    same(&m.payload, &m.sheet, "whole");
    for round in 0..400 {
        let (mut payload, mut sheet) = (m.payload.clone(), m.sheet.clone());
        let at = random.below(payload.len() as u64) as usize;
        payload[at] = if round % 2 == 0 { 0xFF } else { payload[at] ^ 1 << (round % 8) };
        let at = random.below(sheet.len() as u64) as usize;
        sheet[at] = if round % 2 == 0 { random.below(1 << 20) } else { sheet[at] ^ 1 };
        same(&payload, &sheet, "damaged");
        let cut = random.below(m.payload.len() as u64) as usize;
        let end = random.below(m.sheet.len() as u64) as usize;
        same(&m.payload[..cut], &m.sheet[..end], "cut");
    }
    let mut longer = m.sheet.clone();
    longer.push(0);
    same(&[], &longer, "too long");
}

fn judge<S: Side>(m: &Message) {
    let mut counts = [0; 2];
    black_box(S::payload_judge(m.kind, m.subtype, black_box(&m.payload), &mut counts));
    black_box(counts);
}

fn read<S: Side>(m: &Message, sheet: &mut Sheet) {
    black_box(S::payload_read(m.kind, m.subtype, black_box(&m.payload), sheet));
    black_box(sheet);
}

fn judge_sheet<S: Side>(m: &Message) {
    let mut counts = [0; 2];
    black_box(S::sheet_judge(m.kind, m.subtype, black_box(&m.sheet), &mut counts));
    black_box(counts);
}

fn write<S: Side>(m: &Message, out: &mut Written) {
    black_box(S::sheet_write(m.kind, m.subtype, black_box(&m.sheet), out));
    black_box(out);
}

type Hurried = Rust<true>;
type Careful = Rust<false>;

pub fn payloads(tables: &Tables) {
    tables.head("Payloads and sheets", "a message");
    for m in &messages() {
        agree(m);
        let name = |call: &str| format!("{}, {} bytes: {call}", m.name, m.payload.len());
        tables.race(
            &name("payload_judge"),
            1.0,
            [&mut || judge::<Ours>(m), &mut || judge::<Careful>(m), &mut || judge::<Hurried>(m)],
        );
        let (mut a, mut b, mut c) = (lent(), lent(), lent());
        tables.race(
            &name("payload_read"),
            1.0,
            [&mut || read::<Ours>(m, &mut a), &mut || read::<Careful>(m, &mut b), &mut || {
                read::<Hurried>(m, &mut c)
            }],
        );
        tables.race(
            &name("sheet_judge"),
            1.0,
            [&mut || judge_sheet::<Ours>(m), &mut || judge_sheet::<Careful>(m), &mut || {
                judge_sheet::<Hurried>(m)
            }],
        );
        let (mut a, mut b, mut c) = (out(), out(), out());
        tables.race(
            &name("sheet_write"),
            1.0,
            [&mut || write::<Ours>(m, &mut a), &mut || write::<Careful>(m, &mut b), &mut || {
                write::<Hurried>(m, &mut c)
            }],
        );
    }
}
