//! The inputs, from a seeded generator: payloads of random codes, frames around them, streams.
use crate::crc;
use crate::frame::{self, Parts};
use crate::payload::{payload_judge, sheet_write};
use crate::walk::{walk, Walk, Walked};

pub struct Random(pub u64);

impl Random {
    pub fn new() -> Random {
        Random(88_172_645_463_325_252)
    }

    pub fn below(&mut self, limit: u64) -> u64 {
        self.0 ^= self.0 << 13;
        self.0 ^= self.0 >> 7;
        self.0 ^= self.0 << 17;
        (self.0 >> 11) % limit
    }

    pub fn bytes(&mut self, count: usize) -> Vec<u8> {
        (0..count).map(|_| self.below(256) as u8).collect()
    }

    /// So many bits with so many of them set.
    fn mask(&mut self, width: u32, set: u32) -> u64 {
        let mut mask = 0u64;
        while mask.count_ones() < set.min(width) {
            mask |= 1 << self.below(width as u64);
        }
        mask
    }
}

/// An area of an HPAC message: its ID, its points, both SF040 and how many satellites.
#[derive(Clone, Copy)]
pub struct Area {
    pub id: u64,
    pub points: u64,
    pub blocks: u64,
    pub satellites: u32,
}

/// A message that is being made: a walk that thinks up each code, and writes it down. What it does
/// not choose at random it finds in the list, by SF number; each use takes one away.
struct Maker<'a> {
    random: &'a mut Random,
    sheet: Vec<u64>,
    chosen: Vec<(u32, u64)>,
    satellites: Vec<u32>,
}

const MASKS: [u32; 5] = [11, 12, 93, 94, 95];

impl Walk for Maker<'_> {
    fn code(&mut self, sf: u32, width: u32, most: u64) -> Walked<u64> {
        let chosen = self.chosen.iter().position(|&(number, _)| number == sf);
        let code = if MASKS.contains(&sf) && width > 2 {
            self.random.mask(width, self.satellites.pop().unwrap_or(8))
        } else if let Some(at) = chosen {
            self.chosen.remove(at).1
        } else {
            match sf {
                // an angle; most satellites in use, with all their blocks
                21 => self.random.below(60),
                13 => (self.random.below(8) == 0) as u64,
                14 => 7,
                // the largest size is rare
                63 => self.random.below(3),
                _ => self.random.below(most.saturating_add(1).max(1)),
            }
        };
        self.sheet.push(code);
        Ok(code)
    }

    fn many(&mut self, sf: u32, width: u32, count: u64) -> Walked<()> {
        (0..count).try_for_each(|_| self.code(sf, width, (1 << width) - 1).map(|_| ()))
    }

    fn last(&self, number: u64, _: u32, _: u32) -> u64 {
        number
    }
}

/// A sheet with chosen codes of some fields, in their order.
pub fn sheet(
    random: &mut Random,
    kind: u8,
    subtype: u8,
    chosen: Vec<(u32, u64)>,
    mut satellites: Vec<u32>,
) -> Vec<u64> {
    satellites.reverse();
    let mut maker = Maker { random, sheet: vec![], chosen, satellites };
    walk(kind, subtype, &mut maker).expect("a made message is accepted");
    maker.sheet
}

pub fn payload(kind: u8, subtype: u8, sheet: &[u64]) -> Vec<u8> {
    let (mut out, mut counts) = ([0; 1023], [0; 2]);
    let answer = sheet_write::<false>(kind, subtype, sheet, &mut out, &mut counts);
    assert_eq!(answer, 0, "a made message is taken");
    let made = out[..counts[1] as usize].to_vec();
    assert_eq!(payload_judge(kind, subtype, &made, &mut counts), 0);
    made
}

/// SIOU and AIOU of a message, SF005 and SF068.
#[derive(Clone, Copy)]
pub struct Issue {
    pub siou: u64,
    pub aiou: u64,
}

/// The messages of a row share one SIOU, so that areas are placed.
pub fn issue(aiou: u64) -> Issue {
    Issue { siou: 299, aiou }
}

pub fn gad(random: &mut Random, of: Issue, ids: &[u64], rows: u64, columns: u64) -> Vec<u8> {
    let mut chosen = vec![(5, of.siou), (68, of.aiou), (30, ids.len() as u64 - 1)];
    for &id in ids {
        // by the ID alone, so that another GAD says the same of it
        let block = [(31, id), (32, 900 + id), (33, 10 * id), (34, rows - 1), (35, columns - 1)];
        chosen.extend(block);
        chosen.extend([(36, 9), (37, 9)]);
    }
    payload(2, 0, &sheet(random, 2, 0, chosen, vec![]))
}

/// HPAC for GPS.
pub fn hpac(random: &mut Random, of: Issue, areas: &[Area]) -> Vec<u8> {
    let mut chosen = vec![(5, of.siou), (68, of.aiou), (30, areas.len() as u64 - 1)];
    for area in areas {
        chosen.extend([(31, area.id), (39, area.points), (40, area.blocks), (40, area.blocks)]);
    }
    let satellites = areas.iter().map(|area| area.satellites).collect();
    payload(1, 0, &sheet(random, 1, 0, chosen, satellites))
}

/// A frame of the desk's solution and processor.
pub fn framed(message_type: u8, kind: usize, tag: u16, payload: &[u8]) -> Vec<u8> {
    let parts = Parts { message_type, subtype: 0, kind, tag, solution: 5, processor: 11 };
    frame::write(parts, payload)
}

pub fn ids() -> Vec<u64> {
    (1..=32).map(|i| 7 * i).collect()
}

/// An hour, or less, at four frames a second: an HPAC message with grids, a GAD or another HPAC
/// message, an HPAC message without grids, and an OCB frame, which is not the desk's. The AIOU
/// changes every 400 seconds, and the SIOU, from this one on, every 1,000; now and then a GAD is in
/// conflict, a frame is damaged, and a tag is out of range.
pub fn history(random: &mut Random, seconds: u64, siou: u64) -> Vec<Vec<u8>> {
    let ids = ids();
    let mut frames = Vec::new();
    for second in 0..seconds {
        let of = Issue { siou: siou + second / 1_000, aiou: 1 + second / 400 };
        let tag = ((43_150 + second) % 43_200) as u16;
        let area = |random: &mut Random, blocks, satellites| {
            let id = ids[random.below(32) as usize];
            Area { id, points: 16, blocks, satellites }
        };
        let grids = [area(random, 2, 8), area(random, 2, 8)];
        let off = if second % 25 == 24 { 43_200 } else { tag };
        frames.push(framed(1, 2, off, &hpac(random, of, &grids)));
        let first = 8 * (second / 2 % 4) as usize;
        let one = [area(random, 2, 3)];
        frames.push(match second % 20 {
            19 => framed(2, 2, tag, &gad(random, of, &ids[..4], 3, 4)),
            even if even % 2 == 0 => {
                framed(2, 2, tag, &gad(random, of, &ids[first..first + 8], 4, 4))
            }
            _ => framed(1, 3, tag, &hpac(random, of, &one)),
        });
        let plain: Vec<Area> = (0..6).map(|_| area(random, 1, 4)).collect();
        let mut frame = framed(1, 2, tag, &hpac(random, of, &plain));
        frame[20] ^= if second % 30 == 29 { 4 } else { 0 };
        frames.push(frame);
        frames.push(framed(0, 2, tag, &random.bytes(200)));
    }
    frames
}

/// Frames of a history as a stream of so many bytes, some noise between some of them.
pub fn mix(random: &mut Random, size: usize) -> Vec<u8> {
    let mut stream = Vec::new();
    for frame in history(random, 40, 299).iter().cycle() {
        if random.below(6) == 0 {
            let count = random.below(60) as usize;
            stream.extend(random.bytes(count));
        }
        stream.extend(frame);
        if stream.len() >= size {
            break;
        }
    }
    stream
}

/// Frames of one payload size one behind the other, their check types in turn.
pub fn frames(random: &mut Random, payload: usize, size: usize) -> Vec<u8> {
    let mut stream = Vec::new();
    while stream.len() < size {
        let kind = stream.len() / 7 % 4;
        let payload = random.bytes(payload);
        stream.extend(framed(1, kind, 7, &payload));
    }
    stream
}

/// Bytes without a preamble.
pub fn noise(random: &mut Random, size: usize) -> Vec<u8> {
    let mut bytes = random.bytes(size);
    bytes.iter_mut().filter(|byte| **byte == 0x73).for_each(|byte| *byte = 0);
    bytes
}

/// A frame of any header, sealed or plain, with right checks.
pub fn any_frame(random: &mut Random) -> Vec<u8> {
    let most = if random.below(4) == 0 { 1023 } else { 40 };
    let (kind, size) = (random.below(4) as usize, 1 + random.below(most) as usize);
    let sealed = random.below(2) as usize;
    let start = 0x73 << 24
        | (random.below(5) as u32) << 17
        | (size as u32) << 7
        | (sealed as u32) << 6
        | (kind as u32) << 4;
    let mut frame = start.to_be_bytes().to_vec();
    frame[3] |= crc::header(frame[1], frame[2], frame[3]);
    frame.extend(random.bytes(4));
    let longer = (frame[4] >> 3 & 1) as usize;
    frame.extend(random.bytes(2 * longer + 2 * sealed));
    let last = *frame.last().unwrap();
    let signed = sealed == 1 && last >> 3 & 7 > 1;
    let signature = if signed { [8, 12, 16, 32, 64, 0, 0, 0][(last & 7) as usize] } else { 0 };
    frame.extend(random.bytes(size + signature));
    let check = crc::message(kind, &frame[1..]);
    frame.extend(&check.to_be_bytes()[3 - kind..]);
    frame
}
