//! What is compared, what it was, and how often each answer number came, and at which fields.

use crate::lent::Lent;
use std::borrow::Cow;
use std::collections::BTreeMap;
use std::fmt::Debug;

/// The names of document 01's numbers.
const NAMES: [&str; 19] = [
    "OK",
    "SHORT",
    "PREAMBLE",
    "FRAME_CRC",
    "LENGTH",
    "MESSAGE_CRC",
    "UNKNOWN_TYPE",
    "MASK_EMPTY",
    "FIELD",
    "ROOM",
    "SEALED",
    "TAG",
    "NOT_OURS",
    "AREA_OFF",
    "CONFLICT",
    "BOOK_FULL",
    "LEFTOVER",
    "STATE",
    "FORM",
];

/// The SF numbers at which a call has to have given a number; of none listed, any will do.
pub type Must = (&'static str, u8, Vec<u16>);

/// What was met so far: the answers of each call, and where we are.
pub struct Judge {
    pub seed: u64,
    pub calls: u64,
    counts: BTreeMap<&'static str, [u64; 19]>,
    /// how often a call gave a number at a field
    places: BTreeMap<(&'static str, u8), BTreeMap<u16, u64>>,
    marks: BTreeMap<Cow<'static, str>, u64>,
}

/// One call on one input: its name, and the input as it is printed if the answers differ.
pub struct Input<'a> {
    pub call: &'static str,
    pub said: &'a dyn Fn() -> String,
}

impl Judge {
    pub fn new(seed: u64) -> Judge {
        Judge { seed, calls: 0, counts: BTreeMap::new(), places: BTreeMap::new(), marks: BTreeMap::new() }
    }

    /// Both numbers, which must agree; counted.
    pub fn number(&mut self, input: &Input, ours: u8, second: u8) {
        self.calls += 1;
        self.count(input.call, second);
        self.same(input, "the answer number", &ours, &second);
    }

    /// Both answers of a call that says where, which must agree whole, number and place; counted.
    pub fn answer(&mut self, input: &Input, ours: u64, second: u64) {
        self.calls += 1;
        self.count_answer(input.call, second);
        if ours != second {
            self.fail(input, "the answer", &said(input.call, ours), &said(input.call, second));
        }
    }

    /// Number and place that a call answered.
    pub fn count_answer(&mut self, call: &'static str, answer: u64) {
        let (number, sf) = (answer as u8, (answer >> 8) as u16);
        self.count(call, number);
        if sf != 0 {
            *self.places.entry((call, number)).or_default().entry(sf).or_insert(0) += 1;
        }
    }

    /// A number that a call answered.
    pub fn count(&mut self, call: &'static str, number: u8) {
        self.counts.entry(call).or_insert([0; 19])[(number as usize).min(18)] += 1;
    }

    /// Something worth meeting was met.
    pub fn mark(&mut self, what: impl Into<Cow<'static, str>>) {
        *self.marks.entry(what.into()).or_insert(0) += 1;
    }

    pub fn same<T: PartialEq + Debug>(&self, input: &Input, what: &str, ours: &T, second: &T) {
        if ours != second {
            self.fail(input, what, &format!("{ours:?}"), &format!("{second:?}"));
        }
    }

    /// A lent buffer afterwards, and its canaries.
    pub fn lent<T: Copy + PartialEq + Debug>(&self, input: &Input, what: &str, ours: &Lent<T>, second: &[T]) {
        if !ours.canaries_live() {
            self.fail(input, what, "a byte outside the lent buffer was changed", "none was");
        }
        if ours.now() != second {
            let at = ours.now().iter().zip(second).position(|(a, b)| a != b).unwrap_or(0);
            self.fail(
                input,
                &format!("{what}, first at place {at}"),
                &format!("{:?}", ours.now()),
                &format!("{second:?}"),
            );
        }
    }

    fn fail(&self, input: &Input, what: &str, ours: &str, second: &str) -> ! {
        println!("compare: the two programs differ in {}: {what}", input.call);
        println!("  the desk: {ours}");
        println!("  the second program: {second}");
        println!("  the input: {}", (input.said)());
        println!("  again by: compare/run 1 {}", self.seed);
        std::process::exit(1);
    }

    /// A line a call: how often it answered each number; all calls together; a line a call and number that came with a place:
    /// how often at each SF number; and how often each mark was met.
    pub fn tell(&self) {
        for (call, counts) in &self.counts {
            println!("  {call:20} {}", line(counts));
        }
        println!("  {:20} {}", "all calls", line(&self.all()));
        for ((call, number), fields) in &self.places {
            let fields: Vec<String> = fields.iter().map(|(sf, count)| format!("{sf:03}:{count}")).collect();
            println!("  {call}, {} at SF {}", name(*number), fields.join(" "));
        }
        for (what, count) in &self.marks {
            println!("  {what:50} {count}");
        }
    }

    fn all(&self) -> [u64; 19] {
        let mut all = [0; 19];
        for counts in self.counts.values() {
            (0..19).for_each(|number| all[number] += counts[number]);
        }
        all
    }

    /// What was never met: document 01's numbers 0 to 18, those that each call can answer, the places, the marks.
    pub fn missed(&self, can: &[(&str, &[usize])], must: &[Must], marks: &[String]) -> Vec<String> {
        let all = self.all();
        let mut missed: Vec<String> =
            (0..19).filter(|&number| all[number] == 0).map(|number| format!("number {number}")).collect();
        for (call, numbers) in can {
            let counts = self.counts.get(call).copied().unwrap_or([0; 19]);
            let never = numbers.iter().filter(|&&number| counts[number] == 0);
            missed.extend(never.map(|number| format!("{call} {number}")));
        }
        for (call, number, fields) in must {
            match self.places.get(&(call, *number)) {
                None => missed.push(format!("{call} {} with a place", name(*number))),
                Some(met) => {
                    let never = fields.iter().filter(|sf| !met.contains_key(sf));
                    missed.extend(never.map(|sf| format!("{call} {} at SF{sf:03}", name(*number))));
                }
            }
        }
        missed.extend(marks.iter().filter(|mark| !self.marks.contains_key(mark.as_str())).cloned());
        missed
    }
}

fn name(number: u8) -> &'static str {
    NAMES.get(number as usize).copied().unwrap_or("no number of document 01")
}

/// The calls whose places are bits; those of the other calls are sheet entries.
const IN_BITS: [&str; 4] = ["payload_judge", "payload_read", "book_take", "desk_take"];

/// An answer as it is printed: its number and name, and its place. Of an answer without a place all of that is 0.
fn said(call: &str, answer: u64) -> String {
    let (number, sf, at) = (answer as u8, answer >> 8 & 0xFF_FFFF, answer >> 32);
    let counted = if IN_BITS.contains(&call) { "bit" } else { "sheet entry" };
    match (sf, at) {
        (0, 0) => format!("{number} {}, no place", name(number)),
        _ => format!("{number} {} at SF{sf:03}, {counted} {at}", name(number)),
    }
}

fn line(counts: &[u64; 19]) -> String {
    let met = counts.iter().enumerate().filter(|(_, n)| **n > 0);
    met.map(|(number, n)| format!("{number}:{n}")).collect::<Vec<_>>().join(" ")
}

/// Bytes in hexadecimal digits.
pub fn hex(bytes: &[u8]) -> String {
    bytes.iter().map(|byte| format!("{byte:02x}")).collect()
}
