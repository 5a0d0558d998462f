//! The entries of a log, for counting what was met.

use second::book;
use second::groups;

#[derive(Clone, Copy, PartialEq, Eq, Debug)]
pub enum Entry {
    Opened,
    /// with so many troposphere residuals and satellites
    Placed {
        troposphere: u64,
        satellites: u64,
    },
    LeftOut {
        reason: u64,
    },
}

struct Numbers<'a>(&'a [u8]);

impl Numbers<'_> {
    fn next(&mut self) -> u64 {
        let (number, used) = groups::read(self.0).expect("a number of the log");
        self.0 = &self.0[used..];
        number
    }

    fn pass(&mut self, count: u64) {
        for _ in 0..count {
            self.next();
        }
    }
}

/// The entries of a log that the second program wrote.
pub fn entries(log: &[u8]) -> Vec<Entry> {
    let mut rest = Numbers(log);
    let mut all = Vec::new();
    while !rest.0.is_empty() {
        all.push(match rest.next() {
            1 => {
                rest.pass(3);
                Entry::Opened
            }
            2 => placed(&mut rest),
            _ => {
                rest.pass(1);
                Entry::LeftOut { reason: rest.next() }
            }
        });
    }
    all
}

fn placed(rest: &mut Numbers) -> Entry {
    rest.pass(1);
    let nodes = book::nodes(&book::area_of(rest.next()).expect("an area"));
    let troposphere = rest.next();
    if troposphere > 0 {
        rest.pass(1 + troposphere);
    }
    let satellites = rest.next();
    rest.pass(satellites * (2 + nodes));
    Entry::Placed { troposphere, satellites }
}
