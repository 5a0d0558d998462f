//! Three sides timed in turn, round by round, and the tables that this fills.
use std::time::Instant;

/// Rounds of a race. All sides run in each, so that none has a quieter machine, in alternating
/// order, so that none always runs behind the same other one.
const ROUNDS: usize = 61;
/// A side runs so long in a round, if one run is not longer than that.
const LEAST: f64 = 400e-6;

pub struct Tables {
    pub markdown: bool,
    /// print no rows, so that a run shows only that all sides agree
    pub quick: bool,
}

/// The median and the quartiles.
pub struct Spread {
    pub low: f64,
    pub median: f64,
    pub high: f64,
}

fn spread(mut numbers: Vec<f64>) -> Spread {
    numbers.sort_by(f64::total_cmp);
    let at = |part: usize| numbers[(numbers.len() - 1) * part / 4];
    Spread { low: at(1), median: at(2), high: at(3) }
}

fn timed(count: usize, side: &mut dyn FnMut()) -> f64 {
    let start = Instant::now();
    for _ in 0..count {
        side();
    }
    start.elapsed().as_secs_f64()
}

/// How many runs of a side take as long as a round should; the first runs warm it up.
fn runs(side: &mut dyn FnMut()) -> usize {
    let mut count = 1;
    loop {
        let time = timed(count, side);
        if time >= LEAST / 2.0 || count >= 1 << 20 {
            return ((LEAST / time * count as f64) as usize).clamp(1, 1 << 20);
        }
        count *= 2;
    }
}

impl Tables {
    pub fn head(&self, title: &str, unit: &str) {
        if self.quick {
            return;
        }
        if self.markdown {
            println!("\n**{title}** (ns {unit})\n");
            println!("| row | ours | Rust | to Rust (quartiles) | to hurried (quartiles) |");
            println!("|---|---|---|---|---|");
        } else {
            println!("\n{title} (ns {unit})");
            println!(
                "{:46} {:>9} {:>9}  {:21}  to hurried (quartiles)",
                "", "ours", "Rust", "to Rust (quartiles)"
            );
        }
    }

    /// A row: ours, the careful Rust, the hurried Rust; so many units of work in a run.
    pub fn race(&self, name: &str, units: f64, sides: [&mut dyn FnMut(); 3]) {
        if self.quick {
            return;
        }
        let count = runs(sides[0]);
        timed(count, sides[1]);
        timed(count, sides[2]);
        let mut times = [vec![], vec![], vec![]];
        for round in 0..ROUNDS {
            for turn in 0..3 {
                let side = if round % 2 == 0 { turn } else { 2 - turn };
                times[side].push(timed(count, sides[side]));
            }
        }
        let ratio = |side: usize| {
            spread(times[side].iter().zip(&times[0]).map(|(theirs, ours)| theirs / ours).collect())
        };
        let (careful, hurried) = (ratio(1), ratio(2));
        let each = 1e9 / (count as f64 * units);
        let [ours, rust, _] = times.map(|times| spread(times).median * each);
        self.row(name, ours, rust, careful, hurried);
    }

    fn row(&self, name: &str, ours: f64, rust: f64, careful: Spread, hurried: Spread) {
        let (ours, rust) = (figure(ours), figure(rust));
        let of = |s: Spread, between: &str| {
            format!("{:.2} ({:.2}{between}{:.2})", s.median, s.low, s.high)
        };
        if self.markdown {
            let (c, h) = (of(careful, ", "), of(hurried, ", "));
            println!("| {name} | {ours} | {rust} | {c} | {h} |");
        } else {
            let (c, h) = (of(careful, " .. "), of(hurried, " .. "));
            println!("{name:46} {ours:>9} {rust:>9}  {c:21}  {h}");
        }
    }
}

/// Nanoseconds with three figures that count.
fn figure(nanoseconds: f64) -> String {
    match nanoseconds {
        below if below < 1.0 => format!("{below:.3}"),
        below if below < 10.0 => format!("{below:.2}"),
        below if below < 100.0 => format!("{below:.1}"),
        above => format!("{above:.0}"),
    }
}
