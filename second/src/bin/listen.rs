//! Document 01: "The program `listen` reads standard input and prints a line per event,
//! `frame LENGTH TYPE SUBTYPE` (whole frame in bytes, TF002, TF007) or `noise COUNT`, all decimal,
//! lastly `end`."

use second::frame::LONGEST_FRAME;
use second::stream::{call, finish, Event, Tray};
use std::io::{Read, Write};

/// The line of an event; none for hungry and done.
fn line(event: Event) -> Option<String> {
    match event {
        Event::Frame { length, type_, subtype } => Some(format!("frame {length} {type_} {subtype}")),
        Event::Noise { count } => Some(format!("noise {count}")),
        Event::Hungry | Event::Done => None,
    }
}

fn main() {
    let mut input = std::io::stdin().lock();
    let mut output = std::io::BufWriter::new(std::io::stdout().lock());
    let mut tray = Tray::default();
    let mut bytes = [0u8; LONGEST_FRAME];
    let mut portion = [0u8; 4096];
    // An input that cannot be read, or an output that cannot be written, ends it.
    while let Ok(count) = input.read(&mut portion) {
        if count == 0 {
            break;
        }
        let mut used = 0;
        while let Ok(step) = call(&tray, &mut bytes, &portion[used..count]) {
            tray = step.tray;
            used += step.used;
            match line(step.event) {
                Some(line) => drop(writeln!(output, "{line}")),
                None => break,
            }
        }
    }
    while let Ok(step) = finish(&tray, &mut bytes) {
        tray = step.tray;
        match line(step.event) {
            Some(line) => drop(writeln!(output, "{line}")),
            None => break,
        }
    }
    drop(writeln!(output, "end"));
}
