//! The wrapper in use: a frame written, found in a stream behind three bytes of noise, and its payload read; where a payload and a sheet are at fault;
//! then a desk that takes two messages, the run log read back, a desk before and after a gap, one whose provider restarts its
//! solver, a book kept and an older one read, and views of two sheets.

use homralgyu::{Book, Desk, Entry, Event, Fault, Parts, Stream};

/// A sheet of GPS as a payload, and its bits.
fn payload_of(message_type: u8, sheet: &[u64]) -> Result<(Vec<u8>, usize), Fault> {
    let mut payload = vec![0; homralgyu::LONGEST_PAYLOAD];
    let (bits, bytes) = homralgyu::write_sheet(message_type, 0, sheet, &mut payload)?;
    payload.truncate(bytes);
    Ok((payload, bits))
}

/// A payload as a plain frame.
fn framed(message_type: u8, tag: u64, payload: &[u8]) -> Result<Vec<u8>, Fault> {
    let parts =
        Parts { message_type, check_type: 2, subtype: 0, tag_kind: 0, tag, solution: 5, processor: 11 };
    let mut frame = vec![0; homralgyu::LONGEST_FRAME];
    let length = homralgyu::write(&parts, payload, &mut frame)?;
    frame.truncate(length);
    Ok(frame)
}

/// A sheet of GPS as a plain frame.
fn frame_of(message_type: u8, sheet: &[u64]) -> Result<Vec<u8>, Fault> {
    let (payload, bits) = payload_of(message_type, sheet)?;
    println!("payload of {bits} bits in {} bytes", payload.len());
    framed(message_type, 43199, &payload)
}

fn find_and_read() -> Result<(), Fault> {
    // document 01, measured case 4: a GPS OCB with one unused satellite has 50 bits, 7 bytes
    let sheet = [0, 0, 0, 0, 0, 0, 0, 1 << 31, 1];
    let frame = frame_of(0, &sheet)?;
    let mut input = vec![0x00, 0x73, 0x00];
    input.extend_from_slice(&frame);
    let mut stream = Stream::new();
    let mut rest = &input[..];
    loop {
        let (event, used) = stream.call(rest)?;
        rest = &rest[used..];
        match event {
            Event::Noise(count) => println!("noise {count}"),
            Event::Frame(header) => {
                println!("frame {} {} {}", header.length, header.parts.message_type, header.parts.subtype);
                let (header, payload) = homralgyu::open(stream.frame())?;
                let mut back = vec![0; homralgyu::SHEET_ROOM];
                let (bits, entries) = homralgyu::read_payload(
                    header.parts.message_type,
                    header.parts.subtype,
                    payload,
                    &mut back,
                )?;
                println!("read {bits} bits, {entries} entries, alike: {}", back[..entries] == sheet);
            }
            Event::Hungry | Event::Done => break,
        }
    }
    println!("end: {:?}", stream.finish()?);
    println!("SF020 at 0: {:?}", homralgyu::value(20, 0)?);
    println!("a frame that is cut: {:?}", homralgyu::check(&frame[..frame.len() - 1]));
    at_fault(homralgyu::open(&frame)?.1);
    Ok(())
}

/// Where it went wrong, in words that can go to the provider's support.
fn at_fault(payload: &[u8]) {
    let mut sheet = vec![0; homralgyu::SHEET_ROOM];
    let cut = homralgyu::read_payload(0, 0, &payload[..payload.len() - 1], &mut sheet);
    println!("a payload that is cut: {}", cut.unwrap_err());
    let mut out = [0; homralgyu::LONGEST_PAYLOAD];
    let empty = homralgyu::write_sheet(0, 0, &[0; 9], &mut out);
    println!("a mask without a satellite: {}", empty.unwrap_err());
}

fn desk() -> Result<(), Fault> {
    // document 01, measured case 10: the first HPAC, without a book, one area 5
    let message = frame_of(1, &[0, 3, 0, 0, 5, 9, 0, 0])?;
    let definition = frame_of(2, &[0, 3, 0, 0, 5, 900, 0, 1, 0, 0, 0])?;
    let mut desk = Desk::new(5, 11, 0)?;
    let mut log = [0; homralgyu::LOG_ROOM];
    let written = desk.take(&message, 1000, &mut log)?;
    println!("log {:02X?}", &log[..written]);
    read_log(&log[..written])?;
    desk.take(&definition, 1001, &mut log)?;
    // a GAD does not reach the open run
    println!("area 5: {:02X?} in the open run, {:02X?} in the live book", desk.find(5), desk.book().find(5));
    println!("a frame that is cut: {:?}", desk.take(&message[..5], 1002, &mut log));
    // a desk that has the area before its run opens, and both grids of its two nodes
    let grids = frame_of(
        1,
        &[0, 3, 0, 0, 5, 2, 2, 2, 0, 0, 0, 0, 0, 1, 255, 254, 0, 0, 1, 0, 0, 0, 3, 16383, 16382],
    )?;
    let mut desk = Desk::new(5, 11, 0)?;
    desk.take(&definition, 1000, &mut log)?;
    let written = desk.take(&grids, 1001, &mut log)?;
    read_log(&log[..written])?;
    // satellites alone, without troposphere residuals
    let slant = frame_of(1, &[0, 3, 0, 0, 5, 2, 0, 2, 0, 0, 1 << 31, 0, 0, 0, 0, 15, 8])?;
    let written = desk.take(&slant, 1001, &mut log)?;
    read_log(&log[..written])?;
    gap(&definition, &message)?;
    restart()
}

/// A message that opens a run, 449 seconds behind the definition and 450, which is a gap; and a frame that is cut, after a gap.
/// The seconds are a running count that the caller keeps, and no second of the day.
fn gap(definition: &[u8], message: &[u8]) -> Result<(), Fault> {
    let mut log = [0; homralgyu::LOG_ROOM];
    let mut desk = Desk::new(5, 11, 0)?;
    desk.take(definition, 1000, &mut log)?;
    for (frame, second) in [(message, 1449), (message, 1450), (&message[..5], 1450)] {
        let mut then = desk.clone();
        let opened = then
            .take(frame, second, &mut log)
            .and_then(|written| Ok(homralgyu::read_entry(&log[..written])?));
        println!("second {second}: {:?}", opened.map(|(entry, _)| entry));
        println!(
            "last accepted {:?}, area 5 in the live book: {:02X?}",
            then.last_second(),
            then.book().find(5)
        );
    }
    Ok(())
}

/// Area 5, defined by a GAD with this SIOU.
fn definition_by(siou: u64) -> Result<Vec<u8>, Fault> {
    framed(2, 0, &payload_of(2, &[siou, 3, 0, 0, 5, 900, 0, 1, 0, 0, 0])?.0)
}

/// The entries that an HPAC message with this SIOU and tag adds for area 5, of which it has no grids.
fn tell(desk: &mut Desk, siou: u64, tag: u64) -> Result<(), Fault> {
    let message = framed(1, tag, &payload_of(1, &[siou, 3, 0, 0, 5, 9, 0, 0])?.0)?;
    let mut log = [0; homralgyu::LOG_ROOM];
    let written = desk.take(&message, 1000, &mut log)?;
    let mut rest = &log[..written];
    while !rest.is_empty() {
        let (entry, used) = homralgyu::read_entry(rest)?;
        match entry {
            Entry::Placed { id, nodes, .. } => println!("SIOU {siou}: area {id} placed on {nodes} nodes"),
            other => println!("SIOU {siou}: {other:?}"),
        }
        rest = &rest[used..];
    }
    Ok(())
}

/// A provider restarts its solver: it keeps its AIOU and bumps its SIOU, and its GAD comes while a run is open. No area is
/// joined with residuals of another solution: in the open run those of the new one are left out, for reason 5, and in the next
/// one those of the old one.
fn restart() -> Result<(), Fault> {
    let mut log = [0; homralgyu::LOG_ROOM];
    let mut desk = Desk::new(5, 11, 0)?;
    desk.take(&definition_by(298)?, 1000, &mut log)?;
    tell(&mut desk, 298, 100)?;
    desk.take(&definition_by(299)?, 1000, &mut log)?;
    println!("live book: AIOU {:?}, SIOU {:?}", desk.book().aiou(), desk.book().siou());
    tell(&mut desk, 299, 100)?;
    tell(&mut desk, 298, 100)?;
    tell(&mut desk, 299, 101)?;
    tell(&mut desk, 298, 101)?;
    keep(&desk)
}

/// The live book kept, and one that an older version kept, in form 1, which has no SIOU: no area of it is ever placed.
fn keep(desk: &Desk) -> Result<(), Fault> {
    let mut kept = [0; homralgyu::KEPT_ROOM];
    let written = desk.book().keep(&mut kept)?;
    println!("kept {:02X?}", &kept[..written]);
    println!("read back: SIOU {:?}", Book::kept(&kept[..written])?.siou());
    let older = Book::kept(&[0x01, 0x04, 0x01, 0x80, 0xC0, 0x80, 0x80, 0x84, 0x57])?;
    println!("of form 1: AIOU {:?}, SIOU {:?}, area 5 {:02X?}", older.aiou(), older.siou(), older.find(5));
    let mut desk = Desk::new(5, 11, 0)?;
    desk.take_book(&older)?;
    tell(&mut desk, 299, 102)?;
    desk.take(&definition_by(299)?, 1000, &mut [0; homralgyu::LOG_ROOM])?;
    tell(&mut desk, 299, 103)
}

/// The run log entry by entry, with the residuals of each area that is placed.
fn read_log(mut log: &[u8]) -> Result<(), Fault> {
    while !log.is_empty() {
        let (entry, used) = homralgyu::read_entry(log)?;
        println!("{entry:?}");
        if let Entry::Placed { troposphere, satellites, nodes, .. } = entry {
            for node in 0..troposphere.map_or(0, |grid| grid.count) {
                println!("node {node}: {:?}", homralgyu::entry_troposphere(log, node)?);
            }
            for k in 0..satellites {
                println!("satellite and SF063: {:?}", homralgyu::entry_satellite(log, k)?);
                for node in 0..nodes {
                    println!("node {node}: {:?}", homralgyu::entry_residual(log, k, node)?);
                }
            }
            println!("at place {satellites}: {:?}", homralgyu::entry_satellite(log, satellites));
        }
        log = &log[used..];
    }
    Ok(())
}

fn look() -> Result<(), Fault> {
    // satellite 1 of GPS with an orbit block and its yaw; area 5
    let ocb = [0, 0, 0, 1, 0, 0, 0, 1 << 31, 0, 4, 0, 9, 0, 8191, 16382, 59];
    let gad = [0, 3, 0, 0, 5, 900, 0, 1, 0, 0, 0];
    println!("{:?}", homralgyu::satellite_at(0, &ocb, 0)?);
    println!("at place 1: {:?}", homralgyu::satellite_at(0, &ocb, 1));
    // GPS has one ephemeris type, 0; document 000 marks the others TBD
    let mut tbd = ocb;
    tbd[5] = 2;
    if let Err(fault) = homralgyu::satellite_at(0, &tbd, 0) {
        println!("ephemeris type 2: {fault}");
    }
    println!("area 5: {:?}", homralgyu::gad_area(5, &gad)?);
    println!("area 6: {:?}", homralgyu::gad_area(6, &gad)?);
    Ok(())
}

fn main() -> Result<(), Fault> {
    find_and_read()?;
    desk()?;
    look()
}
