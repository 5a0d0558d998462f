//! Views of a sheet: a satellite of OCB by its place, an area of HPAC, GAD or BPAC by its ID.

use crate::judge::{Input, Judge};
use crate::lent::{self, Lent};
use crate::marks;
use crate::meanings::bits;
use crate::payloads::{must_be, Known};
use homralgyu::raw;
use second::answer::{with_place, Refused};
use second::generate::*;
use second::values::{Orbit, Yaw};
use second::views::{self, AreaId, BpacAreaId, HpacView, InUse, Satellite, SatelliteView};
use std::collections::VecDeque;
use std::ops::Range;

/// What a view says: its numbers and its floats.
type Told = (Vec<u64>, Vec<f64>);

/// What is handed to a call besides its arguments: the sheet, and slices for numbers and floats.
struct Lending {
    sheet: Vec<u64>,
    view: Vec<u64>,
    floats: Vec<f64>,
}

impl Lending {
    fn said(&self) -> String {
        format!("sheet {:?}, places {} and {}", self.sheet, self.view.len(), self.floats.len())
    }

    /// Makes the call with the slices between canaries, and compares it with what the second program says: whether there was
    /// room.
    fn compare(
        &self,
        judge: &mut Judge,
        input: &Input,
        rooms: [usize; 2],
        told: &Result<Told, Refused>,
        call: impl Fn(&[u64], &mut [u64], &mut [f64]) -> u64,
    ) -> bool {
        let sheet = lent::numbers(&self.sheet);
        let (mut view, mut floats) = (lent::numbers(&self.view), Lent::new(&self.floats, -7.5));
        let answer = call(sheet.now(), view.part(), floats.part());
        let (mut view_after, mut floats_after) = (self.view.clone(), self.floats.clone());
        let has_room = self.view.len() >= rooms[0] && self.floats.len() >= rooms[1];
        if !has_room {
            judge.answer(input, answer, 9);
        } else {
            judge.answer(input, answer, with_place(told));
            if let Ok((numbers, values)) = told {
                view_after[..numbers.len()].copy_from_slice(numbers);
                floats_after[..values.len()].copy_from_slice(values);
            }
        }
        judge.lent(input, "the view", &view, &view_after);
        judge.lent(input, "the floats", &floats, &floats_after);
        judge.same(input, "the floats' bits", &bits(floats.now()), &bits(&floats_after));
        judge.lent(input, "the sheet", &sheet, &self.sheet);
        has_room
    }
}

/// A sheet of the type, mostly a valid one, and slices of these sizes, mostly.
fn lending(rng: &mut Rng, kind: u64, subtype: u64, rooms: [usize; 2]) -> Lending {
    let sheet = match rng.below(8) {
        0..=4 => sheet(rng, kind, subtype).codes,
        5 => {
            let richness = rng.below(4);
            rich_sheet(rng, kind, subtype, richness, Vec::new()).codes
        }
        _ => odd_sheet(rng, kind, subtype),
    };
    let mut places = |room: usize| match rng.below(16) {
        0 => rng.below(room as u64 + 1) as usize,
        1 => room + 1 + rng.below(4) as usize,
        _ => room,
    };
    let (numbers, values) = (places(rooms[0]), places(rooms[1]));
    Lending { sheet, view: lent_entries(rng, numbers), floats: vec![1.25; values] }
}

/// The subtype that a call is told, mostly that of the sheet.
fn some_subtype(rng: &mut Rng, of: u64) -> u64 {
    if rng.one_in(12) {
        rng.pick(&[0, 1, 2, 3, 4, 5, 15, 255])
    } else {
        of
    }
}

/// An ID of the message, or any.
fn some_id(rng: &mut Rng, ids: &[u64], most: u64) -> u64 {
    if ids.is_empty() || rng.one_in(3) {
        rng.below(most + 1)
    } else {
        rng.pick(ids)
    }
}

// ---- satellites

/// First entry and count of the phase biases and of the code biases: each lies behind the size and the bits of its mask, a
/// phase bias has three entries, and the block ends with the code biases.
fn biases(sheet: &[u64], block: &Range<usize>) -> [u64; 4] {
    let phases = sheet[block.start + 1].count_ones() as usize;
    let codes_at = block.start + 2 + 3 * phases + 2;
    [block.start + 2, phases, codes_at, block.end - codes_at].map(|n| n as u64)
}

fn blocks(sheet: &[u64], of: &InUse) -> Told {
    let (yaw, angle) = match of.yaw {
        Yaw::Invalid => (0, 0.0),
        Yaw::Degrees(x) => (2, x),
        Yaw::Absent => (6, 0.0),
    };
    let metres = |o: &Orbit| [o.radial, o.along, o.cross];
    let orbit = of.orbit.as_ref().map(|o| (o.iode, metres(&o.corrections)));
    let clock = of.clock.as_ref().map(|c| (c.iode_continuity, c.correction, c.range_error));
    let (iode, corrections) = orbit.unwrap_or((0, [0.0; 3]));
    let (continuity, correction, error) = clock.unwrap_or((0, 0.0, 0));
    let has_biases = !of.biases.is_empty();
    let places = if has_biases { biases(sheet, &of.biases) } else { [0; 4] };
    let mut numbers = vec![1, of.continuity, orbit.is_some() as u64, iode, yaw];
    numbers.extend([clock.is_some() as u64, continuity, error, has_biases as u64]);
    numbers.extend(places);
    let mut floats = corrections.to_vec();
    floats.extend([angle, correction]);
    (numbers, floats)
}

fn satellite_told(sheet: &[u64], of: &SatelliteView) -> Told {
    let (mut numbers, floats) = match &of.satellite {
        Satellite::OutOfUse => (vec![0], Vec::new()),
        Satellite::InUse(in_use) => blocks(sheet, in_use),
    };
    numbers.insert(0, of.number);
    (numbers, floats)
}

/// The slices that a view of a satellite wants.
const SATELLITE_ROOMS: [usize; 2] = [14, 5];

pub fn satellite(rng: &mut Rng, judge: &mut Judge) {
    let of = rng.below(5);
    let lending = lending(rng, 0, of, SATELLITE_ROOMS);
    let subtype = some_subtype(rng, of);
    // of a sheet that is refused no place is past the last
    let accepted = views::satellites(subtype, &lending.sheet).ok();
    let count = accepted.as_ref().map_or(1, |all| all.len() as u64);
    let inside = rng.below(count);
    let far = rng.pick(&[u64::MAX, (1 << 16) + inside, (1 << 32) + inside]);
    let place = rng.pick(&[inside, inside, inside, inside, inside, 0, count - 1, count, count + 1, far]);
    let past = accepted.is_some() && place >= count;
    satellite_one(judge, subtype, &lending, place, past, None);
}

/// The first satellite of a sheet, with room for it. It is known what has to be said of the sheet.
pub fn first_satellite(rng: &mut Rng, judge: &mut Judge, subtype: u64, codes: &[u64], must: Known) {
    let [numbers, values] = SATELLITE_ROOMS;
    let view = lent_entries(rng, numbers);
    let lending = Lending { sheet: codes.to_vec(), view, floats: vec![1.25; values] };
    satellite_one(judge, subtype, &lending, 0, false, must);
}

/// The satellite at a place; `past` says that an accepted sheet has fewer.
fn satellite_one(judge: &mut Judge, subtype: u64, lending: &Lending, place: u64, past: bool, must: Known) {
    let said = || format!("0-{subtype}, place {place}, {}", lending.said());
    let input = Input { call: "satellite_at", said: &said };
    let view = views::satellite(subtype, &lending.sheet, place);
    let told = view.as_ref().map(|view| satellite_told(&lending.sheet, view)).map_err(|why| *why);
    let has_room = lending.compare(judge, &input, SATELLITE_ROOMS, &told, |sheet, view, floats| {
        raw::satellite_at(subtype as u8, sheet, place, view, floats)
    });
    if has_room {
        marks::satellite_seen(judge, subtype, past, &view);
    }
    must_be(judge, &input, told.map(|_| ()), must);
}

// ---- areas

pub fn gad(rng: &mut Rng, judge: &mut Judge) {
    let rooms = [3, 4];
    let lending = lending(rng, 2, 0, rooms);
    let ids = ids_of(views::gad_areas(&lending.sheet), |area| area.id.0);
    let id = some_id(rng, &ids, 255);
    let said = || format!("2-0, area {id}, {}", lending.said());
    let input = Input { call: "gad_area", said: &said };
    let area = views::gad_area(&lending.sheet, AreaId(id));
    let told = area.map(|area| {
        area.map_or((vec![0], Vec::new()), |a| {
            let floats = vec![a.latitude, a.longitude, a.latitude_spacing, a.longitude_spacing];
            (vec![1, a.latitude_nodes, a.longitude_nodes], floats)
        })
    });
    let has_room = lending.compare(judge, &input, rooms, &told, |sheet, view, floats| {
        raw::gad_area(id as u8, sheet, view, floats)
    });
    if let (true, Ok((numbers, _))) = (has_room, &told) {
        marks::area_seen(judge, (2, 0), numbers, &ids, id);
    }
}

/// How many entries of the sheet an area of HPAC has: a code each, mask size and mask bits two.
fn hpac_entries(area: &HpacView) -> usize {
    let polynomial_and_grid = |coefficients: &Vec<f64>, residuals: &Option<Vec<_>>| {
        coefficients.len() + residuals.as_ref().map_or(0, |all| 1 + all.len())
    };
    let troposphere =
        area.troposphere.as_ref().map_or(0, |t| 4 + polynomial_and_grid(&t.coefficients, &t.residuals));
    let ionosphere = area.ionosphere.as_ref().map_or(0, |i| {
        let satellites = i.satellites.iter().map(|s| 2 + polynomial_and_grid(&s.coefficients, &s.residuals));
        3 + satellites.sum::<usize>()
    });
    4 + troposphere + ionosphere
}

/// SF040: no block, one without a grid, one with it.
fn blocks_code<T>(residuals: Option<&Option<Vec<T>>>) -> u64 {
    match residuals {
        None => 0,
        Some(None) => 1,
        Some(Some(_)) => 2,
    }
}

/// SF040 of the ionosphere: each of its satellites has a grid, or none has.
fn hpac_told(before: &[HpacView], a: &HpacView) -> Told {
    let start = 4 + before.iter().map(hpac_entries).sum::<usize>() as u64;
    let troposphere = blocks_code(a.troposphere.as_ref().map(|t| &t.residuals));
    let ionosphere = blocks_code(a.ionosphere.as_ref().map(|i| &i.satellites[0].residuals));
    (vec![1, start, a.nodes, troposphere, ionosphere], Vec::new())
}

pub fn hpac(rng: &mut Rng, judge: &mut Judge) {
    let of = rng.below(5);
    let rooms = [5, 0];
    let lending = lending(rng, 1, of, rooms);
    let subtype = some_subtype(rng, of);
    let areas = views::hpac_areas(subtype, &lending.sheet).unwrap_or_default();
    let ids: Vec<u64> = areas.iter().map(|area| area.id.0).collect();
    let id = some_id(rng, &ids, 255);
    let said = || format!("1-{subtype}, area {id}, {}", lending.said());
    let input = Input { call: "hpac_area", said: &said };
    let at = ids.iter().position(|&other| other == id).unwrap_or(0);
    let area = views::hpac_area(subtype, &lending.sheet, AreaId(id));
    let told = area.map(|area| area.map_or((vec![0], Vec::new()), |a| hpac_told(&areas[..at], &a)));
    let has_room = lending.compare(judge, &input, rooms, &told, |sheet, view, _| {
        raw::hpac_area(subtype as u8, id as u8, sheet, view)
    });
    if let (true, Ok((numbers, _))) = (has_room, &told) {
        marks::area_seen(judge, (1, subtype), numbers, &ids, id);
    }
}

/// Two to four areas with all their nodes: about as long as the longest payload, or too long.
fn full_bpac(rng: &mut Rng) -> Vec<u64> {
    let all = |code: u64, count: usize| VecDeque::from(vec![code; count]);
    let areas = all(rng.between(1, 3), 1);
    let wanted = vec![(71, areas), (75, all(15, 4)), (76, all(15, 4)), (79, all(u64::MAX, 16))];
    rich_sheet(rng, 3, 0, 3, wanted).codes
}

pub fn bpac(rng: &mut Rng, judge: &mut Judge) {
    let rooms = [4, 5];
    let mut lending = lending(rng, 3, 0, rooms);
    if rng.one_in(20) {
        lending.sheet = full_bpac(rng);
    }
    let areas = views::bpac_areas(&lending.sheet);
    let ids = ids_of(areas.clone(), |area| area.id.0);
    let most = rng.pick(&[3, 3, 4, 255]);
    let id = some_id(rng, &ids, most);
    let said = || format!("3-0, BPAC area {id}, {}", lending.said());
    let input = Input { call: "bpac_area", said: &said };
    let area = views::bpac_area(&lending.sheet, BpacAreaId(id));
    // eight entries, the node mask in groups of 64, three entries a node that has a bit
    let before = areas.unwrap_or_default().into_iter().take_while(|area| area.id.0 != id);
    let entries = before.map(|a| 8 + a.nodes.len().div_ceil(64) + 3 * a.nodes.iter().flatten().count());
    let start = 4 + entries.sum::<usize>() as u64;
    let told = area.map(|area| {
        area.map_or((vec![0], Vec::new()), |a| {
            let floats = vec![a.latitude, a.longitude, a.latitude_spacing, a.longitude_spacing, a.average];
            (vec![1, start, a.latitude_nodes, a.longitude_nodes], floats)
        })
    });
    let has_room = lending.compare(judge, &input, rooms, &told, |sheet, view, floats| {
        raw::bpac_area(id as u8, sheet, view, floats)
    });
    if let (true, Ok((numbers, _))) = (has_room, &told) {
        marks::area_seen(judge, (3, 0), numbers, &ids, id);
    }
    // a sheet that is accepted has an area
    if has_room && id > 3 && !ids.is_empty() {
        judge.mark("view of 3-0: an ID over 3");
    }
}

fn ids_of<T>(areas: Result<Vec<T>, Refused>, id: fn(&T) -> u64) -> Vec<u64> {
    areas.unwrap_or_default().iter().map(id).collect()
}
