//! Views of a message on a sheet: a satellite of an OCB, an area of an HPAC, GAD or BPAC.
//!
//! A view is given of a sheet that the writer would take: the writer's refusals (UNKNOWN_TYPE, first
//! fault, LEFTOVER, LENGTH) come first, SHORT, FIELD and MASK_EMPTY with the SF number and the sheet
//! entry (request 2). "A view's own FIELD (a place past the last satellite) has none", and nor has that of
//! an ID out of its range. "Where an ID repeats in a message, a call that looks for it finds the first."

use crate::answer::{Refusal, Refused};
use crate::payload::{Bpac, Gad, Grid, Hpac, Message, Ocb, OcbSatellite};
use crate::sheet::close;
use crate::values::{count, float, orbit, residual, yaw, Orbit, Residual, Yaw};
use std::ops::Range;

/// SF031. "A BPAC area ID and an area ID are counted apart"
#[derive(Clone, Copy, PartialEq, Eq, Debug)]
pub struct AreaId(pub u64);

/// SF072
#[derive(Clone, Copy, PartialEq, Eq, Debug)]
pub struct BpacAreaId(pub u64);

/// "So a satellite is either out of use or carries blocks, and its yaw is absent, invalid or an angle."
#[derive(Clone, PartialEq, Debug)]
pub enum Satellite {
    OutOfUse,
    InUse(InUse),
}

#[derive(Clone, PartialEq, Debug)]
pub struct InUse {
    /// SF015
    pub continuity: u64,
    pub orbit: Option<OrbitView>,
    /// absent where SF008 is 0 or there is no orbit block
    pub yaw: Yaw,
    pub clock: Option<ClockView>,
    /// the biases stay on the sheet: its entries that are the bias block, none if there is none
    pub biases: Range<usize>,
}

#[derive(Clone, PartialEq, Debug)]
pub struct OrbitView {
    pub iode: u64,
    pub corrections: Orbit,
}

#[derive(Clone, PartialEq, Debug)]
pub struct ClockView {
    /// SF022
    pub iode_continuity: u64,
    /// metres
    pub correction: f64,
    /// SF024
    pub range_error: u64,
}

/// A satellite, its number, and the sheet entry of its SF013.
#[derive(Clone, PartialEq, Debug)]
pub struct SatelliteView {
    pub number: u64,
    pub entry: usize,
    pub satellite: Satellite,
}

fn ocb(subtype: u64, sheet: &[u64]) -> Result<Ocb, Refused> {
    match close(0, subtype, sheet)?.0 {
        Message::Ocb(ocb) => Ok(ocb),
        _ => Err(Refusal::UnknownType.into()),
    }
}

fn view(of: &OcbSatellite) -> Result<SatelliteView, Refused> {
    let satellite = match &of.in_use {
        None => Satellite::OutOfUse,
        Some(blocks) => Satellite::InUse(InUse {
            continuity: blocks.continuity,
            orbit: match &blocks.orbit {
                None => None,
                Some(b) => Some(OrbitView { iode: b.iode, corrections: orbit(b.radial, b.along, b.cross)? }),
            },
            yaw: match blocks.orbit.as_ref().and_then(|b| b.yaw) {
                None => Yaw::Absent,
                Some(code) => yaw(code)?,
            },
            clock: match &blocks.clock {
                None => None,
                Some(b) => Some(ClockView {
                    iode_continuity: b.iode_continuity,
                    correction: float(20, b.correction)?,
                    range_error: b.range_error,
                }),
            },
            biases: match &blocks.bias {
                None => 0..0,
                Some(b) => b.entries.0..b.entries.1,
            },
        }),
    };
    Ok(SatelliteView { number: of.number, entry: of.entry, satellite })
}

/// All satellites of an OCB in mask order.
pub fn satellites(subtype: u64, sheet: &[u64]) -> Result<Vec<SatelliteView>, Refused> {
    ocb(subtype, sheet)?.satellites.iter().map(view).collect()
}

/// The satellite at a place: 0 for the first of the mask. A place past the last: FIELD.
pub fn satellite(subtype: u64, sheet: &[u64], place: u64) -> Result<SatelliteView, Refused> {
    let all = satellites(subtype, sheet)?;
    all.into_iter().nth(usize::try_from(place).unwrap_or(usize::MAX)).ok_or(Refusal::Field.into())
}

/// The satellite of a number; none if the mask does not have it.
pub fn satellite_of(subtype: u64, sheet: &[u64], number: u64) -> Result<Option<SatelliteView>, Refused> {
    Ok(satellites(subtype, sheet)?.into_iter().find(|s| s.number == number))
}

/// The satellite whose SF013 is this entry of the sheet; an entry that is no SF013: FIELD.
pub fn satellite_at(subtype: u64, sheet: &[u64], entry: u64) -> Result<SatelliteView, Refused> {
    satellites(subtype, sheet)?.into_iter().find(|s| s.entry as u64 == entry).ok_or(Refusal::Field.into())
}

/// An area of a GAD.
#[derive(Clone, PartialEq, Debug)]
pub struct GadView {
    pub id: AreaId,
    /// degrees
    pub latitude: f64,
    pub longitude: f64,
    pub latitude_nodes: u64,
    pub longitude_nodes: u64,
    pub latitude_spacing: f64,
    pub longitude_spacing: f64,
}

fn gad(sheet: &[u64]) -> Result<Gad, Refused> {
    match close(2, 0, sheet)?.0 {
        Message::Gad(gad) => Ok(gad),
        _ => Err(Refusal::UnknownType.into()),
    }
}

pub fn gad_areas(sheet: &[u64]) -> Result<Vec<GadView>, Refused> {
    let view = |area: &crate::payload::GadArea| {
        Ok(GadView {
            id: AreaId(area.id),
            latitude: float(32, area.latitude)?,
            longitude: float(33, area.longitude)?,
            latitude_nodes: count(34, area.latitude_count)?,
            longitude_nodes: count(35, area.longitude_count)?,
            latitude_spacing: float(36, area.latitude_spacing)?,
            longitude_spacing: float(37, area.longitude_spacing)?,
        })
    };
    gad(sheet)?.areas.iter().map(view).collect()
}

/// The first area of that ID; none if there is none. An ID over 255: FIELD, after the sheet's own.
pub fn gad_area(sheet: &[u64], id: AreaId) -> Result<Option<GadView>, Refused> {
    let areas = gad_areas(sheet)?;
    if id.0 > 255 {
        return Err(Refusal::Field.into());
    }
    Ok(areas.into_iter().find(|area| area.id == id))
}

/// An area of an HPAC.
#[derive(Clone, PartialEq, Debug)]
pub struct HpacView {
    pub id: AreaId,
    /// SF039
    pub nodes: u64,
    pub troposphere: Option<TroposphereView>,
    pub ionosphere: Option<IonosphereView>,
}

#[derive(Clone, PartialEq, Debug)]
pub struct TroposphereView {
    pub equation: u64,
    pub quality: u64,
    /// metres, without the 2.3 m
    pub average: f64,
    /// T00 (without the 0.252 m), T01, T10, T11 as far as there
    pub coefficients: Vec<f64>,
    /// one a node; none without a grid
    pub residuals: Option<Vec<Residual>>,
}

#[derive(Clone, PartialEq, Debug)]
pub struct IonosphereView {
    pub equation: u64,
    pub satellites: Vec<IonosphereSatelliteView>,
}

#[derive(Clone, PartialEq, Debug)]
pub struct IonosphereSatelliteView {
    pub number: u64,
    pub quality: u64,
    /// C00, C01, C10, C11 as far as there
    pub coefficients: Vec<f64>,
    /// one a node; none without a grid
    pub residuals: Option<Vec<Residual>>,
}

fn hpac(subtype: u64, sheet: &[u64]) -> Result<Hpac, Refused> {
    match close(1, subtype, sheet)?.0 {
        Message::Hpac(hpac) => Ok(hpac),
        _ => Err(Refusal::UnknownType.into()),
    }
}

fn floats(codes: &[(u16, u64)]) -> Result<Vec<f64>, Refusal> {
    codes.iter().map(|&(sf, code)| float(sf, code)).collect()
}

fn residuals(grid: &Option<Grid>) -> Result<Option<Vec<Residual>>, Refusal> {
    match grid {
        None => Ok(None),
        Some(grid) => {
            let all: Result<Vec<_>, _> =
                grid.residuals.iter().map(|&code| residual(grid.residual.sf, code)).collect();
            all.map(Some)
        }
    }
}

pub fn hpac_areas(subtype: u64, sheet: &[u64]) -> Result<Vec<HpacView>, Refused> {
    let mut views = Vec::new();
    for area in &hpac(subtype, sheet)?.areas {
        let troposphere = match &area.troposphere {
            None => None,
            Some(block) => Some(TroposphereView {
                equation: block.equation,
                quality: block.quality,
                average: float(43, block.average)?,
                coefficients: floats(&block.coefficients)?,
                residuals: residuals(&block.grid)?,
            }),
        };
        let ionosphere = match &area.ionosphere {
            None => None,
            Some(block) => {
                let mut satellites = Vec::new();
                for satellite in &block.satellites {
                    satellites.push(IonosphereSatelliteView {
                        number: satellite.number,
                        quality: satellite.quality,
                        coefficients: floats(&satellite.coefficients)?,
                        residuals: residuals(&satellite.grid)?,
                    });
                }
                Some(IonosphereView { equation: block.equation, satellites })
            }
        };
        views.push(HpacView { id: AreaId(area.id), nodes: area.nodes, troposphere, ionosphere });
    }
    Ok(views)
}

/// The first area of that ID; none if there is none. An ID over 255: FIELD, after the sheet's own.
pub fn hpac_area(subtype: u64, sheet: &[u64], id: AreaId) -> Result<Option<HpacView>, Refused> {
    let areas = hpac_areas(subtype, sheet)?;
    if id.0 > 255 {
        return Err(Refusal::Field.into());
    }
    Ok(areas.into_iter().find(|area| area.id == id))
}

/// An area of a BPAC.
#[derive(Clone, PartialEq, Debug)]
pub struct BpacView {
    pub id: BpacAreaId,
    /// degrees
    pub latitude: f64,
    pub longitude: f64,
    pub latitude_nodes: u64,
    pub longitude_nodes: u64,
    pub latitude_spacing: f64,
    pub longitude_spacing: f64,
    /// TECU
    pub average: f64,
    /// one a node: its VTEC quality and residual where the node mask has a bit
    pub nodes: Vec<Option<(u64, Residual)>>,
}

fn bpac(sheet: &[u64]) -> Result<Bpac, Refused> {
    match close(3, 0, sheet)?.0 {
        Message::Bpac(bpac) => Ok(bpac),
        _ => Err(Refusal::UnknownType.into()),
    }
}

pub fn bpac_areas(sheet: &[u64]) -> Result<Vec<BpacView>, Refused> {
    let mut views = Vec::new();
    for area in &bpac(sheet)?.areas {
        let mut vtecs = area.vtecs.iter();
        let mut nodes = Vec::new();
        for &present in &area.present {
            nodes.push(match if present { vtecs.next() } else { None } {
                None => None,
                Some(vtec) => {
                    let sf = if vtec.large == 0 { 82 } else { 83 };
                    Some((vtec.quality, residual(sf, vtec.residual)?))
                }
            });
        }
        views.push(BpacView {
            id: BpacAreaId(area.id),
            latitude: float(73, area.latitude)?,
            longitude: float(74, area.longitude)?,
            latitude_nodes: count(75, area.latitude_count)?,
            longitude_nodes: count(76, area.longitude_count)?,
            latitude_spacing: float(77, area.latitude_spacing)?,
            longitude_spacing: float(78, area.longitude_spacing)?,
            average: float(80, area.average)?,
            nodes,
        });
    }
    Ok(views)
}

/// The first area of that ID; none if there is none. An ID over 3: FIELD, after the sheet's own.
pub fn bpac_area(sheet: &[u64], id: BpacAreaId) -> Result<Option<BpacView>, Refused> {
    let areas = bpac_areas(sheet)?;
    if id.0 > 3 {
        return Err(Refusal::Field.into());
    }
    Ok(areas.into_iter().find(|area| area.id == id))
}

#[cfg(test)]
mod tests {
    use super::*;
    use crate::answer::Place;

    /// "A view's own FIELD .. has none": no place.
    const OWN: Refused = Refused { why: Refusal::Field, place: None };

    #[test]
    fn a_satellite_is_out_of_use_or_carries_blocks() {
        // QZSS, 10 bits: positions 0 and 9; the first out of use, the second with all blocks
        #[rustfmt::skip]
        let sheet = [
            0, 0, 0, 1, 0, 0, 0, 0b10_0000_0001, // header, mask
            1, // out of use
            0, 7, 3, // in use, all blocks
            200, 0, 8191, 16382, 63, // orbit with yaw
            2, 8192, 7, // clock
            0, 0b100000, 1, 2, 0, 1, 0, // one phase bias, no code bias
        ];
        let first = satellite(4, &sheet, 0).unwrap();
        assert_eq!((first.number, first.satellite), (193, Satellite::OutOfUse));
        let second = satellite(4, &sheet, 1).unwrap();
        assert_eq!((second.number, second.entry), (202, 9));
        let Satellite::InUse(blocks) = second.satellite.clone() else { panic!() };
        assert_eq!(blocks.continuity, 3);
        assert_eq!(blocks.yaw, Yaw::Invalid);
        let orbit = blocks.orbit.unwrap();
        assert_eq!(orbit.iode, 200);
        assert_eq!(orbit.corrections, Orbit { radial: -16.382, along: 0.0, cross: 16.382 });
        let clock = blocks.clock.unwrap();
        assert_eq!((clock.iode_continuity, clock.correction, clock.range_error), (2, 0.002, 7));
        assert_eq!(blocks.biases, 20..27);
        assert_eq!(satellite(4, &sheet, 2), Err(OWN));
        assert_eq!(satellite(4, &sheet, u64::MAX), Err(OWN));
        assert_eq!(satellite(5, &sheet, 0), Err(Refusal::UnknownType.into()));
        // the sheet's refusals, with their place, come first: the bits of the code bias mask are missing,
        // and the yaw is out of its range
        assert_eq!(satellite(4, &sheet[..26], 2), Err(Place { sf: 107, at: 26 }.refuses(Refusal::Short)));
        let mut yaw = sheet;
        yaw[16] = 62;
        assert_eq!(satellite(4, &yaw, 0), Err(Place { sf: 21, at: 16 }.refuses(Refusal::Field)));
        assert_eq!(satellite_of(4, &sheet, 202), Ok(Some(second.clone())));
        assert_eq!(satellite_of(4, &sheet, 194), Ok(None));
        assert_eq!(satellite_at(4, &sheet, 9), Ok(second));
        assert_eq!(satellite_at(4, &sheet, 10), Err(OWN));
    }

    #[test]
    fn a_type_without_a_meaning_is_refused_whatever_blocks_the_satellite_has() {
        let out_of_use = [0, 0, 0, 1, 0, 0, 0, 1, 1];
        let no_block = [0, 0, 0, 1, 0, 0, 0, 1, 0, 0, 5];
        let orbit = [0, 0, 0, 0, 0, 0, 0, 1, 0, 4, 0, 9, 0, 0, 0];
        for sheet in [&out_of_use[..], &no_block, &orbit] {
            for (subtype, (sf, last)) in (0..).zip([(16, 0), (17, 0), (96, 2), (97, 5), (98, 2)]) {
                let mut typed = sheet.to_vec();
                for code in 0..=last {
                    typed[5] = code;
                    assert_eq!(satellite(subtype, &typed, 0), satellite(subtype, sheet, 0));
                    assert_eq!(satellite(subtype, &typed, 1), Err(OWN));
                }
                typed[5] = last + 1;
                let refused = Err(Place { sf, at: 5 }.refuses(Refusal::Field));
                assert_eq!(satellite(subtype, &typed, 0), refused);
                assert_eq!(satellite(subtype, &typed, 1), refused);
            }
        }
    }

    #[test]
    fn yaw_is_absent_without_the_flag_or_an_orbit_block() {
        let no_flag = [0, 0, 0, 0, 0, 0, 0, 1, 0, 4, 0, 9, 0, 0, 0];
        let no_orbit = [0, 0, 0, 1, 0, 0, 0, 1, 0, 2, 0, 1, 8191, 0];
        let no_block = [0, 0, 0, 1, 0, 0, 0, 1, 0, 0, 5];
        for sheet in [&no_flag[..], &no_orbit, &no_block] {
            let Satellite::InUse(blocks) = satellite(0, sheet, 0).unwrap().satellite else { panic!() };
            assert_eq!(blocks.yaw, Yaw::Absent);
            assert_eq!(blocks.biases, 0..0);
        }
    }

    #[test]
    fn the_first_area_of_an_id_is_found() {
        let sheet = [7, 1, 0, 1, 5, 900, 1800, 7, 0, 31, 0, 5, 0, 0, 0, 0, 0, 0];
        let area = gad_area(&sheet, AreaId(5)).unwrap().unwrap();
        assert_eq!((area.latitude, area.longitude), (0.0, 0.0));
        assert_eq!((area.latitude_nodes, area.longitude_nodes), (8, 1));
        assert_eq!((area.latitude_spacing, area.longitude_spacing), (3.2, 0.1));
        assert_eq!(gad_area(&sheet, AreaId(6)), Ok(None));
        assert_eq!(gad_area(&sheet, AreaId(256)), Err(OWN));
        assert_eq!(
            gad_area(&sheet[..17], AreaId(256)),
            Err(Place { sf: 37, at: 17 }.refuses(Refusal::Short))
        );
    }

    #[test]
    fn a_bpac_residual_lies_at_its_node() {
        let sheet = [3, 0, 3, 0, 2, 170, 360, 1, 1, 3, 0, 2048, 0b0110, 15, 0, 127, 1, 1, 0];
        let area = bpac_area(&sheet, BpacAreaId(2)).unwrap().unwrap();
        assert_eq!((area.latitude, area.longitude, area.average), (85.0, 180.0, 0.25));
        let expected = [None, Some((15, Residual::Invalid)), Some((1, Residual::Tecu(-255.75))), None];
        assert_eq!(area.nodes, expected);
        assert_eq!(bpac_area(&sheet, BpacAreaId(1)), Ok(None));
        assert_eq!(bpac_area(&sheet, BpacAreaId(4)), Err(OWN));
        let large = Place { sf: 83, at: 18 };
        assert_eq!(bpac_area(&sheet[..18], BpacAreaId(4)), Err(large.refuses(Refusal::Short)));
    }

    #[test]
    fn an_hpac_area_has_its_values() {
        #[rustfmt::skip]
        let sheet = [
            0, 3, 0, 0, 5, 2, 2, 2, // area 5, two nodes, both grids
            0, 1, 128, 0, 64, 0, 63, 30, // troposphere: SF052 invalid, -0.004 m
            1, 0, 0b11 << 30, // two GPS satellites, equation 1
            4, 0, 2048, 2047, 0, 0, 15, 0, // small
            0, 1, 8191, 8192, 8191, 3, 16383, 16382, // large
        ];
        let area = hpac_area(0, &sheet, AreaId(5)).unwrap().unwrap();
        let troposphere = area.troposphere.unwrap();
        assert_eq!((troposphere.average, &troposphere.coefficients[..]), (0.004, &[0.004][..]));
        assert_eq!(troposphere.residuals.unwrap(), [Residual::Invalid, Residual::Metres(-0.004)]);
        let ionosphere = area.ionosphere.unwrap();
        assert_eq!(ionosphere.satellites.len(), 2);
        assert_eq!(ionosphere.satellites[0].coefficients, [0.04, 0.0, -16.376]);
        assert_eq!(ionosphere.satellites[1].coefficients, [0.0, 0.008, 0.0]);
        let second = ionosphere.satellites[1].residuals.clone().unwrap();
        assert_eq!(second, [Residual::Invalid, Residual::Tecu(327.64)]);
        assert_eq!(hpac_area(0, &sheet, AreaId(6)), Ok(None));
        let mut empty = sheet;
        empty[18] = 0;
        let mask = Place { sf: 11, at: 18 };
        assert_eq!(hpac_area(0, &empty, AreaId(6)), Err(mask.refuses(Refusal::MaskEmpty)));
    }
}
