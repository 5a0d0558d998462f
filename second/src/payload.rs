//! The layouts of the twelve payloads: document 01, "Codes" and "Payloads"; document 02, request 6; source
//! document 000, tables 6.3 to 6.28.
//!
//! A layout is written once, as a walk that asks for one code after the other in reading order.
//! Whoever answers decides which way it goes: the reader takes the codes from bits, the writer
//! from a sheet, the generator makes them up.

use crate::answer::{Refusal, Refused};
use crate::bits::{fits, positions};

/// What a field takes.
#[derive(Clone, Copy, PartialEq, Eq, Debug)]
pub enum Takes {
    /// "All else takes its full width."
    Full,
    /// "A symmetric field of n bits takes 0 to 2^n - 2"; its top code is FIELD.
    Symmetric,
    /// A symmetric field whose top code is "invalid", and so is taken.
    Residual,
    /// "SF021 0 to 59, with 63 invalid"
    Yaw,
    /// 0 to this
    UpTo(u64),
    /// the two bits before a satellite mask
    MaskSize,
    /// the bits of a satellite mask: without a satellite MASK_EMPTY
    SatelliteMask,
    /// the bit before a bias mask
    BiasSize,
    /// the bits of a bias mask, none set if so sent
    BiasMask,
    /// up to 64 bits of SF079
    NodeMask,
}

/// One entry of a sheet: its SF number, its width in bits, what it takes. "A mask's size and bits are two
/// entries with one SF number", and so are the groups of SF079.
#[derive(Clone, Copy, PartialEq, Eq, Debug)]
pub struct Field {
    pub sf: u16,
    pub width: u32,
    pub takes: Takes,
}

impl Field {
    /// The highest code of the width.
    pub fn top(&self) -> u64 {
        if self.width >= 64 {
            u64::MAX
        } else {
            (1 << self.width) - 1
        }
    }

    /// The fault of a code at this entry: FIELD, then MASK_EMPTY.
    pub fn judge(&self, code: u64) -> Result<u64, Refusal> {
        let taken = fits(code, self.width)
            && match self.takes {
                Takes::Symmetric => code != self.top(),
                Takes::Yaw => code <= 59 || code == 63,
                Takes::UpTo(most) => code <= most,
                _ => true,
            };
        if !taken {
            return Err(Refusal::Field);
        }
        if self.takes == Takes::SatelliteMask && code == 0 {
            return Err(Refusal::MaskEmpty);
        }
        Ok(code)
    }
}

/// Who answers a walk: the code of the next entry, or the fault at it. The walk says which field is in
/// use there, by its SF number; whoever answers knows where it is, and says both if it is at fault.
pub trait Entries {
    fn next(&mut self, field: Field) -> Result<u64, Refused>;
    /// entries handed out so far
    fn count(&self) -> usize;
}

/// What differs from constellation to constellation.
pub struct Constellation {
    /// SF number and width of the ephemeris type, and the last type with a meaning: those above it are TBD
    pub ephemeris: (u16, u32, u64),
    /// SF number and width of the IODE
    pub iode: (u16, u32),
    /// SF number of the satellite mask
    pub mask: u16,
    /// "Mask sizes for size codes 0 to 3"
    pub mask_sizes: [u32; 4],
    /// "Satellite number: position + 1, QZSS position + 193."
    pub first_number: u64,
    /// SF numbers of the bias masks
    pub phase_mask: u16,
    pub code_mask: u16,
    /// their sizes for size bits 0 and 1
    pub bias_sizes: [u32; 2],
}

/// GPS, GLONASS, Galileo, BeiDou, QZSS, as the subtypes. Document 02, request 6: "Refuse TBD values: GPS and
/// GLONASS 1 to 3, Galileo and QZSS 3 to 7, BeiDou 6 to 15."
pub const CONSTELLATIONS: [Constellation; 5] = [
    Constellation {
        ephemeris: (16, 2, 0),
        iode: (18, 8),
        mask: 11,
        mask_sizes: [32, 44, 56, 64],
        first_number: 1,
        phase_mask: 25,
        code_mask: 27,
        bias_sizes: [6, 11],
    },
    Constellation {
        ephemeris: (17, 2, 0),
        iode: (19, 7),
        mask: 12,
        mask_sizes: [24, 36, 48, 63],
        first_number: 1,
        phase_mask: 26,
        code_mask: 28,
        bias_sizes: [5, 9],
    },
    Constellation {
        ephemeris: (96, 3, 2),
        iode: (99, 10),
        mask: 93,
        mask_sizes: [36, 45, 54, 64],
        first_number: 1,
        phase_mask: 102,
        code_mask: 105,
        bias_sizes: [8, 15],
    },
    Constellation {
        ephemeris: (97, 4, 5),
        iode: (100, 8),
        mask: 94,
        mask_sizes: [37, 46, 55, 64],
        first_number: 1,
        phase_mask: 103,
        code_mask: 106,
        bias_sizes: [8, 15],
    },
    Constellation {
        ephemeris: (98, 3, 2),
        iode: (101, 8),
        mask: 95,
        mask_sizes: [10, 40, 48, 64],
        first_number: 193,
        phase_mask: 104,
        code_mask: 107,
        bias_sizes: [6, 11],
    },
];

/// A satellite or bias mask: its size code, the width that the code stands for, its bits.
#[derive(Clone, Copy, PartialEq, Eq, Debug)]
pub struct Mask {
    pub size_code: u64,
    pub width: u32,
    pub bits: u64,
}

impl Mask {
    pub fn positions(&self) -> Vec<u64> {
        positions(self.bits, self.width)
    }
}

/// Any of the twelve, as codes.
#[derive(Clone, PartialEq, Eq, Debug)]
pub enum Message {
    Ocb(Ocb),
    Hpac(Hpac),
    Gad(Gad),
    Bpac(Bpac),
}

/// SM 0-0 to 0-4
#[derive(Clone, PartialEq, Eq, Debug)]
pub struct Ocb {
    pub siou: u64,
    pub end_of_set: u64,
    pub reserved: u64,
    pub yaw_present: u64,
    pub datum: u64,
    pub ephemeris: u64,
    pub mask: Mask,
    pub satellites: Vec<OcbSatellite>,
}

/// Table 6.4. "So a satellite is either out of use or carries blocks."
#[derive(Clone, PartialEq, Eq, Debug)]
pub struct OcbSatellite {
    pub number: u64,
    /// the sheet entry of its SF013
    pub entry: usize,
    /// none if SF013 is set
    pub in_use: Option<OcbBlocks>,
}

#[derive(Clone, PartialEq, Eq, Debug)]
pub struct OcbBlocks {
    /// SF014
    pub present: u64,
    /// SF015
    pub continuity: u64,
    pub orbit: Option<OrbitBlock>,
    pub clock: Option<ClockBlock>,
    pub bias: Option<BiasBlock>,
}

/// Table 6.5
#[derive(Clone, PartialEq, Eq, Debug)]
pub struct OrbitBlock {
    pub iode: u64,
    pub radial: u64,
    pub along: u64,
    pub cross: u64,
    pub yaw: Option<u64>,
}

/// Table 6.6
#[derive(Clone, PartialEq, Eq, Debug)]
pub struct ClockBlock {
    pub iode_continuity: u64,
    pub correction: u64,
    pub range_error: u64,
}

/// Tables 6.7 to 6.12
#[derive(Clone, PartialEq, Eq, Debug)]
pub struct BiasBlock {
    /// the sheet entry of the phase bias mask size, and the one after the block's last
    pub entries: (usize, usize),
    pub phase_mask: Mask,
    pub phases: Vec<PhaseBias>,
    pub code_mask: Mask,
    pub codes: Vec<u64>,
}

/// Table 6.12
#[derive(Clone, PartialEq, Eq, Debug)]
pub struct PhaseBias {
    pub fix: u64,
    pub continuity: u64,
    pub correction: u64,
}

/// SM 1-0 to 1-4
#[derive(Clone, PartialEq, Eq, Debug)]
pub struct Hpac {
    pub siou: u64,
    pub aiou: u64,
    pub reserved: u64,
    pub areas: Vec<HpacArea>,
}

/// Tables 6.14 and 6.15
#[derive(Clone, PartialEq, Eq, Debug)]
pub struct HpacArea {
    pub id: u64,
    /// SF039
    pub nodes: u64,
    /// the two SF040
    pub troposphere_blocks: u64,
    pub ionosphere_blocks: u64,
    pub troposphere: Option<TroposphereBlock>,
    pub ionosphere: Option<IonosphereBlock>,
}

/// Table 6.16
#[derive(Clone, PartialEq, Eq, Debug)]
pub struct TroposphereBlock {
    pub equation: u64,
    pub quality: u64,
    pub average: u64,
    /// SF044
    pub large: u64,
    /// SF number and code: T00, T01, T10, T11 as far as there
    pub coefficients: Vec<(u16, u64)>,
    pub grid: Option<Grid>,
}

/// Table 6.19
#[derive(Clone, PartialEq, Eq, Debug)]
pub struct IonosphereBlock {
    pub equation: u64,
    pub mask: Mask,
    pub satellites: Vec<IonosphereSatellite>,
}

/// Table 6.20
#[derive(Clone, PartialEq, Eq, Debug)]
pub struct IonosphereSatellite {
    pub number: u64,
    pub quality: u64,
    /// SF056
    pub large: u64,
    /// SF number and code: C00, C01, C10, C11 as far as there
    pub coefficients: Vec<(u16, u64)>,
    pub grid: Option<Grid>,
}

/// A residual field size (SF051 or SF063), the SF number it stands for, and a residual a node.
#[derive(Clone, PartialEq, Eq, Debug)]
pub struct Grid {
    pub size_code: u64,
    pub residual: Field,
    pub residuals: Vec<u64>,
}

/// SM 2-0
#[derive(Clone, PartialEq, Eq, Debug)]
pub struct Gad {
    pub siou: u64,
    pub aiou: u64,
    pub reserved: u64,
    pub areas: Vec<GadArea>,
}

/// Table 6.24
#[derive(Clone, Copy, PartialEq, Eq, Debug)]
pub struct GadArea {
    pub id: u64,
    pub latitude: u64,
    pub longitude: u64,
    pub latitude_count: u64,
    pub longitude_count: u64,
    pub latitude_spacing: u64,
    pub longitude_spacing: u64,
}

/// SM 3-0
#[derive(Clone, PartialEq, Eq, Debug)]
pub struct Bpac {
    pub siou: u64,
    pub reserved: u64,
    pub shell_height: u64,
    pub areas: Vec<BpacArea>,
}

/// Tables 6.26 and 6.27
#[derive(Clone, PartialEq, Eq, Debug)]
pub struct BpacArea {
    pub id: u64,
    pub latitude: u64,
    pub longitude: u64,
    pub latitude_count: u64,
    pub longitude_count: u64,
    pub latitude_spacing: u64,
    pub longitude_spacing: u64,
    pub average: u64,
    /// SF079, one of these a node
    pub present: Vec<bool>,
    /// one VTEC block per set mask bit
    pub vtecs: Vec<Vtec>,
}

/// Table 6.28
#[derive(Clone, PartialEq, Eq, Debug)]
pub struct Vtec {
    pub quality: u64,
    /// SF081
    pub large: u64,
    pub residual: u64,
}

/// Is this one of the twelve payloads? "OCB (0-0 to 0-4), HPAC (1-0 to 1-4), GAD (2-0) and BPAC (3-0)"
pub fn known(type_: u64, subtype: u64) -> bool {
    match type_ {
        0 | 1 => subtype <= 4,
        2 | 3 => subtype == 0,
        _ => false,
    }
}

/// The walk of a payload: UNKNOWN_TYPE, or its message, or the first fault in reading order.
pub fn message<E: Entries>(e: &mut E, type_: u64, subtype: u64) -> Result<Message, Refused> {
    if !known(type_, subtype) {
        return Err(Refusal::UnknownType.into());
    }
    match type_ {
        0 => ocb(e, &CONSTELLATIONS[subtype as usize]).map(Message::Ocb),
        1 => hpac(e, &CONSTELLATIONS[subtype as usize]).map(Message::Hpac),
        2 => gad(e).map(Message::Gad),
        _ => bpac(e).map(Message::Bpac),
    }
}

fn entry<E: Entries>(e: &mut E, sf: u16, width: u32, takes: Takes) -> Result<u64, Refused> {
    e.next(Field { sf, width, takes })
}

fn full<E: Entries>(e: &mut E, sf: u16, width: u32) -> Result<u64, Refused> {
    entry(e, sf, width, Takes::Full)
}

fn symmetric<E: Entries>(e: &mut E, sf: u16, width: u32) -> Result<u64, Refused> {
    entry(e, sf, width, Takes::Symmetric)
}

/// "mask size and mask bits (a number, leftmost bit highest) as two entries"; request 2: "a fault of the
/// bits has the bits' own place".
fn satellite_mask<E: Entries>(e: &mut E, c: &Constellation) -> Result<Mask, Refused> {
    let size_code = entry(e, c.mask, 2, Takes::MaskSize)?;
    let width = c.mask_sizes[size_code as usize & 3];
    let bits = entry(e, c.mask, width, Takes::SatelliteMask)?;
    Ok(Mask { size_code, width, bits })
}

/// "bias mask size likewise"
fn bias_mask<E: Entries>(e: &mut E, sf: u16, c: &Constellation) -> Result<Mask, Refused> {
    let size_code = entry(e, sf, 1, Takes::BiasSize)?;
    let width = c.bias_sizes[size_code as usize & 1];
    let bits = entry(e, sf, width, Takes::BiasMask)?;
    Ok(Mask { size_code, width, bits })
}

/// "OCB header: SF005 9, SF010 1, reserved 1, SF008 1, SF009 1, ephemeris type 2, 2, 3, 4, 3, mask."
fn ocb<E: Entries>(e: &mut E, c: &Constellation) -> Result<Ocb, Refused> {
    let siou = full(e, 5, 9)?;
    let end_of_set = full(e, 10, 1)?;
    // request 2: "The reserved bit is SF069." It is so in all four headers.
    let reserved = full(e, 69, 1)?;
    let yaw_present = full(e, 8, 1)?;
    let datum = full(e, 9, 1)?;
    // request 6: "FIELD at the ephemeris field, so after SHORT there and before any mask fault", whatever
    // blocks its satellites have
    let (sf, width, last) = c.ephemeris;
    let ephemeris = entry(e, sf, width, Takes::UpTo(last))?;
    let mask = satellite_mask(e, c)?;
    let mut satellites = Vec::new();
    for position in mask.positions() {
        satellites.push(ocb_satellite(e, c, position + c.first_number, yaw_present)?);
    }
    Ok(Ocb { siou, end_of_set, reserved, yaw_present, datum, ephemeris, mask, satellites })
}

/// "Each satellite: SF013; if set, nothing more ...; else SF014, SF015, then the blocks present:
/// orbit, clock, bias"
fn ocb_satellite<E: Entries>(
    e: &mut E,
    c: &Constellation,
    number: u64,
    yaw_present: u64,
) -> Result<OcbSatellite, Refused> {
    let place = e.count();
    if full(e, 13, 1)? == 1 {
        return Ok(OcbSatellite { number, entry: place, in_use: None });
    }
    // SF014: orbit leftmost, clock in the middle, bias rightmost
    let present = full(e, 14, 3)?;
    let continuity = full(e, 15, 3)?;
    let orbit = if present & 4 != 0 { Some(orbit(e, c, yaw_present)?) } else { None };
    let clock = if present & 2 != 0 { Some(clock(e)?) } else { None };
    let bias = if present & 1 != 0 { Some(bias(e, c)?) } else { None };
    let blocks = OcbBlocks { present, continuity, orbit, clock, bias };
    Ok(OcbSatellite { number, entry: place, in_use: Some(blocks) })
}

fn orbit<E: Entries>(e: &mut E, c: &Constellation, yaw_present: u64) -> Result<OrbitBlock, Refused> {
    Ok(OrbitBlock {
        iode: full(e, c.iode.0, c.iode.1)?,
        radial: symmetric(e, 20, 14)?,
        along: symmetric(e, 20, 14)?,
        cross: symmetric(e, 20, 14)?,
        yaw: if yaw_present == 1 { Some(entry(e, 21, 6, Takes::Yaw)?) } else { None },
    })
}

fn clock<E: Entries>(e: &mut E) -> Result<ClockBlock, Refused> {
    Ok(ClockBlock {
        iode_continuity: full(e, 22, 3)?,
        correction: symmetric(e, 20, 14)?,
        range_error: full(e, 24, 3)?,
    })
}

fn bias<E: Entries>(e: &mut E, c: &Constellation) -> Result<BiasBlock, Refused> {
    let first = e.count();
    let phase_mask = bias_mask(e, c.phase_mask, c)?;
    let mut phases = Vec::new();
    for _ in phase_mask.positions() {
        phases.push(PhaseBias {
            fix: full(e, 23, 1)?,
            continuity: full(e, 15, 3)?,
            correction: symmetric(e, 20, 14)?,
        });
    }
    let code_mask = bias_mask(e, c.code_mask, c)?;
    let mut codes = Vec::new();
    for _ in code_mask.positions() {
        codes.push(symmetric(e, 29, 11)?);
    }
    Ok(BiasBlock { entries: (first, e.count()), phase_mask, phases, code_mask, codes })
}

fn hpac<E: Entries>(e: &mut E, c: &Constellation) -> Result<Hpac, Refused> {
    let siou = full(e, 5, 9)?;
    let aiou = full(e, 68, 4)?;
    let reserved = full(e, 69, 1)?;
    // "SF030, 034 to 037, 071, 075, 076 mean code plus one"
    let area_count = full(e, 30, 5)? + 1;
    let mut areas = Vec::new();
    for _ in 0..area_count {
        areas.push(hpac_area(e, c)?);
    }
    Ok(Hpac { siou, aiou, reserved, areas })
}

fn hpac_area<E: Entries>(e: &mut E, c: &Constellation) -> Result<HpacArea, Refused> {
    let id = full(e, 31, 8)?;
    let nodes = full(e, 39, 7)?;
    let troposphere_blocks = entry(e, 40, 2, Takes::UpTo(2))?;
    let ionosphere_blocks = entry(e, 40, 2, Takes::UpTo(2))?;
    let troposphere = match troposphere_blocks {
        0 => None,
        blocks => Some(troposphere(e, blocks == 2, nodes)?),
    };
    let ionosphere = match ionosphere_blocks {
        0 => None,
        blocks => Some(ionosphere(e, c, blocks == 2, nodes)?),
    };
    Ok(HpacArea { id, nodes, troposphere_blocks, ionosphere_blocks, troposphere, ionosphere })
}

/// Tables 6.17, 6.18, 6.21, 6.22: one coefficient for equation type 0, three for 1, four for 2.
fn coefficients<E: Entries>(
    e: &mut E,
    equation: u64,
    fields: [(u16, u32); 4],
) -> Result<Vec<(u16, u64)>, Refused> {
    let count = match equation {
        0 => 1,
        1 => 3,
        _ => 4,
    };
    let mut codes = Vec::new();
    for (sf, width) in fields.into_iter().take(count) {
        codes.push((sf, symmetric(e, sf, width)?));
    }
    Ok(codes)
}

fn grid<E: Entries>(e: &mut E, size_code: u64, sf: u16, width: u32, nodes: u64) -> Result<Grid, Refused> {
    let residual = Field { sf, width, takes: Takes::Residual };
    let mut residuals = Vec::new();
    for _ in 0..nodes {
        residuals.push(e.next(residual)?);
    }
    Ok(Grid { size_code, residual, residuals })
}

fn troposphere<E: Entries>(e: &mut E, with_grid: bool, nodes: u64) -> Result<TroposphereBlock, Refused> {
    let equation = entry(e, 41, 3, Takes::UpTo(2))?;
    let quality = full(e, 42, 3)?;
    let average = symmetric(e, 43, 8)?;
    let large = full(e, 44, 1)?;
    let coefficients = if large == 0 {
        coefficients(e, equation, [(45, 7), (46, 7), (46, 7), (47, 9)])?
    } else {
        coefficients(e, equation, [(48, 9), (49, 9), (49, 9), (50, 11)])?
    };
    let grid = if with_grid {
        let size_code = full(e, 51, 1)?;
        let (sf, width) = if size_code == 0 { (52, 6) } else { (53, 8) };
        Some(grid(e, size_code, sf, width, nodes)?)
    } else {
        None
    };
    Ok(TroposphereBlock { equation, quality, average, large, coefficients, grid })
}

fn ionosphere<E: Entries>(
    e: &mut E,
    c: &Constellation,
    with_grid: bool,
    nodes: u64,
) -> Result<IonosphereBlock, Refused> {
    let equation = entry(e, 54, 3, Takes::UpTo(2))?;
    let mask = satellite_mask(e, c)?;
    let mut satellites = Vec::new();
    for position in mask.positions() {
        let quality = full(e, 55, 4)?;
        let large = full(e, 56, 1)?;
        let coefficients = if large == 0 {
            coefficients(e, equation, [(57, 12), (58, 12), (58, 12), (59, 13)])?
        } else {
            coefficients(e, equation, [(60, 14), (61, 14), (61, 14), (62, 15)])?
        };
        let grid = if with_grid {
            let size_code = full(e, 63, 2)?;
            let (sf, width) = [(64, 4), (65, 7), (66, 10), (67, 14)][size_code as usize & 3];
            Some(grid(e, size_code, sf, width, nodes)?)
        } else {
            None
        };
        let number = position + c.first_number;
        satellites.push(IonosphereSatellite { number, quality, large, coefficients, grid });
    }
    Ok(IonosphereBlock { equation, mask, satellites })
}

fn gad<E: Entries>(e: &mut E) -> Result<Gad, Refused> {
    let siou = full(e, 5, 9)?;
    let aiou = full(e, 68, 4)?;
    let reserved = full(e, 69, 1)?;
    let area_count = full(e, 30, 5)? + 1;
    let mut areas = Vec::new();
    for _ in 0..area_count {
        areas.push(gad_area(e)?);
    }
    Ok(Gad { siou, aiou, reserved, areas })
}

/// Table 6.24, the 47 bits of an area. The book and the kept book walk them too.
pub fn gad_area<E: Entries>(e: &mut E) -> Result<GadArea, Refused> {
    Ok(GadArea {
        id: full(e, 31, 8)?,
        latitude: entry(e, 32, 11, Takes::UpTo(1800))?,
        longitude: entry(e, 33, 12, Takes::UpTo(3600))?,
        latitude_count: full(e, 34, 3)?,
        longitude_count: full(e, 35, 3)?,
        latitude_spacing: full(e, 36, 5)?,
        longitude_spacing: full(e, 37, 5)?,
    })
}

fn bpac<E: Entries>(e: &mut E) -> Result<Bpac, Refused> {
    let siou = full(e, 5, 9)?;
    let reserved = full(e, 69, 1)?;
    let shell_height = full(e, 70, 2)?;
    let area_count = full(e, 71, 2)? + 1;
    let mut areas = Vec::new();
    for _ in 0..area_count {
        areas.push(bpac_area(e)?);
    }
    Ok(Bpac { siou, reserved, shell_height, areas })
}

/// "average VTEC before the node mask, one VTEC block per set mask bit"
fn bpac_area<E: Entries>(e: &mut E) -> Result<BpacArea, Refused> {
    let id = full(e, 72, 2)?;
    let latitude = entry(e, 73, 8, Takes::UpTo(170))?;
    let longitude = entry(e, 74, 9, Takes::UpTo(360))?;
    let latitude_count = full(e, 75, 4)?;
    let longitude_count = full(e, 76, 4)?;
    let latitude_spacing = full(e, 77, 2)?;
    let longitude_spacing = full(e, 78, 2)?;
    let average = symmetric(e, 80, 12)?;
    // "SF079 in groups of 64 from the left"; "Each group of SF079 is an entry."
    let mut left = ((latitude_count + 1) * (longitude_count + 1)) as u32;
    let mut present = Vec::new();
    while left > 0 {
        let width = left.min(64);
        let bits = entry(e, 79, width, Takes::NodeMask)?;
        present.extend((0..width).rev().map(|place| bits >> place & 1 == 1));
        left -= width;
    }
    let mut vtecs = Vec::new();
    for _ in present.iter().filter(|&&set| set) {
        let quality = full(e, 55, 4)?;
        let large = full(e, 81, 1)?;
        let residual =
            if large == 0 { entry(e, 82, 7, Takes::Residual)? } else { entry(e, 83, 11, Takes::Residual)? };
        vtecs.push(Vtec { quality, large, residual });
    }
    Ok(BpacArea {
        id,
        latitude,
        longitude,
        latitude_count,
        longitude_count,
        latitude_spacing,
        longitude_spacing,
        average,
        present,
        vtecs,
    })
}
