//! Document 01, "Values in f64".

use crate::answer::{stop, Refusal};
use crate::payload::{Field, Takes};

/// What a code stands for.
#[derive(Clone, Copy, PartialEq, Debug)]
pub enum Value {
    /// metres, degrees, TECU, or any of them per degree: the field's own unit
    Float(f64),
    /// "SF030, 034 to 037, 071, 075, 076 mean code plus one" (036 and 037 are degrees)
    Count(u64),
    Residual(Residual),
    Yaw(Yaw),
}

/// "A residual is either invalid or a float in its unit."
#[derive(Clone, Copy, PartialEq, Debug)]
pub enum Residual {
    Invalid,
    Metres(f64),
    Tecu(f64),
}

/// "its yaw is absent, invalid or an angle"
#[derive(Clone, Copy, PartialEq, Debug)]
pub enum Yaw {
    Absent,
    Invalid,
    Degrees(f64),
}

/// "The three orbit corrections are handed out together in metres."
#[derive(Clone, Copy, PartialEq, Debug)]
pub struct Orbit {
    pub radial: f64,
    pub along: f64,
    pub cross: f64,
}

/// How a valued field's code becomes its value.
#[derive(Clone, Copy, PartialEq, Debug)]
enum Rule {
    /// (code - zero) / steps per unit; zero is the middle code of a symmetric field
    Steps {
        zero: i64,
        per_unit: u32,
    },
    Metres {
        per_unit: u32,
    },
    Tecu {
        per_unit: u32,
    },
    PlusOne,
    Yaw,
    /// SF077 and SF078 by their rows
    Spacing,
}

/// The valued fields: SF number, width, what it takes, rule. Steps per unit are one over the
/// resolution of table 6.2 (0.002 m: 500).
const fn row(sf: u16) -> Option<(u32, Takes, Rule)> {
    use Rule::*;
    use Takes::{Full, Residual as Top, Symmetric, UpTo};
    Some(match sf {
        20 => (14, Symmetric, Steps { zero: 8191, per_unit: 500 }),
        21 => (6, Takes::Yaw, Rule::Yaw),
        29 => (11, Symmetric, Steps { zero: 1023, per_unit: 50 }),
        30 => (5, Full, PlusOne),
        32 => (11, UpTo(1800), Steps { zero: 900, per_unit: 10 }),
        33 => (12, UpTo(3600), Steps { zero: 1800, per_unit: 10 }),
        34 | 35 => (3, Full, PlusOne),
        36 | 37 => (5, Full, Steps { zero: -1, per_unit: 10 }),
        43 => (8, Symmetric, Steps { zero: 127, per_unit: 250 }),
        45 => (7, Symmetric, Steps { zero: 63, per_unit: 250 }),
        46 => (7, Symmetric, Steps { zero: 63, per_unit: 1000 }),
        47 => (9, Symmetric, Steps { zero: 255, per_unit: 5000 }),
        48 => (9, Symmetric, Steps { zero: 255, per_unit: 250 }),
        49 => (9, Symmetric, Steps { zero: 255, per_unit: 1000 }),
        50 => (11, Symmetric, Steps { zero: 1023, per_unit: 5000 }),
        52 => (6, Top, Metres { per_unit: 250 }),
        53 => (8, Top, Metres { per_unit: 250 }),
        57 => (12, Symmetric, Steps { zero: 2047, per_unit: 25 }),
        58 => (12, Symmetric, Steps { zero: 2047, per_unit: 125 }),
        59 => (13, Symmetric, Steps { zero: 4095, per_unit: 500 }),
        60 => (14, Symmetric, Steps { zero: 8191, per_unit: 25 }),
        61 => (14, Symmetric, Steps { zero: 8191, per_unit: 125 }),
        62 => (15, Symmetric, Steps { zero: 16383, per_unit: 500 }),
        64 => (4, Top, Tecu { per_unit: 25 }),
        65 => (7, Top, Tecu { per_unit: 25 }),
        66 => (10, Top, Tecu { per_unit: 25 }),
        67 => (14, Top, Tecu { per_unit: 25 }),
        71 => (2, Full, PlusOne),
        73 => (8, UpTo(170), Steps { zero: 85, per_unit: 1 }),
        74 => (9, UpTo(360), Steps { zero: 180, per_unit: 1 }),
        75 | 76 => (4, Full, PlusOne),
        77 | 78 => (2, Full, Spacing),
        80 => (12, Symmetric, Steps { zero: 2047, per_unit: 4 }),
        82 => (7, Top, Tecu { per_unit: 4 }),
        83 => (11, Top, Tecu { per_unit: 4 }),
        _ => return None,
    })
}

/// The SF numbers of all fields with a value.
pub fn valued() -> Vec<u16> {
    (0..=107).filter(|&sf| row(sf).is_some()).collect()
}

/// "the signed step count divided once by the steps per unit"
fn divided(code: u64, zero: i64, per_unit: u32) -> f64 {
    (code as i64 - zero) as f64 / per_unit as f64
}

/// The value of a code. A field without a value, or a code that the field does not take: FIELD.
pub fn value(sf: u16, code: u64) -> Result<Value, Refusal> {
    let (width, takes, rule) = row(sf).ok_or(Refusal::Field)?;
    let field = Field { sf, width, takes };
    field.judge(code)?;
    // "its middle code means zero": 2^(n-1) - 1
    let middle = (1i64 << (width - 1)) - 1;
    let invalid = code == field.top();
    Ok(match rule {
        Rule::Steps { zero, per_unit } => Value::Float(divided(code, zero, per_unit)),
        Rule::Metres { .. } | Rule::Tecu { .. } if invalid => Value::Residual(Residual::Invalid),
        Rule::Metres { per_unit } => Value::Residual(Residual::Metres(divided(code, middle, per_unit))),
        Rule::Tecu { per_unit } => Value::Residual(Residual::Tecu(divided(code, middle, per_unit))),
        Rule::PlusOne => Value::Count(code + 1),
        Rule::Yaw if invalid => Value::Yaw(Yaw::Invalid),
        // "yaw is six times its code"
        Rule::Yaw => Value::Yaw(Yaw::Degrees(6.0 * code as f64)),
        Rule::Spacing => Value::Float([2.5, 5.0, 10.0, 15.0][code as usize & 3]),
    })
}

/// The value of a field whose value is a float.
pub fn float(sf: u16, code: u64) -> Result<f64, Refusal> {
    match value(sf, code)? {
        Value::Float(value) => Ok(value),
        _ => Err(Refusal::Field),
    }
}

/// The value of a field that means code plus one.
pub fn count(sf: u16, code: u64) -> Result<u64, Refusal> {
    match value(sf, code)? {
        Value::Count(value) => Ok(value),
        _ => Err(Refusal::Field),
    }
}

/// The value of a residual: SF052, 053, 064 to 067, 082 and 083.
pub fn residual(sf: u16, code: u64) -> Result<Residual, Refusal> {
    match value(sf, code)? {
        Value::Residual(value) => Ok(value),
        _ => Err(Refusal::Field),
    }
}

/// The yaw of a code that was sent.
pub fn yaw(code: u64) -> Result<Yaw, Refusal> {
    match value(21, code)? {
        Value::Yaw(value) => Ok(value),
        _ => Err(Refusal::Field),
    }
}

/// The three orbit corrections: three codes of SF020.
pub fn orbit(radial: u64, along: u64, cross: u64) -> Result<Orbit, Refusal> {
    let taken = [radial, along, cross].iter().all(|&code| code <= 16382);
    stop(!taken, Refusal::Field)?;
    Ok(Orbit { radial: float(20, radial)?, along: float(20, along)?, cross: float(20, cross)? })
}

#[cfg(test)]
mod tests {
    use super::*;

    #[test]
    fn case_1_sf020() {
        assert_eq!(float(20, 0), Ok(-16.382));
        assert_eq!(float(20, 8191).unwrap().to_bits(), 0.0f64.to_bits());
        assert_eq!(float(20, 16382), Ok(16.382));
        assert_eq!(float(20, 16383), Err(Refusal::Field));
        assert_eq!(orbit(0, 8191, 16382), Ok(Orbit { radial: -16.382, along: 0.0, cross: 16.382 }));
        assert_eq!(orbit(0, 8191, 16383), Err(Refusal::Field));
        assert_eq!(orbit(u64::MAX, 0, 0), Err(Refusal::Field));
    }

    #[test]
    fn case_2_sf032() {
        assert_eq!(float(32, 1800), Ok(90.0));
        assert_eq!(float(32, 0), Ok(-90.0));
        assert_eq!(float(32, 1801), Err(Refusal::Field));
    }

    #[test]
    fn case_3_sf021() {
        assert_eq!(yaw(59), Ok(Yaw::Degrees(354.0)));
        assert_eq!(yaw(60), Err(Refusal::Field));
        assert_eq!(yaw(62), Err(Refusal::Field));
        assert_eq!(yaw(63), Ok(Yaw::Invalid));
        assert_eq!(yaw(64), Err(Refusal::Field));
    }

    /// table 6.2: SF number, width, the range's end, unit of a residual
    #[test]
    fn the_ends_of_the_symmetric_ranges() {
        for (sf, width, end, residuals) in [
            (20u16, 14u32, 16.382, ' '),
            (29, 11, 20.46, ' '),
            (43, 8, 0.508, ' '),
            (45, 7, 0.252, ' '),
            (46, 7, 0.063, ' '),
            (47, 9, 0.0510, ' '),
            (48, 9, 1.020, ' '),
            (49, 9, 0.255, ' '),
            (50, 11, 0.2046, ' '),
            (52, 6, 0.124, 'm'),
            (53, 8, 0.508, 'm'),
            (57, 12, 81.88, ' '),
            (58, 12, 16.376, ' '),
            (59, 13, 8.190, ' '),
            (60, 14, 327.64, ' '),
            (61, 14, 65.528, ' '),
            (62, 15, 32.766, ' '),
            (64, 4, 0.28, 't'),
            (65, 7, 2.52, 't'),
            (66, 10, 20.44, 't'),
            (67, 14, 327.64, 't'),
            (80, 12, 511.75, ' '),
            (82, 7, 15.75, 't'),
            (83, 11, 255.75, 't'),
        ] {
            let top = (1u64 << width) - 1;
            let middle = top / 2;
            let of = |x| match residuals {
                'm' => Value::Residual(Residual::Metres(x)),
                't' => Value::Residual(Residual::Tecu(x)),
                _ => Value::Float(x),
            };
            assert_eq!(value(sf, 0), Ok(of(-end)), "SF{sf}");
            assert_eq!(value(sf, middle), Ok(of(0.0)), "SF{sf}");
            assert_eq!(value(sf, top - 1), Ok(of(end)), "SF{sf}");
            let expected =
                if residuals == ' ' { Err(Refusal::Field) } else { Ok(Value::Residual(Residual::Invalid)) };
            assert_eq!(value(sf, top), expected, "SF{sf}");
            assert_eq!(value(sf, top + 1), Err(Refusal::Field), "SF{sf}");
        }
    }

    #[test]
    fn the_other_fields() {
        assert_eq!(float(33, 3600), Ok(180.0));
        assert_eq!(float(33, 3601), Err(Refusal::Field));
        assert_eq!(float(36, 31), Ok(3.2));
        assert_eq!(float(37, 0), Ok(0.1));
        assert_eq!(float(37, 32), Err(Refusal::Field));
        assert_eq!(float(73, 0), Ok(-85.0));
        assert_eq!(float(73, 171), Err(Refusal::Field));
        assert_eq!(float(74, 360), Ok(180.0));
        assert_eq!(float(74, 361), Err(Refusal::Field));
        assert_eq!(float(77, 0), Ok(2.5));
        assert_eq!(float(78, 3), Ok(15.0));
        assert_eq!(float(78, 4), Err(Refusal::Field));
        assert_eq!(count(30, 31), Ok(32));
        assert_eq!(count(34, 7), Ok(8));
        assert_eq!(count(71, 3), Ok(4));
        assert_eq!(count(76, 15), Ok(16));
        assert_eq!(count(76, 16), Err(Refusal::Field));
        assert_eq!(value(31, 0), Err(Refusal::Field));
        assert_eq!(value(u16::MAX, u64::MAX), Err(Refusal::Field));
        assert_eq!(valued().len(), 39);
    }
}
