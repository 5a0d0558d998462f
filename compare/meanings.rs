//! What codes mean: metres, degrees, TECU, counts.

use crate::judge::{Input, Judge};
use crate::lent;
use homralgyu::raw;
use second::answer::number;
use second::generate::*;
use second::values::{self, Residual, Value, Yaw};

/// A field with a value, mostly, and a code at an edge, mostly.
fn some_code(rng: &mut Rng) -> (u16, u64) {
    let any = rng.below(130) as u16;
    let sf = if rng.one_in(10) {
        rng.pick(&[0, 1, 22, 51, 63, 84, any, 65535])
    } else {
        rng.pick(&values::valued())
    };
    let width = rng.between(1, 16);
    let near = (1u64 << width).wrapping_add(rng.below(5)).wrapping_sub(3);
    let inside = rng.below(1 << width);
    let ranged =
        [0, 1, 59, 60, 62, 63, 170, 171, 360, 361, 900, 1800, 1801, 3600, 3601, 8191, 16382, 16383, u64::MAX];
    let at = rng.pick(&ranged);
    (sf, rng.pick(&[near, inside, inside, at]))
}

/// The fields whose value is in metres, in degrees, in TECU; the other floats are coefficients.
const METRES: [u16; 5] = [20, 29, 43, 45, 48];
const DEGREES: [u16; 8] = [32, 33, 36, 37, 73, 74, 77, 78];
const TECU: [u16; 3] = [57, 60, 80];

/// Unit and count as include/homralgyu.h numbers them, and the float.
fn told(sf: u16, value: &Value) -> ([u64; 2], Option<f64>) {
    let unit = if METRES.contains(&sf) {
        1
    } else if DEGREES.contains(&sf) {
        2
    } else if TECU.contains(&sf) {
        3
    } else {
        4
    };
    match *value {
        Value::Float(x) => ([unit, 0], Some(x)),
        Value::Count(n) => ([5, n], None),
        Value::Residual(Residual::Invalid) | Value::Yaw(Yaw::Invalid) => ([0, 0], None),
        Value::Residual(Residual::Metres(x)) => ([1, 0], Some(x)),
        Value::Residual(Residual::Tecu(x)) => ([3, 0], Some(x)),
        Value::Yaw(Yaw::Degrees(x)) => ([2, 0], Some(x)),
        Value::Yaw(Yaw::Absent) => ([6, 0], None),
    }
}

/// Floats as their bits, so that -0.0 is not +0.0.
pub fn bits(floats: &[f64]) -> Vec<u64> {
    floats.iter().map(|x| x.to_bits()).collect()
}

pub fn value(rng: &mut Rng, judge: &mut Judge) {
    let (sf, code) = some_code(rng);
    let places = rng.pick(&[0, 1, 2, 2, 2, 2, 2, 2, 2, 3]);
    let (what, floats) = (lent_entries(rng, places), vec![1.25f64; rng.pick(&[0, 1, 1, 1, 1, 1, 1, 2])]);
    let said = || format!("SF{sf:03} code {code}, places {places} and {}", floats.len());
    let input = Input { call: "value", said: &said };
    let (mut our_what, mut our_floats) = (lent::numbers(&what), lent::Lent::new(&floats, -7.5));
    let answer = raw::value(sf, code, our_what.part(), our_floats.part());
    let (mut what, mut after) = (what, floats.clone());
    if places < 2 || floats.is_empty() {
        judge.number(&input, answer, 9);
    } else {
        let result = values::value(sf, code);
        judge.number(&input, answer, number(&result));
        if let Ok(value) = result {
            let (numbers, float) = told(sf, &value);
            what[..2].copy_from_slice(&numbers);
            if let Some(x) = float {
                after[0] = x;
            }
        }
    }
    judge.lent(&input, "the unit and the count", &our_what, &what);
    judge.lent(&input, "the value", &our_floats, &after);
    judge.same(&input, "the value's bits", &bits(our_floats.now()), &bits(&after));
}

pub fn orbit(rng: &mut Rng, judge: &mut Judge) {
    let mut code = || {
        let any = rng.below(16384);
        rng.pick(&[0, 8191, 16382, any, any, any, any, any, any, 16383 + any % 3, u64::MAX])
    };
    let codes = [code(), code(), code()];
    let floats = vec![1.25f64; rng.pick(&[2, 3, 3, 3, 3, 3, 4])];
    let said = || format!("orbit codes {codes:?}, places {}", floats.len());
    let input = Input { call: "orbit", said: &said };
    let mut ours = lent::Lent::new(&floats, -7.5);
    let answer = raw::orbit(codes[0], codes[1], codes[2], ours.part());
    let mut after = floats.clone();
    if floats.len() < 3 {
        judge.number(&input, answer, 9);
    } else {
        let result = values::orbit(codes[0], codes[1], codes[2]);
        judge.number(&input, answer, number(&result));
        if let Ok(orbit) = result {
            after[..3].copy_from_slice(&[orbit.radial, orbit.along, orbit.cross]);
        }
    }
    judge.lent(&input, "the corrections", &ours, &after);
    judge.same(&input, "the corrections' bits", &bits(ours.now()), &bits(&after));
}
