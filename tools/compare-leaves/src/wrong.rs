//! Deliberately wrong implementations: the comparison must find differences in each.

use crate::exact::{Ties, hypot_by_root, hypot_by_squares, magnitude, units};

pub type Wrong = (&'static str, fn(f32, f32) -> f32);

pub const HYPOT: [Wrong; 9] = [
    ("root of squares in f32", |x, y| (x * x + y * y).sqrt()),
    ("rounded to f64, then to f32", hypot_in_f64),
    ("ties up", |x, y| hypot_tied(x, y, Ties::Up)),
    ("ties down", |x, y| hypot_tied(x, y, Ties::Down)),
    ("ties to odd", |x, y| hypot_tied(x, y, Ties::Odd)),
    ("a NaN beats an infinity", |x, y| {
        if x.is_nan() || y.is_nan() {
            f32::NAN
        } else {
            hypot_by_squares(x, y)
        }
    }),
    ("the larger one from gap 12 on", |x, y| {
        let (p, q) = (magnitude(x), magnitude(y));
        let finite = x.is_finite() && y.is_finite();
        if finite && units(p).1.abs_diff(units(q).1) >= 12 {
            f32::from_bits(p.max(q))
        } else {
            hypot_by_squares(x, y)
        }
    }),
    ("subnormals count as zero", |x, y| {
        let flushed = |x: f32| if x.is_subnormal() { 0.0 } else { x };
        hypot_by_squares(flushed(x), flushed(y))
    }),
    ("never beyond the last float", |x, y| {
        let finite = x.is_finite() && y.is_finite();
        let r = hypot_by_squares(x, y);
        if finite { r.min(f32::MAX) } else { r }
    }),
];

fn hypot_in_f64(x: f32, y: f32) -> f32 {
    if x.is_infinite() || y.is_infinite() {
        return f32::INFINITY;
    }
    let (x, y) = (f64::from(x), f64::from(y));
    // The squares are exact in f64.
    (x * x + y * y).sqrt() as f32
}

fn hypot_tied(x: f32, y: f32, ties: Ties) -> f32 {
    // Where the whole-number root has no room there is no tie.
    hypot_by_root(x, y, ties).unwrap_or_else(|| hypot_by_squares(x, y))
}

pub const REM_EUCLID: [Wrong; 6] = [
    ("+0 for every zero", |x, y| x.rem_euclid(y) + 0.0),
    ("x % y where it is negative", |x, y| x % y),
    ("adds y and not |y|", |x, y| {
        let r = x % y;
        if r < 0.0 { r + y } else { r }
    }),
    ("adds |y| to -0 too", |x, y| {
        let r = x % y;
        if r.is_sign_negative() { r + y.abs() } else { r }
    }),
    ("x less a multiple of y in f32", |x, y| {
        x - y.abs() * (x / y.abs()).floor()
    }),
    ("never |y| itself", |x, y| {
        let r = x.rem_euclid(y);
        if r == y.abs() { 0.0 } else { r }
    }),
];
