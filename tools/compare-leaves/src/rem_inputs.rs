//! The classes of inputs of rem_euclid.

use crate::exact::SIGN;
use crate::inputs::{
    Class, Pair, drawn, listed, magnitude_of, moved, random_bits, signed, special_pairs, subnormal,
    two_subnormals, with_field,
};
use crate::random::Random;

pub const CLASSES: [Class; 17] = [
    drawn("random bits", 6, random_bits),
    drawn("close exponents", 4, close_exponents),
    drawn("angles to 64, by 2 pi", 6, angles_64),
    drawn("angles to 1e4, by 2 pi", 6, angles_10000),
    drawn("multiples of 2 pi, neighbours", 4, turns),
    drawn("exact multiples, neighbours", 6, exact_multiples),
    drawn("multiples rounded, neighbours", 4, rounded_multiples),
    drawn("two subnormals", 4, two_subnormals),
    drawn("subnormal dividend", 2, subnormal_dividend),
    drawn("subnormal divisor", 4, subnormal_divisor),
    drawn("huge by small", 6, huge_by_small),
    drawn("tiny below zero", 4, tiny_below_zero),
    drawn("sum next to a halfway point", 4, next_to_halfway),
    drawn("infinity and a number", 1, with_infinity),
    drawn("zeros and NaN", 2, with_zero_or_nan),
    listed("special values", special_pairs),
    listed("written down", written_down),
];

const TURN: f32 = std::f32::consts::TAU;

fn signs(random: &mut Random, p: u32, q: u32) -> Pair {
    (signed(random, p), signed(random, q))
}

fn close_exponents(random: &mut Random) -> Pair {
    let field = random.within(1, 254);
    let other = (field + random.within(-3, 3)).clamp(1, 254);
    let (p, q) = (with_field(random, field), with_field(random, other));
    signs(random, p, q)
}

fn angle(random: &mut Random, most: f64) -> f32 {
    ((random.u64() as i64) as f64 / (1u64 << 63) as f64 * most) as f32
}

pub fn angles_64(random: &mut Random) -> Pair {
    (angle(random, 64.0), TURN)
}

fn angles_10000(random: &mut Random) -> Pair {
    (angle(random, 1e4), TURN)
}

fn turns(random: &mut Random) -> Pair {
    let k = random.of_length_up_to(16) as f64;
    let by = random.within(-2, 2);
    let p = moved(((k * f64::from(TURN)) as f32).to_bits(), by);
    (signed(random, p), TURN)
}

/// x is a whole multiple of y before it is moved.
fn exact_multiples(random: &mut Random) -> Pair {
    let length = random.within(1, 23) as u32;
    let n = random.of_length_up_to(length);
    let k = random.of_length_up_to(24 - length);
    let d = random.within(0, 253);
    let more = match random.coin() {
        true => random.within(0, 253 - d),
        false => 0,
    };
    let by = random.pick(&[0, 0, -1, 1, -2, 2]);
    let (p, q) = (moved(magnitude_of(n * k, d + more), by), magnitude_of(n, d));
    signs(random, p, q)
}

/// x is the float nearest to a multiple of y, before it is moved.
fn rounded_multiples(random: &mut Random) -> Pair {
    let n = random.of_length_up_to(24);
    let k = random.of_length_up_to(30);
    let d = random.within(0, 223);
    let by = random.within(-2, 2);
    let (p, q) = (moved(magnitude_of(n * k, d), by), magnitude_of(n, d));
    signs(random, p, q)
}

fn subnormal_dividend(random: &mut Random) -> Pair {
    let highest = random.pick(&[2, 30, 254]);
    let field = random.within(1, highest);
    let (p, q) = (subnormal(random), with_field(random, field));
    signs(random, p, q)
}

fn subnormal_divisor(random: &mut Random) -> Pair {
    let highest = random.pick(&[2, 30, 254]);
    let field = random.within(1, highest);
    let (p, q) = (with_field(random, field), subnormal(random));
    signs(random, p, q)
}

fn huge_by_small(random: &mut Random) -> Pair {
    let (high, low) = (random.within(150, 254), random.within(0, 100));
    let (p, q) = (with_field(random, high), with_field(random, low));
    signs(random, p, q)
}

/// A divisor: a power of two now and then, since below it the floats are closer than above.
fn divisor(random: &mut Random, field: i64) -> u32 {
    let q = with_field(random, field);
    if random.within(0, 3) == 0 {
        q & 0x7f80_0000
    } else {
        q
    }
}

/// x is so little below zero that the sum is |y| or close to it.
fn tiny_below_zero(random: &mut Random) -> Pair {
    let field = random.within(42, 254);
    let q = divisor(random, field);
    let gap = random.within(20, 40);
    let p = with_field(random, field - gap);
    (f32::from_bits(p | SIGN), signed(random, q))
}

/// x is next to so many quarters of the distance of neighbours at y.
fn next_to_halfway(random: &mut Random) -> Pair {
    let e = random.within(2, 253);
    let q = divisor(random, e + 1);
    let quarters = random.pick(&[1, 2, 3, 4, 6, 10, 14]);
    let by = random.within(-2, 2);
    let p = moved(magnitude_of(quarters, e - 2), by);
    (f32::from_bits(p | SIGN), signed(random, q))
}

fn beside(random: &mut Random, special: u32) -> Pair {
    let other = random.u32() & !SIGN;
    let (p, q) = match random.coin() {
        true => (special, other),
        false => (other, special),
    };
    signs(random, p, q)
}

fn with_infinity(random: &mut Random) -> Pair {
    beside(random, 0x7f80_0000)
}

fn with_zero_or_nan(random: &mut Random) -> Pair {
    let special = random.pick(&[0, 0x7f80_0001, 0x7fc0_0000]);
    beside(random, special)
}

/// A few pairs that any run looks at.
fn written_down() -> Vec<Pair> {
    vec![
        (-TURN, TURN),
        (-1e-30, TURN),
        (-5.0, -3.0),
        (f32::MIN, 3.0),
        (-1.0, f32::INFINITY),
        (-0.0, 1.0),
    ]
}
