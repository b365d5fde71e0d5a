//! The classes of inputs of hypot. A halfway point lies in the middle between two neighbouring floats.

use crate::inputs::{
    Class, Pair, drawn, listed, magnitude_of, moved, random_bits, shuffled, signed, special_pairs,
    subnormal, two_subnormals, with_field,
};
use crate::random::Random;

pub const CLASSES: [Class; 22] = [
    drawn("random bits", 6, random_bits),
    drawn("close exponents", 6, close_exponents),
    drawn("ties", 4, ties),
    drawn("near-ties", 6, near_ties),
    drawn("near-ties, best of 32", 2, best_of_32),
    drawn("near-ties, first halfway point", 4, first_halfway),
    drawn("near-ties, on the field", 3, near_ties_on_the_field),
    drawn("two subnormals", 4, two_subnormals),
    drawn("one subnormal", 4, one_subnormal),
    drawn("exponent gaps 0 to 30", 4, gaps),
    drawn("exponent gaps 11 to 15", 4, gaps_where_rounding_starts),
    drawn("near overflow", 3, near_overflow),
    drawn("near overflow, aimed", 3, aimed_at_overflow),
    listed("ties at overflow", ties_at_overflow),
    drawn("exact squares", 4, exact_squares),
    drawn("zeros", 2, zeros),
    drawn("infinities and NaN", 1, infinities_and_nans),
    drawn("field distances", 5, field_distances),
    drawn("field distances, by 1/64", 3, field_distances_64),
    drawn("field distances, by 1/1024", 3, field_distances_1024),
    listed("special values", special_pairs),
    listed("written down", written_down),
];

pub fn close_exponents(random: &mut Random) -> Pair {
    let field = random.within(1, 254);
    let other = (field + random.within(-1, 1)).clamp(1, 254);
    let (p, q) = (with_field(random, field), with_field(random, other));
    (signed(random, p), signed(random, q))
}

/// Whole numbers with a * a + b * b = c * c, c from `low` to `high`.
struct Triple {
    a: u64,
    b: u64,
    c: u64,
}

fn triple(random: &mut Random, low: u64, high: u64) -> Triple {
    loop {
        let u = random.of_length_up_to(13);
        let v = random.of_length_up_to(13);
        let sum = u * u + v * v;
        if u <= v || sum > high {
            continue;
        }
        let (least, most) = (low.div_ceil(sum), high / sum);
        if least > most {
            continue;
        }
        let k = random.within(least as i64, most as i64) as u64;
        return Triple {
            a: k * (u * u - v * v),
            b: 2 * k * u * v,
            c: k * sum,
        };
    }
}

/// Roots of 25 bits that are odd: they are halfway points.
fn ties(random: &mut Random) -> Pair {
    loop {
        let t = triple(random, 1 << 24, (1 << 25) - 1);
        // Since c is odd, a is odd too, and b is a multiple of 4: b fits an f32 always, and a where it is below 2^24.
        if t.c % 2 == 1 && t.a < 1 << 24 {
            let e = random.within(0, 252);
            let (p, q) = (magnitude_of(t.a, e), magnitude_of(t.b, e));
            return shuffled(random, p, q);
        }
    }
}

pub fn exact_squares(random: &mut Random) -> Pair {
    let length = random.within(3, 24);
    let t = triple(random, 5, (1 << length) - 1);
    let e = random.within(0, 253);
    let (p, q) = (magnitude_of(t.a, e), magnitude_of(t.b, e));
    shuffled(random, p, q)
}

/// A leg x = a * 2^e and a halfway point h / 2 * 2^e, in units, and the other leg in units of 2^(e - 31), rounded down.
struct Aim {
    a: u64,
    h: u64,
    root: u64,
}

/// The halfway point is `steps` floats above a, a number of 24 bits.
fn aim(a: u64, steps: u64) -> Aim {
    // From 2^24 on neighbours are 2 apart, and the odd numbers are the halfway points.
    let h = if a + steps < 1 << 24 {
        2 * (a + steps) + 1
    } else {
        2 * ((a + steps) | 1)
    };
    let root = (u128::from(h * h - 4 * a * a) << 60).isqrt() as u64;
    Aim { a, h, root }
}

impl Aim {
    /// How far the sum of the squares is from the square of h / 2, once the other leg is rounded to 24 bits.
    fn miss(&self) -> u128 {
        let cut = (u64::BITS - self.root.leading_zeros()).saturating_sub(24);
        let rounded = (self.root + (1 << cut >> 1)) >> cut << cut;
        (u128::from(rounded) * u128::from(rounded))
            .abs_diff(u128::from(self.h * self.h - 4 * self.a * self.a) << 60)
    }

    /// The exponent e, and the rounded leg moved by some neighbours.
    fn pair(&self, random: &mut Random, e: i64, by: i64) -> Pair {
        let (p, q) = (magnitude_of(self.a, e), magnitude_of(self.root, e - 31));
        shuffled(random, p, moved(q, by))
    }
}

fn any_exponent(random: &mut Random) -> i64 {
    random.within(0, 253)
}

fn significand(random: &mut Random) -> u64 {
    1 << 23 | random.u64() >> 41
}

/// Steps that lead to a root of at most a by the root of 2, so that x is the greater leg.
fn steps(random: &mut Random, a: u64, length: u32) -> u64 {
    (random.u64() >> (64 - length)).min(a * 2 / 5)
}

fn near_ties(random: &mut Random) -> Pair {
    let a = significand(random);
    let length = random.within(1, 23) as u32;
    let aim = aim(a, steps(random, a, length));
    let (e, by) = (any_exponent(random), random.within(-2, 2));
    aim.pair(random, e, by)
}

fn best_of(random: &mut Random, tries: u32) -> Aim {
    let length = random.within(1, 23) as u32;
    let mut try_once = || {
        let a = significand(random);
        aim(a, steps(random, a, length))
    };
    let first = try_once();
    (1..tries).fold(first, |best, _| {
        let next = try_once();
        if next.miss() < best.miss() {
            next
        } else {
            best
        }
    })
}

fn best_of_32(random: &mut Random) -> Pair {
    let aim = best_of(random, 32);
    let e = any_exponent(random);
    aim.pair(random, e, 0)
}

/// The greater leg is between 2^-6 and 2^7, as the differences of coordinates are.
fn near_ties_on_the_field(random: &mut Random) -> Pair {
    let aim = best_of(random, 4);
    let e = random.within(120, 132);
    aim.pair(random, e, 0)
}

/// The other leg is about the least one for which the root is not rounded to x.
fn first_halfway(random: &mut Random) -> Pair {
    let a = significand(random);
    let by = random.of_length_up_to(20) as i64;
    let by = match random.within(0, 3) {
        0 => by,
        1 => -by,
        _ => random.within(-2, 2),
    };
    let e = any_exponent(random);
    aim(a, 0).pair(random, e, by)
}

fn one_subnormal(random: &mut Random) -> Pair {
    let highest = random.pick(&[2, 15, 30, 254]);
    let field = random.within(1, highest);
    let (p, q) = (subnormal(random), with_field(random, field));
    shuffled(random, p, q)
}

fn at_gap(random: &mut Random, gap: i64) -> Pair {
    let field = random.within(1, 254 - gap);
    let (p, q) = (with_field(random, field), with_field(random, field + gap));
    shuffled(random, p, q)
}

fn gaps(random: &mut Random) -> Pair {
    let gap = random.within(0, 30);
    at_gap(random, gap)
}

fn gaps_where_rounding_starts(random: &mut Random) -> Pair {
    let gap = random.within(11, 15);
    at_gap(random, gap)
}

fn near_overflow(random: &mut Random) -> Pair {
    let (f, g) = (random.within(253, 254), random.within(253, 254));
    let (p, q) = (with_field(random, f), with_field(random, g));
    (signed(random, p), signed(random, q))
}

/// Roots next to the last few floats and to the halfway point between the last one and 2^128.
fn aimed_at_overflow(random: &mut Random) -> Pair {
    // In half-units of 2^253 units: the last float is 2^25 - 2, and the halfway point 2^25 - 1.
    let h = (1 << 25) - random.within(0, 4) as u64;
    let x = (significand(random) << random.within(0, 1)).min(h);
    let root = (u128::from(h * h - x * x) << 60).isqrt() as u64;
    let by = random.within(-2, 2);
    let (p, q) = (magnitude_of(x, 252), magnitude_of(root, 252 - 30));
    shuffled(random, moved(p, 0), moved(q, by))
}

/// The pairs whose exact root is 2^128 - 2^103, and their neighbours. 2^25 - 1 is 31 * 601 * 1801.
fn ties_at_overflow() -> Vec<Pair> {
    let mut list = Vec::new();
    for (a, b) in [(12_091_519, 31_300_080), (1_413_631, 33_524_640)] {
        for i in -3..=3 {
            for j in -3..=3 {
                let x = f32::from_bits(moved(magnitude_of(a, 252), i));
                let y = f32::from_bits(moved(magnitude_of(b, 252), j));
                list.extend([(x, y), (y, -x)]);
            }
        }
    }
    list
}

fn zeros(random: &mut Random) -> Pair {
    let other = match random.within(0, 3) {
        0 => 0,
        _ => random.u32() & 0x7fff_ffff,
    };
    shuffled(random, 0, other)
}

fn infinities_and_nans(random: &mut Random) -> Pair {
    // Any NaN, with the quiet bit or without it.
    let nan = 0x7f80_0000 | random.within(1, 0x7f_ffff) as u32;
    let p = random.pick(&[0x7f80_0000, nan]);
    let other = random.u32() & 0x7fff_ffff;
    let q = random.pick(&[0x7f80_0000, nan, other]);
    shuffled(random, p, q)
}

/// The difference of two coordinates from -64 to 64.
fn difference(mut coordinate: impl FnMut() -> f32) -> f32 {
    coordinate() - coordinate()
}

pub fn field_distances(random: &mut Random) -> Pair {
    let mut coordinate = || ((random.u64() >> 11) as f64 / (1u64 << 46) as f64 - 64.0) as f32;
    (difference(&mut coordinate), difference(&mut coordinate))
}

fn grid_distances(random: &mut Random, grid: i64) -> Pair {
    let mut coordinate = || random.within(-64 * grid, 64 * grid) as f32 / grid as f32;
    (difference(&mut coordinate), difference(&mut coordinate))
}

fn field_distances_64(random: &mut Random) -> Pair {
    grid_distances(random, 64)
}

fn field_distances_1024(random: &mut Random) -> Pair {
    grid_distances(random, 1024)
}

/// A few pairs that any run looks at.
fn written_down() -> Vec<Pair> {
    vec![
        // A root in f64 lands on the halfway point, which the exact one passes.
        (0.3125, 9.650506e-5),
        (3.0, 4.0),
        (f32::MAX, f32::MAX),
        (f32::MIN_POSITIVE, f32::MIN_POSITIVE),
    ]
}
