//! What the classes of inputs have in common.

use crate::big::Big;
use crate::exact::{INFINITY, SIGN, nearest_by_cut};
use crate::random::Random;

pub type Pair = (f32, f32);

pub enum Source {
    /// Drawn one by one, in proportion to a weight.
    Drawn(u64, fn(&mut Random) -> Pair),
    /// A list that is taken whole, whatever the number of inputs.
    Listed(fn() -> Vec<Pair>),
}

pub struct Class {
    pub name: &'static str,
    pub source: Source,
}

pub const fn drawn(name: &'static str, weight: u64, draw: fn(&mut Random) -> Pair) -> Class {
    Class {
        name,
        source: Source::Drawn(weight, draw),
    }
}

pub const fn listed(name: &'static str, list: fn() -> Vec<Pair>) -> Class {
    Class {
        name,
        source: Source::Listed(list),
    }
}

/// A class of a few inputs says nothing, so each has at least this many.
const LEAST: u64 = 1000;

impl Class {
    /// Hands each input to `take`: about `count` in all the classes together.
    pub fn each(&self, total_weight: u64, count: u64, seed: u64, mut take: impl FnMut(Pair)) {
        match self.source {
            Source::Drawn(weight, draw) => {
                let inputs = (count * weight).div_ceil(total_weight).max(LEAST);
                // Each class has numbers of its own: a change in one leaves the others as they were.
                let own = self
                    .name
                    .bytes()
                    .fold(seed, |s, b| s.wrapping_mul(31).wrapping_add(u64::from(b)));
                let mut random = Random::new(own);
                for _ in 0..inputs {
                    take(draw(&mut random));
                }
            }
            Source::Listed(list) => list().into_iter().for_each(take),
        }
    }
}

pub fn total_weight(classes: &[Class]) -> u64 {
    classes
        .iter()
        .map(|class| match class.source {
            Source::Drawn(weight, _) => weight,
            Source::Listed(_) => 0,
        })
        .sum()
}

/// The magnitude p with a random sign.
pub fn signed(random: &mut Random, p: u32) -> f32 {
    f32::from_bits(if random.coin() { p | SIGN } else { p })
}

/// Both magnitudes with random signs, in random order.
pub fn shuffled(random: &mut Random, p: u32, q: u32) -> Pair {
    let (x, y) = (signed(random, p), signed(random, q));
    if random.coin() { (x, y) } else { (y, x) }
}

/// A magnitude with this exponent field and a random significand.
pub fn with_field(random: &mut Random, field: i64) -> u32 {
    (field as u32) << 23 | random.u32() >> 9
}

/// A finite magnitude: p moved by some neighbours, and kept within the finite ones.
pub fn moved(p: u32, by: i64) -> u32 {
    (i64::from(p) + by).clamp(0, i64::from(INFINITY) - 1) as u32
}

/// The magnitude nearest to m * 2^e units; below 2^0 the lower bits of m are dropped first.
pub fn magnitude_of(m: u64, e: i64) -> u32 {
    nearest_by_cut(&if e < 0 {
        Big::shifted(m >> (-e).min(63), 0)
    } else {
        Big::shifted(m, e as u32)
    })
}

/// A subnormal magnitude of any length.
pub fn subnormal(random: &mut Random) -> u32 {
    random.of_length_up_to(23) as u32
}

pub fn random_bits(random: &mut Random) -> Pair {
    (f32::from_bits(random.u32()), f32::from_bits(random.u32()))
}

pub fn two_subnormals(random: &mut Random) -> Pair {
    let (p, q) = (subnormal(random), subnormal(random));
    shuffled(random, p, q)
}

/// Magnitudes at which something changes, and a few plain ones.
#[rustfmt::skip]
const SPECIAL: [u32; 46] = [
    0, 1, 2, 3,
    0x0000_0fff, 0x0000_1000, 0x0040_0000,
    0x007f_fffe, 0x007f_ffff, // the greatest subnormals
    0x0080_0000, 0x0080_0001, // the least normals
    0x00ff_ffff, 0x0100_0000, 0x0100_0001, // here a unit is no longer the distance of neighbours
    0x0700_0000, 0x06ff_ffff,
    0x3900_0000, 0x3980_0000, 0x39b5_04f3, 0x39b5_04f4, // 2^-13, 2^-12, and next to 2^-11.5
    0x3a00_0000, 0x3f00_0000,
    0x3f7f_ffff, 0x3f80_0000, 0x3f80_0001, // 1
    0x3fb5_04f3, 0x3fb5_04f4, // next to the root of 2
    0x4000_0000, 0x4040_0000, 0x4080_0000, 0x4049_0fdb, 0x40c9_0fdb, // 2, 3, 4, pi, 2 pi
    0x4b7f_ffff, 0x4b80_0000, 0x4b80_0001, // 2^24
    0x7e7f_ffff, 0x7f00_0000,
    0x7f35_04f3, 0x7f35_04f4, // next to 2^128 by the root of 2
    0x7f7f_fffe, 0x7f7f_ffff,
    0x7f80_0000, // infinity
    0x7f80_0001, 0x7fbf_ffff, 0x7fc0_0000, 0x7fff_ffff, // signaling NaNs, and quiet ones
];

pub fn special_pairs() -> Vec<Pair> {
    let values: Vec<f32> = SPECIAL
        .iter()
        .flat_map(|&p| [f32::from_bits(p), f32::from_bits(p | SIGN)])
        .collect();
    values
        .iter()
        .flat_map(|&x| values.iter().map(move |&y| (x, y)))
        .collect()
}
