//! The exact answers, decided by whole numbers alone. Each function has two ways to its answer, which have little in
//! common, so that a slip in one of them shows.
//!
//! A magnitude is the pattern of an f32 without its sign bit. A unit is 2^-149, the least positive f32: every finite
//! f32 is a whole number of units. The magnitudes are in the order of their values, and 0x7f80_0000, the pattern of
//! infinity, stands where 2^128 would.

use crate::big::Big;
use std::cmp::Ordering;

pub const SIGN: u32 = 0x8000_0000;
pub const INFINITY: u32 = 0x7f80_0000;

/// Where an answer that lies in the middle between two floats goes. `Even` is right, the others serve the self-check.
#[derive(Clone, Copy)]
pub enum Ties {
    Even,
    Odd,
    Up,
    Down,
}

impl Ties {
    fn up(self, odd: bool) -> bool {
        match self {
            Ties::Even => odd,
            Ties::Odd => !odd,
            Ties::Up => true,
            Ties::Down => false,
        }
    }

    /// Whether an answer goes to the upper neighbour: `order` compares it with the point halfway, and `odd` says
    /// whether the lower neighbour is odd.
    fn above(self, order: Ordering, odd: bool) -> bool {
        match order {
            Ordering::Greater => true,
            Ordering::Less => false,
            Ordering::Equal => self.up(odd),
        }
    }
}

pub fn magnitude(x: f32) -> u32 {
    x.to_bits() & !SIGN
}

/// (m, e) with m < 2^24: the magnitude is m * 2^e units.
pub fn units(p: u32) -> (u64, u32) {
    let field = p >> 23;
    if field == 0 {
        (u64::from(p), 0)
    } else {
        (u64::from(p & 0x7f_ffff | 0x80_0000), field - 1)
    }
}

/// (h, e): p and the next magnitude, which is 2^e units higher, add up to h * 2^e units: twice the point halfway.
fn twice_halfway(p: u32) -> (u64, u32) {
    let (m, e) = units(p);
    (2 * m + 1, e)
}

/// The first magnitude that is not below the answer; `above` says whether the answer goes above a given one.
fn search(above: impl Fn(u32) -> bool) -> u32 {
    let (mut low, mut high) = (0, INFINITY);
    while low < high {
        let middle = (low + high) / 2;
        if above(middle) {
            low = middle + 1;
        } else {
            high = middle;
        }
    }
    low
}

/// k units of 2^s, where k has 24 bits or s is 0. A k of 2^24 carries over to the next exponent by itself.
fn packed(k: u64, s: u32) -> u32 {
    ((u64::from(s) << 23) + k).min(u64::from(INFINITY)) as u32
}

/// hypot's answer where an operand is not finite.
fn hypot_beyond(p: u32, q: u32) -> Option<f32> {
    if p == INFINITY || q == INFINITY {
        Some(f32::INFINITY)
    } else if p > INFINITY || q > INFINITY {
        Some(f32::NAN)
    } else {
        None
    }
}

/// hypot by its definition: four times the sum of the squares against the squares of the sums of neighbours.
pub fn hypot_by_squares(x: f32, y: f32) -> f32 {
    let (p, q) = (magnitude(x), magnitude(y));
    if let Some(answer) = hypot_beyond(p, q) {
        return answer;
    }
    let square = |p| {
        let (m, e) = units(p);
        Big::shifted(m * m, 2 * e + 2)
    };
    let sum = square(p).plus(&square(q));
    f32::from_bits(search(|b| {
        let (h, e) = twice_halfway(b);
        Ties::Even.above(sum.cmp(&Big::shifted(h * h, 2 * e)), b % 2 == 1)
    }))
}

/// The greatest difference of exponents for which four times the sum of the squares fits 128 bits.
const ROOT_GAP: u32 = 39;

/// hypot by the whole part of a root, and a bit that says whether anything is left; none where 128 bits do not suffice.
pub fn hypot_by_root(x: f32, y: f32, ties: Ties) -> Option<f32> {
    let (p, q) = (magnitude(x), magnitude(y));
    if let Some(answer) = hypot_beyond(p, q) {
        return Some(answer);
    }
    let ((a, high), (b, low)) = (units(p.max(q)), units(p.min(q)));
    let gap = high - low;
    if gap > ROOT_GAP {
        return None;
    }
    let sum = (u128::from(a * a) << (2 * gap)) + u128::from(b * b);
    let root = (4 * sum).isqrt();
    let left = root * root != 4 * sum;
    // In quarters of 2^low units; the lowest bit stands for all that is left.
    let quarters = 2 * root + u128::from(left);
    let length = u128::BITS - quarters.leading_zeros() + low;
    let s = length.saturating_sub(26);
    let shift = s + 2 - low;
    let k = (quarters >> shift) as u64;
    let rest = quarters & ((1 << shift) - 1);
    let up = ties.above(rest.cmp(&(1 << (shift - 1))), k % 2 == 1);
    Some(f32::from_bits(packed(k + u64::from(up), s)))
}

/// The magnitude nearest to v units, by cutting bits off.
pub fn nearest_by_cut(v: &Big) -> u32 {
    let s = v.length().saturating_sub(24);
    let k = v.down(s);
    if s == 0 {
        return packed(k, 0);
    }
    let up = v.bit(s - 1) && (v.any_below(s - 1) || k % 2 == 1);
    packed(k + u64::from(up), s)
}

/// The magnitude nearest to v units, by the points halfway.
fn nearest_by_halfway(v: &Big) -> u32 {
    let twice = v.plus(v);
    search(|b| {
        let (h, e) = twice_halfway(b);
        Ties::Even.above(twice.cmp(&Big::shifted(h, e)), b % 2 == 1)
    })
}

/// 2^k mod n
fn power_of_two(k: u32, n: u64) -> u64 {
    let mut result = 1 % n;
    for i in (0..u32::BITS - k.leading_zeros()).rev() {
        result = result * result % n;
        if k >> i & 1 == 1 {
            result = result * 2 % n;
        }
    }
    result
}

/// The remainder of m * 2^e by n * 2^d, in units; the power is reduced by squaring.
fn remainder_by_powers((m, e): (u64, u32), (n, d): (u64, u32)) -> Big {
    if e >= d {
        return Big::shifted(m % n * power_of_two(e - d, n) % n, d);
    }
    // From a difference of 24 on, n * 2^(d - e) is above m.
    let divisor = n << (d - e).min(24);
    Big::shifted(m % divisor, e)
}

/// The same, the power reduced by doubling.
fn remainder_by_doubling((m, e): (u64, u32), (n, d): (u64, u32)) -> Big {
    if e >= d {
        let mut r = m % n;
        for _ in d..e {
            r *= 2;
            if r >= n {
                r -= n;
            }
        }
        return Big::shifted(r, d);
    }
    let (dividend, divisor) = (Big::shifted(m, e), Big::shifted(n, d));
    // A divisor with d > 0 is normal, so a dividend of a lower exponent is below it.
    assert!(
        dividend < divisor,
        "a dividend that is not below its divisor"
    );
    dividend
}

/// rem_euclid's answer where an operand is not finite, or where a zero decides.
fn rem_euclid_beyond(x: f32, p: u32, q: u32) -> Option<f32> {
    if p >= INFINITY || q > INFINITY || q == 0 {
        return Some(f32::NAN);
    }
    if p == 0 {
        return Some(x);
    }
    if q == INFINITY {
        // x is its own remainder; below zero the infinity is added to it.
        return Some(if negative(x) { f32::INFINITY } else { x });
    }
    None
}

fn negative(x: f32) -> bool {
    x.to_bits() & SIGN != 0
}

fn rem_euclid(
    x: f32,
    y: f32,
    remainder: impl Fn((u64, u32), (u64, u32)) -> Big,
    nearest: impl Fn(&Big) -> u32,
) -> f32 {
    let (p, q) = (magnitude(x), magnitude(y));
    if let Some(answer) = rem_euclid_beyond(x, p, q) {
        return answer;
    }
    let (dividend, divisor) = (units(p), units(q));
    let r = remainder(dividend, divisor);
    if r.length() == 0 {
        return if negative(x) { -0.0 } else { 0.0 };
    }
    f32::from_bits(if negative(x) {
        nearest(&Big::shifted(divisor.0, divisor.1).minus(&r))
    } else {
        nearest(&r)
    })
}

pub fn rem_euclid_by_powers(x: f32, y: f32) -> f32 {
    rem_euclid(x, y, remainder_by_powers, nearest_by_cut)
}

pub fn rem_euclid_by_doubling(x: f32, y: f32) -> f32 {
    rem_euclid(x, y, remainder_by_doubling, nearest_by_halfway)
}
