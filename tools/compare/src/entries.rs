//! The comparison of the other entries: whether words are a situation, candidates and leaves.

use crate::generate::{moved, near_halfway};
use crate::library::For;
use crate::random::Random;
use crate::{exact, exact_build, leaves, library, slip_build, slips, std_build};
use std::f32::consts::PI;

/// The same value, or two NaNs: which NaN comes out is left open.
fn alike(x: f32, y: f32) -> bool {
    x.to_bits() == y.to_bits() || (x.is_nan() && y.is_nan())
}

/// Document 01's answer: refusal 5, or the original's list.
pub fn candidates(start: f32, min: f32, max: f32, step: f32) -> Option<Vec<f32>> {
    let no_bounds = min.is_nan() || max.is_nan() || min > max;
    let beyond = |x: f32| !(-64.0..=64.0).contains(&x);
    let refused = start.is_nan() || beyond(min) || beyond(max) || step.is_nan() || (step > 0.0 && step < 1.0 / 64.0);
    if !no_bounds && refused {
        return None;
    }
    let oracle = if slips::any() { slip_build::oracle::candidates } else { exact_build::oracle::candidates };
    Some(oracle(start, min, max, step))
}

/// Whether the entry gives `number` and `list` with that much room, and keeps the rest.
fn call(arguments: [f32; 4], room: usize, number: i64, list: &[f32]) -> bool {
    const GUARD: usize = 4;
    let filler = |i: usize| 0x7fa0_0000 | i as u32;
    let mut lent: Vec<f32> = (0..room + 2 * GUARD).map(|i| f32::from_bits(filler(i))).collect();
    let [start, min, max, step] = arguments;
    let answer = library::candidates(start, min, max, step, &mut lent[GUARD..GUARD + room]);
    answer == number
        && lent.iter().enumerate().all(|(i, &x)| {
            let written = i >= GUARD && i - GUARD < list.len();
            if written {
                alike(x, list[i - GUARD])
            } else {
                x.to_bits() == filler(i)
            }
        })
}

/// The greatest value of a situation's word, read off the table of docs/WORDS.md and not from the layout that the table is made from.
fn greatest(i: usize) -> u32 {
    match i {
        63..=462 if (i - 63) % 5 == 0 => 1,
        0..=14 | 63..=502 | 543..=545 | 552..=553 => u32::MAX,
        15..=16 | 503..=542 | 547 | 550 | 554..=559 | 561 => 1,
        20 | 546 => 2,
        548 => 3,
        17 => 4,
        18 | 560 => 5,
        19 | 549 => 7,
        23..=62 => 13,
        562 => 255,
        21..=22 | 551 => 256,
        _ => panic!("a situation has 563 words"),
    }
}

/// Words within their columns, of which up to three are moved: the first outside, and that the sheet is refused with -100 exactly where one is, for the desk
/// and for the display.
pub fn compare_check(count: u64, seed: u64) -> bool {
    let mut random = Random::new(seed);
    let (mut differences, mut outside, mut other_lengths) = (0u64, 0u64, 0u64);
    for _ in 0..count {
        let within = |random: &mut Random, i| match random.within(0, 3) {
            0 => greatest(i),
            1 => 0,
            _ => (u64::from(random.u32()) % (u64::from(greatest(i)) + 1)) as u32,
        };
        let mut words: Vec<u32> = (0..563).map(|i| within(&mut random, i)).collect();
        for _ in 0..random.within(0, 3) {
            let i = random.within(0, 562) as usize;
            let past = greatest(i).wrapping_add(1);
            words[i] = random.pick(&[past, past | 1 << 16, u32::MAX, 1 << 31, greatest(i)]);
        }
        if random.within(0, 9) == 0 {
            words.resize(random.within(0, 1126) as usize, 0);
        }
        let expected = match (words.len(), words.iter().enumerate().position(|(i, &word)| i < 563 && word > greatest(i))) {
            (563, Some(i)) => i as i64 + 1,
            (563, None) => 0,
            _ => -100,
        };
        outside += u64::from(expected > 0);
        other_lengths += u64::from(expected < 0);
        let told = library::check(&words);
        let sheets = For::BOTH.map(|to| library::sheet(to, &words, &[], &[], &mut []));
        if told != expected || sheets.into_iter().any(|sheet| (sheet == -100) != (expected != 0)) {
            differences += 1;
            if differences <= 3 {
                let [desk, display] = sheets;
                println!(
                    "DIFFERENCE: {} words, referee_check {told}, referee_sheet {desk}, referee_display {display}, not {expected}",
                    words.len()
                );
            }
        }
    }
    println!("words: {count} lists, {outside} with a word outside its column, {other_lengths} of another length: {differences} differences");
    differences == 0
}

const SPECIAL: [f32; 14] = [
    0.0,
    -0.0,
    1.0,
    -1.0,
    64.0,
    -64.0,
    64.000_01,
    -64.000_01,
    f32::NAN,
    f32::INFINITY,
    f32::NEG_INFINITY,
    f32::MIN_POSITIVE,
    1e30,
    -7.0,
];

pub fn arguments(random: &mut Random) -> [f32; 4] {
    let around = |random: &mut Random| match random.within(0, 9) {
        0 => random.pick(&SPECIAL),
        1 => f32::from_bits(random.u32()),
        2..=5 => random.within(-64 * 16, 64 * 16) as f32 / 16.0,
        _ => random.within(-64_000_000, 64_000_000) as f32 / 1e6,
    };
    let (mut min, mut max) = (around(random), around(random));
    if min > max && random.within(0, 7) != 0 {
        (min, max) = (max, min);
    }
    let mut start = around(random);
    let step = match random.within(0, 11) {
        0 => random.pick(&SPECIAL),
        1 => moved(1.0 / 64.0, random.within(-2, 2)),
        2 => f32::from_bits(random.u32()),
        3..=5 => random.within(1, 64) as f32 / 16.0,
        6 => random.within(16, 40) as f32 / 1024.0,
        _ => random.within(20_000, 4_000_000) as f32 / 1e6,
    };
    match random.within(0, 5) {
        0 => start = moved(min, random.within(-2, 2)),
        1 => start = moved(max, random.within(-2, 2)),
        // A candidate on a bound, or a float or two from it.
        2 => max = moved(start + random.within(0, 40) as f32 * step, random.within(-2, 2)),
        3 => min = moved(start - random.within(0, 40) as f32 * step, random.within(-2, 2)),
        4 => max = min,
        _ => (),
    }
    [start, min, max, step]
}

pub fn compare_candidates(count: u64, seed: u64) -> bool {
    let mut random = Random::new(seed);
    let (mut differences, mut refused, mut places, mut longest, mut std_differs) = (0u64, 0u64, 0u64, 0, 0u64);
    for turn in 0..count {
        let arguments = match turn {
            // Document 01's, and the longest list.
            0 => [-5.0, -6.75, -0.25, 2.0],
            1 => [-5.0, -6.75, -0.25, 1.0],
            2 => [0.0, 1.0, -1.0, 1.0],
            3 => [0.0, -64.0, 64.0, 1.0 / 64.0],
            4 => [64.0, -64.0, 64.0, 1.0 / 64.0],
            _ => arguments(&mut random),
        };
        let [start, min, max, step] = arguments;
        let same = match candidates(start, min, max, step) {
            None => {
                refused += 1;
                call(arguments, random.within(0, 40) as usize, -5, &[]) && call(arguments, 8200, -5, &[])
            }
            Some(list) => {
                places += list.len() as u64;
                longest = longest.max(list.len());
                let by_std = std_build::oracle::candidates(start, min, max, step);
                std_differs += u64::from(by_std.len() != list.len() || by_std.iter().zip(&list).any(|(&a, &b)| !alike(a, b)));
                let n = list.len();
                call(arguments, n, n as i64, &list)
                    && call(arguments, n + random.within(1, 30) as usize, n as i64, &list)
                    && call(arguments, 8200, n as i64, &list)
                    && call(arguments, n - 1, -6, &[])
                    && call(arguments, 0, -6, &[])
            }
        };
        if !same {
            differences += 1;
            if differences <= 3 {
                println!("DIFFERENCE: candidates of {:x?}, {arguments:?}", arguments.map(f32::to_bits));
            }
        }
    }
    println!("candidates: {count} calls' arguments, {refused} refused (5), {places} places, the longest list {longest}");
    println!("candidates: {differences} differences from the exact build, {std_differs} of the std build");
    differences == 0
}

/// Compares until the first difference; says whether there was none.
pub fn candidates_until(count: u64, seed: u64) -> bool {
    let mut random = Random::new(seed);
    (0..count).all(|_| {
        let arguments = arguments(&mut random);
        let [start, min, max, step] = arguments;
        match candidates(start, min, max, step) {
            None => call(arguments, 8200, -5, &[]),
            Some(list) => call(arguments, 8200, list.len() as i64, &list),
        }
    })
}

fn legs(random: &mut Random) -> (f32, f32) {
    let coordinate = |random: &mut Random| random.within(-64_000_000, 64_000_000) as f32 / 1e6;
    match random.within(0, 5) {
        0 => (f32::from_bits(random.u32()), f32::from_bits(random.u32())),
        1 => (random.pick(&SPECIAL), f32::from_bits(random.u32())),
        2 => (random.within(-4096, 4096) as f32 / 64.0, random.within(-4096, 4096) as f32 / 64.0),
        3 => {
            let limit = f32::from_bits(random.u32() & 0x7fff_ffff);
            if limit.is_finite() && limit > 0.0 {
                near_halfway(random, limit)
            } else {
                (limit, limit)
            }
        }
        4 => {
            let limit = random.within(1, 8_000_000) as f32 / 1e6;
            near_halfway(random, limit)
        }
        _ => (coordinate(random), coordinate(random)),
    }
}

pub fn compare_leaves(count: u64, seed: u64) -> bool {
    let mut random = Random::new(seed);
    let (mut differences, mut std_differs) = (0u64, 0u64);
    let mut report = |name: &str, x: f32, y: f32, ours: f32, exact: f32| {
        differences += 1;
        if differences <= 5 {
            println!("DIFFERENCE: {name} of {:x}, {:x}: {:x}, not {:x}", x.to_bits(), y.to_bits(), ours.to_bits(), exact.to_bits());
        }
    };
    for _ in 0..count {
        let (x, y) = legs(&mut random);
        let hypot = leaves::hypot_in_whole_numbers(x, y);
        if !alike(library::hypot(x, y), hypot) {
            report("hypot", x, y, library::hypot(x, y), hypot);
        }
        // The oracle's quicker way to the same.
        if !alike(leaves::hypot(x, y), hypot) {
            report("the oracle's hypot", x, y, leaves::hypot(x, y), hypot);
        }
        std_differs += u64::from(!alike(x.hypot(y), hypot));
        let rem = exact::rem_euclid_by_powers(x, y);
        if !alike(library::rem_euclid(x, y), rem) {
            report("rem_euclid", x, y, library::rem_euclid(x, y), rem);
        }
        let angle = match random.within(0, 3) {
            0 => x,
            1 => moved(random.within(-20, 20) as f32 * PI, random.within(-3, 3)),
            _ => x - y,
        };
        let normalized = std_build::oracle::normalize_angle(angle);
        if !alike(library::normalize_angle(angle), normalized) {
            report("normalize_angle", angle, 0.0, library::normalize_angle(angle), normalized);
        }
    }
    println!("leaves: {count} pairs, {differences} differences; std's hypot differs from the exact one at {std_differs}");
    differences == 0
}

/// Whether a player has moved is asked by a distance of more than 0.1. Of two legs with a root next to that limit the greater is at least
/// 0.07: for each of these the other leg that comes nearest to the point halfway above 0.1, and its neighbours. Farther ones are so far
/// from it that no rounding in f64 reaches it.
pub fn compare_motion() -> bool {
    let limit = 0.1f32;
    let halfway = (f64::from(limit) + f64::from(limit.next_up())) * 0.5;
    let (mut pairs, mut differences, mut std_differs) = (0u64, 0u64, 0u64);
    for bits in 0.07f32.to_bits()..=limit.to_bits() {
        let leg = f32::from_bits(bits);
        let other = ((halfway - f64::from(leg)) * (halfway + f64::from(leg))).sqrt() as f32;
        for other in [other.next_down(), other, other.next_up()] {
            let exact = leaves::hypot_in_whole_numbers(leg, other);
            pairs += 1;
            differences += u64::from(!alike(library::hypot(leg, other), exact));
            if (leg.hypot(other) > limit) != (exact > limit) {
                std_differs += 1;
                if std_differs < 5 {
                    println!("motion by std differs: legs {:x} and {:x}", leg.to_bits(), other.to_bits());
                }
            }
        }
    }
    println!("motion: {pairs} pairs of legs, {differences} differences from the exact hypot, {std_differs} at which std decides otherwise");
    differences == 0
}
