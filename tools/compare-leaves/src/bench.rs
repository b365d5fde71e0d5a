//! The command `bench`: the library's entries against std's methods, on the same inputs in the same run.
//!
//! Ours is called through the C entry. Std's is called through a C function of this program that is never inlined, so
//! that each costs one call from the loop. That function goes on to the C library by a jump; the column "inlined" is
//! std's method without it, called as a program would.

use crate::inputs::{Pair, random_bits, signed, two_subnormals};
use crate::random::Random;
use crate::{hypot_inputs, library, rem_inputs};
use std::hint::black_box;
use std::process::ExitCode;
use std::time::Instant;

#[inline(never)]
extern "C" fn std_hypot(x: f32, y: f32) -> f32 {
    x.hypot(y)
}

#[inline(never)]
extern "C" fn std_rem_euclid(x: f32, y: f32) -> f32 {
    x.rem_euclid(y)
}

/// One addition: what the loop and a call cost by themselves.
#[inline(never)]
extern "C" fn sum(x: f32, y: f32) -> f32 {
    x + y
}

/// About how many calls each median is made of.
const CALLS: usize = 8_000_000;

/// Calls that do not wait for each other. The answers are folded together, so that none can be left out.
fn throughput(pairs: &[Pair], f: impl Fn(f32, f32) -> f32) -> f64 {
    let start = Instant::now();
    let mut folded = 0;
    for &(x, y) in pairs {
        folded ^= f(x, y).to_bits();
    }
    black_box(folded);
    start.elapsed().as_secs_f64()
}

/// Calls each of which waits for the one before: bits of its answer go into the next input, through a mask that is
/// zero, which the compiler cannot know.
fn dependent(pairs: &[Pair], f: impl Fn(f32, f32) -> f32) -> f64 {
    let mask = black_box(0);
    let start = Instant::now();
    let mut last = 0;
    for &(x, y) in pairs {
        last = f(f32::from_bits(x.to_bits() ^ (last & mask)), y).to_bits();
    }
    black_box(last);
    start.elapsed().as_secs_f64()
}

fn median(mut times: Vec<f64>) -> f64 {
    times.sort_by(f64::total_cmp);
    times[times.len() / 2]
}

fn repeats(pairs: usize) -> usize {
    (CALLS / pairs).max(100)
}

/// The medians of several measurements, in ns for one call. They are taken in turn, so that a slow moment of the
/// machine meets all of them.
fn in_turn<const N: usize>(pairs: usize, measurements: [&dyn Fn() -> f64; N]) -> [f64; N] {
    let mut times = [const { Vec::new() }; N];
    for repeat in 0..repeats(pairs) {
        for i in 0..N {
            // A different one comes first each time.
            let i = (i + repeat) % N;
            times[i].push(measurements[i]() * 1e9 / pairs as f64);
        }
    }
    times.map(median)
}

fn drawn(pairs: usize, draw: fn(&mut Random) -> Pair) -> Vec<Pair> {
    let mut random = Random::new(1);
    (0..pairs).map(|_| draw(&mut random)).collect()
}

struct Row {
    name: &'static str,
    draw: fn(&mut Random) -> Pair,
    /// The most that ours should take, as a multiple of std's time.
    limit: Option<f64>,
}

const fn row(name: &'static str, draw: fn(&mut Random) -> Pair, limit: Option<f64>) -> Row {
    Row { name, draw, limit }
}

const HYPOT: [Row; 8] = [
    row("close exponents", hypot_inputs::close_exponents, Some(2.0)),
    row("random bits", random_bits, Some(1.2)),
    row("zeros", zeros, Some(1.2)),
    row("one zero", one_zero, Some(1.2)),
    row("two zeros", two_zeros, Some(1.2)),
    row("subnormals", two_subnormals, Some(6.0)),
    row("exact squares", exact_squares, Some(2.0)),
    row("field distances", hypot_inputs::field_distances, Some(2.0)),
];

const REM_EUCLID: [Row; 1] = [row("angles", rem_inputs::angles_64, None)];

fn two_zeros(random: &mut Random) -> Pair {
    (signed(random, 0), signed(random, 0))
}

/// A zero beside a difference of coordinates.
fn one_zero(random: &mut Random) -> Pair {
    let zero = signed(random, 0);
    let (x, _) = hypot_inputs::field_distances(random);
    if random.coin() { (x, zero) } else { (zero, x) }
}

/// One zero or two.
fn zeros(random: &mut Random) -> Pair {
    match random.within(0, 3) {
        0 => two_zeros(random),
        _ => one_zero(random),
    }
}

/// Of no subnormals: those have a row of their own.
fn exact_squares(random: &mut Random) -> Pair {
    loop {
        let (x, y) = hypot_inputs::exact_squares(random);
        if x.is_normal() && y.is_normal() {
            return (x, y);
        }
    }
}

fn measure(
    row: &Row,
    pairs: usize,
    ours: impl Fn(f32, f32) -> f32 + Copy,
    std: impl Fn(f32, f32) -> f32 + Copy,
    inlined: impl Fn(f32, f32) -> f32 + Copy,
) {
    let list = drawn(pairs, row.draw);
    let times = in_turn(
        pairs,
        [
            &|| throughput(&list, ours),
            &|| throughput(&list, std),
            &|| throughput(&list, inlined),
            &|| dependent(&list, ours),
            &|| dependent(&list, std),
            &|| dependent(&list, inlined),
        ],
    );
    print!("{:20}", row.name);
    for part in times.chunks(3) {
        let ratio = part[0] / part[1];
        print!("{:9.2}{:9.2}{ratio:9.2}{:9.2}", part[0], part[1], part[2]);
    }
    match row.limit {
        Some(limit) => {
            let met = |part: &[f64]| {
                if part[0] <= limit * part[1] {
                    "met"
                } else {
                    "missed"
                }
            };
            println!("{limit:9.1}  {}, {}", met(&times[..3]), met(&times[3..]));
        }
        None => println!("{:>9}", "none"),
    }
}

fn heading(name: &str) {
    print!("{name:20}");
    for _ in 0..2 {
        print!("{:>9}{:>9}{:>9}{:>9}", "ours", "std", "ratio", "inlined");
    }
    println!("{:>9}", "limit");
}

pub fn run(pairs: usize) -> ExitCode {
    println!(
        "ns for one call: the median of {} runs over {pairs} pairs. ratio: ours / std. limit: the most for the ratio,",
        repeats(pairs)
    );
    println!("and whether the throughput and the dependent calls meet it.\n");
    println!("{:20}{:^36}{:^36}", "", "throughput", "dependent");
    heading("hypot");
    for row in &HYPOT {
        measure(
            row,
            pairs,
            library::hypot,
            |x, y| std_hypot(x, y),
            f32::hypot,
        );
    }
    heading("rem_euclid");
    for row in &REM_EUCLID {
        measure(
            row,
            pairs,
            library::rem_euclid,
            |x, y| std_rem_euclid(x, y),
            f32::rem_euclid,
        );
    }
    let list = drawn(pairs, hypot_inputs::field_distances);
    let alone = || throughput(&list, |x, y| sum(x, y));
    let waiting = || dependent(&list, |x, y| sum(x, y));
    let [alone, waiting] = in_turn(pairs, [&alone, &waiting]);
    println!(
        "\nThe loop and a call of one addition, which are part of each time: {alone:.2}, dependent {waiting:.2}"
    );
    ExitCode::SUCCESS
}
