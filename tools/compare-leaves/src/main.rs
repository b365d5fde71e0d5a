//! Compares hypot and rem_euclid of libreferee_c.a with exact answers and with std, hypot with MPFR and with glibc's
//! vectors, and measures both against std.

mod bench;
mod big;
mod compare;
mod exact;
mod glibc;
mod hypot_inputs;
mod inputs;
mod library;
#[cfg(feature = "mpfr")]
mod mpfr;
mod random;
mod rem_inputs;
mod wrong;

use std::env;
use std::process::ExitCode;

const USAGE: &str = "usage: compare-leaves compare [COUNT] [SEED]
       compare-leaves mpfr [COUNT] [SEED]
       compare-leaves glibc FILE
       compare-leaves bench [PAIRS]

COUNT: about how many inputs each of the two functions gets (10000000 if not given)
SEED: a whole number that determines the inputs (1)
FILE: math/auto-libm-test-out-hypot of glibc's source
PAIRS: how many pairs of each class are called over and over (4096)";

#[cfg(feature = "mpfr")]
fn by_mpfr(count: u64, seed: u64) -> ExitCode {
    println!("GNU MPFR {}", mpfr::version());
    compare::run("mpfr", &compare::BY_MPFR, count, seed)
}

#[cfg(not(feature = "mpfr"))]
fn by_mpfr(_: u64, _: u64) -> ExitCode {
    eprintln!(
        "this was built without MPFR: `cargo run --release --features mpfr` builds it with it"
    );
    ExitCode::from(2)
}

fn main() -> ExitCode {
    let words: Vec<String> = env::args().skip(1).collect();
    let words: Vec<&str> = words.iter().map(String::as_str).collect();
    let number = |i: usize, otherwise: u64| match words.get(i) {
        Some(word) => word.parse().ok(),
        None => Some(otherwise),
    };
    match words.first() {
        Some(&"compare") if words.len() <= 3 => {
            if let (Some(count), Some(seed)) = (number(1, 10_000_000), number(2, 1)) {
                return compare::run("compare", &compare::FUNCTIONS, count, seed);
            }
        }
        Some(&"mpfr") if words.len() <= 3 => {
            if let (Some(count), Some(seed)) = (number(1, 10_000_000), number(2, 1)) {
                return by_mpfr(count, seed);
            }
        }
        Some(&"glibc") if words.len() == 2 => return glibc::run(words[1]),
        Some(&"bench") if words.len() <= 2 => {
            if let Some(pairs @ 1..=10_000_000) = number(1, 4096) {
                return bench::run(pairs as usize);
            }
        }
        _ => {}
    }
    eprintln!("{USAGE}");
    ExitCode::from(2)
}
