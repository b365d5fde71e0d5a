//! Compares the port with the original Rust. See README.md.

mod bench;
mod cases;
mod coach;
mod compare;
mod decision;
mod entries;
mod generate;
mod layout;
mod leaves;
mod library;
mod memory;
mod place;
mod reading;
mod records;
mod refusals;
mod sheet;
mod situation;
mod slips;
mod stack;
mod stand_ins;
mod told;
mod turn;

mod exact_build;
#[cfg(not(mutants))]
mod mixed_build;
#[cfg(not(mutants))]
mod slip_build;
#[cfg(not(mutants))]
mod std_build;
#[cfg(not(mutants))]
mod told_build;
// mutants.py asks the exact build alone: it compiles faster without the others.
#[cfg(mutants)]
use {exact_build as mixed_build, exact_build as slip_build, exact_build as std_build, exact_build as told_build};

#[allow(dead_code)]
#[path = "../../compare-leaves/src/big.rs"]
mod big;
#[allow(dead_code)]
#[path = "../../compare-leaves/src/exact.rs"]
mod exact;
#[allow(dead_code)]
#[path = "../../compare-leaves/src/random.rs"]
mod random;

use std::process::exit;

const USAGE: &str = "\
compare [COUNT] [SEED]             compares referee_sheet, referee_display and referee_place, COUNT situations (100000) of the seed (1)
compare check [COUNT] [SEED]       compares referee_check
compare candidates [COUNT] [SEED]  compares referee_candidates
compare leaves [COUNT] [SEED]      compares the leaves
compare coach [COUNT] [SEED]       compares referee_coach, COUNT situations (100000) of the seed (1)
compare motion                     tries every distance at which motion could turn on std's hypot
compare judge                      reads one situation as the program judge does and prints the three sheets, the answers for the display and the place
compare until COUNT SEED           compares until the first difference
compare bench [SEED] [REPEATS]     times the whole call beside the original, and the display's beside it
compare memory [COUNT] [SEED]      calls the entries for valgrind
compare stack [COUNT] [SEED]       measures the stack that a call takes
compare slips [COUNT] [SEED]       looks for a situation that shows each slip, COUNT at most
compare coach-slips [COUNT] [SEED] the same for the slips in the coach's lines
compare read [COUNT] [SEED]        compares referee_read_sheet and referee_read_item, texts of COUNT situations (100000) of the seed (1)
compare read-slips [COUNT] [SEED]  the same with slips in the reader that they are compared with
compare read-cases                 reads a list of texts with their answers from standard input
compare read-bench [COUNT] [SEED]  times reading the longest sheet of COUNT situations (100000) beside making it
compare records [SEED]             writes the list that the program replay reads, of the seed (1), and what it covers to standard error
compare replay                     reads such a list and asks the oracle again
";

fn main() {
    let mut arguments: Vec<String> = std::env::args().skip(1).collect();
    let command = match arguments.first() {
        Some(first) if first.parse::<u64>().is_err() => arguments.remove(0),
        _ => String::new(),
    };
    let number = |i: usize, default| match arguments.get(i) {
        None => default,
        Some(text) => text.parse().unwrap_or_else(|_| usage()),
    };
    let passed = match command.as_str() {
        "" => compare::run(number(0, 100_000), number(1, 1)),
        "check" => entries::compare_check(number(0, 1_000_000), number(1, 1)),
        "candidates" => entries::compare_candidates(number(0, 100_000), number(1, 1)),
        "leaves" => entries::compare_leaves(number(0, 1_000_000), number(1, 1)),
        "coach" => coach::run(number(0, 100_000), number(1, 1)),
        "coach-slips" => coach::try_slips(number(0, 100_000), number(1, 1)),
        "motion" => entries::compare_motion(),
        "bench" => bench::run(number(0, 1), number(1, 101) as usize),
        "memory" => memory::run(number(0, 4000), number(1, 1)),
        "stack" => stack::run(number(0, 4000), number(1, 1)),
        "judge" => compare::judge(),
        "until" => compare::until(number(0, 100_000), number(1, 1)),
        "slips" => compare::try_slips(number(0, 100_000), number(1, 1)),
        "read" => reading::run(number(0, 100_000), number(1, 1)),
        "read-slips" => reading::try_slips(number(0, 20_000), number(1, 1)),
        "read-cases" => reading::cases(),
        "read-bench" => reading::bench::run(number(0, 100_000), number(1, 1)),
        "records" => records::write(number(0, 1)),
        "replay" => records::replay(),
        _ => usage(),
    };
    if !passed {
        println!("FAILED");
        exit(1);
    }
}

fn usage() -> ! {
    eprint!("{USAGE}");
    exit(2)
}
