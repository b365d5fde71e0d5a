//! The command `read-bench`: reading the longest sheet of a run beside making it, and reading a sheet of 166 lines.

use super::reader::{write_sheet, LINE, WORDS};
use super::{sheet, sheets, SHEET};
use crate::library::For;
use crate::random::Random;
use crate::situation::Situation;
use crate::{compare, library};
use std::hint::black_box;
use std::time::Instant;

const CALLS: u32 = 20;
const REPEATS: usize = 2000;
/// How many of the longest sheets are timed, the first of them with the limit.
const LONGEST: usize = 50;
const LIMIT: f64 = 1.0;

/// Microseconds a call, in the least of the repeats; the calls of a repeat are made in turn.
fn least<const N: usize>(repeats: usize, mut calls: [&mut dyn FnMut() -> i64; N]) -> [f64; N] {
    let mut least = [f64::INFINITY; N];
    for _ in 0..repeats {
        for (call, least) in calls.iter_mut().zip(&mut least) {
            let start = Instant::now();
            for _ in 0..CALLS {
                black_box(call());
            }
            *least = least.min(start.elapsed().as_secs_f64() * 1e6 / f64::from(CALLS));
        }
    }
    least
}

/// The situations with the longest sheets, the longest first; of sheets of one length those with fewer earlier places, which are decided faster.
fn longest(count: u64, seed: u64) -> Vec<(Situation, Vec<u8>)> {
    let mut random = Random::new(seed);
    let mut found: Vec<(Situation, Vec<u8>)> = Vec::new();
    for turn in 0..count {
        let drawn = compare::drawn(&mut random, turn).into_iter().filter_map(|(_, s)| sheet(&s).map(|text| (s, text)));
        found.extend(drawn.filter(|(_, text)| text.len() > 10 * LINE));
        if found.len() > 100 * LONGEST || turn + 1 == count {
            found.sort_by_key(|(s, text)| (SHEET - text.len(), s.xs.len()));
            found.truncate(LONGEST);
        }
    }
    found
}

/// The time of making a sheet and of reading it.
fn both(s: &Situation, text: &[u8], repeats: usize) -> [f64; 2] {
    let words = s.to_words(None);
    let mut lent = vec![0; SHEET];
    let mut make = || library::sheet(For::Desk, black_box(&words), &s.xs, &s.ys, &mut lent);
    let mut read = || library::read_sheet(black_box(text));
    least(repeats, [&mut make, &mut read])
}

/// Reads every item of a sheet, each by a call of its own.
fn read_items(text: &[u8], lines: u64) -> i64 {
    let mut item = [0; WORDS];
    (1..=lines).map(|line| library::read_item(black_box(text), line, &mut item)).sum()
}

pub fn run(count: u64, seed: u64) -> bool {
    let found = longest(count, seed);
    let Some((s, text)) = found.first() else {
        println!("no sheet of more than ten lines among {count} turns");
        return false;
    };
    let [make, read] = both(s, text, REPEATS);
    let (lines, ratio) = (text.len() / LINE, read / make);
    println!("the longest sheet of {count} turns, {lines} lines: referee_sheet {make:.3} us, referee_read_sheet {read:.3} us, ratio {ratio:.2} (limit {LIMIT})");
    let ratios = found.iter().map(|(s, text)| {
        let [make, read] = both(s, text, REPEATS / 10);
        (read / make, text.len() / LINE, make, read)
    });
    if let Some((greatest, lines, make, read)) = ratios.max_by(|a, b| a.0.total_cmp(&b.0)) {
        println!("of the {} longest the greatest ratio: {greatest:.2}, {lines} lines, {make:.3} us and {read:.3} us", found.len());
    }
    let most = write_sheet(&sheets::longest(&mut Random::new(seed)));
    let lines = sheets::MOST as u64;
    let [whole, items] = least(REPEATS / 10, [&mut || library::read_sheet(black_box(&most)), &mut || read_items(&most, lines)]);
    println!("a sheet of {} lines: referee_read_sheet {whole:.3} us, all its {lines} items by referee_read_item {items:.1} us", lines + 1);
    ratio <= LIMIT && library::read_sheet(&most) == lines as i64 && read_items(&most, lines) == lines as i64
}
