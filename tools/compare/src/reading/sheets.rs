//! Sheets drawn by the rules of document 01 and of request 3, up to the longest, which no decision has.

use super::reader::Row;
use crate::random::Random;

/// The lines after the header of the longest sheet: 40 verdicts, 40 ranks, a kicker, 40 leaving, 40 moved, a ball judgment and three lines of a place.
pub const MOST: usize = 165;

/// Patterns that a placed value may have: zero, the least, the border of the subnormals, 1, the greatest; and the same below 0.
pub const FINITE: [u32; 9] = [0, 1, 0x007f_ffff, 0x0080_0000, 0x3f80_0000, 0x7f7f_ffff, 0x8000_0001, 0x807f_ffff, 0xff7f_ffff];

pub fn side(random: &mut Random) -> u32 {
    random.within(0, 1) as u32
}

pub fn number(random: &mut Random) -> u32 {
    random.within(1, 20) as u32
}

/// Of twenty players none, a few, or as many of twenty as the sheet's share says.
fn some(random: &mut Random, share: i64) -> Vec<u32> {
    let share = random.pick(&[0, 1, share.min(2), share]);
    (1..=20).filter(|_| random.within(1, 20) <= share).collect()
}

/// The lines of kind 1, 4 or 5.
fn of_players(random: &mut Random, kind: u32, share: i64) -> Vec<Row> {
    let mut rows = Vec::new();
    for side in 0..2 {
        for number in some(random, share) {
            let value = if kind == 1 { random.within(1, 3) as u32 } else { 0 };
            rows.push([kind, side, number, value]);
        }
    }
    rows
}

/// The lines of kind 2: players of a side in any order.
pub fn excess(random: &mut Random, share: i64) -> Vec<Row> {
    let mut rows = Vec::new();
    for side in 0..2 {
        let mut numbers = some(random, share);
        for k in (1..numbers.len()).rev() {
            numbers.swap(k, random.within(0, k as i64) as usize);
        }
        rows.extend(numbers.into_iter().zip(1..).map(|(number, rank)| [2, side, number, rank]));
    }
    rows
}

pub fn ball(random: &mut Random) -> Row {
    match random.within(1, 5) {
        5 => [6, 2, 5, 0],
        code => [6, side(random), code as u32, 0],
    }
}

fn pattern(random: &mut Random) -> u32 {
    let drawn = random.u32();
    if random.coin() || !f32::from_bits(drawn).is_finite() {
        random.pick(&FINITE)
    } else {
        drawn
    }
}

/// The three lines of a place.
pub fn place(random: &mut Random) -> [Row; 3] {
    let (side, number) = if random.coin() { (2, 0) } else { (side(random), number(random)) };
    [7, 8, 9].map(|kind| [kind, side, number, pattern(random)])
}

/// The lines of a sheet after the header.
pub fn drawn(random: &mut Random) -> Vec<Row> {
    let share = random.pick(&[0, 1, 1, 2, 20]);
    let mut rows = of_players(random, 1, share);
    rows.extend(excess(random, share));
    if random.coin() {
        rows.push([3, side(random), number(random), 0]);
    }
    rows.extend(of_players(random, 4, share));
    rows.extend(of_players(random, 5, share));
    if random.coin() {
        rows.push(ball(random));
    }
    if random.coin() {
        rows.extend(place(random));
    }
    rows
}

/// A sheet with as many lines as there can be.
pub fn longest(random: &mut Random) -> Vec<Row> {
    let all = |kind: u32| (0..2).flat_map(move |side| (1..=20).map(move |number| [kind, side, number, 0]));
    let mut rows: Vec<Row> = all(1).map(|[kind, side, number, _]| [kind, side, number, random.within(1, 3) as u32]).collect();
    // The highest number first.
    rows.extend(all(2).map(|[kind, side, number, _]| [kind, side, 21 - number, number]));
    rows.push([3, side(random), number(random), 0]);
    rows.extend(all(4));
    rows.extend(all(5));
    rows.push(ball(random));
    rows.extend(place(random));
    assert_eq!(rows.len(), MOST);
    rows
}
