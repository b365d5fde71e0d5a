//! The command `bench`: the whole call of the C entry beside the original, on the same words in the same run, and that of the display's entry beside the sheet's.
//!
//! The original's side reads the same words, asks the std build for the same items and writes the same text into a buffer that is kept between calls, by divisions
//! and not by std's formatting. It checks neither the words nor the refusals, which the C entry does.

use crate::decision::Decision;
use crate::generate::{self, Class};
use crate::library::For;
use crate::random::Random;
use crate::situation::{Pose, Situation, Wish, KICK_OFF, PLAYERS, SET, WORDS};
use crate::{library, refusals, std_build};
use std::hint::black_box;
use std::time::Instant;

/// Room for every sheet.
const SHEET: usize = 7470;

#[derive(Clone)]
struct Input {
    words: [u32; WORDS],
    situation: Situation,
}

fn input(s: &Situation) -> Input {
    Input { words: s.to_words(None), situation: s.clone() }
}

/// Writes four columns of eleven bytes and the end of the line.
fn write_row(row: &[u32; 4], line: &mut [u8]) {
    line.fill(b' ');
    for (i, &value) in row.iter().enumerate() {
        let (mut rest, mut at) = (value, 11 * i + 10);
        loop {
            line[at] = b'0' + (rest % 10) as u8;
            rest /= 10;
            at -= 1;
            if rest == 0 {
                break;
            }
        }
    }
    line[44] = b'\n';
}

fn write_sheet(decision: &Decision, sheet: &mut [u8]) -> i64 {
    let rows = decision.rows();
    write_row(&[0, 2, rows.len() as u32, 1], &mut sheet[..45]);
    for (row, line) in rows.iter().zip(sheet[45..].chunks_exact_mut(45)) {
        write_row(row, line);
    }
    45 * (rows.len() as i64 + 1)
}

/// The original's side of the whole call.
#[inline(never)]
fn original(input: &Input, sheet: &mut [u8]) -> i64 {
    let (xs, ys) = (input.situation.xs.clone(), input.situation.ys.clone());
    let s = Situation::from_words(&input.words, xs, ys).expect("a situation");
    write_sheet(&std_build::oracle::decide(&s), sheet)
}

/// The same where the words have been read before.
#[inline(never)]
fn original_read(input: &Input, sheet: &mut [u8]) -> i64 {
    write_sheet(&std_build::oracle::decide(&input.situation), sheet)
}

fn port(input: &Input, sheet: &mut [u8]) -> i64 {
    library::sheet(For::Desk, &input.words, &input.situation.xs, &input.situation.ys, sheet)
}

fn display(input: &Input, sheet: &mut [u8]) -> i64 {
    library::sheet(For::Display, &input.words, &input.situation.xs, &input.situation.ys, sheet)
}

/// A call on one input, which writes into the lent bytes.
type Call = fn(&Input, &mut [u8]) -> i64;

/// Microseconds a call over all inputs.
fn time(inputs: &[Input], sheet: &mut [u8], call: Call) -> f64 {
    let start = Instant::now();
    let mut folded = 0;
    for input in inputs {
        folded ^= call(black_box(input), sheet);
    }
    black_box(folded);
    start.elapsed().as_secs_f64() * 1e6 / inputs.len() as f64
}

fn median(mut times: Vec<f64>) -> f64 {
    times.sort_by(f64::total_cmp);
    times[times.len() / 2]
}

/// The medians of the calls, taken in turn, so that a slow moment of the machine meets all of them.
fn in_turn<const N: usize>(inputs: &[Input], repeats: usize, calls: [Call; N]) -> [f64; N] {
    let mut sheet = vec![0; SHEET];
    let mut times = [const { Vec::new() }; N];
    for repeat in 0..repeats {
        for i in 0..N {
            let i = (i + repeat) % N;
            times[i].push(time(inputs, &mut sheet, calls[i]));
        }
    }
    times.map(median)
}

fn report(name: &str, situations: &[Situation], repeats: usize, limit: Option<f64>) -> bool {
    let accepted: Vec<Input> = situations.iter().filter(|s| refusals::refusal(s).is_none()).map(input).collect();
    let [ours, rust, read] = in_turn(&accepted, repeats, [port, original, original_read]);
    let limit_text = limit.map_or(String::new(), |l| format!(" (limit {l})"));
    println!("{name}: {ours:.2} us, the original {rust:.2} us, ratio {:.2}{limit_text}", ours / rust);
    println!("    the original without reading the words: {read:.2} us, ratio {:.2}", ours / read);
    report_display(&accepted, repeats);
    limit.is_none_or(|l| ours / rust <= l)
}

/// How many situations the display shows, and the time of its entry beside the sheet's: over all of them, and over those that it shows, since no sheet is written for
/// the others.
fn report_display(accepted: &[Input], repeats: usize) {
    let mut sheet = vec![0; SHEET];
    let shown: Vec<Input> = accepted.iter().filter(|input| display(input, &mut sheet) != -12).cloned().collect();
    println!("    for the display: {} shown, {} refused with 12", shown.len(), accepted.len() - shown.len());
    let groups = match shown.len() {
        0 => vec![],
        n if n == accepted.len() => vec![("all", accepted)],
        _ => vec![("all", accepted), ("those shown", &shown)],
    };
    for (which, inputs) in groups {
        let [desk, display] = in_turn(inputs, repeats, [port, display]);
        println!("    {which}: referee_sheet {desk:.2} us, referee_display {display:.2} us, ratio {:.2}", display / desk);
    }
}

/// A kick-off in Ready or Set, eleven players on each side in their own halves or near the circle.
fn kick_off(random: &mut Random) -> Situation {
    let mut s = generate::situation(random, Class::Realistic);
    s.phase = 0;
    s.state = if random.coin() { SET } else { 1 };
    s.stopped = false;
    s.set_play = KICK_OFF;
    s.kicking_side = Some(random.within(0, 1) as u8);
    s.wish = Wish::BallInSet;
    s.ball = [0.0, 0.0, s.sizes[13]];
    (s.xs, s.ys) = (Vec::new(), Vec::new());
    for side in 0..2 {
        for i in 0..PLAYERS {
            let player = &mut s.players[side][i];
            player.penalty = 0;
            player.pose = (i < 11).then(|| {
                let own = if (side == 0) == (s.sides == 0) { 1.0 } else { -1.0 };
                let across = random.within(-1000, 1000) as f32 / 1000.0;
                let along = random.within(-50, 1000) as f32 / 1000.0;
                Pose { x: own * along * s.sizes[0] * 0.5, y: across * s.sizes[1] * 0.5, theta: across, radius: 0.25 }
            });
            player.reference = player.pose;
        }
    }
    s
}

/// A player for penalty on a field of 64 by 64, whose candidates are that far apart, among so many earlier places. These stand along the line of the candidates, as
/// evenly as they can, in any order: from 4,096 of them on no candidate reaches the distance 1/64.
fn crowded(random: &mut Random, earlier: usize, distance: f32) -> Situation {
    let mut s = Situation::case_a();
    (s.sizes[0], s.sizes[1]) = (64.0, 64.0);
    s.distance = distance;
    s.wish = Wish::Penalty(0, 2);
    let y = s.sizes[1] * 0.5 + s.sizes[10] - 0.25;
    let gap = 32.0 / earlier.max(1) as f32;
    s.xs = (0..earlier).map(|k| (k as f32 + random.within(0, 1000) as f32 / 1000.0) * gap).collect();
    for k in (1..earlier).rev() {
        s.xs.swap(k, random.within(0, k as i64) as usize);
    }
    s.ys = (0..earlier).map(|_| y + random.within(-100, 100) as f32 / 25_600.0).collect();
    s
}

pub fn run(seed: u64, repeats: usize) -> bool {
    let mut random = Random::new(seed);
    let drawn = |n: usize, random: &mut Random, f: fn(&mut Random) -> Situation| (0..n).map(|_| f(random)).collect::<Vec<_>>();
    let realistic = drawn(2000, &mut random, |r| generate::situation(r, Class::Realistic));
    let mut passed = report("realistic", &realistic, repeats, Some(1.0));
    let kick_offs = drawn(2000, &mut random, kick_off);
    passed &= report("kick-offs, 22 players", &kick_offs, repeats, Some(1.0));
    let crowd = drawn(4, &mut random, |r| crowded(r, 4096, 1.0 / 64.0));
    passed &= report("penalty place, 4,096 earlier, distance 1/64", &crowd, repeats.div_ceil(10), Some(0.3));
    for (earlier, distance) in [(0, 1.0), (0, 1.0 / 64.0), (64, 0.5), (512, 1.0 / 16.0), (1024, 1.0 / 32.0), (4096, 1.0 / 8.0), (4096, 1.0)] {
        let some: Vec<Situation> = (0..4).map(|_| crowded(&mut random, earlier, distance)).collect();
        report(&format!("penalty place, {earlier} earlier, distance {distance}"), &some, repeats.div_ceil(3), None);
    }
    passed
}
