//! The comparison of situations: the sheet for the desk and for the display (sheet.rs) and the place (place.rs) with the exact build, both builds with each
//! other, and the half turn.

use crate::decision::Decision;
use crate::generate::{self, Class, CLASSES};
use crate::library::For;
use crate::random::Random;
use crate::sheet::{self, Sheet, ROOM, SHOWN};
use crate::situation::{values, Situation, WORDS};
use crate::{cases, entries, exact_build, layout, mixed_build, place, refusals, slip_build, slips, std_build, turn};
use std::collections::{BTreeMap, BTreeSet};

/// What the oracle answers: a refusal, or a decision.
pub enum Answer {
    Refused(i64),
    Decided(Decision),
}

pub fn exact(s: &Situation) -> Answer {
    match refusals::refusal(s) {
        Some(n) => Answer::Refused(n),
        None => Answer::Decided(decide(s)),
    }
}

/// By the exact build, or by the one with slips while one is switched on.
fn decide(s: &Situation) -> Decision {
    if slips::any() {
        slip_build::oracle::decide(s)
    } else {
        exact_build::oracle::decide(s)
    }
}

/// Bytes that no answer holds, different from place to place.
fn filler(i: usize) -> u8 {
    0x80 | (i as u8).wrapping_mul(37)
}

/// Calls an entry with `room` bytes between two guards. Says whether it gives `number` and writes exactly `text`, and keeps the rest.
pub fn guarded(room: usize, number: i64, text: &str, entry: impl FnOnce(&mut [u8]) -> i64) -> bool {
    const GUARD: usize = 16;
    let mut lent: Vec<u8> = (0..room + 2 * GUARD).map(filler).collect();
    let part = &mut lent[GUARD..GUARD + room];
    let answer = entry(part);
    if let (true, Ok(length)) = (slips::on(slips::WRITE_AFTER), usize::try_from(answer)) {
        part[length..].iter_mut().take(1).for_each(|byte| *byte = b' ');
    }
    if slips::on(slips::WRITE_ON_REFUSAL) && answer < 0 {
        part.iter_mut().take(1).for_each(|byte| *byte = b' ');
    }
    answer == number
        && lent.iter().enumerate().all(|(i, &byte)| {
            let written = i >= GUARD && i - GUARD < text.len();
            byte == if written { text.as_bytes()[i - GUARD] } else { filler(i) }
        })
}

const HALF_TURN: &str = "the half turn";
const HALF_TURN_OF_SHEETS: &str = "the half turn of the sheets";
const HALF_TURN_FOR_DISPLAY: &str = "the half turn for the display";

/// The numbers of lines on both sides of the display's limit, and from how many turns on a run must have met them.
const AT_LIMIT: [usize; 2] = [SHOWN, SHOWN + 1];
const LONG_RUN: u64 = 100_000;

#[derive(Default)]
pub struct Tally {
    counts: BTreeMap<String, u64>,
    pub differences: u64,
    /// By what they are counterexamples to.
    counterexamples: BTreeMap<&'static str, u64>,
    /// What failed first.
    first: Option<&'static str>,
    /// How many of the compared sheets have so many lines after the header, without a place and with one.
    lines: BTreeMap<usize, [u64; 2]>,
    std_shown: BTreeMap<String, Situation>,
    combinations: BTreeSet<[u8; 6]>,
    goals: BTreeSet<[u8; 9]>,
}

impl Tally {
    pub fn add(&mut self, what: impl Into<String>) {
        *self.counts.entry(what.into()).or_default() += 1;
    }

    pub fn print(&self) {
        for (what, count) in &self.counts {
            println!("{count:>12}  {what}");
        }
        println!(
            "{:>12}  combinations of state, phase, set play, kicking side, wish and stopped, of {}",
            self.combinations.len(),
            6 * 5 * 8 * 3 * 6 * 2
        );
        println!("{:>12}  combinations of restart, invalid goals, ends and ball judgment", self.goals.len());
        self.print_lines();
    }

    /// How many sheets are at the display's limit, and how many on either side of it.
    fn print_lines(&self) {
        for lines in AT_LIMIT {
            let [without, with] = self.lines.get(&lines).copied().unwrap_or_default();
            println!("{:>12}  sheets of exactly {lines} lines after the header, {with} of them with a place", without + with);
        }
        let shown: u64 = self.lines.range(..=SHOWN).flat_map(|(_, counts)| counts).sum();
        let refused: u64 = self.lines.range(SHOWN + 1..).flat_map(|(_, counts)| counts).sum();
        println!("{shown:>12}  sheets shown by the display");
        println!("{refused:>12}  sheets refused for the display, 12");
    }

    /// The numbers of lines at the display's limit that no sheet without a place has, or no sheet with one.
    fn missing(&self) -> Vec<usize> {
        AT_LIMIT.into_iter().filter(|lines| self.lines.get(lines).is_none_or(|counts| counts.contains(&0))).collect()
    }

    /// Counts a difference in what an entry gives. Says whether it is to be printed.
    pub fn differs(&mut self, entry: &'static str, kind: &str) -> bool {
        self.differences += 1;
        self.first.get_or_insert(entry);
        self.add(format!("DIFFERENCE in {kind}"));
        self.differences <= 3 && !slips::any()
    }

    /// Counts a counterexample. Says whether it is to be printed.
    fn contradicts(&mut self, what: &'static str) -> bool {
        let count = self.counterexamples.entry(what).or_default();
        *count += 1;
        self.first.get_or_insert(what);
        *count <= 2 && !slips::any()
    }
}

/// What differs from case A without players and with the ball at the centre, word by word.
pub fn as_changes(s: &Situation) -> String {
    let mut text = String::new();
    for (i, (word, plain)) in s.to_words(None).into_iter().zip(plain().to_words(None)).enumerate() {
        if word != plain {
            text += &format!("  word {i}: {word}");
            text += &if values(i) == 1 << 32 { format!(" (0x{word:08x}, {:?})\n", f32::from_bits(word)) } else { "\n".to_string() };
        }
    }
    for (name, list) in [("x", &s.xs), ("y", &s.ys)] {
        for x in list {
            text += &format!("  an earlier {name}: {} (0x{:08x}, {x:?})\n", x.to_bits(), x.to_bits());
        }
    }
    text
}

pub fn plain() -> Situation {
    let mut s = Situation::case_a();
    s.players = [[crate::situation::NOBODY; 20]; 2];
    s.ball = [0.0, 0.0, 0.125];
    s
}

/// The words, then the number of xs and their patterns, then of ys and theirs.
pub fn as_numbers(s: &Situation) -> String {
    numbers(&s.to_words(None), &s.xs, &s.ys)
}

pub fn numbers(words: &[u32; WORDS], xs: &[f32], ys: &[f32]) -> String {
    let words = words.map(|w| w.to_string()).join(" ");
    let list = |l: &[f32]| l.iter().map(|x| format!(" {}", x.to_bits())).collect::<String>();
    format!("{words} {}{} {}{}", xs.len(), list(xs), ys.len(), list(ys))
}

/// A pattern's place in the order of the floats' values, and the pattern at a place.
pub fn order(bits: u32) -> i64 {
    if bits >> 31 == 1 {
        -i64::from(bits & 0x7fff_ffff) - 1
    } else {
        i64::from(bits)
    }
}

pub fn back(place: i64) -> u32 {
    if place < 0 {
        0x8000_0000 | (-place - 1) as u32
    } else {
        place as u32
    }
}

/// Makes words 0 or of case A, one after the other, and drops earlier places, as long as the property stays.
pub fn shrink(s: &Situation, holds: impl Fn(&Situation) -> bool) -> Situation {
    if !holds(s) {
        return s.clone();
    }
    let mut best = s.clone();
    loop {
        let before = as_numbers(&best);
        let mut step = best.xs.len().max(best.ys.len());
        while step > 0 {
            let mut at = 0;
            while at < best.xs.len() && best.xs.len() == best.ys.len() {
                let mut t = best.clone();
                let end = (at + step).min(t.xs.len());
                t.xs.drain(at..end);
                t.ys.drain(at..end);
                if holds(&t) {
                    best = t;
                } else {
                    at += step;
                }
            }
            step /= 2;
        }
        let plain = plain().to_words(None);
        for i in 0..WORDS {
            let words = best.to_words(None);
            let mut tries = vec![plain[i]];
            if values(i) == 1 << 32 {
                // Fewer bits of a float.
                tries.extend([16, 12, 8, 4].map(|cut| words[i] >> cut << cut));
            } else {
                tries.push(0);
            }
            for value in tries {
                let mut words = words;
                if words[i] == value {
                    break;
                }
                words[i] = value;
                if let Some(t) = Situation::from_words(&words, best.xs.clone(), best.ys.clone()) {
                    if holds(&t) {
                        best = t;
                        break;
                    }
                }
            }
        }
        if as_numbers(&best) == before {
            return best;
        }
    }
}

/// Compares one situation in every way.
pub fn check(random: &mut Random, s: &Situation, class: &str, tally: &mut Tally) {
    tally.add(format!("situations, {class}"));
    let noise = random.coin();
    let words = s.to_words(noise.then_some(&mut *random));
    let answer = exact(s);
    let sheet = Sheet::new(s, &answer);
    let spare = random.within(1, 200) as usize;
    if !sheet.check(&words, spare, tally) || !place::check(random, &words, s, &answer, tally) {
        return;
    }
    if random.within(0, 3) == 0 {
        sheet.check_rooms(random, &words, tally);
        for (kind, words) in malformed(random, words) {
            sheet.check_malformed(kind, &words, tally);
            place::check_malformed(random, kind, &words, s, &answer, tally);
        }
        place::check_few(&words, s, &answer, tally);
    }
    let decision = match answer {
        Answer::Refused(n) => {
            tally.add(format!("refused {n}{}", if refusals::applying(s) > 1 { ", and another applies" } else { "" }));
            return;
        }
        Answer::Decided(decision) => decision,
    };
    describe(&decision, tally);
    let wish = words[layout::WISH] as u8;
    let kicking = s.kicking_side.unwrap_or(2);
    tally.combinations.insert([s.state, s.phase, s.set_play, kicking, wish, s.stopped.into()]);
    if let (Some(r), Some((code, side))) = (s.restart, decision.ball) {
        let [other, outside, far, _] = r.flags.map(u8::from);
        tally.goals.insert([r.kind, r.side, other, outside, far, s.invalid_goals.into(), code, side, s.sides]);
    }

    let by_std = std_build::oracle::decide(s);
    let items = decision.differing(&by_std);
    if !items.is_empty() {
        let by_hypot = decision.differing(&mixed_build::oracle::decide(s)).is_empty();
        let leaf = if by_hypot { "by hypot alone" } else { "NOT by hypot alone" };
        tally.add(format!("std differs in {}, {leaf}, {class}", items.join(" and ")));
        tally.std_shown.entry(items.join(" and ")).or_insert_with(|| s.clone());
    }

    check_turned(s, &decision, &sheet.text, tally);
}

/// The words made none of a situation: one is outside its column, or the slice has another length.
fn malformed(random: &mut Random, words: [u32; WORDS]) -> [(&'static str, Vec<u32>); 3] {
    let columns: Vec<usize> = (0..WORDS).filter(|&i| values(i) < 1 << 32).collect();
    let i = random.pick(&columns);
    let mut bad = words.to_vec();
    bad[i] = random.pick(&[values(i) as u32, values(i) as u32 + 1, u32::MAX, 1 << 31, values(i) as u32 | 1 << 16]);
    let mut long = words.to_vec();
    long.resize(WORDS + 1 + random.within(0, 9) as usize, 0);
    let short = words[..random.within(0, WORDS as i64 - 1) as usize].to_vec();
    [("a word outside its column", bad), ("too many words", long), ("too few words", short)]
}

/// The half turn: of the original's decisions, of the port's sheets, and of its answers for the display. The first sheet is the text, which the
/// port has written.
fn check_turned(s: &Situation, decision: &Decision, text: &str, tally: &mut Tally) {
    let turned = turn::turned(s);
    let equal = turn::same(s.wish, decision, &decide(&turned));
    let excepted = turn::excepted(s);
    tally.add(format!("turned: {}, {}", if excepted { "excepted" } else { "not excepted" }, if equal { "equal" } else { "unequal" }));
    if equal == excepted && tally.contradicts(HALF_TURN) {
        println!("COUNTEREXAMPLE to {HALF_TURN}:\n{}", as_numbers(s));
    }
    if excepted {
        return;
    }
    let (number, turned_text) = sheet::port(For::Desk, &turned, ROOM);
    let equal = number > 0 && turn::same_sheets(s.wish, text, &turned_text);
    tally.add(format!("turned sheets: {}", if equal { "equal" } else { "unequal" }));
    if !equal && tally.contradicts(HALF_TURN_OF_SHEETS) {
        println!("COUNTEREXAMPLE to {HALF_TURN_OF_SHEETS}:\n{}\n{text}turned, {number}:\n{turned_text}", as_numbers(s));
    }
    check_turned_for_display(s, &turned, text.len(), tally);
}

/// The port's answers for the display of both situations, with as many bytes lent: exact room, and one byte too few.
fn check_turned_for_display(s: &Situation, turned: &Situation, length: usize, tally: &mut Tally) {
    let [here, there] = [s, turned].map(|t| sheet::display_answers(t, [length, length - 1]));
    tally.add(format!("turned for the display: {}", if here == there { "equal" } else { "unequal" }));
    if here != there && tally.contradicts(HALF_TURN_FOR_DISPLAY) {
        println!("COUNTEREXAMPLE to {HALF_TURN_FOR_DISPLAY}:\n{}\n{here:?}, turned {there:?}", as_numbers(s));
    }
}

/// Counts what the decisions hold, so that a class that shows nothing is seen.
fn describe(d: &Decision, tally: &mut Tally) {
    tally.lines.entry(d.rows().len()).or_default()[usize::from(d.place.is_some())] += 1;
    for verdict in 1..=3 {
        if d.verdicts.iter().flatten().any(|&v| v == verdict) {
            tally.add(format!("decisions with a verdict {verdict}"));
        }
    }
    for (what, there) in [
        ("an excess", d.excess.iter().any(|l| !l.is_empty())),
        ("a kicker", d.kicker.is_some()),
        ("a player leaving", !d.leaving.is_empty()),
        ("a moved player", !d.moved.is_empty()),
    ] {
        if there {
            tally.add(format!("decisions with {what}"));
        }
    }
    if let Some((code, _)) = d.ball {
        tally.add(format!("decisions with a ball judgment {code}"));
    }
    match d.place {
        Some(crate::decision::Place::Ball(_)) => tally.add("decisions with a place of the ball"),
        Some(_) => tally.add("decisions with a place of a player"),
        None => (),
    }
}

/// Two neighbouring values of one float between which the answer changes, and their neighbours.
pub fn bisect(random: &mut Random, tally: &mut Tally) {
    let class = random.pick(&[Class::Realistic, Class::Grid, Class::Boundary, Class::Sizes, Class::Places]);
    let mut s = generate::situation(random, class);
    if s.xs.len() > 20 {
        s.xs.truncate(20);
        s.ys.truncate(20);
    }
    if s.distance > 0.0 && s.distance < 0.2 {
        s.distance = 0.25;
    }
    // Without the values of places, which change with every float that they depend on.
    let coarse = random.coin();
    let key = |s: &Situation| match exact(s) {
        Answer::Refused(n) => n.to_string(),
        Answer::Decided(mut d) => {
            if coarse {
                d.place = None;
            }
            d.sheet()
        }
    };
    let words = s.to_words(None);
    let coordinates: Vec<usize> = (0..WORDS)
        .filter(|&i| match i {
            ..layout::SIDES | layout::BALL..layout::LAST_CONTACT => true,
            layout::POSES..layout::ALLOWANCES => {
                let at = (i - layout::POSES) % layout::POSE_WORDS;
                at != 0 && words[i - at] == 1
            }
            layout::ALLOWANCES..layout::PREVIOUSLY_INSIDE => words[layout::POSES + (i - layout::ALLOWANCES) * layout::POSE_WORDS] == 1,
            _ => false,
        })
        .chain(WORDS..WORDS + s.xs.len() + s.ys.len())
        .collect();
    let i = random.pick(&coordinates);
    let with = |bits: u32| {
        let (mut words, mut xs, mut ys) = (words, s.xs.clone(), s.ys.clone());
        if i < WORDS {
            words[i] = bits;
        } else if i - WORDS < xs.len() {
            xs[i - WORDS] = f32::from_bits(bits);
        } else {
            ys[i - WORDS - s.xs.len()] = f32::from_bits(bits);
        }
        Situation::from_words(&words, xs, ys).expect("a float's column has every value")
    };
    let a = if i < WORDS { words[i] } else { s.xs.iter().chain(&s.ys).nth(i - WORDS).expect("an earlier place").to_bits() };
    let here = f32::from_bits(a);
    let b = match random.within(0, 3) {
        0 => here + random.within(-1000, 1000) as f32 / 4096.0,
        1 => -here,
        2 => random.within(0, 64 * 64) as f32 / 64.0,
        _ => here + random.within(-1000, 1000) as f32 / 256.0,
    }
    .to_bits();
    // A small distance takes the original long.
    if i == 14 && f32::from_bits(b) > 0.0 && f32::from_bits(b) < 0.1 {
        return;
    }
    let (low, high) = (key(&with(a)), key(&with(b)));
    if low == high {
        tally.add("bisections without a change");
        return;
    }
    let (mut low_at, mut high_at) = (order(a), order(b));
    while (low_at - high_at).abs() > 1 {
        let middle = low_at + (high_at - low_at) / 2;
        if key(&with(back(middle))) == low {
            low_at = middle;
        } else {
            high_at = middle;
        }
    }
    for at in low_at.min(high_at) - 2..=low_at.max(high_at) + 2 {
        check(random, &with(back(at)), "bisected", tally);
    }
}

/// The situations of a turn: one of the class that has its turn, and sometimes one more with zeros where a place comes from.
pub fn drawn(random: &mut Random, turn: u64) -> Vec<(String, Situation)> {
    let class = CLASSES[(turn % CLASSES.len() as u64) as usize];
    let mut drawn = vec![(format!("{class:?}"), generate::situation(random, class))];
    // Seven and the number of the classes have no factor in common, so that each class has zeros.
    if turn % 7 == 0 {
        drawn.push(("zeros".to_string(), generate::zeros(random, class)));
    }
    drawn
}

/// The main run.
pub fn run(count: u64, seed: u64) -> bool {
    let mut random = Random::new(seed);
    let mut tally = Tally::default();
    for case in cases::cases() {
        if !case.holds(&decide(&case.situation)) {
            println!("the oracle does not give the documents' answer: {}", case.name);
            tally.differs("the documents' cases", case.name);
        }
        check(&mut random, &case.situation, "cases", &mut tally);
    }
    for turn in 0..count {
        for (class, s) in drawn(&mut random, turn) {
            check(&mut random, &s, &class, &mut tally);
        }
        if turn % 16 == 0 {
            bisect(&mut random, &mut tally);
        }
    }
    tally.print();
    for (items, s) in &tally.std_shown {
        let s = shrink(s, |t| {
            refusals::refusal(t).is_none()
                && exact_build::oracle::decide(t).differing(&std_build::oracle::decide(t)).join(" and ") == *items
        });
        println!("std differs in {items}; a small input is case A without players and with the ball at the centre, but for");
        print!("{}", as_changes(&s));
        println!("exact:\n{}std:\n{}", exact_build::oracle::decide(&s).sheet(), std_build::oracle::decide(&s).sheet());
    }
    println!("differences from the exact build: {}", tally.differences);
    for what in [HALF_TURN, HALF_TURN_OF_SHEETS, HALF_TURN_FOR_DISPLAY] {
        println!("counterexamples to {what}: {}", tally.counterexamples.get(what).unwrap_or(&0));
    }
    let missing = tally.missing();
    if !missing.is_empty() {
        println!("lines after the header that never came, with a place or without one: {missing:?}");
    }
    tally.first.is_none() && (missing.is_empty() || count < LONG_RUN)
}

/// Switches each slip on and looks for a situation at which the comparison then fails.
pub fn try_slips(most: u64, seed: u64) -> bool {
    let mut all = true;
    for (slip, what) in slips::SLIPS.iter().enumerate() {
        slips::switch(Some(slip));
        let mut random = Random::new(seed);
        let mut tally = Tally::default();
        let caught = (0..most).find_map(|turn| {
            drawn(&mut random, turn).into_iter().find_map(|(class, s)| {
                check(&mut random, &s, "", &mut tally);
                tally.first.map(|how| (turn + 1, class, how))
            })
        });
        slips::switch(None);
        match caught {
            Some((turn, class, how)) => {
                let wrong = slips::SEEN_BY_PLACE_ALONE.contains(&slip) && how != "the place";
                println!("{}caught at turn {turn:>6} ({class}) by {how}: {what}", if wrong { "NOT BY THE PLACE: " } else { "" });
                all &= !wrong;
            }
            None => {
                println!("NOT CAUGHT: {what}");
                all = false;
            }
        }
    }
    all
}

/// Compares until the first difference; says whether there was none. For edits of the oracle's text (mutants.py).
pub fn until(count: u64, seed: u64) -> bool {
    let mut random = Random::new(seed);
    let same = |s: &Situation| {
        let (words, answer) = (s.to_words(None), exact(s));
        let sheet = Sheet::new(s, &answer);
        sheet.agrees(For::Desk, &words, sheet.text.len() + 45) && place::agrees(&words, s, &answer, 1)
    };
    (0..count).all(|turn| drawn(&mut random, turn).iter().all(|(_, s)| same(s))) && entries::candidates_until(count / 10, seed)
}

/// The situation of a text that the program judge reads without a fault.
pub fn from_numbers(text: &str) -> Situation {
    let numbers: Vec<u32> = text.split_whitespace().map(|n| n.parse().expect("a number")).collect();
    let list = |at: usize| {
        let length = *numbers.get(at).expect("the length of a list") as usize;
        let list: Vec<f32> = numbers[at + 1..at + 1 + length].iter().map(|&bits| f32::from_bits(bits)).collect();
        (at + 1 + length, list)
    };
    let (next, xs) = list(WORDS);
    let (_, ys) = list(next);
    Situation::from_words(&numbers[..WORDS], xs, ys).expect("words of a situation")
}

/// Reads a situation from standard input, as the program judge does, and prints the sheets of both builds and of the port, the answers for the
/// display, and the place as decided.
pub fn judge() -> bool {
    let mut text = String::new();
    std::io::Read::read_to_string(&mut std::io::stdin(), &mut text).expect("standard input is text");
    let s = from_numbers(&text);
    let answer = exact(&s);
    let sheet = Sheet::new(&s, &answer);
    let [(desk, port_desk), (display, port_display)] = For::BOTH.map(|to| (sheet.expected(to, ROOM), sheet::port(to, &s, ROOM)));
    println!("the exact build answers {}:\n{}", desk.0, desk.1);
    if refusals::refusal(&s).is_none() {
        println!("the std build:\n{}", std_build::oracle::decide(&s).sheet());
    }
    println!("the port answers {}:\n{}", port_desk.0, port_desk.1);
    println!("for the display the exact build answers {}, the port {}", display.0, port_display.0);
    let (place, port_place) = (place::expected(&answer, place::WORDS), place::port(&s));
    println!("the place as decided, by the exact build: {place:?}\nby the port: {port_place:?}");
    desk == port_desk && display == port_display && place == port_place
}
