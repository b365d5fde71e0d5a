//! The comparison of `referee_coach` with the original, whose tests record themselves (told.rs), in the words of docs/COACH.md.

mod table;

use crate::compare::{as_numbers, guarded, shrink};
use crate::decision::Settled;
use crate::generate::{self, Class, CLASSES};
use crate::library::{self, Asked};
use crate::random::Random;
use crate::situation::{values, Situation, PLAYERS, WORDS};
use crate::slips::{self, on};
use crate::{exact_build, refusals, slip_build, told_build, turn};
use std::collections::{BTreeMap, BTreeSet};
use table::CONDITIONS;
pub use table::Table;

/// More bytes than any line has.
const ROOM: usize = 128;
/// No player's numbers; of 257 the lowest byte is one.
const NO_NUMBERS: [u32; 6] = [0, 21, 255, 256, 257, u32::MAX];
const NO_SIDES: [u32; 5] = [2, 255, 256, 257, u32::MAX];

/// A situation with what the original says of it.
pub struct Judged<'a> {
    table: &'a Table,
    s: &'a Situation,
    refusal: Option<i64>,
    settled: Settled,
}

/// By the told build, or by the one with slips while one is switched on.
fn settled(s: &Situation) -> Settled {
    if slips::any() {
        slip_build::oracle::settled(s)
    } else {
        told_build::oracle::settled(s)
    }
}

impl<'a> Judged<'a> {
    pub fn new(table: &'a Table, s: &'a Situation) -> Judged<'a> {
        let refusal = refusals::refusal(s);
        let settled = if refusal.is_none() { settled(s) } else { [[(0, 0); PLAYERS]; 2] };
        Judged { table, s, refusal, settled }
    }

    /// What the entry should answer and write with that much room.
    pub fn expected(&self, (side, number): Asked, room: usize) -> (i64, String) {
        let number = if on(slips::NUMBER_AS_BYTE) { number & 255 } else { number };
        if let Some(n) = self.refused(side, number, room) {
            return (-n, String::new());
        }
        let (side, place) = (side as usize, number as usize - 1);
        let line = self.table.line(side, number, self.settled[side][place]);
        if line.len() > room || (on(slips::LEGAL_WITHOUT_ROOM) && room == 0) {
            return (-8, String::new());
        }
        (line.len() as i64, line)
    }

    /// What is told before the line is looked at: no situation, or the first refusal but 8.
    fn refused(&self, side: u32, number: u32, room: usize) -> Option<i64> {
        let outside = !(1..=PLAYERS as u32).contains(&number);
        match self.refusal {
            Some(n) if side > 1 && on(slips::REFUSAL_BEFORE_SIDE) => Some(n),
            _ if side > 1 => Some(100),
            Some(3) if outside && on(slips::NUMBER_BEFORE_BALL) => Some(4),
            Some(n) if n <= 3 => Some(n),
            Some(5) if outside && on(slips::DISTANCE_BEFORE_NUMBER) => Some(5),
            _ if outside && room == 0 && on(slips::LENGTH_BEFORE_NUMBER) => Some(8),
            _ if outside => Some(4),
            other => other,
        }
    }

    /// The players of an accepted situation that stand legally, or those that do not.
    pub fn players(&self, legal: bool) -> Vec<Asked> {
        let all = (0..2).flat_map(|side| (1..=PLAYERS as u32).map(move |number| (side, number)));
        all.filter(|&(side, number)| (self.settled[side as usize][number as usize - 1].0 == 0) == legal).collect()
    }
}

/// What is handed to the entry. The words may be none of the situation's.
struct Input<'a> {
    words: &'a [u32],
    s: &'a Situation,
}

impl Input<'_> {
    fn call(&self, asked: Asked, lent: &mut [u8]) -> i64 {
        library::coach(self.words, &self.s.xs, &self.s.ys, asked, lent)
    }

    /// The port's own answer, for a report.
    fn port(&self, asked: Asked, room: usize) -> (i64, String) {
        let mut lent = vec![0; room];
        let answer = self.call(asked, &mut lent);
        let length = usize::try_from(answer).unwrap_or(0).min(room);
        (answer, String::from_utf8_lossy(&lent[..length]).into_owned())
    }
}

#[derive(Default)]
struct Tally {
    counts: BTreeMap<String, u64>,
    conditions: [u64; CONDITIONS + 1],
    /// Side and number of a line, and its condition.
    lines: BTreeSet<(Asked, u8)>,
    longest: usize,
    differences: u64,
    /// What differed first.
    first: Option<String>,
}

impl Tally {
    fn add(&mut self, what: impl Into<String>) {
        *self.counts.entry(what.into()).or_default() += 1;
    }

    /// Counts a difference. Says whether it is to be printed.
    fn fail(&mut self, kind: &str) -> bool {
        self.differences += 1;
        self.add(format!("DIFFERENCES in {kind}"));
        self.first.get_or_insert_with(|| kind.to_string());
        self.differences <= 3 && !slips::any()
    }

    /// Compares a call of the entry with what the original says of the situation.
    fn compare(&mut self, kind: &str, judged: &Judged, input: &Input, asked: Asked, room: usize) {
        self.add(format!("calls: {kind}"));
        let expected = judged.expected(asked, room);
        if !guarded(room, expected.0, &expected.1, |lent| input.call(asked, lent)) && self.fail(kind) {
            report(kind, judged, input, asked, room);
        }
    }

    /// Compares a call of which no word is looked at.
    fn compare_malformed(&mut self, kind: &str, input: &Input, asked: Asked, room: usize) {
        self.add(format!("calls: {kind}"));
        if !guarded(room, -100, "", |lent| input.call(asked, lent)) && self.fail(kind) {
            println!("DIFFERENCE in {kind}: side and number {asked:?}, {} words, {room} bytes lent", input.words.len());
            println!("the port answers {:?}, not -100\nthe words:\n{:?}", input.port(asked, room), input.words);
        }
    }

    fn print(&self, table: &Table) {
        for (what, count) in &self.counts {
            println!("{count:>12}  {what}");
        }
        for number in 1..=CONDITIONS as u8 {
            println!("{:>12}  lines of condition {number}, {}", self.conditions[usize::from(number)], table.words(number));
        }
        println!("{:>12}  combinations of side, number and condition, of {}", self.lines.len(), 2 * PLAYERS * CONDITIONS);
        println!("{:>12}  bytes in the longest line", self.longest);
        println!("{:>12}  lines compared", self.conditions.iter().sum::<u64>());
        println!("differences: {}", self.differences);
    }
}

/// Prints a difference, of a smaller situation where that one differs with room to spare too.
fn report(kind: &str, judged: &Judged, input: &Input, asked: Asked, room: usize) {
    let both = |t: &Situation, room: usize| {
        let port = Input { words: &t.to_words(None), s: t }.port(asked, room);
        (Judged::new(judged.table, t).expected(asked, room), port)
    };
    let differs = |t: &Situation| {
        let (expected, port) = both(t, ROOM);
        expected != port
    };
    let shrunk = shrink(input.s, differs);
    let as_asked = || (judged.expected(asked, room), input.port(asked, room));
    let (expected, port) = if differs(&shrunk) { both(&shrunk, ROOM) } else { as_asked() };
    println!("DIFFERENCE in {kind}: side and number {asked:?}, {room} bytes lent");
    println!("words and earlier places, as judge reads them:\n{}", as_numbers(&shrunk));
    println!("expected {expected:?}\nthe port {port:?}");
    if expected == port {
        println!("a byte that should be kept is not");
    }
}

/// Compares one situation in every way.
fn check(random: &mut Random, table: &Table, s: &Situation, tally: &mut Tally) {
    tally.add("situations");
    let judged = Judged::new(table, s);
    let noise = random.coin();
    let words = s.to_words(noise.then_some(&mut *random));
    let input = Input { words: &words, s };
    match judged.refusal {
        Some(n) => {
            tally.add(format!("situations refused {n}"));
            let asked = (random.within(0, 1) as u32, random.within(1, 20) as u32);
            for room in [0, random.within(1, ROOM as i64) as usize] {
                tally.compare("a refused situation", &judged, &input, asked, room);
            }
        }
        None => {
            tally.add("situations accepted");
            compare_lines(random, &judged, &input, tally);
            compare_tests(&judged, tally);
        }
    }
    if random.within(0, 3) == 0 {
        compare_numbers(random, &judged, &input, tally);
        compare_no_situation(random, &judged, &input, tally);
    }
}

/// The original on its own: the tests that record themselves change no verdict, each goes with the verdict of its row, and the half
/// turn keeps both.
fn compare_tests(judged: &Judged, tally: &mut Tally) {
    let verdicts = |settled: Settled| settled.map(|side| side.map(|(verdict, _)| verdict));
    // With a slip the entry itself must show the difference.
    let exact = if slips::any() { judged.settled } else { exact_build::oracle::settled(judged.s) };
    for (kind, holds) in [
        ("the verdict beside a recorded test", judged.settled.iter().flatten().all(|&told| judged.table.fits(told))),
        ("the verdicts of the exact build", verdicts(exact) == verdicts(judged.settled)),
        ("the original under the half turn", settled(&turn::turned(judged.s)) == judged.settled),
    ] {
        if !holds && tally.fail(kind) {
            println!("DIFFERENCE in {kind}: {:?}\n{}", judged.settled, as_numbers(judged.s));
        }
    }
}

/// Every line, and some of the players that have none; also of the situation turned half round.
fn compare_lines(random: &mut Random, judged: &Judged, input: &Input, tally: &mut Tally) {
    let turned = turn::turned(judged.s);
    let turned_words = turned.to_words(None);
    let turned = Input { words: &turned_words, s: &turned };
    for asked in judged.players(false) {
        let condition = judged.settled[asked.0 as usize][asked.1 as usize - 1].1;
        let length = judged.expected(asked, ROOM).1.len();
        tally.conditions[usize::from(condition)] += 1;
        tally.lines.insert((asked, condition));
        tally.longest = tally.longest.max(length);
        let spare = random.within(1, 50) as usize;
        tally.compare("a line with room to spare", judged, input, asked, length + spare);
        tally.compare("a line of the half turn", judged, &turned, asked, length + spare);
        if random.within(0, 3) == 0 {
            tally.compare("a line with exact room", judged, input, asked, length);
            tally.compare("a line with one byte too few", judged, input, asked, length - 1);
            tally.compare("a line with too little room", judged, input, asked, random.within(0, length as i64 - 1) as usize);
            tally.compare("a line without room", judged, input, asked, 0);
        }
    }
    for asked in some_legal(random, judged) {
        tally.compare("a legal player", judged, input, asked, random.within(1, ROOM as i64) as usize);
        tally.compare("a legal player without room", judged, input, asked, 0);
        tally.compare("a legal player of the half turn", judged, &turned, asked, random.within(0, ROOM as i64) as usize);
    }
}

/// Of the players that stand legally one that is on the field, and any one.
fn some_legal(random: &mut Random, judged: &Judged) -> Vec<Asked> {
    let legal = judged.players(true);
    let there = |&(side, number): &Asked| judged.s.players[side as usize][number as usize - 1].pose.is_some();
    let present: Vec<Asked> = legal.iter().copied().filter(there).collect();
    [present, legal].into_iter().filter(|list| !list.is_empty()).map(|list| random.pick(&list)).collect()
}

/// Numbers that no player has, beside whatever else is refused.
fn compare_numbers(random: &mut Random, judged: &Judged, input: &Input, tally: &mut Tally) {
    let kind = match judged.refusal {
        Some(n) => format!("no player's number, and {n} applies"),
        None => "no player's number".to_string(),
    };
    for number in NO_NUMBERS {
        let side = random.within(0, 1) as u32;
        for room in [0, random.within(1, ROOM as i64) as usize] {
            tally.compare(&kind, judged, input, (side, number), room);
        }
    }
}

/// -100 before any refusal: no side; a word outside its column; a slice of another length. The number is a player's or none.
fn compare_no_situation(random: &mut Random, judged: &Judged, input: &Input, tally: &mut Tally) {
    let room = random.pick(&[0, ROOM]);
    let numbers = [random.within(1, 20) as u32, random.pick(&NO_NUMBERS)];
    let mut bad = input.words.to_vec();
    let columns: Vec<usize> = (0..WORDS).filter(|&i| values(i) < 1 << 32).collect();
    let i = random.pick(&columns);
    bad[i] = random.pick(&[values(i) as u32, values(i) as u32 + 1, u32::MAX, 1 << 31, values(i) as u32 | 1 << 16]);
    let mut long = input.words.to_vec();
    long.resize(WORDS + random.within(1, 10) as usize, 0);
    let short = &input.words[..random.within(0, WORDS as i64 - 1) as usize];
    let with = |words| Input { words, ..*input };
    for number in numbers {
        for side in NO_SIDES {
            tally.compare("no side", judged, input, (side, number), room);
        }
        let asked = (random.within(0, 2) as u32, number);
        tally.compare_malformed("a word outside its column", &with(&bad), asked, room);
        tally.compare_malformed("too many words", &with(&long), asked, room);
        tally.compare_malformed("too few words", &with(short), asked, room);
    }
}

/// The table, or nothing where it is not as it should be, which is printed.
pub fn table() -> Option<Table> {
    Table::read().inspect_err(|wrong| println!("{wrong}")).ok()
}

pub fn run(count: u64, seed: u64) -> bool {
    let Some(table) = table() else { return false };
    let mut random = Random::new(seed);
    let mut tally = Tally::default();
    for turn in 0..count {
        let s = generate::judged(&mut random, CLASSES[(turn % CLASSES.len() as u64) as usize]);
        check(&mut random, &table, &s, &mut tally);
    }
    tally.print(&table);
    let missing: Vec<usize> = (1..=CONDITIONS).filter(|&n| tally.conditions[n] == 0).collect();
    if !missing.is_empty() {
        println!("conditions that never came: {missing:?}");
    }
    tally.differences == 0 && missing.is_empty()
}

/// The first situation at which the comparison fails with the slip, and what differs there.
fn caught(table: &Table, slip: usize, most: u64, seed: u64) -> Option<(u64, Class, String)> {
    slips::switch(Some(slip));
    let mut random = Random::new(seed);
    let mut tally = Tally::default();
    let caught = (0..most).find_map(|turn| {
        let class = CLASSES[(turn % CLASSES.len() as u64) as usize];
        let s = generate::judged(&mut random, class);
        check(&mut random, table, &s, &mut tally);
        tally.first.take().map(|first| (turn + 1, class, first))
    });
    slips::switch(None);
    caught
}

/// Switches each slip on and looks for a situation at which the comparison then fails. Without a slip the same text must not fail.
pub fn try_slips(most: u64, seed: u64) -> bool {
    let Some(table) = table() else { return false };
    if let Some((turn, class, first)) = caught(&table, slips::NO_SLIP, most, seed) {
        println!("without a slip there is a difference at situation {turn} ({class:?}), in {first}");
        return false;
    }
    let mut all = true;
    for (slip, what) in slips::of_coach() {
        match caught(&table, slip, most, seed) {
            Some((turn, class, first)) => println!("caught at situation {turn:>6} ({class:?}) by {first}: {what}"),
            None => {
                println!("NOT CAUGHT: {what}");
                all = false;
            }
        }
    }
    all
}
