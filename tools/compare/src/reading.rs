//! The comparison of `referee_read_sheet` and `referee_read_item` with a reader that is written from document 02's request 3 alone (reading/reader.rs).

pub mod bench;
mod broken;
pub mod reader;
mod sheets;
mod slips;

use crate::library::For;
use crate::random::Random;
use crate::situation::Situation;
use crate::{compare, library};
use reader::{write_sheet, Answer, Reader, Row, Told, CLAUSES, FORMS, LINE, MISCOUNTED, WORDS};
use std::collections::{BTreeMap, BTreeSet};
use std::hint::black_box;

/// Room for every sheet.
const SHEET: usize = LINE * (sheets::MOST + 1);
/// How many texts are made of each sheet by changes.
const BROKEN: usize = 3;
/// The most words lent beside the four of an item.
const MOST_SPARE: usize = 5;
const GUARD: usize = 4;

#[derive(Clone, Copy, PartialEq)]
enum Origin {
    /// The port's sheet of a situation.
    Decided,
    Drawn,
    Broken,
}

struct Text {
    origin: Origin,
    bytes: Vec<u8>,
}

/// The port's sheet, where the situation is not refused.
pub fn sheet(s: &Situation) -> Option<Vec<u8>> {
    let mut lent = vec![0; SHEET];
    let length = usize::try_from(library::sheet(For::Desk, &s.to_words(None), &s.xs, &s.ys, &mut lent)).ok()?;
    lent.truncate(length);
    Some(lent)
}

/// The numbers that are printed in the lines of a sheet after its header.
fn printed(text: &[u8]) -> Vec<Row> {
    let text = std::str::from_utf8(text).expect("a sheet is ASCII");
    let row = |line: &str| line.split_whitespace().map(|n| n.parse().expect("a number")).collect::<Vec<u32>>().try_into();
    text.lines().skip(1).map(|line| row(line).expect("four numbers")).collect()
}

/// Texts that are made of a sheet by changes.
fn changed(random: &mut Random, sheet: &[u8]) -> Vec<Vec<u8>> {
    let rows = printed(sheet);
    (0..BROKEN).map(|_| broken::text(random, &rows)).collect()
}

/// The sheet of a situation and texts that are made of it by changes; none where the situation is refused.
pub fn texts_of(random: &mut Random, s: &Situation) -> Vec<Vec<u8>> {
    let sheet: Vec<Vec<u8>> = sheet(s).into_iter().collect();
    let changed = sheet.iter().flat_map(|sheet| changed(random, sheet)).collect();
    [sheet, changed].concat()
}

/// The texts of a turn: the sheets of its situations and a drawn one, each as it is and changed.
fn texts(random: &mut Random, turn: u64) -> Vec<Text> {
    let text = |origin| move |bytes| Text { origin, bytes };
    let situations = compare::drawn(random, turn);
    let mut texts: Vec<Text> = situations.iter().filter_map(|(_, s)| sheet(s)).map(text(Origin::Decided)).collect();
    let drawn = if turn % 64 == 0 { sheets::longest(random) } else { sheets::drawn(random) };
    texts.push(text(Origin::Drawn)(write_sheet(&drawn)));
    let changed: Vec<Vec<u8>> = texts.iter().flat_map(|sheet| changed(random, &sheet.bytes)).collect();
    texts.extend(changed.into_iter().map(text(Origin::Broken)));
    texts
}

/// The text between bytes that would go on with it: a header before it, and after it the rest of a line and a line. A reader that looks beside the text would see a sheet.
fn surrounded(text: &[u8]) -> Vec<u8> {
    const BEFORE: &[u8; LINE] = b"          0          2          0          1\n";
    const AFTER: &[u8; LINE] = b"          9          2          0          0\n";
    [BEFORE, text, &AFTER[text.len() % LINE..], AFTER].concat()
}

/// Words that no item holds, different from one to the next: kinds above 9.
fn filler(i: usize) -> u32 {
    0xffc0_0000 | i as u32
}

/// The number that the sheet's entry gives.
pub fn count(answer: &Answer) -> i64 {
    answer.as_ref().map_or_else(|n| -n, |rows| rows.len() as i64)
}

/// The lines to ask for: of an accepted text every one, and where there is none, also where the lower 32 bits are a line's.
fn asked(text: &[u8], answer: &Answer) -> Vec<u64> {
    let after = (text.len() / LINE).saturating_sub(1) as u64;
    match answer {
        Err(_) => vec![0, 1, after, u64::MAX],
        Ok(_) => (0..=after + 1).chain([(1 << 32) + 1, u64::MAX]).collect(),
    }
}

/// Asks for one item, with `room` words lent between two guards. Says what differs.
fn item_differs(reader: &Reader, answer: &Answer, text: &[u8], line: u64, room: usize) -> Option<String> {
    let mut lent: [u32; WORDS + MOST_SPARE + 2 * GUARD] = std::array::from_fn(filler);
    let mut expected = lent;
    let told: Told = (reader.item)(answer, line, room);
    if let Some(row) = told.1 {
        expected[GUARD..GUARD + WORDS].copy_from_slice(&row);
    }
    let part = &mut lent[GUARD..GUARD + room];
    let number = library::read_item(text, line, part);
    (reader.overwrite)(part, number);
    let item = &lent[GUARD..GUARD + WORDS];
    let call = || format!("referee_read_item of line {line}, {room} words lent: {number}");
    if number != told.0 {
        Some(format!("{}, not {}", call(), told.0))
    } else if lent != expected {
        Some(format!("{} and {item:?} in {lent:?}, not {expected:?}", call()))
    } else {
        None
    }
}

fn count_differs(answer: &Answer, text: &[u8]) -> Option<String> {
    let number = library::read_sheet(text);
    (number != count(answer)).then(|| format!("referee_read_sheet: {number}, not {}", count(answer)))
}

/// Asks for the lines with room for an item, and for one of them without.
fn items_differ(reader: &Reader, answer: &Answer, text: &[u8], random: &mut Random) -> Option<String> {
    let lines = asked(text, answer);
    let few = (random.pick(&lines), random.within(0, WORDS as i64 - 1) as usize);
    let with_room = |line| (line, WORDS + random.within(0, MOST_SPARE as i64) as usize);
    let mut calls = lines.into_iter().map(with_room).chain([few]);
    calls.find_map(|(line, room)| item_differs(reader, answer, text, line, room))
}

/// Compares both entries on a text with what the reader answers. Says what differs first.
fn difference(reader: &Reader, answer: &Answer, text: &[u8], random: &mut Random) -> Option<String> {
    let kept = surrounded(text);
    let lent = black_box(kept.clone());
    let part = &lent[LINE..LINE + text.len()];
    let changed = || (black_box(&lent) != &kept).then(|| "a byte of the text is changed".to_string());
    count_differs(answer, part).or_else(|| items_differ(reader, answer, part, random)).or_else(changed)
}

/// The reader on its own: of a sheet it gives the numbers that are printed, and what it accepts is written again from the items.
fn reader_differs(answer: &Answer, text: &Text) -> Option<String> {
    let sheet = text.origin != Origin::Broken;
    match answer {
        Err(n) if sheet => Some(format!("the reader refuses a sheet: {n}")),
        Ok(rows) if sheet && *rows != printed(&text.bytes) => Some("the reader does not give the numbers that are printed".to_string()),
        Ok(rows) if write_sheet(rows) != text.bytes => Some("the items, written again, are another text".to_string()),
        _ => None,
    }
}

#[derive(Default)]
struct Tally {
    counts: BTreeMap<String, u64>,
    /// Of each fault how many texts have it, and how many have it alone.
    faults: BTreeMap<&'static str, (u64, u64)>,
    texts: u64,
    /// Accepted, 9, 10, 11.
    answers: [u64; 4],
    items: u64,
    longest: usize,
    differences: u64,
    /// The smallest text that shows a difference, and what differs.
    smallest: Option<(Vec<u8>, String)>,
}

impl Tally {
    fn add(&mut self, what: impl Into<String>) {
        *self.counts.entry(what.into()).or_default() += 1;
    }

    fn check(&mut self, reader: &Reader, text: &Text, random: &mut Random) {
        let answer = reader.read(&text.bytes);
        self.describe(reader, text, &answer);
        if let Some(what) = reader_differs(&answer, text).or_else(|| difference(reader, &answer, &text.bytes, random)) {
            self.fail(&text.bytes, what);
        }
    }

    fn describe(&mut self, reader: &Reader, text: &Text, answer: &Answer) {
        self.texts += 1;
        self.answers[answer.as_ref().map_or_else(|n| *n as usize - 8, |_| 0)] += 1;
        match (text.origin, answer) {
            (Origin::Decided, _) => self.add("sheets of situations"),
            (Origin::Drawn, _) => self.add("drawn sheets"),
            (Origin::Broken, Ok(_)) => self.add("changed sheets, accepted"),
            (Origin::Broken, Err(n)) => self.add(format!("changed sheets, refused {n}")),
        }
        match answer {
            Ok(rows) => {
                self.items += rows.len() as u64;
                self.longest = self.longest.max(rows.len());
            }
            Err(n) => self.describe_faults(*n, &reader.faults(&text.bytes)),
        }
    }

    fn describe_faults(&mut self, n: i64, faults: &BTreeSet<&'static str>) {
        for &fault in faults {
            let (all, alone) = self.faults.entry(fault).or_default();
            *all += 1;
            *alone += u64::from(faults.len() == 1);
        }
        if n == 9 && faults.contains(MISCOUNTED) {
            self.add("refused 9, and the count differs");
        }
        if n == 10 && faults.len() > 1 {
            self.add("refused 10, and a clause is broken");
        }
    }

    fn fail(&mut self, text: &[u8], what: String) {
        self.differences += 1;
        if self.differences <= 3 {
            println!("DIFFERENCE: {what}\n{}", escaped(text));
        }
        if self.smallest.as_ref().is_none_or(|(least, _)| text.len() < least.len()) {
            self.smallest = Some((text.to_vec(), what));
        }
    }

    fn print(&self, reader: &Reader) {
        let share = |n: u64| 100.0 * n as f64 / self.texts as f64;
        for (what, count) in &self.counts {
            println!("{count:>12}  {what}");
        }
        println!("{:>12}  items of accepted texts", self.items);
        println!("{:>12}  lines after the header of the longest accepted text", self.longest);
        println!("clauses: texts that break one, and texts that break it alone");
        for name in every_fault() {
            let (all, alone) = self.faults.get(name).copied().unwrap_or_default();
            println!("{all:>12} {alone:>10}  {name}");
        }
        println!("texts compared: {}", self.texts);
        for (what, n) in ["accepted", "refused 9", "refused 10", "refused 11"].into_iter().zip(self.answers) {
            println!("{n:>12}  {what}, {:.1} %", share(n));
        }
        if let Some((text, what)) = &self.smallest {
            let (text, what) = smallest(reader, text).unwrap_or((text.clone(), what.clone()));
            println!("the smallest text found that shows a difference: {what}\n{}", escaped(&text));
        }
        println!("differences: {}", self.differences);
    }

    /// Faults that no text had alone.
    fn missing(&self) -> Vec<&'static str> {
        every_fault().filter(|name| self.faults.get(name).is_none_or(|(_, alone)| *alone == 0)).collect()
    }
}

/// The names of all faults that a text can have.
fn every_fault() -> impl Iterator<Item = &'static str> {
    FORMS.into_iter().chain([MISCOUNTED]).chain(CLAUSES.map(|clause| clause.name))
}

/// The text with line feeds and other bytes that are not printed as `\n` and `\xNN`; of a very long one the beginning and its length.
fn escaped(text: &[u8]) -> String {
    match text.get(..3 * LINE) {
        Some(beginning) if !short(text) => format!("{} and so on, {} bytes", beginning.escape_ascii(), text.len()),
        _ => text.escape_ascii().to_string(),
    }
}

/// A text with fewer lines, a byte less or a smaller number, of which the entries differ from the reader too; and so on from there.
fn smallest(reader: &Reader, text: &[u8]) -> Option<(Vec<u8>, String)> {
    let differs = |text: &[u8]| difference(reader, &reader.read(text), text, &mut Random::new(1));
    let mut found = (text.to_vec(), differs(text)?);
    loop {
        let next = smaller(&found.0).find_map(|text| differs(&text).map(|what| (text, what)));
        match next {
            Some(next) => found = next,
            None => return Some(found),
        }
    }
}

fn smaller(text: &[u8]) -> impl Iterator<Item = Vec<u8>> + '_ {
    let texts = fewer_lines(text).chain(fewer_bytes(text)).chain(smaller_numbers(text));
    texts.filter(|other| (other.len(), &other[..]) < (text.len(), text))
}

fn without(text: &[u8], from: usize, length: usize) -> Vec<u8> {
    [&text[..from], &text[(from + length).min(text.len())..]].concat()
}

/// All lines left out, half of them, a quarter, and so on, with the count as it is and adapted. Of many lines no few are left out: there are too many ways.
fn fewer_lines(text: &[u8]) -> impl Iterator<Item = Vec<u8>> + '_ {
    let lines = text.len().div_ceil(LINE);
    let least = if short(text) { 1 } else { lines / 16 };
    let sizes = std::iter::successors(Some(lines), |size| Some(size / 2)).take_while(move |&size| size >= least);
    let cuts = sizes.flat_map(move |size| (0..lines).step_by(size).map(move |from| without(text, LINE * from, LINE * size)));
    cuts.flat_map(|text| [text.clone(), recounted(text)])
}

/// Whether the text is so short that each byte and each column of it can be tried.
fn short(text: &[u8]) -> bool {
    text.len() <= SHEET
}

fn fewer_bytes(text: &[u8]) -> impl Iterator<Item = Vec<u8>> + '_ {
    (0..text.len()).filter(move |_| short(text)).map(move |i| without(text, i, 1))
}

fn smaller_numbers(text: &[u8]) -> impl Iterator<Item = Vec<u8>> + '_ {
    let columns = (0..text.len() / LINE).flat_map(|line| (0..4).map(move |k| LINE * line + 11 * k));
    columns.filter(move |_| short(text)).flat_map(move |at| ["          0", "          1", "          2"].map(|number| [&text[..at], number.as_bytes(), &text[at + 11..]].concat()))
}

/// The count of the first line made that of the lines after it.
fn recounted(mut text: Vec<u8>) -> Vec<u8> {
    let lines = (text.len() / LINE).saturating_sub(1);
    if let Some(column) = text.get_mut(22..33) {
        column.copy_from_slice(format!("{lines:>11}").as_bytes());
    }
    text
}

pub fn run(count: u64, seed: u64) -> bool {
    let mut random = Random::new(seed);
    let mut tally = Tally::default();
    let reader = Reader::default();
    for bytes in broken::long() {
        tally.check(&reader, &Text { origin: Origin::Broken, bytes }, &mut random);
    }
    for turn in 0..count {
        for text in texts(&mut random, turn) {
            tally.check(&reader, &text, &mut random);
        }
    }
    tally.print(&reader);
    if !tally.missing().is_empty() {
        println!("clauses that no text broke alone: {:?}", tally.missing());
    }
    tally.differences == 0 && tally.missing().is_empty()
}

/// The first text at which the comparison fails with that reader, its turn, and what differs there.
fn caught(reader: &Reader, most: u64, seed: u64) -> Option<(u64, String)> {
    let mut random = Random::new(seed);
    (0..most).find_map(|turn| {
        let texts = texts(&mut random, turn);
        texts.iter().find_map(|text| difference(reader, &reader.read(&text.bytes), &text.bytes, &mut random)).map(|what| (turn + 1, what))
    })
}

/// Puts each slip into the reader and looks for a text at which the comparison then fails. Without a slip it must not fail.
pub fn try_slips(most: u64, seed: u64) -> bool {
    if let Some((turn, what)) = caught(&Reader::default(), most, seed) {
        println!("without a slip there is a difference at turn {turn}: {what}");
        return false;
    }
    let mut all = true;
    for (name, slip) in slips::SLIPS {
        let mut reader = Reader::default();
        slip(&mut reader);
        match caught(&reader, most, seed) {
            Some((turn, what)) => println!("caught at turn {turn:>6}: {name} ({what})"),
            None => {
                println!("NOT CAUGHT: {name}");
                all = false;
            }
        }
    }
    all
}

/// The bytes that `escaped` has written.
fn unescaped(text: &str) -> Option<Vec<u8>> {
    let mut bytes = Vec::new();
    let mut rest = text.bytes();
    while let Some(byte) = rest.next() {
        bytes.push(match byte {
            b'\\' => match rest.next()? {
                b'n' => b'\n',
                b'r' => b'\r',
                b't' => b'\t',
                b'x' => u8::from_str_radix(std::str::from_utf8(&[rest.next()?, rest.next()?]).ok()?, 16).ok()?,
                other => other,
            },
            other => other,
        });
    }
    Some(bytes)
}

/// Reads records from standard input: a name, the answer and the escaped text, with tabs between them. Both the reader and the entries must give the answer.
pub fn cases() -> bool {
    let (mut records, mut wrong) = (0u64, 0u64);
    for line in std::io::stdin().lines() {
        let line = line.expect("standard input is text");
        let [name, number, text] = line.split('\t').collect::<Vec<_>>().try_into().expect("a name, an answer and a text");
        let (number, text): (i64, _) = (number.parse().expect("an answer"), unescaped(text).expect("an escaped text"));
        let reader = Reader::default();
        let answer = reader.read(&text);
        let by_reader = (count(&answer) != number).then(|| format!("the reader: {}, not {number}", count(&answer)));
        let what = by_reader.or_else(|| difference(&reader, &answer, &text, &mut Random::new(records)));
        records += 1;
        if let Some(what) = what {
            wrong += 1;
            println!("DIFFERENCE in {name}: {what}");
        }
    }
    println!("cases: {records} texts, {wrong} differences");
    wrong == 0 && records > 0
}
