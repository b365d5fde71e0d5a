//! The list of the oracle's answers that the program replay reads (crates/replay). Every answer is the exact build's. README.md there says what is in the list.

mod edges;
mod lines;
mod pairs;

use crate::library::For;
use crate::random::Random;
use crate::sheet::Sheet;
use crate::situation::{Situation, WORDS};
use crate::{cases, compare, entries, slips};
use std::collections::{BTreeMap, BTreeSet};

/// What is asked. The words that a "none" makes meaningless are as they stand here.
#[derive(Clone)]
enum Question {
    Situation { words: Box<[u32; WORDS]>, xs: Vec<f32>, ys: Vec<f32> },
    Candidates([f32; 4]),
}

/// A question with the room that is lent: bytes of a sheet, places of a list.
struct Record {
    question: Question,
    room: usize,
    group: &'static str,
    /// What the record was chosen for.
    why: String,
}

const REFUSED_LINE: usize = "refused 7\n".len();

impl Question {
    fn of(s: &Situation) -> Question {
        Question::Situation { words: Box::new(s.to_words(None)), xs: s.xs.clone(), ys: s.ys.clone() }
    }

    fn situation(&self) -> Option<Situation> {
        match self {
            Question::Situation { words, xs, ys } => Situation::from_words(&words[..], xs.clone(), ys.clone()),
            Question::Candidates(_) => None,
        }
    }

    fn kind(&self) -> usize {
        match self {
            Question::Situation { .. } => 1,
            Question::Candidates(_) => 2,
        }
    }

    fn input(&self) -> String {
        match self {
            Question::Situation { words, xs, ys } => compare::numbers(words, xs, ys) + "\n",
            Question::Candidates(arguments) => arguments.map(|x| x.to_bits().to_string()).join(" ") + "\n",
        }
    }

    /// The oracle's answer in the words of the program judge, or as numbers.
    fn answer(&self, room: usize) -> String {
        match self {
            Question::Situation { .. } => sheet_answer(&self.situation().expect("words of a situation"), room),
            Question::Candidates([start, min, max, step]) => list_answer(entries::candidates(*start, *min, *max, *step), room),
        }
    }
}

/// What is written into the lent bytes: the sheet, or the line of a refusal, or nothing where that has no room either.
fn sheet_answer(s: &Situation, room: usize) -> String {
    let (number, text) = Sheet::new(s, &compare::exact(s)).expected(For::Desk, room);
    if number >= 0 || room < REFUSED_LINE {
        return text;
    }
    format!("refused {}\n", -number)
}

/// The number of candidates and their patterns, or 0 and the refusal. Which NaN comes out is left open: it is written as one pattern.
fn list_answer(list: Option<Vec<f32>>, room: usize) -> String {
    let pattern = |x: &f32| format!(" {}", if x.is_nan() { f32::NAN.to_bits() } else { x.to_bits() });
    match list {
        None => "0 5\n".to_string(),
        Some(list) if list.len() > room => "0 6\n".to_string(),
        Some(list) => format!("{}{}\n", list.len(), list.iter().map(pattern).collect::<String>()),
    }
}

impl Record {
    fn text(&self) -> String {
        let (input, answer) = (self.question.input(), self.question.answer(self.room));
        format!("{:>11}{:>11}{:>11}{:>11}\n{input}{answer}", self.question.kind(), self.room, input.len(), answer.len())
    }
}

#[derive(Default)]
pub struct List {
    records: Vec<Record>,
    seen: BTreeSet<(String, usize)>,
}

impl List {
    /// Adds a situation with the room that its sheet needs, or some more.
    fn add(&mut self, group: &'static str, why: impl Into<String>, s: &Situation) {
        let needed = Sheet::new(s, &compare::exact(s)).text.len().max(REFUSED_LINE);
        let spare = [0, 1, 45, 100][self.records.len() % 4];
        self.add_question(group, why, Question::of(s), needed + spare);
    }

    fn add_question(&mut self, group: &'static str, why: impl Into<String>, question: Question, room: usize) {
        // Another room alone makes no new record, except among the rooms.
        let key = if group == "rooms" || question.kind() == 2 { room } else { usize::MAX };
        if self.seen.insert((question.input(), key)) {
            self.records.push(Record { question, room, group, why: why.into() });
        }
    }

    /// The records whose answer the oracle gives differently now, while a slip is switched on.
    fn catching(&self, answers: &[String]) -> usize {
        self.records.iter().zip(answers).filter(|(record, answer)| record.question.answer(record.room) != **answer).count()
    }

    fn answers(&self) -> Vec<String> {
        self.records.iter().map(|record| record.question.answer(record.room)).collect()
    }
}

/// Slips of the comparison itself, of what no sheet has, and of what the display refuses: no answer of the oracle for the desk shows them.
const NOT_OF_ANSWERS: [usize; 18] = [
    slips::PLACED_WITHOUT_SIGN,
    slips::WRITE_AFTER,
    slips::WRITE_ON_REFUSAL,
    slips::TURN_KEEPS_ENDS,
    slips::TURN_KEEPS_PLACES,
    slips::NO_EXCEPTION,
    slips::EXCEPTION_WITH_CONTACT,
    slips::TURNED_ZERO_WITH_SIGN,
    slips::TURNED_HEADING_KEPT,
    slips::WORD_AFTER_PLACE,
    slips::WORDS_ON_REFUSAL,
    slips::WORDS_WITHOUT_PLACE,
    slips::REFUSAL_BEFORE_LENGTH,
    slips::ELEVEN_SHOWN,
    slips::THIRTEEN_SHOWN,
    slips::HEADER_COUNTED,
    slips::SEVEN_BEFORE_TWELVE,
    slips::TWELVE_BEFORE_FIVE,
];

/// Adds a situation for each slip that no record shows, and says how many records show each.
fn add_slips(list: &mut List, random: &mut Random, tries: u64) -> bool {
    let mut all = true;
    for (slip, what) in slips::SLIPS.iter().enumerate().filter(|(slip, _)| !NOT_OF_ANSWERS.contains(slip)) {
        let answers = list.answers();
        slips::switch(Some(slip));
        let mut count = list.catching(&answers);
        slips::switch(None);
        if count == 0 {
            if let Some(s) = lines::showing(random, tries, |t| differs(t, slip)) {
                list.add("slips", *what, &s);
                count = 1;
            }
        }
        eprintln!("{count:>6}  records show the slip: {what}");
        all &= count > 0;
    }
    all
}

/// Whether the oracle answers otherwise with the slip.
fn differs(s: &Situation, slip: usize) -> bool {
    let answer = sheet_answer(s, 8192);
    slips::switch(Some(slip));
    let other = sheet_answer(s, 8192);
    slips::switch(None);
    answer != other
}

/// The documents' cases; their answers are looked at before any record is made.
fn add_cases(list: &mut List) -> bool {
    let cases = cases::cases();
    for case in &cases {
        list.add("cases", case.name, &case.situation);
    }
    cases.iter().all(|case| match compare::exact(&case.situation) {
        compare::Answer::Refused(_) => false,
        compare::Answer::Decided(decision) => case.holds(&decision),
    })
}

/// Writes the list to standard output and what it covers to standard error.
pub fn write(seed: u64) -> bool {
    let mut random = Random::new(seed);
    let mut list = List::default();
    let held = add_cases(&mut list);
    edges::add(&mut list, &mut random);
    edges::add_candidates(&mut list, &mut random);
    pairs::add(&mut list, &mut random);
    lines::add(&mut list, &mut random);
    edges::add_zeros(&mut list);
    let slips_shown = add_slips(&mut list, &mut random, 200_000);
    let text: String = list.records.iter().map(Record::text).collect();
    print!("{text}");
    print_groups(&list);
    let covered = lines::print(&list);
    eprintln!("{} records, {} bytes, seed {seed}", list.records.len(), text.len());
    held && slips_shown && covered
}

fn print_groups(list: &List) {
    let mut groups: BTreeMap<&str, usize> = BTreeMap::new();
    for (number, record) in list.records.iter().enumerate() {
        *groups.entry(record.group).or_default() += 1;
        eprintln!("record {:>4}, {}: {}", number + 1, record.group, record.why);
    }
    for (group, count) in groups {
        eprintln!("{count:>6}  records of the group: {group}");
    }
}

/// Reads a list from standard input, asks the oracle again, and prints how many of its answers are the same.
pub fn replay() -> bool {
    let mut text = String::new();
    std::io::Read::read_to_string(&mut std::io::stdin(), &mut text).expect("standard input is text");
    let (mut rest, mut agree, mut records) = (text.as_str(), 0, 0);
    while !rest.is_empty() {
        let (head, body) = rest.split_at(45);
        let head: Vec<usize> = head.split_whitespace().map(|n| n.parse().expect("a number")).collect();
        let [kind, room, input, answer] = head[..] else { panic!("a head of four numbers") };
        let (input, body) = body.split_at(input);
        let (answer, body) = body.split_at(answer);
        rest = body;
        records += 1;
        if question(kind, input).answer(room) == answer {
            agree += 1;
        } else {
            println!("record {records} differs");
        }
    }
    println!("{agree} of {records} agree");
    agree == records
}

fn question(kind: usize, input: &str) -> Question {
    if kind == 1 {
        return Question::of(&compare::from_numbers(input));
    }
    let floats: Vec<f32> = input.split_whitespace().map(|n| f32::from_bits(n.parse().expect("a number"))).collect();
    Question::Candidates(floats.try_into().expect("four patterns"))
}
