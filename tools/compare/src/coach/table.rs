//! The conditions of docs/COACH.md, and the line that is made of their words.

use crate::slips::{self, on};

const TEXT: &str = include_str!("../../../../docs/COACH.md");
/// The original's text in which the tests record their numbers.
const RECORDING: &str = include_str!(concat!(env!("OUT_DIR"), "/rules_told.rs"));

const HEAD: &str = "| number | words | verdict | test in `rules.rs` |";
const SIDES: [&str; 2] = ["Home", "Away"];
/// The first is verdict 1.
const VERDICTS: [&str; 3] = ["illegal", "illegal unless kicker", "in avoidance region"];

pub const CONDITIONS: usize = 15;

struct Row {
    words: &'static str,
    verdict: u8,
}

pub struct Table(Vec<Row>);

impl Table {
    /// Fifteen rows in order, words that are all different, verdicts that there are, and tests that record the row's number.
    pub fn read() -> Result<Table, String> {
        let mut lines = TEXT.lines().skip_while(|line| *line != HEAD).skip(2).take_while(|line| line.starts_with('|'));
        let rows: Vec<Row> = (1..=CONDITIONS)
            .map(|number| row(number, lines.next().unwrap_or("")).ok_or(format!("docs/COACH.md: no row {number} as it should be")))
            .collect::<Result<_, _>>()?;
        let repeated = (1..CONDITIONS).find(|&i| rows[..i].iter().any(|row| row.words == rows[i].words));
        match (lines.next(), repeated) {
            (Some(line), _) => Err(format!("docs/COACH.md: a row more than {CONDITIONS}: {line}")),
            (None, Some(i)) => Err(format!("docs/COACH.md: the words of row {} stand in another row too", i + 1)),
            (None, None) => Ok(Table(rows)),
        }
    }

    pub fn words(&self, condition: u8) -> &'static str {
        let row = usize::from(condition).checked_sub(1).and_then(|i| self.0.get(i));
        row.map_or("(no test has recorded itself)", |row| row.words)
    }

    /// Whether a verdict goes with a condition: Legal with none, another with one whose row has it.
    pub fn fits(&self, (verdict, condition): (u8, u8)) -> bool {
        match usize::from(condition).checked_sub(1) {
            None => verdict == 0,
            Some(i) => self.0[i].verdict == verdict,
        }
    }

    /// The line of a player, empty for one that stands legally.
    pub fn line(&self, side: usize, number: u32, (verdict, condition): (u8, u8)) -> String {
        if verdict == 0 {
            return String::new();
        }
        let side = SIDES[if on(slips::SIDES_EXCHANGED) { 1 - side } else { side }];
        let number = if on(slips::TENS_DROPPED) { number % 10 } else { number };
        format!("{side} {number} {}: {}", verdict_words(verdict), self.words(condition))
    }
}

fn verdict_words(verdict: u8) -> &'static str {
    let verdict = match verdict {
        1 | 2 if on(slips::UNLESS_KICKER_EXCHANGED) => 3 - verdict,
        1 | 3 if on(slips::REGION_EXCHANGED) => 4 - verdict,
        _ => verdict,
    };
    VERDICTS[usize::from(verdict) - 1]
}

fn row(number: usize, line: &'static str) -> Option<Row> {
    let cells: Vec<&str> = line.strip_prefix("| ")?.strip_suffix(" |")?.split(" | ").collect();
    let [first, words, verdict, test] = cells[..] else { return None };
    let words = words.strip_prefix('`')?.strip_suffix('`')?;
    let verdict = VERDICTS.iter().position(|&v| v == verdict)? as u8 + 1;
    let plain = !words.is_empty() && words.bytes().all(|b| b.is_ascii_graphic() || b == b' ');
    (first == number.to_string() && plain && records(number, test)).then_some(Row { words, verdict })
}

/// Whether the test that a row cites is the end of the one that records the row's number. The else cites none and records true.
fn records(number: usize, cell: &str) -> bool {
    let cited = cell.split('`').nth(1).unwrap_or("true");
    let recording = RECORDING.split_once(&format!("told({number}, ")).map_or("", |(_, rest)| rest);
    let line = recording.lines().next().unwrap_or("");
    // Another test of the same line is not meant.
    line.split("crate::told").next().is_some_and(|test| test.contains(&format!("{cited})")))
}
