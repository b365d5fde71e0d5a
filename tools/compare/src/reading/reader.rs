//! A reader of sheets, written from the words of document 02's request 3 alone. A text is cut into pieces of 45 bytes and each piece into four columns; then
//! each clause of the request is asked of all lines. The parts are fields, so that a slip can replace one of them (reading/slips.rs).

use std::collections::BTreeSet;

/// The bytes of a line.
pub const LINE: usize = 45;
const COLUMN: usize = 11;

/// The words of an item; fewer may not be lent.
pub const WORDS: usize = 4;

/// Kind, side, number, value.
pub type Row = [u32; WORDS];

/// The lines after the header, or the refusal.
pub type Answer = Result<Vec<Row>, i64>;

/// What the item's entry answers, and what it writes.
pub type Told = (i64, Option<Row>);

/// What is wrong with a piece of the text or a column.
type Fault = &'static str;

pub const LEFT_OVER: Fault = "9: bytes left over";
pub const NO_LINE_FEED: Fault = "9: no line feed at the end of a line";
pub const NO_NUMBER: Fault = "9: a column that is not blanks and then digits";
pub const LEADING_ZERO: Fault = "9: a leading zero";
pub const TOO_GREAT: Fault = "9: a number above 4294967295";
pub const FORMS: [Fault; 5] = [LEFT_OVER, NO_LINE_FEED, NO_NUMBER, LEADING_ZERO, TOO_GREAT];
pub const MISCOUNTED: Fault = "10: the count differs";

/// What is asked of the lines of a text, the first line included.
#[derive(Clone, Copy)]
pub struct Clause {
    pub name: &'static str,
    pub holds: fn(&[Row]) -> bool,
}

pub struct Reader {
    pub pieces: fn(&[u8]) -> Vec<&[u8]>,
    /// Whether a piece of 45 bytes ends as a line does.
    pub ends: fn(&[u8]) -> bool,
    pub column: fn(&[u8]) -> Result<u32, Fault>,
    /// Whether the count of the first line differs from the number of the lines after it.
    pub miscounted: fn(Row, u64) -> bool,
    pub clauses: Vec<Clause>,
    /// The refusals in the order in which they are asked.
    pub order: [i64; 3],
    /// What the item's entry tells of a line, with so many words lent.
    pub item: fn(&Answer, u64, usize) -> Told,
    /// Writes into the lent words what a slip writes there beside the item.
    pub overwrite: fn(&mut [u32], i64),
}

impl Default for Reader {
    fn default() -> Reader {
        Reader {
            pieces: |text| text.chunks(LINE).collect(),
            ends: |piece| piece.ends_with(b"\n"),
            column,
            miscounted: |first, after| first[0] == 0 && u64::from(first[2]) != after,
            clauses: CLAUSES.to_vec(),
            order: [9, 10, 11],
            item,
            overwrite: |_, _| (),
        }
    }
}

/// Blanks and then at least one digit, without a leading zero, at most 4294967295.
pub fn column(bytes: &[u8]) -> Result<u32, Fault> {
    let digits = bytes.iter().position(|&byte| byte != b' ').map_or(&[][..], |first| &bytes[first..]);
    if digits.is_empty() || !digits.iter().all(u8::is_ascii_digit) {
        return Err(NO_NUMBER);
    }
    if digits.len() > 1 && digits.starts_with(b"0") {
        return Err(LEADING_ZERO);
    }
    number(digits)
}

/// The number that digits are.
pub fn number(digits: &[u8]) -> Result<u32, Fault> {
    let digits = std::str::from_utf8(digits).map_err(|_| NO_NUMBER)?;
    digits.parse().map_err(|_| TOO_GREAT)
}

/// The item of a line, from 1.
pub fn item(answer: &Answer, line: u64, room: usize) -> Told {
    match answer {
        _ if room < WORDS => (-100, None),
        Err(n) => (-n, None),
        Ok(rows) => (1..).zip(rows).find(|(place, _)| *place == line).map_or((0, None), |(_, row)| (1, Some(*row))),
    }
}

/// The lines of a kind after the first line.
pub fn of(lines: &[Row], kind: u32) -> impl Iterator<Item = Row> + '_ {
    lines.iter().skip(1).copied().filter(move |row| row[0] == kind)
}

/// Whether every line of these kinds is as it should be.
pub fn each(lines: &[Row], kinds: &[u32], holds: fn(u32, u32, u32) -> bool) -> bool {
    lines.iter().skip(1).filter(|row| kinds.contains(&row[0])).all(|&[_, side, number, value]| holds(side, number, value))
}

/// Whether the first line, where there is one of kind 0, is as it should be.
fn header(lines: &[Row], holds: fn(Row) -> bool) -> bool {
    lines.first().is_none_or(|&first| first[0] != 0 || holds(first))
}

pub fn players(lines: &[Row], kind: u32) -> impl Iterator<Item = (u32, u32)> + '_ {
    of(lines, kind).map(|[_, side, number, _]| (side, number))
}

fn rising(lines: &[Row], kind: u32) -> bool {
    players(lines, kind).is_sorted_by(|a, b| a < b)
}

/// The sides that lines of kind 2 have.
pub fn sides(lines: &[Row]) -> BTreeSet<u32> {
    of(lines, 2).map(|row| row[1]).collect()
}

/// The ranks of a side, in the order of the lines.
pub fn ranks(lines: &[Row], side: u32) -> impl Iterator<Item = u32> + '_ {
    of(lines, 2).filter(move |row| row[1] == side).map(|row| row[3])
}

fn all_different<T: Ord>(mut list: impl Iterator<Item = T>) -> bool {
    let mut seen = BTreeSet::new();
    list.all(|one| seen.insert(one))
}

/// How many lines each of the kinds 7, 8 and 9 has.
pub fn placed(lines: &[Row]) -> [usize; 3] {
    [7, 8, 9].map(|kind| of(lines, kind).count())
}

pub const CLAUSES: [Clause; 27] = [
    Clause { name: "the text is not empty", holds: |l| !l.is_empty() },
    Clause { name: "first line: kind 0", holds: |l| l.first().is_none_or(|first| first[0] == 0) },
    Clause { name: "header: side 2", holds: |l| header(l, |first| first[1] == 2) },
    Clause { name: "header: value 1", holds: |l| header(l, |first| first[3] == 1) },
    Clause { name: "kinds 1 to 9", holds: |l| l.iter().skip(1).all(|row| (1..=9).contains(&row[0])) },
    Clause { name: "kinds never fall", holds: |l| l.iter().skip(1).map(|row| row[0]).is_sorted() },
    Clause { name: "kinds 1 to 5: side 0 or 1", holds: |l| each(l, &[1, 2, 3, 4, 5], |side, _, _| side <= 1) },
    Clause { name: "kinds 1 to 5: number 1 to 20", holds: |l| each(l, &[1, 2, 3, 4, 5], |_, number, _| (1..=20).contains(&number)) },
    Clause { name: "kind 1: players rise", holds: |l| rising(l, 1) },
    Clause { name: "kind 1: value 1 to 3", holds: |l| each(l, &[1], |_, _, value| (1..=3).contains(&value)) },
    Clause { name: "kind 2: Home first", holds: |l| of(l, 2).map(|row| row[1]).is_sorted() },
    Clause { name: "kind 2: ranks from 1 without gaps", holds: |l| sides(l).into_iter().all(|side| ranks(l, side).zip(1..).all(|(rank, n)| rank == n)) },
    Clause { name: "kind 2: no player twice", holds: |l| all_different(players(l, 2)) },
    Clause { name: "kind 3: at most one line", holds: |l| of(l, 3).count() <= 1 },
    Clause { name: "kind 3: value 0", holds: |l| each(l, &[3], |_, _, value| value == 0) },
    Clause { name: "kind 4: players rise", holds: |l| rising(l, 4) },
    Clause { name: "kind 4: value 0", holds: |l| each(l, &[4], |_, _, value| value == 0) },
    Clause { name: "kind 5: players rise", holds: |l| rising(l, 5) },
    Clause { name: "kind 5: value 0", holds: |l| each(l, &[5], |_, _, value| value == 0) },
    Clause { name: "kind 6: at most one line", holds: |l| of(l, 6).count() <= 1 },
    Clause { name: "kind 6: code and side", holds: |l| each(l, &[6], |side, code, _| matches!((code, side), (1..=4, 0 | 1) | (5, 2))) },
    Clause { name: "kind 6: value 0", holds: |l| each(l, &[6], |_, _, value| value == 0) },
    Clause { name: "kinds 7, 8, 9: one each or none", holds: |l| matches!(placed(l), [0, 0, 0] | [1, 1, 1]) },
    Clause {
        name: "kinds 7, 8, 9: the same player or ball",
        holds: |l| [7, 8, 9].iter().flat_map(|&kind| players(l, kind)).collect::<BTreeSet<_>>().len() <= 1,
    },
    Clause {
        name: "kinds 7, 8, 9: a player or the ball",
        holds: |l| each(l, &[7, 8, 9], |side, number, _| matches!((side, number), (0 | 1, 1..=20) | (2, 0))),
    },
    Clause { name: "kinds 7, 8, 9: finite", holds: |l| each(l, &[7, 8, 9], |_, _, value| f32::from_bits(value).is_finite()) },
    Clause { name: "kinds 7, 8, 9: not 2147483648", holds: |l| each(l, &[7, 8, 9], |_, _, value| value != 2147483648) },
];

impl Reader {
    pub fn read(&self, text: &[u8]) -> Answer {
        let lines = self.lines(text);
        match self.order.into_iter().find(|&n| self.refuses(n, &lines)) {
            Some(n) => Err(n),
            None => Ok(lines.into_iter().flatten().skip(1).collect()),
        }
    }

    fn lines(&self, text: &[u8]) -> Vec<Result<Row, Fault>> {
        (self.pieces)(text).into_iter().map(|piece| self.line(piece)).collect()
    }

    fn line(&self, piece: &[u8]) -> Result<Row, Fault> {
        if piece.len() != LINE {
            return Err(LEFT_OVER);
        }
        if !(self.ends)(piece) {
            return Err(NO_LINE_FEED);
        }
        let mut row = [0; WORDS];
        for (number, bytes) in row.iter_mut().zip(piece.chunks(COLUMN)) {
            *number = (self.column)(bytes)?;
        }
        Ok(row)
    }

    /// Whether a refusal applies, without those asked before it.
    fn refuses(&self, n: i64, lines: &[Result<Row, Fault>]) -> bool {
        match (n, lines.first()) {
            (9, _) => lines.iter().any(Result::is_err),
            (10, Some(Ok(first))) => (self.miscounted)(*first, lines.len() as u64 - 1),
            (11, _) => self.broken(lines).next().is_some(),
            _ => false,
        }
    }

    /// The clauses that the lines up to the first unreadable one do not keep to.
    fn broken(&self, lines: &[Result<Row, Fault>]) -> impl Iterator<Item = Fault> + '_ {
        let rows: Vec<Row> = lines.iter().map_while(|line| line.ok()).collect();
        self.clauses.iter().filter(move |clause| !(clause.holds)(&rows)).map(|clause| clause.name)
    }

    /// All that is wrong with a text, each fault once: its form, else its count and the clauses. For what is printed.
    pub fn faults(&self, text: &[u8]) -> BTreeSet<Fault> {
        let lines = self.lines(text);
        let mut faults: BTreeSet<Fault> = lines.iter().filter_map(|line| line.err()).collect();
        if faults.is_empty() {
            faults.extend(self.broken(&lines));
        }
        if self.refuses(10, &lines) {
            faults.insert(MISCOUNTED);
        }
        faults
    }

    /// Replaces a clause, for a slip.
    pub fn replace(&mut self, name: &str, holds: fn(&[Row]) -> bool) {
        let clause = self.clauses.iter_mut().find(|clause| clause.name == name);
        clause.unwrap_or_else(|| panic!("no clause: {name}")).holds = holds;
    }
}

/// Appends a line as the sheet has it. Numbers above 99999999999 make it longer.
pub fn write_line(text: &mut Vec<u8>, line: [u64; 4]) {
    use std::io::Write;
    let [kind, side, number, value] = line;
    writeln!(text, "{kind:>11}{side:>11}{number:>11}{value:>11}").expect("a vector takes every byte");
}

/// The sheet of these lines, with its header.
pub fn write_sheet(rows: &[Row]) -> Vec<u8> {
    let mut text = Vec::with_capacity(LINE * (rows.len() + 1));
    write_line(&mut text, [0, 2, rows.len() as u64, 1]);
    rows.iter().for_each(|row| write_line(&mut text, row.map(u64::from)));
    text
}
