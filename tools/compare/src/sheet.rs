//! The comparison of `referee_sheet` and `referee_display` with the exact build. What either should answer comes from the decision and from the
//! documents' refusals, and never from what the other answers.

use crate::compare::{as_changes, as_numbers, exact, guarded, shrink, Answer, Tally};
use crate::library::{self, For};
use crate::random::Random;
use crate::reading::reader::LINE;
use crate::situation::Situation;
use crate::slips::{self, on};

/// The lines that the display shows under the header.
pub const SHOWN: usize = 12;
/// Room for every sheet.
pub const ROOM: usize = 8192;

/// What an entry answers, and the text that it writes.
pub type Told = (i64, String);

/// What the oracle says of a situation's sheet.
pub struct Sheet<'a> {
    s: &'a Situation,
    /// The first of 1 to 5.
    refusal: Option<i64>,
    /// How many follow the header. Where 5 refuses the situation, as many as follow with another distance: 12 may not be told of them before 5.
    lines: usize,
    /// Empty where the situation is refused.
    pub text: String,
}

/// The most lines that may follow the header; the desk's limit is the length that it lends.
fn most_lines(to: For) -> usize {
    match to {
        For::Desk if !on(slips::DESK_REFUSED) => usize::MAX,
        _ if on(slips::ELEVEN_SHOWN) => SHOWN - 1,
        _ if on(slips::THIRTEEN_SHOWN) => SHOWN + 1,
        _ => SHOWN,
    }
}

/// The lines after the header of a situation that 5 refuses, with another distance.
fn lines_without_five(s: &Situation) -> usize {
    match exact(&Situation { distance: 1.0, ..s.clone() }) {
        Answer::Refused(_) => 0,
        Answer::Decided(decision) => decision.rows().len(),
    }
}

impl<'a> Sheet<'a> {
    pub fn new(s: &'a Situation, answer: &Answer) -> Sheet<'a> {
        match answer {
            Answer::Refused(n) => {
                let lines = if *n == 5 { lines_without_five(s) } else { 0 };
                Sheet { s, refusal: Some(*n), lines, text: String::new() }
            }
            Answer::Decided(decision) => Sheet { s, refusal: None, lines: decision.rows().len(), text: decision.sheet() },
        }
    }

    /// What the entry should answer and write with so many bytes lent.
    pub fn expected(&self, to: For, room: usize) -> Told {
        match self.refused(to, room) {
            Some(n) => (-n, String::new()),
            None => (self.text.len() as i64, self.text.clone()),
        }
    }

    /// The first refusal: 1 to 5 of the situation, then 12 of the lines, then 7 of the lent bytes.
    fn refused(&self, to: For, room: usize) -> Option<i64> {
        let too_many = self.lines + usize::from(on(slips::HEADER_COUNTED)) > most_lines(to);
        let too_short = room < self.text.len();
        match self.refusal {
            Some(5) if too_many && on(slips::TWELVE_BEFORE_FIVE) => Some(12),
            Some(n) => Some(n),
            None if too_many && too_short && on(slips::SEVEN_BEFORE_TWELVE) => Some(7),
            None if too_many => Some(12),
            None if too_short => Some(7),
            None => None,
        }
    }

    fn call(&self, to: For, words: &[u32], room: usize, (number, text): &Told) -> bool {
        guarded(room, *number, text, |lent| library::sheet(to, words, &self.s.xs, &self.s.ys, lent))
    }

    /// Whether the entry agrees, with so many bytes lent.
    pub fn agrees(&self, to: For, words: &[u32], room: usize) -> bool {
        self.call(to, words, room, &self.expected(to, room))
    }

    /// Compares both entries with room to spare. Says whether they agree.
    pub fn check(&self, words: &[u32], spare: usize, tally: &mut Tally) -> bool {
        let room = self.text.len() + spare;
        let differs = For::BOTH.into_iter().find(|&to| !self.agrees(to, words, room));
        if let Some(to) = differs {
            self.fail(to, &format!("{} with room to spare", name(to)), words, room, tally);
        } else if self.refusal == Some(5) && self.lines > SHOWN {
            tally.add("among refused 5: more than twelve lines with another distance");
        }
        differs.is_none()
    }

    /// Compares both with less room and with exact room.
    pub fn check_rooms(&self, random: &mut Random, words: &[u32], tally: &mut Tally) {
        let length = self.text.len();
        let mut rooms = vec![("without room", 0), ("with exact room", length)];
        if length > 0 {
            rooms.push(("with one byte too few", length - 1));
            rooms.push(("with too little room", random.within(0, length as i64 - 1) as usize));
        }
        for (to, (way, room)) in For::BOTH.into_iter().flat_map(|to| rooms.iter().map(move |&way| (to, way))) {
            let kind = format!("{} {way}", name(to));
            let told = if self.refused(to, room) == Some(12) { ", refused 12" } else { "" };
            tally.add(format!("calls: {kind}{told}"));
            if !self.agrees(to, words, room) {
                self.fail(to, &kind, words, room, tally);
            }
        }
    }

    /// Words that are no situation: -100, before a refusal too. There is room for the sheet of the situation that they were made of.
    pub fn check_malformed(&self, kind: &str, words: &[u32], tally: &mut Tally) {
        let room = self.text.len() + LINE;
        for to in For::BOTH {
            let kind = format!("{} of {kind}", name(to));
            tally.add(format!("calls: {kind}"));
            if !self.call(to, words, room, &(-100, String::new())) {
                self.fail(to, &kind, words, room, tally);
            }
        }
    }

    /// Reports a difference, of a smaller situation where that one differs with as many bytes lent.
    fn fail(&self, to: For, kind: &str, words: &[u32], room: usize, tally: &mut Tally) {
        if !tally.differs(shown_by(to), kind) {
            return;
        }
        println!("DIFFERENCE in {kind}, {room} bytes lent");
        let both = |t: &Situation| (Sheet::new(t, &exact(t)).expected(to, room), port(to, t, room));
        let differs = |t: &Situation| {
            let (told, by_port) = both(t);
            told != by_port
        };
        let shrunk = shrink(self.s, differs);
        print!("case A without players and with the ball at the centre, but for\n{}", as_changes(&shrunk));
        println!("words and earlier places, as judge reads them:\n{}", as_numbers(&shrunk));
        let ((number, text), (port_number, port_text)) = both(&shrunk);
        println!("the exact build answers {number}:\n{text}\nthe port answers {port_number}:\n{port_text}");
        if !differs(&shrunk) {
            println!("they differ as the call was made: by its answer, or by a byte that should be kept; its words:\n{words:?}");
        }
    }
}

/// The port's own answer with so many bytes lent.
pub fn port(to: For, s: &Situation, room: usize) -> Told {
    let mut lent = vec![0; room];
    let answer = library::sheet(to, &s.to_words(None), &s.xs, &s.ys, &mut lent);
    let length = usize::try_from(answer).unwrap_or(0).min(room);
    (answer, String::from_utf8_lossy(&lent[..length]).into_owned())
}

/// The port's own answers for the display, with so many bytes lent each time.
pub fn display_answers(s: &Situation, rooms: [usize; 2]) -> [i64; 2] {
    let words = s.to_words(None);
    rooms.map(|room| library::sheet(For::Display, &words, &s.xs, &s.ys, &mut vec![0; room]))
}

fn name(to: For) -> &'static str {
    match to {
        For::Desk => "a sheet",
        For::Display => "a sheet for the display",
    }
}

/// What has shown a difference of that entry.
fn shown_by(to: For) -> &'static str {
    match to {
        For::Desk => "the sheet",
        For::Display => "the display",
    }
}
