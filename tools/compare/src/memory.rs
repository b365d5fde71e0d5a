//! The command `memory`: calls of the C entries for valgrind's memcheck. Every slice is an allocation of exactly its length, so that an access beside it is seen, and
//! what is lent for an answer is not initialised, so that a decision by its old content is seen.

use crate::coach::{self, Judged, Table};
use crate::generate::{self, CLASSES};
use crate::library::{Asked, For};
use crate::random::Random;
use crate::reading::{self, reader};
use crate::sheet::{Sheet, Told};
use crate::situation::{Situation, WORDS};
use crate::{compare, exact_build, library, place};

/// Calls the sheet's entry or the display's with `room` fresh bytes. Says whether it gives the number and writes exactly the text.
fn call(to: For, words: &[u32], s: &Situation, room: usize, (number, text): Told) -> bool {
    let words: Box<[u32]> = words.into();
    let (xs, ys): (Box<[f32]>, Box<[f32]>) = (s.xs.as_slice().into(), s.ys.as_slice().into());
    let mut lent: Vec<u8> = Vec::with_capacity(room);
    let answer = library::sheet_fresh(to, &words, &xs, &ys, &mut lent, room);
    answer == number && lent == text.as_bytes()
}

/// The sheet for the desk and for the display with room to spare, with exact room and with one byte too few, and too few words.
fn sheets(s: &Situation, random: &mut Random) -> bool {
    let (words, sheet) = (s.to_words(None), Sheet::new(s, &compare::exact(s)));
    let room = sheet.text.len();
    let spare = random.within(1, 500) as usize;
    let short = &words[..random.within(0, WORDS as i64 - 1) as usize];
    For::BOTH.into_iter().all(|to| {
        [room + spare, room, room.saturating_sub(1)].into_iter().all(|room| call(to, &words, s, room, sheet.expected(to, room)))
            && call(to, short, s, room, (-100, String::new()))
    })
}

/// Calls the coach's entry with `room` fresh bytes. Says whether it gives the number and writes exactly the text.
fn call_coach(words: &[u32], s: &Situation, asked: Asked, room: usize, (number, text): (i64, String)) -> bool {
    let words: Box<[u32]> = words.into();
    let (xs, ys): (Box<[f32]>, Box<[f32]>) = (s.xs.as_slice().into(), s.ys.as_slice().into());
    let mut lent: Vec<u8> = Vec::with_capacity(room);
    let answer = library::coach_fresh(&words, &xs, &ys, asked, &mut lent, room);
    answer == number && lent == text.as_bytes()
}

/// A line with exact room and with one byte too few, a legal player with an empty text, a number that no player has, and a word too few. Nothing is drawn here, so
/// that the situations of a seed do not depend on it.
fn lines(table: &Table, s: &Situation) -> bool {
    let judged = Judged::new(table, s);
    let words = s.to_words(None);
    let call = |asked, room| call_coach(&words, s, asked, room, judged.expected(asked, room));
    let line = judged.players(false).last().is_none_or(|&asked| {
        let length = judged.expected(asked, usize::MAX).1.len();
        call(asked, length) && call(asked, length - 1)
    });
    let legal = judged.players(true).first().is_none_or(|&asked| call(asked, 0));
    line && legal && call((0, 21), 9) && call_coach(&words[1..], s, (0, 1), 9, (-100, String::new()))
}

/// Calls the place's entry with `room` fresh words. Says whether it gives the number and writes exactly the words.
fn call_place(words: &[u32], s: &Situation, room: usize, (number, place): place::Told) -> bool {
    let words: Box<[u32]> = words.into();
    let (xs, ys): (Box<[f32]>, Box<[f32]>) = (s.xs.as_slice().into(), s.ys.as_slice().into());
    let mut lent: Vec<u32> = Vec::with_capacity(room);
    let answer = library::place_fresh(&words, &xs, &ys, &mut lent, room);
    answer == number && lent == place.map_or(Vec::new(), Vec::from)
}

/// The place with exact room, with more, with one word too few and with none, and a situation's word too few. Nothing is drawn here either.
fn places(s: &Situation) -> bool {
    let (words, answer) = (s.to_words(None), compare::exact(s));
    let rooms = [place::WORDS, place::WORDS + 3, place::WORDS - 1, 0];
    rooms.into_iter().all(|room| call_place(&words, s, room, place::expected(&answer, room)))
        && call_place(&words[1..], s, place::WORDS, (-100, None))
}

/// Reads a text, and an item of it into `room` fresh words. Says whether the entries answer as the reader does and write exactly the item.
fn call_reading(text: &[u8], line: u64, room: usize) -> bool {
    let answer = reader::Reader::default().read(text);
    let text: Box<[u8]> = text.into();
    let mut lent: Vec<u32> = Vec::with_capacity(room);
    let told = (library::read_item_fresh(&text, line, &mut lent, room), lent);
    let (number, row) = reader::item(&answer, line, room);
    library::read_sheet(&text) == reading::count(&answer) && told == (number, row.map_or(Vec::new(), Vec::from))
}

/// The sheet of the situation, some changed ones and the sheet without its last byte: the first item, the last and none, with exact room and with one word too few. What is
/// drawn here has a seed of its own.
fn readings(s: &Situation, turn: u64) -> bool {
    let mut texts = reading::texts_of(&mut Random::new(turn), s);
    texts.extend(texts.first().map(|sheet| sheet[..sheet.len() - 1].to_vec()));
    texts.iter().all(|text| {
        let last = (text.len() / reader::LINE) as u64;
        [0, 1, last.saturating_sub(1), last].into_iter().all(|line| call_reading(text, line, reader::WORDS)) && call_reading(text, 1, reader::WORDS - 1)
    })
}

/// The candidates' entry with exact room and one place too few, and the leaves.
fn others(random: &mut Random) -> bool {
    let mut draw = |low, high| random.within(low, high) as f32 / 64.0;
    let (start, min, max, step) = (draw(-4096, 4096), draw(-4096, 0), draw(0, 4096), draw(1, 256));
    let list = exact_build::oracle::candidates(start, min, max, step);
    let (x, y) = (f32::from_bits(random.u32()), f32::from_bits(random.u32()));
    library::hypot(x, y);
    library::normalize_angle(x);
    library::rem_euclid(x, y);
    let mut exact = Vec::with_capacity(list.len());
    let mut few = Vec::with_capacity(list.len() - 1);
    library::candidates_fresh(start, min, max, step, &mut exact, list.len()) == list.len() as i64
        && exact == list
        && library::candidates_fresh(start, min, max, step, &mut few, list.len() - 1) == -6
}

pub fn run(count: u64, seed: u64) -> bool {
    let Some(table) = coach::table() else { return false };
    let mut random = Random::new(seed);
    let mut differences = 0u64;
    for turn in 0..count {
        let s = generate::situation(&mut random, CLASSES[turn as usize % CLASSES.len()]);
        let agree = [sheets(&s, &mut random), others(&mut random), lines(&table, &s), places(&s), readings(&s, turn)];
        differences += agree.into_iter().filter(|agrees| !agrees).count() as u64;
    }
    println!("memory: {count} situations, four calls of the sheet, four of the display, two of the candidates, up to five of the coach, five of the place and readings of up to five texts for each, {differences} differences");
    differences == 0
}
