//! The comparison of `referee_place` with the exact build: the place as decided, the sign of a zero kept.

use crate::compare::{as_numbers, exact, shrink, Answer, Tally};
use crate::decision::{Place, MINUS_ZERO};
use crate::library;
use crate::random::Random;
use crate::situation::Situation;
use crate::slips::{self, on};

/// The words of a place; fewer may not be lent.
pub const WORDS: usize = 5;
const MOST_SPARE: i64 = 9;

/// What the entry answers, and the words that it writes.
pub type Told = (i64, Option<[u32; WORDS]>);

/// What the entry should answer and write with so many words lent: -100 for too few goes before a refusal.
pub fn expected(answer: &Answer, room: usize) -> Told {
    let enough = room >= WORDS;
    match answer {
        Answer::Refused(n) if enough || on(slips::REFUSAL_BEFORE_LENGTH) => (-n, None),
        Answer::Decided(decision) if enough => decision.place.map_or((0, None), |place| (1, Some(place.words()))),
        _ => (-100, None),
    }
}

/// Words that no answer holds, different from one to the next: each is the pattern of a NaN.
fn filler(i: usize) -> u32 {
    0xffc0_0000 | i as u32
}

/// Calls the entry with `room` words between two guards. Says whether it answers and writes exactly that, and keeps the rest.
fn call(words: &[u32], s: &Situation, room: usize, (number, place): Told) -> bool {
    const GUARD: usize = 4;
    let mut lent: Vec<u32> = (0..room + 2 * GUARD).map(filler).collect();
    let part = &mut lent[GUARD..GUARD + room];
    let answer = library::place(words, &s.xs, &s.ys, part);
    slip(part, answer);
    let mut kept: Vec<u32> = (0..lent.len()).map(filler).collect();
    if let Some(place) = place {
        kept[GUARD..GUARD + WORDS].copy_from_slice(&place);
    }
    answer == number && lent == kept
}

/// Writes a word that is to be kept, where a slip does.
fn slip(part: &mut [u32], answer: i64) {
    let at = match answer {
        1 if on(slips::WORD_AFTER_PLACE) => WORDS,
        0 if on(slips::WORDS_WITHOUT_PLACE) => 0,
        -5..0 if on(slips::WORDS_ON_REFUSAL) => 0,
        _ => return,
    };
    part.iter_mut().skip(at).take(1).for_each(|word| *word = 0);
}

/// The port's own answer, for a report.
pub fn port(s: &Situation) -> Told {
    let mut lent = [0; WORDS];
    let answer = library::place(&s.to_words(None), &s.xs, &s.ys, &mut lent);
    (answer, (answer == 1).then_some(lent))
}

/// Whether the entry agrees with the oracle's answer, with that many words more than it needs.
pub fn agrees(words: &[u32], s: &Situation, answer: &Answer, spare: usize) -> bool {
    let room = WORDS + spare;
    call(words, s, room, expected(answer, room))
}

fn fail(kind: &str, s: &Situation, answer: &Answer, tally: &mut Tally) {
    if !tally.differs("the place", kind) {
        return;
    }
    println!("DIFFERENCE in {kind}");
    let differs = |t: &Situation| expected(&exact(t), WORDS) != port(t);
    let shrunk = shrink(s, differs);
    let alike = !differs(&shrunk);
    let told = if alike { expected(answer, WORDS) } else { expected(&exact(&shrunk), WORDS) };
    println!("words and earlier places, as judge reads them:\n{}", as_numbers(&shrunk));
    println!("with five words lent: the exact build {told:?}, the port {:?}", port(&shrunk));
    if alike {
        println!("they differ as the call was made: by its answer, or by a word that should be kept");
    }
}

/// Compares the place of one situation. Says whether it agrees.
pub fn check(random: &mut Random, words: &[u32], s: &Situation, answer: &Answer, tally: &mut Tally) -> bool {
    let spare = random.within(0, MOST_SPARE) as usize;
    let agrees = agrees(words, s, answer, spare);
    if !agrees {
        fail("a place", s, answer, tally);
    } else if let Answer::Decided(decision) = answer {
        describe(decision.place, tally);
    }
    agrees
}

/// Counts the zeros of sign minus and the numbers next to zero, so that it is seen that they come.
fn describe(place: Option<Place>, tally: &mut Tally) {
    let Some(place) = place else {
        tally.add("places: none");
        return;
    };
    let third = match place {
        Place::Ball(_) => "z",
        Place::Player { .. } => "heading",
    };
    tally.add("places: compared");
    for (name, pattern) in ["x", "y", third].into_iter().zip(&place.words()[2..]) {
        match pattern & !MINUS_ZERO {
            0 => tally.add(format!("places: {name} {:?}", f32::from_bits(*pattern))),
            1 => tally.add(format!("places: {name} next to 0")),
            _ => (),
        }
    }
}

/// Too few words lent: -100, before a refusal too.
pub fn check_few(words: &[u32], s: &Situation, answer: &Answer, tally: &mut Tally) {
    for room in 0..WORDS {
        let refused = if matches!(answer, Answer::Refused(_)) { ", refused" } else { "" };
        tally.add(format!("calls: a place with too few words lent{refused}"));
        if !call(words, s, room, expected(answer, room)) {
            fail(&format!("a place with {room} words lent"), s, answer, tally);
        }
    }
}

/// Words that are no situation: -100, before a refusal too, and with any number of words lent.
pub fn check_malformed(random: &mut Random, kind: &str, words: &[u32], s: &Situation, answer: &Answer, tally: &mut Tally) {
    tally.add(format!("calls: a place of {kind}"));
    let room = random.within(0, WORDS as i64 + MOST_SPARE) as usize;
    if !call(words, s, room, (-100, None)) {
        fail(&format!("a place of {kind}, {room} words lent"), s, answer, tally);
    }
}
