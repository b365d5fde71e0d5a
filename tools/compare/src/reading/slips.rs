//! Deliberate slips in the reader. Each replaces one of its parts, and must be noticed by the comparison with the entries.

use super::reader::{column, each, item, number, of, placed, players, ranks, sides, Reader, Row, LEADING_ZERO, LINE, NO_NUMBER, WORDS};
use std::collections::BTreeSet;

/// What is wrong, and the change of the reader that makes it so.
type Slip = (&'static str, fn(&mut Reader));

/// A column without the blanks before its number.
fn trimmed(bytes: &[u8]) -> &[u8] {
    bytes.iter().position(|&byte| byte != b' ').map_or(&[], |first| &bytes[first..])
}

/// The number of a column of which each byte is taken for another.
fn taken(bytes: &[u8], byte: fn(u8) -> u8) -> Result<u32, &'static str> {
    column(&bytes.iter().map(|&b| byte(b)).collect::<Vec<u8>>())
}

/// The number of a column, which may not have a property.
fn unless(bytes: &[u8], property: fn(u32) -> bool) -> Result<u32, &'static str> {
    column(bytes).and_then(|n| if property(n) { Err(NO_NUMBER) } else { Ok(n) })
}

/// The number of a column, where a number above 32 bits is made one of 32.
fn cut(bytes: &[u8], to: fn(u64) -> u32) -> Result<u32, &'static str> {
    let digits = trimmed(bytes);
    let great = digits.len() >= 10 && digits.iter().all(u8::is_ascii_digit) && !digits.starts_with(b"0");
    if !great {
        return column(bytes);
    }
    Ok(to(std::str::from_utf8(digits).expect("digits").parse().expect("a number below 10^11")))
}

/// Cuts a text into lines, and leaves bytes after them out where so many are left over.
fn pieces(text: &[u8], ignored: fn(usize) -> bool) -> Vec<&[u8]> {
    let whole = text.len() - text.len() % LINE;
    text[..if ignored(text.len() % LINE) { whole } else { text.len() }].chunks(LINE).collect()
}

/// Whether the first line has kind 0 and a count that fails against the lines after it.
fn miscounted(first: Row, after: u64, fails: fn(u64, u64) -> bool) -> bool {
    first[0] == 0 && fails(first[2].into(), after)
}

fn kinds(lines: &[Row], holds: fn(u32) -> bool) -> bool {
    lines.iter().skip(1).all(|row| holds(row[0]))
}

/// Kinds 1 to 5, but one, with numbers of players.
fn numbers_but(lines: &[Row], but: u32, holds: fn(u32) -> bool) -> bool {
    (1..=5).filter(|&kind| kind != but).all(|kind| players(lines, kind).all(|(_, number)| holds(number)))
}

/// Kinds 1 to 5, but one, with sides of players.
fn sides_but(lines: &[Row], but: u32) -> bool {
    (1..=5).filter(|&kind| kind != but).all(|kind| players(lines, kind).all(|(side, _)| side <= 1))
}

fn rises(lines: &[Row], kind: u32, before: fn(&(u32, u32), &(u32, u32)) -> bool) -> bool {
    players(lines, kind).is_sorted_by(before)
}

/// Players that rise, as they should, and none of whom is in the other kind.
fn rises_without(lines: &[Row], kind: u32, other: u32) -> bool {
    let others: BTreeSet<(u32, u32)> = players(lines, other).collect();
    rises(lines, kind, |a, b| a < b) && players(lines, kind).all(|player| !others.contains(&player))
}

/// The ranks of each side that has some.
fn ranked(lines: &[Row], holds: fn(&[u32]) -> bool) -> bool {
    sides(lines).into_iter().all(|side| holds(&ranks(lines, side).collect::<Vec<u32>>()))
}

fn from(first: u32, ranks: &[u32]) -> bool {
    ranks.iter().zip(first..).all(|(&rank, n)| rank == n)
}

fn code(lines: &[Row], holds: fn(u32, u32) -> bool) -> bool {
    of(lines, 6).all(|row| holds(row[2], row[1]))
}

fn one_player(lines: &[Row], kinds: &[u32]) -> bool {
    kinds.iter().flat_map(|&kind| players(lines, kind)).collect::<BTreeSet<_>>().len() <= 1
}

fn place(lines: &[Row], holds: fn(u32, u32) -> bool) -> bool {
    [7, 8, 9].iter().all(|&kind| players(lines, kind).all(|(side, number)| holds(side, number)))
}

fn values(lines: &[Row], holds: fn(u32) -> bool) -> bool {
    [7, 8, 9].iter().all(|&kind| of(lines, kind).all(|row| holds(row[3])))
}

/// Writes a word that is to be kept.
fn overwrite(lent: &mut [u32], at: usize) {
    lent.iter_mut().skip(at).take(1).for_each(|word| *word = 0);
}

const KINDS: &str = "kinds 1 to 9";
const NUMBERS: &str = "kinds 1 to 5: number 1 to 20";
const SIDES: &str = "kinds 1 to 5: side 0 or 1";
const VERDICT: &str = "kind 1: value 1 to 3";
const RANKS: &str = "kind 2: ranks from 1 without gaps";
const TWICE: &str = "kind 2: no player twice";
const CODE: &str = "kind 6: code and side";
const EACH: &str = "kinds 7, 8, 9: one each or none";
const SAME: &str = "kinds 7, 8, 9: the same player or ball";
const PLACE: &str = "kinds 7, 8, 9: a player or the ball";
const FINITE: &str = "kinds 7, 8, 9: finite";
const RISE: [&str; 3] = ["kind 1: players rise", "kind 4: players rise", "kind 5: players rise"];

pub const SLIPS: &[Slip] = &[
    // 9
    ("a leading zero accepted", |r| r.column = |c| column(c).or_else(|why| if why == LEADING_ZERO { number(trimmed(c)) } else { Err(why) })),
    ("00 accepted", |r| r.column = |c| if trimmed(c) == b"00" { Ok(0) } else { column(c) }),
    ("0 refused as a leading zero", |r| r.column = |c| unless(c, |n| n == 0)),
    ("a blank column read as 0", |r| r.column = |c| if trimmed(c).is_empty() { Ok(0) } else { column(c) }),
    ("a blank after a number accepted", |r| r.column = |c| column(c.strip_suffix(b" ").unwrap_or(c))),
    ("a blank between digits accepted", |r| r.column = |c| column(&c.iter().copied().filter(|&byte| byte != b' ').collect::<Vec<u8>>())),
    ("a tab accepted as a blank", |r| r.column = |c| taken(c, |byte| if byte == b'\t' { b' ' } else { byte })),
    ("a byte 0 accepted as a blank", |r| r.column = |c| taken(c, |byte| if byte == 0 { b' ' } else { byte })),
    ("every byte below the digits accepted as a blank", |r| r.column = |c| taken(c, |byte| if byte < b'0' { b' ' } else { byte })),
    ("a plus sign accepted", |r| r.column = |c| column(trimmed(c).strip_prefix(b"+").unwrap_or(c))),
    ("a slash taken for a digit", |r| r.column = |c| taken(c, |byte| if byte == b'/' { b'9' } else { byte })),
    ("a colon taken for a digit", |r| r.column = |c| taken(c, |byte| if byte == b':' { b'9' } else { byte })),
    ("the highest bit of a byte dropped", |r| r.column = |c| taken(c, |byte| byte & 0x7f)),
    ("a number taken by its lower 32 bits", |r| r.column = |c| cut(c, |n| n as u32)),
    ("a number above 32 bits taken for 4294967295", |r| r.column = |c| cut(c, |n| n.min(u32::MAX.into()) as u32)),
    ("4294967296 taken for 4294967295", |r| r.column = |c| if trimmed(c) == b"4294967296" { Ok(u32::MAX) } else { column(c) }),
    ("4294967295 refused with 9", |r| r.column = |c| unless(c, |n| n == u32::MAX)),
    ("numbers from 2147483648 on refused with 9", |r| r.column = |c| unless(c, |n| n >> 31 == 1)),
    ("ten digits refused", |r| r.column = |c| unless(c, |n| n >= 1_000_000_000)),
    ("bytes left over ignored", |r| r.pieces = |text| pieces(text, |_| true)),
    ("one byte left over ignored", |r| r.pieces = |text| pieces(text, |over| over == 1)),
    ("a last line without its line feed ignored", |r| r.pieces = |text| pieces(text, |over| over == 44)),
    ("an empty text refused with 9", |r| r.pieces = |text| if text.is_empty() { vec![text] } else { text.chunks(LINE).collect() }),
    ("the line feed not asked", |r| r.ends = |_| true),
    ("a carriage return accepted as a line feed", |r| r.ends = |piece| piece.ends_with(b"\n") || piece.ends_with(b"\r")),
    ("a blank accepted as a line feed", |r| r.ends = |piece| piece.ends_with(b"\n") || piece.ends_with(b" ")),
    // the order of the refusals
    ("10 before 9", |r| r.order = [10, 9, 11]),
    ("11 before 10", |r| r.order = [9, 11, 10]),
    ("11 before 9", |r| r.order = [11, 9, 10]),
    // 10
    ("10 only where the header's side is 2", |r| r.miscounted = |first, after| first[1] == 2 && miscounted(first, after, |count, after| count != after)),
    ("10 only where the header's value is 1", |r| r.miscounted = |first, after| first[3] == 1 && miscounted(first, after, |count, after| count != after)),
    ("10 for a first line of any kind", |r| r.miscounted = |first, after| u64::from(first[2]) != after),
    ("the header counted as a line", |r| r.miscounted = |first, after| miscounted(first, after, |count, after| count != after + 1)),
    ("a count that is greater by one accepted", |r| r.miscounted = |first, after| miscounted(first, after, |count, after| count != after && count != after + 1)),
    ("a greater count accepted", |r| r.miscounted = |first, after| miscounted(first, after, |count, after| count < after)),
    ("a smaller count accepted", |r| r.miscounted = |first, after| miscounted(first, after, |count, after| count > after)),
    ("the count taken by its lower 8 bits", |r| r.miscounted = |first, after| miscounted(first, after, |count, after| count & 0xff != after & 0xff)),
    ("the count taken by its lower 16 bits", |r| r.miscounted = |first, after| miscounted(first, after, |count, after| count & 0xffff != after & 0xffff)),
    ("a count without lines refused with 11", |r| r.miscounted = |first, after| after > 0 && miscounted(first, after, |count, after| count != after)),
    // the header
    ("an empty text accepted", |r| r.replace("the text is not empty", |_| true)),
    ("the first line's kind not asked", |r| r.replace("first line: kind 0", |_| true)),
    ("the header's side not asked", |r| r.replace("header: side 2", |_| true)),
    ("the header's value not asked", |r| r.replace("header: value 1", |_| true)),
    // kinds
    ("kind 0 after the header accepted", |r| r.replace(KINDS, |l| kinds(l, |kind| kind <= 9))),
    ("kind 10 accepted", |r| r.replace(KINDS, |l| kinds(l, |kind| (1..=10).contains(&kind)))),
    ("kinds above 10 accepted", |r| r.replace(KINDS, |l| kinds(l, |kind| kind != 0 && kind != 10))),
    ("kinds may fall", |r| r.replace("kinds never fall", |_| true)),
    ("kinds must rise", |r| r.replace("kinds never fall", |l| l.iter().skip(1).map(|row| row[0]).is_sorted_by(|a, b| a < b))),
    // players
    ("number 0 accepted", |r| r.replace(NUMBERS, |l| numbers_but(l, 0, |number| number <= 20))),
    ("number 21 accepted", |r| r.replace(NUMBERS, |l| numbers_but(l, 0, |number| (1..=21).contains(&number)))),
    ("number 20 refused", |r| r.replace(NUMBERS, |l| numbers_but(l, 0, |number| (1..=19).contains(&number)))),
    ("a number taken by its lower 8 bits", |r| r.replace(NUMBERS, |l| numbers_but(l, 0, |number| (1..=20).contains(&(number & 255))))),
    ("numbers not asked in kind 1", |r| r.replace(NUMBERS, |l| numbers_but(l, 1, |number| (1..=20).contains(&number)))),
    ("numbers not asked in kind 2", |r| r.replace(NUMBERS, |l| numbers_but(l, 2, |number| (1..=20).contains(&number)))),
    ("numbers not asked in kind 3", |r| r.replace(NUMBERS, |l| numbers_but(l, 3, |number| (1..=20).contains(&number)))),
    ("numbers not asked in kind 4", |r| r.replace(NUMBERS, |l| numbers_but(l, 4, |number| (1..=20).contains(&number)))),
    ("numbers not asked in kind 5", |r| r.replace(NUMBERS, |l| numbers_but(l, 5, |number| (1..=20).contains(&number)))),
    ("side 2 accepted in kinds 1 to 5", |r| r.replace(SIDES, |l| each(l, &[1, 2, 3, 4, 5], |side, _, _| side <= 2))),
    ("sides not asked in kind 1", |r| r.replace(SIDES, |l| sides_but(l, 1))),
    ("sides not asked in kind 2", |r| r.replace(SIDES, |l| sides_but(l, 2))),
    ("sides not asked in kind 3", |r| r.replace(SIDES, |l| sides_but(l, 3))),
    ("sides not asked in kind 4", |r| r.replace(SIDES, |l| sides_but(l, 4))),
    ("sides not asked in kind 5", |r| r.replace(SIDES, |l| sides_but(l, 5))),
    ("equal players accepted as rising in kind 1", |r| r.replace(RISE[0], |l| rises(l, 1, |a, b| a <= b))),
    ("equal players accepted as rising in kind 4", |r| r.replace(RISE[1], |l| rises(l, 4, |a, b| a <= b))),
    ("equal players accepted as rising in kind 5", |r| r.replace(RISE[2], |l| rises(l, 5, |a, b| a <= b))),
    ("players that fall accepted in kind 1", |r| r.replace(RISE[0], |l| rises(l, 1, |a, b| a != b))),
    ("players that fall accepted in kind 4", |r| r.replace(RISE[1], |l| rises(l, 4, |a, b| a != b))),
    ("players that fall accepted in kind 5", |r| r.replace(RISE[2], |l| rises(l, 5, |a, b| a != b))),
    ("Away before Home accepted in kind 1", |r| r.replace(RISE[0], |l| rises(l, 1, |a, b| a.0 != b.0 || a.1 < b.1))),
    ("Away before Home accepted in kind 4", |r| r.replace(RISE[1], |l| rises(l, 4, |a, b| a.0 != b.0 || a.1 < b.1))),
    ("Away before Home accepted in kind 5", |r| r.replace(RISE[2], |l| rises(l, 5, |a, b| a.0 != b.0 || a.1 < b.1))),
    ("numbers that rise without their sides asked in kind 1", |r| r.replace(RISE[0], |l| rises(l, 1, |a, b| a.1 < b.1))),
    ("a player in kinds 1 and 4 refused", |r| r.replace(RISE[1], |l| rises_without(l, 4, 1))),
    ("a player in kinds 1 and 5 refused", |r| r.replace(RISE[2], |l| rises_without(l, 5, 1))),
    ("a player in kinds 4 and 5 refused", |r| r.replace(RISE[2], |l| rises_without(l, 5, 4))),
    // values
    ("value 0 accepted in kind 1", |r| r.replace(VERDICT, |l| each(l, &[1], |_, _, value| value <= 3))),
    ("value 4 accepted in kind 1", |r| r.replace(VERDICT, |l| each(l, &[1], |_, _, value| (1..=4).contains(&value)))),
    ("value 3 refused in kind 1", |r| r.replace(VERDICT, |l| each(l, &[1], |_, _, value| (1..=2).contains(&value)))),
    ("the value of kind 3 not asked", |r| r.replace("kind 3: value 0", |_| true)),
    ("the value of kind 4 not asked", |r| r.replace("kind 4: value 0", |_| true)),
    ("the value of kind 5 not asked", |r| r.replace("kind 5: value 0", |_| true)),
    ("the value of kind 6 not asked", |r| r.replace("kind 6: value 0", |_| true)),
    // ranks
    ("Away before Home accepted in kind 2", |r| r.replace("kind 2: Home first", |_| true)),
    ("ranks from 0", |r| r.replace(RANKS, |l| ranked(l, |ranks| from(0, ranks)))),
    ("ranks from 0 accepted too", |r| r.replace(RANKS, |l| ranked(l, |ranks| from(0, ranks) || from(1, ranks)))),
    ("ranks from 2 accepted too", |r| r.replace(RANKS, |l| ranked(l, |ranks| from(1, ranks) || from(2, ranks)))),
    ("gaps between ranks accepted", |r| r.replace(RANKS, |l| ranked(l, |ranks| ranks[0] == 1 && ranks.is_sorted_by(|a, b| a < b)))),
    ("equal ranks accepted", |r| r.replace(RANKS, |l| ranked(l, |ranks| ranks[0] == 1 && ranks.is_sorted_by(|a, b| (a..=&(a + 1)).contains(&b))))),
    ("a last rank that is wrong accepted", |r| r.replace(RANKS, |l| ranked(l, |ranks| from(1, &ranks[..ranks.len() - 1])))),
    ("Away's ranks not asked", |r| r.replace(RANKS, |l| from(1, &ranks(l, 0).collect::<Vec<u32>>()))),
    ("Away's ranks after Home's", |r| r.replace(RANKS, |l| from(1, &of(l, 2).map(|row| row[3]).collect::<Vec<u32>>()))),
    ("20 ranks refused", |r| r.replace(RANKS, |l| ranked(l, |ranks| from(1, ranks) && ranks.len() < 20))),
    ("a player twice in kind 2 accepted", |r| r.replace(TWICE, |_| true)),
    ("a player twice in kind 2 accepted but in neighbouring lines", |r| r.replace(TWICE, |l| rises(l, 2, |a, b| a != b))),
    ("a number of both sides in kind 2 refused", |r| r.replace(TWICE, |l| of(l, 2).map(|row| row[2]).collect::<BTreeSet<u32>>().len() == of(l, 2).count())),
    ("players must rise in kind 2", |r| r.replace(TWICE, |l| rises(l, 2, |a, b| a < b))),
    // at most one
    ("two lines of kind 3 accepted", |r| r.replace("kind 3: at most one line", |l| of(l, 3).count() <= 2)),
    ("two lines of kind 6 accepted", |r| r.replace("kind 6: at most one line", |l| of(l, 6).count() <= 2)),
    // the ball judgment
    ("code 0 accepted", |r| r.replace(CODE, |l| code(l, |code, side| matches!((code, side), (0..=4, 0 | 1) | (5, 2))))),
    ("code 5 accepted with a side", |r| r.replace(CODE, |l| code(l, |code, side| matches!((code, side), (1..=5, 0 | 1) | (5, 2))))),
    ("codes 1 to 4 accepted without a side", |r| r.replace(CODE, |l| code(l, |code, side| matches!((code, side), (1..=4, 0 | 1) | (1..=5, 2))))),
    ("code 6 accepted without a side", |r| r.replace(CODE, |l| code(l, |code, side| matches!((code, side), (1..=4, 0 | 1) | (5 | 6, 2))))),
    ("code 5 refused", |r| r.replace(CODE, |l| code(l, |code, side| matches!((code, side), (1..=4, 0 | 1))))),
    // the place
    ("7 without 8 accepted", |r| r.replace(EACH, |l| matches!(placed(l), [0, 0, 0] | [1, 0 | 1, 1]))),
    ("9 without 7 accepted", |r| r.replace(EACH, |l| matches!(placed(l), [0, 0, 0] | [0 | 1, 1, 1]))),
    ("8 without 9 accepted", |r| r.replace(EACH, |l| matches!(placed(l), [0, 0, 0] | [1, 1, 0 | 1]))),
    ("two lines of kind 7 accepted", |r| r.replace(EACH, |l| matches!(placed(l), [0, 0, 0] | [1 | 2, 1, 1]))),
    ("two lines of kind 8 accepted", |r| r.replace(EACH, |l| matches!(placed(l), [0, 0, 0] | [1, 1 | 2, 1]))),
    ("two lines of kind 9 accepted", |r| r.replace(EACH, |l| matches!(placed(l), [0, 0, 0] | [1, 1, 1 | 2]))),
    ("7 of another player accepted", |r| r.replace(SAME, |l| one_player(l, &[8, 9]))),
    ("8 of another player accepted", |r| r.replace(SAME, |l| one_player(l, &[7, 9]))),
    ("9 of another player accepted", |r| r.replace(SAME, |l| one_player(l, &[7, 8]))),
    ("a place of both sides accepted", |r| r.replace(SAME, |l| [7, 8, 9].iter().flat_map(|&kind| of(l, kind)).map(|row| row[2]).collect::<BTreeSet<u32>>().len() <= 1)),
    ("the ball with a number accepted", |r| r.replace(PLACE, |l| place(l, |side, number| matches!((side, number), (0 | 1, 1..=20) | (2, _))))),
    ("number 0 of a side accepted in a place", |r| r.replace(PLACE, |l| place(l, |side, number| matches!((side, number), (0 | 1, 0..=20) | (2, 0))))),
    ("number 21 accepted in a place", |r| r.replace(PLACE, |l| place(l, |side, number| matches!((side, number), (0 | 1, 1..=21) | (2, 0))))),
    ("side 3 accepted in a place", |r| r.replace(PLACE, |l| place(l, |side, number| matches!((side, number), (0 | 1, 1..=20) | (2 | 3, 0))))),
    ("a place of the ball refused", |r| r.replace(PLACE, |l| place(l, |side, number| matches!((side, number), (0 | 1, 1..=20))))),
    ("an infinity accepted", |r| r.replace(FINITE, |l| values(l, |value| !f32::from_bits(value).is_nan()))),
    ("a NaN accepted", |r| r.replace(FINITE, |l| values(l, |value| !f32::from_bits(value).is_infinite()))),
    ("values below 0 not asked to be finite", |r| r.replace(FINITE, |l| values(l, |value| value >> 31 == 1 || value < 0x7f80_0000))),
    ("the greatest value refused", |r| r.replace(FINITE, |l| values(l, |value| value & 0x7fff_ffff < 0x7f7f_ffff))),
    ("subnormal values refused", |r| r.replace(FINITE, |l| values(l, |value| f32::from_bits(value).is_finite() && !f32::from_bits(value).is_subnormal()))),
    ("0 refused", |r| r.replace(FINITE, |l| values(l, |value| f32::from_bits(value).is_finite() && value != 0))),
    ("2147483648 accepted", |r| r.replace("kinds 7, 8, 9: not 2147483648", |_| true)),
    ("2147483649 refused", |r| r.replace("kinds 7, 8, 9: not 2147483648", |l| values(l, |value| value >> 1 != 1 << 30))),
    // the items
    ("lines counted from 0", |r| r.item = |answer, line, room| item(answer, line.wrapping_add(1), room)),
    ("the header given as line 0", |r| r.item = |answer, line, room| match (line, answer) {
        (0, Ok(rows)) if room >= WORDS => (1, Some([0, 2, rows.len() as u32, 1])),
        _ => item(answer, line, room),
    }),
    ("a line taken by its lower 32 bits", |r| r.item = |answer, line, room| item(answer, line & 0xffff_ffff, room)),
    ("the last line not given", |r| r.item = |answer, line, room| match answer {
        Ok(rows) if room >= WORDS && line == rows.len() as u64 => (0, None),
        _ => item(answer, line, room),
    }),
    ("the last line given beyond the count", |r| r.item = |answer, line, room| item(answer, line.min(answer.as_ref().map_or(0, Vec::len) as u64), room)),
    ("2147483648 given for 0", |r| r.item = |answer, line, room| {
        let (number, row) = item(answer, line, room);
        (number, row.map(|row| if row[0] >= 7 && row[3] == 0 { [row[0], row[1], row[2], 1 << 31] } else { row }))
    }),
    ("no item told before a refusal", |r| r.item = |answer, line, room| if room >= WORDS && line == 0 { (0, None) } else { item(answer, line, room) }),
    ("a refusal told before -100", |r| r.item = |answer, line, room| item(answer, line, if answer.is_err() { WORDS } else { room })),
    ("no item told before -100", |r| r.item = |answer, line, room| if answer.is_ok() && line == 0 { (0, None) } else { item(answer, line, room) }),
    ("-100 for four words", |r| r.item = |answer, line, room| item(answer, line, room.saturating_sub(1))),
    ("three words are enough where there is no item", |r| r.item = |answer, line, room| if room == 3 && line == 0 { item(answer, 0, WORDS) } else { item(answer, line, room) }),
    ("a word after the item written", |r| r.overwrite = |lent, answer| if answer == 1 { overwrite(lent, WORDS) }),
    ("a word written where there is no item", |r| r.overwrite = |lent, answer| if answer == 0 { overwrite(lent, 0) }),
    ("a word written on a refusal", |r| r.overwrite = |lent, answer| if (-11..=-9).contains(&answer) { overwrite(lent, 0) }),
    ("a word written where too few are lent", |r| r.overwrite = |lent, answer| if answer == -100 { overwrite(lent, 0) }),
];
