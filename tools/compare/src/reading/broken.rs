//! Texts that are no sheets any more, or other sheets: the lines of a sheet with some of them changed, the count adapted or not, and then the bytes changed.

use super::reader::{write_line, Row, LINE};
use super::sheets::{self, FINITE};
use crate::random::Random;

/// A line before it is written. A number may have more than 32 bits.
type Line = [u64; 4];

/// The lines, the header first.
type Draft = Vec<Line>;

const KIND: usize = 0;
const SIDE: usize = 1;
const NUMBER: usize = 2;
const VALUE: usize = 3;

/// Numbers at a border of some column.
const BORDERS: [u64; 22] = [
    0, 1, 2, 3, 4, 5, 6, 7, 9, 10, 19, 20, 21, 165, 255, 256, 65_536, 2_147_483_647, 2_147_483_648, 2_147_483_649, 4_294_967_294, 4_294_967_295,
];

/// Numbers above 32 bits that a column has room for. Of some the lower 32 bits are 0 or 1.
const TOO_GREAT: [u64; 7] =
    [4_294_967_296, 4_294_967_297, 4_294_967_305, 8_589_934_592, 9_999_999_999, 42_949_672_960, 99_999_999_999];

/// Patterns that no placed value may have: -0, the infinities, NaNs.
const NOT_PLACED: [u32; 9] =
    [0x8000_0000, 0x7f80_0000, 0x7f80_0001, 0x7fc0_0000, 0x7fff_ffff, 0xff80_0000, 0xff80_0001, 0xffc0_0000, 0xffff_ffff];

/// Bytes that might be taken for others: blanks and line ends of all kinds, those next to the digits and to the blank, signs, letters, bytes from 128 on.
const BYTES: [u8; 24] =
    [b' ', b'\n', b'\t', b'\r', 0, 0x0b, 0x0c, 0x1f, b'!', b'/', b':', b'0', b'1', b'9', b'+', b'-', b'.', b',', b'a', b'e', 0x7f, 0x80, 0xa0, 0xff];

/// One of the lists' places, where the list has one.
fn some(random: &mut Random, places: &[usize]) -> Option<usize> {
    (!places.is_empty()).then(|| random.pick(places))
}

/// Where the lines after the header stand that have one of the kinds.
fn of(draft: &Draft, kinds: &[u64]) -> Vec<usize> {
    (1..draft.len()).filter(|&i| kinds.contains(&draft[i][KIND])).collect()
}

/// Any line after the header.
fn any(random: &mut Random, draft: &Draft) -> Option<usize> {
    (draft.len() > 1).then(|| random.within(1, draft.len() as i64 - 1) as usize)
}

/// Puts a line behind the last one whose kind is not greater.
fn put(draft: &mut Draft, line: Line) {
    let last = (1..draft.len()).rev().find(|&i| draft[i][KIND] <= line[KIND]);
    draft.insert(last.map_or(1, |i| i + 1), line);
}

fn put_rows(draft: &mut Draft, rows: &[Row]) {
    rows.iter().for_each(|row| put(draft, row.map(u64::from)));
}

/// A line of the kind that could stand on some sheet.
fn line(random: &mut Random, kind: u64) -> Line {
    let (side, number) = (sheets::side(random), sheets::number(random));
    let row = match kind {
        1 => [1, side, number, random.within(1, 3) as u32],
        2 => [2, side, number, random.within(1, 3) as u32],
        6 => sheets::ball(random),
        7..=9 => sheets::place(random)[kind as usize - 7],
        _ => [kind as u32, side, number, 0],
    };
    row.map(u64::from)
}

/// A number beside x, or one that differs from it by a power of two, or one at a border.
fn near(random: &mut Random, x: u64) -> u64 {
    match random.within(0, 9) {
        0..=2 => x + 1,
        3..=5 => x.checked_sub(1).unwrap_or(4_294_967_295),
        6 => x + random.pick(&[256, 65_536, 1 << 31, 1 << 32]),
        _ => random.pick(&BORDERS),
    }
}

fn pattern(random: &mut Random) -> u64 {
    match random.within(0, 4) {
        0 => 0x8000_0000,
        1 => random.pick(&NOT_PLACED).into(),
        2 | 3 => random.pick(&FINITE).into(),
        _ => random.u32().into(),
    }
}

// ---- changes of the lines

/// A change of one line or of a few. It changes nothing where the lines that it is about are not there.
type Edit = fn(&mut Random, &mut Draft) -> Option<()>;

const EDITS: [Edit; 28] = [
    swap, swap_neighbours, swap_sides, double, copy, remove, remove, shift, change_column, change_column, add, add, add_player, add_player, same_player, change_side,
    change_number, change_ranks, new_excess, change_value, change_value, new_ball, new_place, change_place, change_pattern, change_pattern, turn_round, other_kind,
];

fn swap(random: &mut Random, draft: &mut Draft) -> Option<()> {
    let (a, b) = (any(random, draft)?, any(random, draft)?);
    draft.swap(a, b);
    Some(())
}

fn swap_neighbours(random: &mut Random, draft: &mut Draft) -> Option<()> {
    let a = any(random, draft)?;
    draft.get(a + 1)?;
    draft.swap(a, a + 1);
    Some(())
}

/// The last line of Home and the first of Away in some kind.
fn swap_sides(random: &mut Random, draft: &mut Draft) -> Option<()> {
    let borders: Vec<usize> = (2..draft.len()).filter(|&i| draft[i][KIND] == draft[i - 1][KIND] && draft[i][SIDE] != draft[i - 1][SIDE]).collect();
    let a = some(random, &borders)?;
    draft.swap(a - 1, a);
    Some(())
}

fn double(random: &mut Random, draft: &mut Draft) -> Option<()> {
    let a = any(random, draft)?;
    draft.insert(a, draft[a]);
    Some(())
}

fn copy(random: &mut Random, draft: &mut Draft) -> Option<()> {
    let (a, b) = (any(random, draft)?, any(random, draft)?);
    draft.insert(b, draft[a]);
    Some(())
}

fn remove(random: &mut Random, draft: &mut Draft) -> Option<()> {
    let a = any(random, draft)?;
    draft.remove(a);
    Some(())
}

fn shift(random: &mut Random, draft: &mut Draft) -> Option<()> {
    let (a, b) = (any(random, draft)?, any(random, draft)?);
    let line = draft.remove(a);
    draft.insert(b, line);
    Some(())
}

fn change_column(random: &mut Random, draft: &mut Draft) -> Option<()> {
    let a = any(random, draft)?;
    let column = random.within(0, 3) as usize;
    draft[a][column] = near(random, draft[a][column]);
    Some(())
}

/// One more line of a kind, behind the others.
fn add(random: &mut Random, draft: &mut Draft) -> Option<()> {
    let kind = random.within(1, 9) as u64;
    let line = line(random, kind);
    put(draft, line);
    Some(())
}

/// One more player in kind 1, 4 or 5, in its order; or one more rank.
fn add_player(random: &mut Random, draft: &mut Draft) -> Option<()> {
    let kind = random.pick(&[1, 2, 4, 5]);
    let mut line = line(random, kind);
    let of_kind = of(draft, &[kind]);
    let before = |other: &Line| if kind == 2 { other[SIDE] <= line[SIDE] } else { other[SIDE..VALUE] < line[SIDE..VALUE] };
    let last = of_kind.iter().copied().rfind(|&i| before(&draft[i]));
    if kind == 2 {
        line[VALUE] = 1 + of_kind.iter().filter(|&&i| draft[i][SIDE] == line[SIDE]).count() as u64;
    }
    match last.map(|i| i + 1).or(of_kind.first().copied()) {
        Some(at) => draft.insert(at, line),
        None => put(draft, line),
    }
    Some(())
}

/// A line gets the player of another of its kind.
fn same_player(random: &mut Random, draft: &mut Draft) -> Option<()> {
    let a = any(random, draft)?;
    let b = some(random, &of(draft, &[draft[a][KIND]]))?;
    (draft[a][SIDE], draft[a][NUMBER]) = (draft[b][SIDE], draft[b][NUMBER]);
    Some(())
}

fn change_side(random: &mut Random, draft: &mut Draft) -> Option<()> {
    let a = any(random, draft)?;
    draft[a][SIDE] = random.within(0, 3) as u64;
    Some(())
}

/// A player's number at the border: of the first line 0, of the last 21, so that players still rise.
fn change_number(random: &mut Random, draft: &mut Draft) -> Option<()> {
    let kind = random.within(1, 5) as u64;
    let places = of(draft, &[kind]);
    if random.coin() {
        draft[*places.first()?][NUMBER] = 0;
    } else {
        draft[*places.last()?][NUMBER] = 21;
    }
    Some(())
}

/// All ranks: from 0 or 2, Away's after Home's, backwards, with a step, or the same.
fn change_ranks(random: &mut Random, draft: &mut Draft) -> Option<()> {
    let places = of(draft, &[2]);
    let home = places.iter().filter(|&&i| draft[i][SIDE] == 0).count() as u64;
    let away = places.len() as u64 - home;
    let how = random.within(0, 5);
    for i in places {
        let (rank, side) = (draft[i][VALUE], draft[i][SIDE]);
        draft[i][VALUE] = match how {
            0 => rank.saturating_sub(1),
            1 => rank + 1,
            2 => rank + if side == 0 { 0 } else { home },
            3 => (if side == 0 { home } else { away } + 1).saturating_sub(rank),
            4 => 2 * rank - rank.min(1),
            _ => 1,
        };
    }
    Some(())
}

/// Other lists of kind 2, sometimes of all twenty players, sometimes with a 21st line.
fn new_excess(random: &mut Random, draft: &mut Draft) -> Option<()> {
    draft.retain(|line| line[KIND] != 2);
    let share = random.pick(&[2, 20]);
    put_rows(draft, &sheets::excess(random, share));
    if random.within(0, 3) == 0 {
        let last = *of(draft, &[2]).last()?;
        let [kind, side, number, rank] = draft[last];
        let number = random.pick(&[number, 1, 20, 21]);
        draft.insert(last + 1, [kind, side, number, rank + 1]);
    }
    Some(())
}

/// The value of a line of kind 1 to 6.
fn change_value(random: &mut Random, draft: &mut Draft) -> Option<()> {
    let kind = random.within(1, 6) as u64;
    let a = some(random, &of(draft, &[kind]))?;
    draft[a][VALUE] = random.within(0, 4) as u64;
    Some(())
}

/// Another ball judgment in place of the one that is there: any code and side at the border.
fn new_ball(random: &mut Random, draft: &mut Draft) -> Option<()> {
    draft.retain(|line| line[KIND] != 6);
    let (side, code) = (random.within(0, 3) as u64, random.within(0, 6) as u64);
    let value = u64::from(random.within(0, 5) == 0);
    put(draft, [6, side, code, value]);
    Some(())
}

/// Another place in place of the one that is there: of a player, of the ball, or of neither.
fn new_place(random: &mut Random, draft: &mut Draft) -> Option<()> {
    draft.retain(|line| !(7..=9).contains(&line[KIND]));
    let mut place = sheets::place(random).map(|row| row.map(u64::from));
    let (side, number) = (random.within(0, 3) as u64, random.pick(&[0, 1, 20, 21]));
    let other = random.coin();
    for line in &mut place {
        if other {
            (line[SIDE], line[NUMBER]) = (side, number);
        }
        put(draft, *line);
    }
    Some(())
}

/// One of the lines of a place: removed, doubled, of another player, or two lines exchanged.
fn change_place(random: &mut Random, draft: &mut Draft) -> Option<()> {
    let places = of(draft, &[7, 8, 9]);
    let (a, b) = (some(random, &places)?, some(random, &places)?);
    match random.within(0, 4) {
        0 => _ = draft.remove(a),
        1 => draft.insert(a, draft[a]),
        2 => draft[a][NUMBER] = near(random, draft[a][NUMBER]),
        3 => draft[a][SIDE] = random.within(0, 2) as u64,
        _ => draft.swap(a, b),
    }
    Some(())
}

fn change_pattern(random: &mut Random, draft: &mut Draft) -> Option<()> {
    let a = some(random, &of(draft, &[7, 8, 9]))?;
    draft[a][VALUE] = pattern(random);
    Some(())
}

/// The lines of a kind backwards, or the sides exchanged: either the lines of Away first, or the players' sides.
fn turn_round(random: &mut Random, draft: &mut Draft) -> Option<()> {
    let kind = random.pick(&[1, 2, 4, 5]);
    let places = of(draft, &[kind]);
    let mut lines: Vec<Line> = places.iter().map(|&i| draft[i]).collect();
    match random.within(0, 2) {
        0 => lines.reverse(),
        1 => lines.sort_by_key(|line| line[SIDE] == 0),
        _ => lines.iter_mut().for_each(|line| line[SIDE] ^= 1),
    }
    places.into_iter().zip(lines).for_each(|(i, line)| draft[i] = line);
    Some(())
}

/// A line of kind 0 or above 9 where kinds do not fall by it, or another kind for a line.
fn other_kind(random: &mut Random, draft: &mut Draft) -> Option<()> {
    let a = any(random, draft)?;
    match random.within(0, 3) {
        0 => draft.insert(1, [0, 2, draft.len() as u64, 1]),
        1 => draft.push([random.pick(&[10, 11, 16, 257, 4_294_967_295]), 0, 1, 0]),
        2 => draft[a][KIND] = random.within(0, 10) as u64,
        _ => draft[a][KIND] = near(random, draft[a][KIND]),
    }
    Some(())
}

fn edit(random: &mut Random, draft: &mut Draft, times: i64) {
    for _ in 0..times {
        let edit = random.pick(&EDITS);
        if edit(random, draft).is_none() {
            add(random, draft);
        }
    }
}

// ---- changes of the header

fn adapt(draft: &mut Draft) {
    draft[0][NUMBER] = draft.len() as u64 - 1;
}

/// A count that is mostly not that of the lines: by one, with the header, by a power of two.
fn miscount(random: &mut Random, draft: &mut Draft) {
    let count = draft.len() as u64 - 1;
    draft[0][NUMBER] = match random.within(0, 7) {
        0 | 1 => count + 1,
        2 | 3 => count.saturating_sub(1),
        4 => count + random.pick(&[2, 256, 65_536, 1 << 31]),
        5 => random.within(0, 20) as u64,
        6 => LINE as u64 * draft.len() as u64,
        _ => random.pick(&BORDERS),
    };
}

fn change_header(random: &mut Random, draft: &mut Draft) {
    match random.within(0, 4) {
        0 => draft[0][KIND] = near(random, 0),
        1 => draft[0][SIDE] = random.pick(&[0, 1, 3]),
        2 => draft[0][VALUE] = random.pick(&[0, 2, 257]),
        3 => draft[0][SIDE] = near(random, 2),
        _ => draft[0][VALUE] = near(random, 1),
    }
}

// ---- changes of the bytes

fn write(draft: &Draft) -> Vec<u8> {
    let mut text = Vec::with_capacity(LINE * draft.len());
    draft.iter().for_each(|&line| write_line(&mut text, line));
    text
}

/// The number of a column in another form, mostly a wrong one.
fn column(random: &mut Random, number: &str) -> String {
    match random.within(0, 13) {
        0 => format!("{:>11}", format!("0{number}")),
        1 => format!("{number:0>11}"),
        2 => format!("{number:<11}"),
        3 => format!("{:>11}", format!("{number} ")),
        4 => " ".repeat(11),
        5 => format!("{:>11}", format!("1 {number}")),
        6 => format!("{:>11}", format!("+{number}")),
        7 => format!("{:>11}", format!("-{number}")),
        8 => format!("\t{number:>10}"),
        9 | 10 => format!("{:>11}", random.pick(&TOO_GREAT)),
        11 => format!("{:>11}", random.pick(&BORDERS)),
        12 => format!("{:>11}", "00"),
        _ => format!("{:>11}", format!("{number}.0")),
    }
}

/// Writes a column of some line in another form.
fn rewrite_column(random: &mut Random, text: &mut Vec<u8>) -> Option<()> {
    let (i, k) = (place(random, text)? / LINE, random.within(0, 3) as usize);
    let at = LINE * i + 11 * k;
    let old = String::from_utf8_lossy(text.get(at..at + 11)?).trim().to_string();
    text.splice(at..at + 11, column(random, &old).bytes());
    Some(())
}

/// The place of some byte.
fn place(random: &mut Random, text: &[u8]) -> Option<usize> {
    (!text.is_empty()).then(|| random.within(0, text.len() as i64 - 1) as usize)
}

/// The place of some byte for which it holds.
fn place_of(random: &mut Random, text: &[u8], holds: fn(u8) -> bool) -> Option<usize> {
    let from = place(random, text)?;
    (from..text.len()).chain(0..from).find(|&i| holds(text[i]))
}

fn other_byte(random: &mut Random) -> u8 {
    if random.within(0, 3) == 0 {
        random.within(0, 255) as u8
    } else {
        random.pick(&BYTES)
    }
}

fn change_byte(random: &mut Random, text: &mut Vec<u8>) -> Option<()> {
    let at = match random.within(0, 3) {
        0 => place(random, text)?,
        1 => place_of(random, text, |byte| byte == b'\n')?,
        2 => place_of(random, text, |byte| byte.is_ascii_digit())?,
        // The byte before a number.
        _ => place_of(random, text, |byte| byte.is_ascii_digit())?.saturating_sub(1),
    };
    text[at] = match random.within(0, 7) {
        0 => text[at] | 0x80,
        1 => text[at] ^ 1 << random.within(0, 7),
        2 => b'0' + random.within(0, 9) as u8,
        _ => other_byte(random),
    };
    Some(())
}

fn remove_byte(random: &mut Random, text: &mut Vec<u8>) -> Option<()> {
    let at = place(random, text)?;
    text.remove(at);
    Some(())
}

fn add_byte(random: &mut Random, text: &mut Vec<u8>) -> Option<()> {
    let at = random.within(0, text.len() as i64) as usize;
    text.insert(at, other_byte(random));
    Some(())
}

/// A byte at another place: no more and no fewer bytes.
fn move_byte(random: &mut Random, text: &mut Vec<u8>) -> Option<()> {
    let (from, to) = (place(random, text)?, place(random, text)?);
    let byte = text.remove(from);
    text.insert(to, byte);
    Some(())
}

/// A digit becomes another, so that the text mostly stays in column form.
fn change_digit(random: &mut Random, text: &mut Vec<u8>) -> Option<()> {
    let at = place_of(random, text, |byte| byte.is_ascii_digit())?;
    text[at] = b'0' + random.within(0, 9) as u8;
    Some(())
}

/// The end of the text: cut anywhere, without its line feed, with bytes after it.
fn change_end(random: &mut Random, text: &mut Vec<u8>) -> Option<()> {
    match random.within(0, 4) {
        0 => text.truncate(place(random, text)?),
        1 => _ = text.pop(),
        2 => text.push(b'\n'),
        3 => text.push(other_byte(random)),
        _ => text.extend(vec![other_byte(random); random.within(1, 90) as usize]),
    }
    Some(())
}

/// Every line's end as another system has it.
fn change_ends(random: &mut Random, text: &mut Vec<u8>) -> Option<()> {
    let end = random.pick(&[&b"\r\n"[..], b"\r", b""]);
    *text = text.split_inclusive(|&byte| byte == b'\n').flat_map(|line| [line.strip_suffix(b"\n").unwrap_or(line), end].concat()).collect();
    Some(())
}

type Damage = fn(&mut Random, &mut Vec<u8>) -> Option<()>;

const DAMAGES: [Damage; 12] = [
    rewrite_column, rewrite_column, rewrite_column, rewrite_column, change_byte, change_byte, change_byte, remove_byte, add_byte, move_byte, change_digit, change_end,
];

fn damage(random: &mut Random, text: &mut Vec<u8>, times: i64) {
    for _ in 0..times {
        if random.within(0, 99) == 0 {
            change_ends(random, text);
        } else {
            random.pick(&DAMAGES)(random, text);
        }
    }
}

// ---- whole texts

/// A text with whole lines missing or too many, the count kept or adapted.
fn cut_or_joined(random: &mut Random, mut draft: Draft) -> Draft {
    match random.within(0, 5) {
        0 => draft.clear(),
        1 => draft.truncate(random.within(1, draft.len() as i64) as usize),
        2 => _ = draft.remove(0),
        3 => draft.extend(draft.clone()),
        4 => draft.reverse(),
        _ => draft.extend(draft[1..].to_vec().repeat(random.within(1, 8) as usize)),
    }
    if !draft.is_empty() && random.coin() {
        adapt(&mut draft);
    }
    draft
}

/// One or two, seldom more.
fn a_few(random: &mut Random) -> i64 {
    random.pick(&[1, 1, 1, 1, 2, 3])
}

/// A text made of a sheet's lines after the header.
pub fn text(random: &mut Random, rows: &[Row]) -> Vec<u8> {
    let mut draft: Draft = vec![[0, 2, rows.len() as u64, 1]];
    draft.extend(rows.iter().map(|row| row.map(u64::from)));
    let times = a_few(random);
    match random.within(0, 99) {
        // The lines changed and counted again: accepted, or 11.
        0..=49 => {
            edit(random, &mut draft, times);
            adapt(&mut draft);
            write(&draft)
        }
        // The count: 10.
        50..=59 => {
            miscount(random, &mut draft);
            write(&draft)
        }
        // The header.
        60..=63 => {
            change_header(random, &mut draft);
            write(&draft)
        }
        // The bytes: 9.
        64..=81 => {
            let mut text = write(&draft);
            damage(random, &mut text, times);
            text
        }
        82..=85 => write(&cut_or_joined(random, draft)),
        // Several of these.
        _ => several(random, draft, times),
    }
}

fn several(random: &mut Random, mut draft: Draft, times: i64) -> Vec<u8> {
    if random.coin() {
        edit(random, &mut draft, times);
    }
    if random.coin() {
        adapt(&mut draft);
    }
    if random.coin() {
        miscount(random, &mut draft);
    }
    if random.coin() {
        change_header(random, &mut draft);
    }
    let mut text = write(&draft);
    if random.coin() {
        damage(random, &mut text, 1);
    }
    text
}

/// Texts of more lines than 8 or 16 bits count, with the count and with its lower bits alone.
pub fn long() -> Vec<Vec<u8>> {
    let mut texts = Vec::new();
    for lines in [256, 65_536] {
        for (count, kind) in [(lines, 1), (0, 1), (1, 4), (lines + 1, 2)] {
            let mut draft: Draft = vec![[0, 2, count, 1]];
            draft.extend((0..lines).map(|i| [kind, 0, i % 20 + 1, if kind == 4 { 0 } else { 1 }]));
            texts.push(write(&draft));
        }
    }
    texts
}
