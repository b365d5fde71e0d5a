//! Both sides of a boundary: two situations that differ in one word, between which one item of the decision changes. Of a float the two values are neighbours.

use super::List;
use crate::compare::{back, exact, order, plain, shrink, Answer};
use crate::decision::{Decision, Place};
use crate::generate::{self, Class};
use crate::random::Random;
use crate::situation::*;
use std::collections::BTreeMap;

/// The value that is moved: a word, or an earlier x or y.
#[derive(Clone, Copy)]
enum Moved {
    Word(usize),
    X(usize),
    Y(usize),
}

const SIZES: [&str; 14] = [
    "length",
    "width",
    "goal width",
    "goal height",
    "goal area length",
    "goal area width",
    "penalty area length",
    "penalty area width",
    "penalty mark distance",
    "center circle radius",
    "border strip width",
    "mark radius",
    "line width",
    "ball radius",
];

impl Moved {
    fn name(self) -> &'static str {
        let of_pose = |names: [&'static str; 5], i: usize| names[i % 5];
        match self {
            Moved::X(_) => "earlier x",
            Moved::Y(_) => "earlier y",
            Moved::Word(i) => match i {
                0..=13 => SIZES[i],
                14 => "distance",
                15 => "ends",
                16 => "stopped",
                17 => "phase",
                18 => "state",
                19 => "set play",
                20 => "kicking side",
                21 | 22 => "goalkeeper",
                23..=62 => "penalty",
                63..=262 => of_pose(["presence", "x", "y", "theta", "radius"], i - 63),
                263..=462 => of_pose(["reference", "reference x", "reference y", "reference theta", "reference radius"], i - 263),
                463..=502 => "allowance",
                503..=542 => "previously inside",
                _ => later_name(i),
            },
        }
    }

    fn get(self, s: &Situation) -> u32 {
        match self {
            Moved::Word(i) => s.to_words(None)[i],
            Moved::X(k) => s.xs[k].to_bits(),
            Moved::Y(k) => s.ys[k].to_bits(),
        }
    }

    /// The word of the player whose number is greater by so many, and after 20 begins again.
    fn renumbered(self, by: usize) -> Moved {
        let of = |i: usize, first: usize, words: usize| {
            let (player, word) = ((i - first) / words, (i - first) % words);
            let (side, number) = (player / PLAYERS, player % PLAYERS);
            Moved::Word(first + (side * PLAYERS + (number + by) % PLAYERS) * words + word)
        };
        match self {
            Moved::Word(i @ 23..=62) => of(i, 23, 1),
            Moved::Word(i @ 63..=262) => of(i, 63, 5),
            Moved::Word(i @ 263..=462) => of(i, 263, 5),
            Moved::Word(i @ 463..=502) => of(i, 463, 1),
            Moved::Word(i @ 503..=542) => of(i, 503, 1),
            other => other,
        }
    }

    /// The situation with another value there, if it has the place.
    fn set(self, s: &Situation, bits: u32) -> Option<Situation> {
        let mut t = s.clone();
        match self {
            Moved::X(k) => *t.xs.get_mut(k)? = f32::from_bits(bits),
            Moved::Y(k) => *t.ys.get_mut(k)? = f32::from_bits(bits),
            Moved::Word(i) => {
                let mut words = s.to_words(None);
                words[i] = bits;
                return Situation::from_words(&words, t.xs, t.ys);
            }
        }
        Some(t)
    }
}

fn later_name(i: usize) -> &'static str {
    match i {
        543 => "ball x",
        544 => "ball y",
        545 => "ball z",
        546 => "last contact",
        547 => "restart",
        548 => "restart's kind",
        549 => "restart's set play",
        550 => "restart's side",
        551 => "restart's kicker",
        552 | 553 => "kick position",
        554 => "other touch",
        555 => "touched outside the circle",
        556 => "touched far from the kick",
        557 => "ball moved since the kick",
        558 => "invalid goals",
        559 => "rested",
        560 => "wish",
        561 => "wished side",
        _ => "wished player",
    }
}

fn decided(s: &Situation) -> Option<Decision> {
    match exact(s) {
        Answer::Decided(decision) => Some(decision),
        Answer::Refused(_) => None,
    }
}

fn set_play_name(set_play: u8) -> &'static str {
    match set_play {
        KICK_OFF => "kick-off",
        PENALTY_KICK => "penalty kick",
        GOAL_KICK => "goal kick",
        _ => "another set play",
    }
}

/// The least and the greatest of two.
fn sorted(a: u8, b: u8) -> String {
    format!("{} and {}", a.min(b), a.max(b))
}

/// What a verdict depends on besides the limit: whether the player's side kicks, and, where it must not stand on the mark, the state.
fn whose(s: &Situation, side: usize, at: &str) -> &'static str {
    match s.kicking_side {
        Some(kicking) if usize::from(kicking) == side && s.state == SET && at == "mark" => "kicking, Set",
        Some(kicking) if usize::from(kicking) == side => "kicking",
        _ => "not kicking",
    }
}

/// The set plays that have the limit in common.
fn set_play_at(set_play: u8, at: &str) -> &'static str {
    match set_play {
        KICK_OFF | PENALTY_KICK => set_play_name(set_play),
        GOAL_KICK if at.contains("opponents") => set_play_name(set_play),
        _ => "free kick",
    }
}

/// The lines and circles of document 01 that a player is on, closer than a millimetre, of those that its verdict may turn on in the set play.
fn limits(s: &Situation, side: usize, pose: Pose) -> Vec<&'static str> {
    let f = s.sizes;
    let sign = if (side == 0) == (s.sides == 0) { -1.0 } else { 1.0 };
    let (x, r, half_length) = (sign * pose.x, pose.radius, f[LENGTH] * 0.5);
    let (mark, area) = (half_length - f[PENALTY_MARK_DISTANCE], half_length - f[PENALTY_AREA_LENGTH]);
    let circle = |x: f32, size: usize| x.hypot(pose.y) - f[size] - r;
    let areas = [("opponents' area", x - area + r), ("own area", x + area - r), ("area's side", pose.y.abs() - f[PENALTY_AREA_WIDTH] * 0.5 - r)];
    let others = match s.set_play {
        KICK_OFF => vec![
            ("circle", circle(x, CENTER_CIRCLE_RADIUS)),
            ("mark", circle(x, MARK_RADIUS)),
            ("halfway line", x + f[LINE_WIDTH] * 0.5 + r),
        ],
        PENALTY_KICK => vec![
            ("circle", circle(x - mark, CENTER_CIRCLE_RADIUS)),
            ("mark", circle(x - mark, MARK_RADIUS)),
            ("own circle", circle(x + mark, CENTER_CIRCLE_RADIUS)),
            ("beyond the mark", x - mark),
            ("beyond the own mark", x + mark),
        ],
        _ => vec![
            ("distance from the ball", (pose.x - s.ball[0]).hypot(pose.y - s.ball[1]) - f[CENTER_CIRCLE_RADIUS] - r),
            ("goal line", (x + half_length - f[LINE_WIDTH] * 0.5).abs() - r),
            ("post", pose.y.abs() - f[GOAL_WIDTH] * 0.5),
            ("the ball's x", sign * s.ball[0] + area),
            ("the ball's y", s.ball[1].abs() - f[PENALTY_AREA_WIDTH] * 0.5),
        ],
    };
    let areas = areas.into_iter().filter(|_| s.set_play != KICK_OFF);
    others.into_iter().chain(areas).filter(|(_, distance)| distance.abs() < 0.001).map(|(name, _)| name).collect()
}

/// The situation is at one of the two values.
fn verdict_changes(s: &Situation, a: &Decision, b: &Decision) -> Vec<String> {
    let mut changes = Vec::new();
    for side in 0..2 {
        for i in (0..PLAYERS).filter(|&i| a.verdicts[side][i] != b.verdicts[side][i]) {
            let between = sorted(a.verdicts[side][i], b.verdicts[side][i]);
            let at = s.players[side][i].pose.map_or(Vec::new(), |pose| limits(s, side, pose)).join(" and ");
            changes.push(format!("verdict {between}, {}, {}, {at}", set_play_at(s.set_play, &at), whose(s, side, &at)));
        }
    }
    changes.dedup();
    changes
}

fn excess_change(a: &Decision, b: &Decision) -> Option<String> {
    let lengths = |d: &Decision| d.excess.each_ref().map(Vec::len);
    (a.excess != b.excess).then(|| if lengths(a) == lengths(b) { "excess, another player".into() } else { "excess, one more".into() })
}

fn kicker_change(s: &Situation, a: &Decision, b: &Decision) -> Option<String> {
    let what = match (a.kicker, b.kicker) {
        (a, b) if a == b => return None,
        (Some(_), Some(_)) => "another".to_string(),
        (kicker, other) => {
            let (side, number) = kicker.or(other)?;
            let pose = s.players[usize::from(side)][usize::from(number) - 1].pose;
            format!("or none, {}", pose.map_or(Vec::new(), |pose| limits(s, side.into(), pose)).join(" and "))
        }
    };
    Some(format!("kicker {what}, {}", set_play_name(s.set_play)))
}

fn ball_change(s: &Situation, a: &Decision, b: &Decision) -> Option<String> {
    let code = |d: &Decision| d.ball.map_or(0, |(code, _)| code);
    let shot = if s.phase == SHOOTOUT { ", shoot-out" } else { "" };
    (a.ball != b.ball).then(|| format!("ball {}{shot}", sorted(code(a), code(b))))
}

/// The three numbers of a place as the sheet has them: the sign of a zero, which it does not show, makes no pair.
fn numbers(place: Option<Place>) -> Option<[u32; 3]> {
    place.map(|place| place.rows().map(|[_, _, _, value]| value))
}

fn place_change(s: &Situation, a: &Decision, b: &Decision) -> Option<String> {
    let wish = s.to_words(None)[560];
    match (numbers(a.place), numbers(b.place)) {
        (None, None) => None,
        (Some(p), Some(q)) if p == q => None,
        (Some(p), Some(q)) => {
            let which: Vec<&str> = ["x", "y", "third"].into_iter().enumerate().filter(|&(i, _)| p[i] != q[i]).map(|(_, name)| name).collect();
            Some(format!("place by wish {wish}, {}", which.join(" and ")))
        }
        _ => Some(format!("place by wish {wish} or none")),
    }
}

/// What changes from one decision to the other.
fn changes(s: &Situation, a: &Decision, b: &Decision) -> Vec<String> {
    let mut all = verdict_changes(s, a, b);
    all.extend(excess_change(a, b));
    all.extend(kicker_change(s, a, b));
    all.extend((a.leaving != b.leaving).then(|| "leaving".to_string()));
    all.extend((a.moved != b.moved).then(|| "moved".to_string()));
    all.extend(ball_change(s, a, b));
    all.extend(place_change(s, a, b));
    all
}

/// The single change between the two values, if both are accepted and there is one. A verdict and the kicker may turn on the same limit.
fn change(s: &Situation, moved: Moved, low: u32, high: u32) -> Option<String> {
    let s = moved.set(s, low)?;
    let (a, b) = (decided(&s)?, decided(&moved.set(&s, high)?)?);
    let mut all = changes(&s, &a, &b);
    match &all[..] {
        [_] => all.pop(),
        [verdict, kicker] if verdict.starts_with("verdict") && kicker.starts_with("kicker or none") => Some(format!("{verdict}, with {kicker}")),
        _ => None,
    }
}

/// Whether the place stays as the value goes on a thousand floats. Where it does on neither side, it merely follows the value.
fn settled(s: &Situation, moved: Moved, from: i64, towards: i64) -> bool {
    let place = |at: i64| moved.set(s, back(at)).and_then(|t| decided(&t)).map(|d| numbers(d.place));
    place(from) == place(from + 1000 * towards)
}

fn draw_float(random: &mut Random, s: &Situation) -> Moved {
    let words = s.to_words(None);
    let mut all: Vec<Moved> = (0..WORDS)
        .filter(|&i| match i {
            0..=14 | 543..=545 => true,
            63..=462 => (i - 63) % 5 != 0 && words[63 + (i - 63) / 5 * 5] == 1,
            463..=502 => words[63 + (i - 463) * 5] == 1,
            _ => false,
        })
        .map(Moved::Word)
        .collect();
    all.extend((0..s.xs.len()).flat_map(|k| [Moved::X(k), Moved::Y(k)]));
    random.pick(&all)
}

fn other_float(random: &mut Random, bits: u32) -> u32 {
    let here = f32::from_bits(bits);
    match random.within(0, 3) {
        0 => here + random.within(-1000, 1000) as f32 / 4096.0,
        1 => -here,
        2 => random.within(-16 * 64, 16 * 64) as f32 / 64.0,
        _ => here + random.within(-1000, 1000) as f32 / 256.0,
    }
    .to_bits()
}

/// Neighbouring values between which the decision changes, if it does between these two.
fn bisected(s: &Situation, moved: Moved, a: u32, b: u32) -> Option<(u32, u32)> {
    let sheet = |bits: u32| Some(decided(&moved.set(s, bits)?)?.sheet());
    let (low, high) = (sheet(a)?, sheet(b)?);
    if low == high {
        return None;
    }
    let (mut low_at, mut high_at) = (order(a), order(b));
    while (low_at - high_at).abs() > 1 {
        let middle = low_at + (high_at - low_at) / 2;
        if sheet(back(middle))? == low {
            low_at = middle;
        } else {
            high_at = middle;
        }
    }
    let beyond = (high_at - low_at).signum();
    let either = settled(s, moved, low_at, -beyond) || settled(s, moved, high_at, beyond);
    either.then(|| (back(low_at), back(high_at)))
}

/// A word that is no float, and another of its column's values.
fn draw_other(random: &mut Random, s: &Situation) -> (Moved, u32, u32) {
    let group = random.pick(&[(15, 22), (23, 62), (63, 262), (263, 462), (503, 542), (546, 551), (554, 559)]);
    loop {
        let i = random.within(group.0, group.1) as usize;
        if values(i) < 1 << 32 {
            let other = match i {
                21 | 22 | 551 => random.pick(&[256, 1, 2, 3, 4, 5]),
                _ => random.within(0, values(i) as i64 - 1) as u32,
            };
            return (Moved::Word(i), s.to_words(None)[i], other);
        }
    }
}

/// A change without its details.
fn item(change: &str) -> String {
    let words = if change.starts_with("place by") { 4 } else { 1 };
    change.split(' ').take(words).collect::<Vec<_>>().join(" ").replace(',', "")
}

const COORDINATES: [&str; 5] = ["x", "y", "ball x", "ball y", "ball z"];

/// What a pair stands for. The details and the sign count for where a player or the ball is; by what coordinate a player comes to a line or a circle does
/// not. Who kicks decides otherwise in each set play. Of two changes by another word that differ in their details alone, one is enough.
fn key(moved: Moved, value: u32, changed: &str) -> String {
    let name = moved.name();
    if name == "kicking side" && changed.starts_with("verdict") {
        return format!("{name}: {}", changed.split(',').take(2).collect::<Vec<_>>().join(","));
    }
    if !COORDINATES.contains(&name) {
        return format!("{name}: {}", item(changed));
    }
    let sign = if value >> 31 == 1 { "-" } else { "+" };
    match name {
        "x" | "y" if changed.starts_with("verdict") => format!("{sign}coordinate: {changed}"),
        "x" | "y" if changed.starts_with("excess") || changed.starts_with("kicker") => format!("{name}: {changed}"),
        _ => format!("{sign}{name}: {changed}"),
    }
}

/// How many pairs of the key are wanted: none where it is not clear what a verdict turns on; an angle turns on how it is rounded; what a place depends on
/// besides floats is seen among the lines.
fn wanted(moved: Moved, changed: &str) -> usize {
    let details = COORDINATES.contains(&moved.name()) && (changed.starts_with("verdict") || changed.starts_with("kicker"));
    match moved {
        _ if details && (changed.ends_with(", ") || changed.contains(", ,") || changed[12..].contains(" and ")) => 0,
        Moved::Word(15..=22 | 546..=559) if changed.starts_with("place") => 0,
        Moved::Word(_) if ["theta", "reference theta"].contains(&moved.name()) => 3,
        _ => 1,
    }
}

/// A word with its two values, and what changes between them.
#[derive(Clone)]
struct Member {
    moved: Moved,
    low: u32,
    high: u32,
    key: String,
}

/// Words that can be moved one by one, each with its own change, from a situation in which all have their low values.
#[derive(Clone)]
struct Pair {
    base: Situation,
    members: Vec<Member>,
}

impl Pair {
    fn high(&self) -> Situation {
        self.members.iter().fold(self.base.clone(), |s, m| m.moved.set(&s, m.high).expect("a situation"))
    }

    /// Whether each word, moved alone from either end, makes its own change and no other.
    fn holds(&self) -> bool {
        let high = self.high();
        self.members.iter().all(|m| {
            [&self.base, &high].into_iter().all(|s| change(s, m.moved, m.low, m.high).is_some_and(|changed| key(m.moved, m.low, &changed) == m.key))
        })
    }

    /// Both in one, where they have no word in common and do not disturb each other.
    fn merged(&self, other: &Pair) -> Option<Pair> {
        const MOST: usize = 8;
        if self.members.len() + other.members.len() > MOST || !(self.base.xs.is_empty() || other.base.xs.is_empty()) {
            return None;
        }
        let (mine, theirs, plain) = (self.base.to_words(None), other.base.to_words(None), plain().to_words(None));
        let mut words = mine;
        for i in 0..WORDS {
            let (i_have, they_have) = (mine[i] != plain[i] || self.moves(i), theirs[i] != plain[i] || other.moves(i));
            if i_have && they_have && (mine[i] != theirs[i] || self.moves(i) || other.moves(i)) {
                return None;
            }
            words[i] = if they_have { theirs[i] } else { mine[i] };
        }
        let lists = if self.base.xs.is_empty() { &other.base } else { &self.base };
        let base = Situation::from_words(&words, lists.xs.clone(), lists.ys.clone())?;
        let pair = Pair { base, members: self.members.iter().chain(&other.members).cloned().collect() };
        pair.holds().then_some(pair)
    }

    /// The same with other numbers of the players, where no number is named.
    fn renumbered(&self, by: usize) -> Pair {
        let mut base = self.base.clone();
        for side in &mut base.players {
            side.rotate_right(by);
        }
        let members = self.members.iter().map(|m| Member { moved: m.moved.renumbered(by), ..m.clone() }).collect();
        Pair { base, members }
    }

    fn moves(&self, i: usize) -> bool {
        self.members.iter().any(|m| matches!(m.moved, Moved::Word(j) if i == j))
    }
}

/// Adds a pair to the first with which it merges, under its players' numbers or others, or as one more.
fn insert(pairs: &mut Vec<Pair>, pair: Pair) {
    for earlier in pairs.iter_mut() {
        let merged = (0..PLAYERS).step_by(3).find_map(|by| earlier.merged(&pair.renumbered(by)));
        if let Some(merged) = merged {
            *earlier = merged;
            return;
        }
    }
    pairs.push(pair);
}

/// Situations of few places: the original is quick. Two of three are on the field of case A, so that pairs merge.
fn draw(random: &mut Random) -> Situation {
    let class = random.pick(&[Class::Realistic, Class::Grid, Class::Boundary, Class::Sizes, Class::Places]);
    let mut s = generate::situation(random, class);
    s.xs.truncate(12);
    s.ys.truncate(12);
    if random.within(0, 2) > 0 {
        s.sizes = plain().sizes;
    }
    if s.distance > 0.0 && s.distance < 0.2 {
        s.distance = 0.25;
    }
    if random.within(0, 15) == 0 {
        aim_at_mark(random, &mut s);
    }
    s
}

/// A player of the kicking side about the mark, alone and in Set: the classes seldom have one.
fn aim_at_mark(random: &mut Random, s: &mut Situation) {
    let side = random.within(0, 1) as u8;
    (s.phase, s.state, s.set_play, s.kicking_side) = (0, SET, random.pick(&[KICK_OFF, PENALTY_KICK]), Some(side));
    let sign = if side == s.sides { -1.0 } else { 1.0 };
    let mark = if s.set_play == KICK_OFF { 0.0 } else { sign * (s.sizes[LENGTH] * 0.5 - s.sizes[PENALTY_MARK_DISTANCE]) };
    let radius = random.pick(&[0.25, 0.3, 0.125]);
    let distance = s.sizes[MARK_RADIUS] + radius;
    let part = |random: &mut Random| random.within(-64, 64) as f32 / 64.0;
    let pose = Pose { x: mark + part(random) * distance, y: part(random) * distance, theta: 0.0, radius };
    s.players = [[NOBODY; PLAYERS]; 2];
    s.players[usize::from(side)][random.within(0, 19) as usize].pose = Some(pose);
}

/// A pair that differs in one word: where, and both values.
fn draw_pair(random: &mut Random, s: &Situation) -> Option<(Moved, u32, u32)> {
    if random.within(0, 3) == 0 {
        return Some(draw_other(random, s)).filter(|(_, a, b)| a != b);
    }
    let moved = draw_float(random, s);
    let a = moved.get(s);
    let b = other_float(random, a);
    let small = |bits: u32| f32::from_bits(bits) > 0.0 && f32::from_bits(bits) < 0.1;
    // A small distance takes the original long.
    if matches!(moved, Moved::Word(14)) && small(b) {
        return None;
    }
    let (low, high) = bisected(s, moved, a, b)?;
    Some((moved, low, high))
}

const TURNS: u64 = 500_000;

/// Pairs for each word's name and each change that the search finds, each as small as it gets; up to eight in one.
pub fn add(list: &mut List, random: &mut Random) {
    let mut found: BTreeMap<String, usize> = BTreeMap::new();
    let mut pairs = Vec::new();
    for _ in 0..TURNS {
        let s = draw(random);
        let Some((moved, low, high)) = draw_pair(random, &s) else { continue };
        let Some(changed) = change(&s, moved, low, high) else { continue };
        let key = key(moved, low, &changed);
        let count = found.entry(key.clone()).or_default();
        *count += 1;
        if *count > wanted(moved, &changed) {
            continue;
        }
        let small = shrink(&s, |t| change(t, moved, low, high).as_deref() == Some(&changed));
        let base = moved.set(&small, low).expect("a situation");
        let pair = Pair { base, members: vec![Member { moved, low, high, key }] };
        insert(&mut pairs, pair);
    }
    for pair in &pairs {
        let why: Vec<&str> = pair.members.iter().map(|m| m.key.as_str()).collect();
        list.add("pairs", why.join("; "), &pair.base);
        list.add("pairs", why.join("; "), &pair.high());
    }
    print(&pairs, &found);
}

/// How many pairs of each word and change there are, of how many found.
fn print(pairs: &[Pair], found: &BTreeMap<String, usize>) {
    let mut counts: BTreeMap<&str, usize> = BTreeMap::new();
    for member in pairs.iter().flat_map(|pair| &pair.members) {
        *counts.entry(&member.key).or_default() += 1;
    }
    for (key, count) in &counts {
        eprintln!("{count:>6}  pairs, of {} found: {key}", found[*key]);
    }
    let members: usize = counts.values().sum();
    eprintln!("{members:>6}  pairs of words and changes, of {} kinds, in {} pairs of records", counts.len(), pairs.len());
}
