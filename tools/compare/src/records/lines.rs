//! Every kind of line with every value that it can have, and what it can depend on.

use super::List;
use crate::compare::{exact, plain, shrink, Answer};
use crate::decision::{Decision, Place};
use crate::generate::{self, CLASSES};
use crate::random::Random;
use crate::situation::*;
use std::collections::{BTreeMap, BTreeSet};

type Features = BTreeSet<String>;

fn features(s: &Situation) -> Features {
    match exact(s) {
        Answer::Refused(_) => Features::new(),
        Answer::Decided(d) => {
            let mut all = Features::new();
            add_rows(s, &d, &mut all);
            add_ball(s, &d, &mut all);
            add_motion(s, &d, &mut all);
            add_wish(s, &d, &mut all);
            all
        }
    }
}

/// Verdicts, excess, kicker and leaving.
fn add_rows(s: &Situation, d: &Decision, all: &mut Features) {
    for [kind, side, number, value] in d.rows() {
        let (set_play, state, phase) = (s.set_play, s.state, s.phase);
        match kind {
            1 => drop(all.insert(format!("verdict {value} side {side} set play {set_play} state {state}"))),
            2 => drop(all.insert(format!("excess rank {} side {side} state {state}", value.min(3)))),
            3 => drop(all.insert(format!("kicker side {side} set play {set_play} ends {}", s.sides))),
            4 => drop(all.insert(format!("leaving side {side}, {}", corner(s, side, number)))),
            _ => (),
        }
        let kind = kind.min(7);
        all.insert(format!("kind {kind} shoot-out {}", phase == SHOOTOUT));
        all.insert(format!("kind {kind} state {state}"));
    }
    all.insert(format!("phase {}", s.phase));
    if kicks_near_ball(s) {
        all.insert("a free kick, the kicking side near the ball".into());
    }
    if s.kicking_side.is_some() && d.kicker.is_none() {
        all.insert(format!("no kicker set play {}", s.set_play));
    }
}

/// Whether a player of the side that has a free kick is where no other may be.
fn kicks_near_ball(s: &Situation) -> bool {
    let free_kick = s.state == PLAYING && !s.stopped && s.phase != SHOOTOUT && [2, 3, 5, 6, 7].contains(&s.set_play);
    let near = |pose: Pose| (pose.x - s.ball[0]).hypot(pose.y - s.ball[1]) < s.sizes[CENTER_CIRCLE_RADIUS];
    let kicking = s.kicking_side.map(|side| &s.players[usize::from(side)]);
    free_kick && kicking.is_some_and(|players| players.iter().any(|p| p.penalty == 0 && p.pose.is_some_and(near)))
}

/// Which way a player is farthest out.
fn corner(s: &Situation, side: u32, number: u32) -> &'static str {
    let Some(pose) = s.players[side as usize][number as usize - 1].pose else { return "absent" };
    let along = pose.x.abs() - s.sizes[LENGTH] * 0.5 > pose.y.abs() - s.sizes[WIDTH] * 0.5;
    match (along, if along { pose.x > 0.0 } else { pose.y > 0.0 }) {
        (true, true) => "positive x",
        (true, false) => "negative x",
        (false, true) => "positive y",
        (false, false) => "negative y",
    }
}

fn add_ball(s: &Situation, d: &Decision, all: &mut Features) {
    let Some((code, side)) = d.ball else { return };
    let contact = s.last_contact.map_or(2, u8::from);
    if s.phase == SHOOTOUT {
        let beyond = s.ball[0].abs() > s.sizes[LENGTH] * 0.5 + s.sizes[BALL_RADIUS];
        let aside = s.ball[1].abs() > s.sizes[WIDTH] * 0.5 + s.sizes[BALL_RADIUS];
        all.insert(format!("shoot-out: ball {code} side {side} ends {} goal line {beyond} touchline {}", s.sides, aside && code != 1));
        return;
    }
    all.insert(format!("ball {code} side {side} ends {}", s.sides));
    let in_goal = s.ball[1].abs() + s.sizes[BALL_RADIUS] < s.sizes[GOAL_WIDTH] * 0.5
        && s.ball[2] + s.sizes[BALL_RADIUS] < s.sizes[GOAL_HEIGHT]
        && s.ball[0].abs() > s.sizes[LENGTH] * 0.5 + s.sizes[BALL_RADIUS];
    if !in_goal {
        all.insert(format!("ball {code} side {side} contact {contact}"));
        return;
    }
    let judged = match s.restart {
        Some(r) if s.invalid_goals && !r.flags[0] => {
            // A goal kick is the other side's answer to what would be a goal.
            let own = r.side == if code == 2 { 1 - side } else { side };
            let touches = match (r.kind, own) {
                (0, true) if r.flags[1] => format!("touched, {} play", on_field(s, r.side).clamp(1, 4)),
                (1, true) if r.flags[2] => "touched".to_string(),
                _ => String::new(),
            };
            let own = if own { "scoring" } else { "other" };
            format!("restart kind {} of the {own} side {touches}", r.kind)
        }
        Some(_) if s.invalid_goals => "another touch".to_string(),
        Some(_) => "not judged".to_string(),
        None => "no restart".to_string(),
    };
    all.insert(format!("in the goal: ball {code}, {judged}"));
}

fn on_field(s: &Situation, side: u8) -> usize {
    s.players[usize::from(side)].iter().filter(|p| p.penalty == 0 && p.pose.is_some()).count()
}

fn add_motion(s: &Situation, d: &Decision, all: &mut Features) {
    for &(side, number) in &d.moved {
        let player = &s.players[usize::from(side)][usize::from(number) - 1];
        if let (Some(p), Some(r)) = (player.pose, player.reference) {
            let far = (p.x - r.x).abs() > 0.1 || (p.y - r.y).abs() > 0.1;
            all.insert(format!("moved side {side}, {}", if far { "a coordinate" } else { "both or turned" }));
        }
    }
}

fn add_wish(s: &Situation, d: &Decision, all: &mut Features) {
    let placed = if d.place.is_some() { "placed" } else { "none" };
    let kicking = s.kicking_side.unwrap_or(2);
    let present = |side: u8, number: u8| s.players[usize::from(side)][usize::from(number) - 1].pose.is_some();
    let what = match s.wish {
        Wish::Nothing => return,
        Wish::BallAtRestart if s.set_play == INDIRECT_FREE_KICK => format!("set play 3 kicking {kicking} moved {}", ball_moved(s, d)),
        // A direct free kick is taken where the ball is.
        Wish::BallAtRestart if s.set_play == 2 => "set play 2".to_string(),
        Wish::BallAtRestart => format!("set play {} {}", s.set_play, signs(d)),
        Wish::BallInSet if s.phase == SHOOTOUT => format!("shoot-out kicking {kicking} {}", signs(d)),
        Wish::BallInSet if d.place.is_some() => format!("set play {} kicking {kicking} {}", s.set_play, signs(d)),
        Wish::BallInSet => format!("set play {}", s.set_play),
        Wish::Penalty(side, _) if d.place.is_some() => format!("side {side} {}", signs(d)),
        Wish::PenaltyShot(side, _) if d.place.is_some() => format!("side {side} kicking {kicking}"),
        Wish::Penalty(side, number) | Wish::PenaltyShot(side, number) => format!("present {}", present(side, number)),
        Wish::Goalkeeper(side) if d.place.is_some() => {
            all.insert(format!("wish 5: {}", keeper(s, d, side)));
            format!("side {side} {}", signs(d))
        }
        Wish::Goalkeeper(side) => keeper(s, d, side).to_string(),
    };
    let wish = s.to_words(None)[560];
    all.insert(format!("wish {wish}: {placed}, {what}"));
    all.insert(format!("wish {wish} {placed}, ends {}", s.sides));
    add_edge_of_place(s, d, all);
}

/// A penalty place next to the halfway line or the goal line, and one that is not clear; where a free kick is about the penalty area.
fn add_edge_of_place(s: &Situation, d: &Decision, all: &mut Features) {
    match (s.wish, d.place, s.kicking_side) {
        (Wish::Penalty(side, number), Some(Place::Player { x, y, .. }), _) => {
            let radius = s.players[usize::from(side)][usize::from(number) - 1].pose.map_or(0.0, |pose| pose.radius);
            let step = if s.distance.is_finite() { s.distance.max(0.0) } else { 0.0 };
            let crowded = nearest(s, (side, number), x, y) < step;
            // With a step more it would touch the halfway line.
            if crowded && x.abs() < radius + step && x.abs() > radius && step - x.abs() <= radius {
                all.insert(format!("wish 3: side {side}, last before the halfway line"));
            }
            if crowded && x.abs() > s.sizes[LENGTH] * 0.5 - radius - step {
                all.insert(format!("wish 3: side {side}, last before the goal line"));
            }
        }
        (Wish::BallAtRestart, Some(_), Some(kicking)) if s.set_play == INDIRECT_FREE_KICK => add_free_kick(s, kicking, all),
        _ => (),
    }
}

/// How far the nearest other player or earlier place is.
fn nearest(s: &Situation, who: (u8, u8), x: f32, y: f32) -> f32 {
    let others = (0..2u8).flat_map(|side| (1..=20u8).map(move |number| (side, number))).filter(|&other| other != who);
    let poses = others.filter_map(|(side, number)| s.players[usize::from(side)][usize::from(number) - 1].pose).map(|pose| (pose.x, pose.y));
    let places = s.xs.iter().copied().zip(s.ys.iter().copied());
    poses.chain(places).map(|(px, py)| (px - x).hypot(py - y)).fold(f32::INFINITY, f32::min)
}

/// Where a free kick is about the opponents' penalty area; an area that ends at the halfway line.
fn add_free_kick(s: &Situation, kicking: u8, all: &mut Features) {
    let [x, y, _] = s.ball;
    let line = s.sizes[LENGTH] * 0.5 - s.sizes[PENALTY_AREA_LENGTH] + s.sizes[LINE_WIDTH] * 0.5;
    let half_width = s.sizes[PENALTY_AREA_WIDTH] * 0.5 - s.sizes[LINE_WIDTH] * 0.5;
    let sign = if kicking == s.sides { -1.0 } else { 1.0 };
    let beside = if y > half_width { "above" } else if y < -half_width { "below" } else { "within" };
    all.insert(format!("wish 1: free kick beyond the line {}, {beside} the area", sign * x > line));
    if line == 0.0 && x == 0.0 && beside == "within" {
        all.insert(format!("wish 1: free kick, a line at 0, x {x:?}, kicking {}", kicking == s.sides));
    }
}

fn ball_moved(s: &Situation, d: &Decision) -> bool {
    matches!(d.place, Some(Place::Ball(at)) if at[0].to_bits() != s.ball[0].to_bits())
}

/// The signs of a place's x and y as the sheet shows them: a zero has none, and counts as positive.
fn signs(d: &Decision) -> String {
    let sign = |x: f32| if x < 0.0 { "-" } else { "+" };
    match d.place {
        None => String::new(),
        Some(Place::Ball([x, y, _]) | Place::Player { x, y, .. }) => format!("{}{}", sign(x), sign(y)),
    }
}

/// Why a goalkeeper is not placed, or how.
fn keeper(s: &Situation, d: &Decision, side: u8) -> &'static str {
    let Some(number) = s.goalkeepers[usize::from(side)] else { return "nobody" };
    let player = &s.players[usize::from(side)][usize::from(number) - 1];
    let Some(pose) = player.pose else { return "absent" };
    if player.penalty != 0 {
        return "penalised";
    }
    if d.place.is_none() {
        return "on the line";
    }
    let most = s.sizes[GOAL_WIDTH] * 0.5 - pose.radius;
    match (most < 0.0, pose.y > most, pose.y < -most) {
        (true, ..) => "no room in the goal",
        (_, true, _) => "above the goal",
        (_, _, true) => "below the goal",
        _ => "before the goal",
    }
}

/// A small situation with the property, from the classes in turn.
pub fn showing(random: &mut Random, tries: u64, holds: impl Fn(&Situation) -> bool) -> Option<Situation> {
    (0..tries).map(|turn| generate::situation(random, CLASSES[(turn % CLASSES.len() as u64) as usize])).find(|s| holds(s)).map(|s| shrink(&s, holds))
}

const BATCH: usize = 2_000;
const BATCHES: usize = 400;

/// Of each batch the situation that shows most of what no record shows yet, made small as long as it shows that.
pub fn add(list: &mut List, random: &mut Random) {
    let mut shown: Features = list.records.iter().filter_map(|r| r.question.situation()).flat_map(|s| features(&s)).collect();
    let missing = |shown: &Features, s: &Situation| features(s).difference(shown).cloned().collect::<Features>();
    for batch in 0..BATCHES {
        let class = CLASSES[batch % CLASSES.len()];
        let mut best = (Features::new(), plain());
        for _ in 0..BATCH {
            let s = generate::situation(random, class);
            let new = if s.xs.len() < 50 { missing(&shown, &s) } else { Features::new() };
            if new.len() > best.0.len() {
                best = (new, s);
            }
        }
        let (new, s) = best;
        if new.is_empty() {
            continue;
        }
        let small = shrink(&s, |t| new.is_subset(&features(t)));
        shown.extend(features(&small));
        list.add("lines", new.into_iter().collect::<Vec<_>>().join("; "), &small);
    }
    add_longest(list, random);
}

/// The longest sheet among some situations.
fn add_longest(list: &mut List, random: &mut Random) {
    let rows = |s: &Situation| match exact(s) {
        Answer::Refused(_) => 0,
        Answer::Decided(d) => d.rows().len(),
    };
    let mut drawn = (0..3_000).map(|turn| generate::situation(random, CLASSES[turn % CLASSES.len()])).filter(|s| s.xs.len() < 20);
    let first = drawn.next().expect("a situation");
    let longest = drawn.fold((rows(&first), first), |best, s| {
        let n = rows(&s);
        if n > best.0 { (n, s) } else { best }
    });
    list.add("lines", format!("a sheet of {} lines", longest.0 + 1), &longest.1);
}

/// Prints how many records show each feature, each kind of line and each refusal; says whether none that must be there is missing.
pub fn print(list: &List) -> bool {
    let mut counts: BTreeMap<String, usize> = BTreeMap::new();
    for record in &list.records {
        let mut seen: Features = record.question.situation().map_or_else(Features::new, |s| features(&s));
        seen.extend(answer_features(&record.question.answer(record.room), record.question.kind()));
        seen.into_iter().for_each(|feature| *counts.entry(feature).or_default() += 1);
    }
    for (feature, count) in &counts {
        eprintln!("{count:>6}  records show: {feature}");
    }
    eprintln!("{:>6}  features, of which {} are needed", counts.len(), needed().len());
    let missing: Vec<String> = needed().into_iter().filter(|feature| !counts.contains_key(feature)).collect();
    missing.iter().for_each(|feature| eprintln!("NOT SHOWN: {feature}"));
    missing.is_empty()
}

/// A line as kind, side and what the value or the number tells; the refusal.
fn answer_features(answer: &str, kind: usize) -> Features {
    let numbers = |line: &str| line.split_whitespace().filter_map(|n| n.parse::<u64>().ok()).collect::<Vec<u64>>();
    if kind == 2 {
        let list = numbers(answer);
        return Features::from([if list[0] == 0 { format!("candidates refused {}", list[1]) } else { "candidates".to_string() }]);
    }
    answer
        .lines()
        .filter_map(|line| match numbers(line)[..] {
            [kind @ 1, side, _, value] => Some(format!("line {kind} side {side} value {value}")),
            [kind @ 6, side, code, _] => Some(format!("line {kind} side {side} number {code}")),
            [kind, side, _, _] if kind > 0 => Some(format!("line {kind} side {side}")),
            [refusal] => Some(format!("refused {refusal}")),
            _ => None,
        })
        .collect()
}

/// What document 01's section on the sheet and its table of refusals have.
fn needed() -> Features {
    let mut all = Features::new();
    for side in 0..2 {
        all.extend((1..=3).map(|value| format!("line 1 side {side} value {value}")));
        all.extend((2..=5).chain(7..=9).map(|kind| format!("line {kind} side {side}")));
        all.extend((1..=4).map(|code| format!("line 6 side {side} number {code}")));
        all.extend((1..=5).flat_map(|wish| ["placed", "none"].map(|placed| format!("wish {wish} {placed}, ends {side}"))));
    }
    all.insert("line 6 side 2 number 5".into());
    all.extend((7..=9).map(|kind| format!("line {kind} side 2")));
    all.extend([1, 2, 3, 4, 5, 7].map(|n| format!("refused {n}")));
    all.extend(["candidates", "candidates refused 5", "candidates refused 6"].map(String::from));
    all.insert("a free kick, the kicking side near the ball".into());
    all.extend(needed_verdicts());
    all.extend(needed_goals());
    all
}

/// Every verdict of each side in each set play and state that has it; excess and kickers.
fn needed_verdicts() -> Features {
    let mut all = Features::new();
    for side in 0..2 {
        for state in [SET, PLAYING] {
            for set_play in [KICK_OFF, PENALTY_KICK] {
                all.extend([1, 2].map(|value| format!("verdict {value} side {side} set play {set_play} state {state}")));
            }
            all.extend([1, 2, 3].map(|rank| format!("excess rank {rank} side {side} state {state}")));
        }
        all.extend([2, 3, 5, 6, 7].map(|set_play| format!("verdict 3 side {side} set play {set_play} state {PLAYING}")));
        for ends in 0..2 {
            all.extend([KICK_OFF, PENALTY_KICK].map(|set_play| format!("kicker side {side} set play {set_play} ends {ends}")));
            all.extend([1, 2, 3, 4].map(|code| format!("ball {code} side {side} ends {ends}")));
        }
        all.extend(["positive x", "negative x", "positive y", "negative y"].map(|way| format!("leaving side {side}, {way}")));
    }
    all
}

/// Every way in which a ball in the goal is judged.
fn needed_goals() -> Features {
    let goals = ["no restart", "not judged", "another touch"].map(String::from).into_iter();
    let scored = ["0 of the scoring side touched, 2 play", "1 of the scoring side touched", "2 of the scoring side ", "3 of the scoring side ", "3 of the other side "];
    let goal_kicks = ["0 of the scoring side ", "0 of the scoring side touched, 3 play", "1 of the scoring side "];
    let corners = ["0 of the other side ", "1 of the other side ", "2 of the other side "];
    let restart = |code: u8| move |kind: &str| format!("in the goal: ball {code}, restart kind {kind}");
    goals
        .map(|judged| format!("in the goal: ball 1, {judged}"))
        .chain(scored.map(restart(1)))
        .chain(goal_kicks.map(restart(2)))
        .chain(corners.map(restart(3)))
        .collect()
}
