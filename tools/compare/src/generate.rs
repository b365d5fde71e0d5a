//! Situations of each class, determined by a seed.

use crate::random::Random;
use crate::situation::*;
use std::f32::consts::PI;

#[derive(Clone, Copy, Debug, PartialEq)]
pub enum Class {
    /// A usual field, players where play takes them.
    Realistic,
    /// All enums, flags and floats drawn on their own.
    Random,
    /// Coordinates that are multiples of 1/16: equal margins, distances and clearances.
    Grid,
    /// Coordinates on a line, a circle or another limit, moved by 0, 1 or 2 floats.
    Boundary,
    /// Sizes of -0, 0, 4, 64 and the like.
    Sizes,
    /// A value that a refusal forbids, or just does not.
    Refusal,
    /// A penalty place among many others.
    Places,
    /// Distances close to a point halfway between two floats, at the limit that they are compared with.
    Halfway,
}

pub const CLASSES: [Class; 8] = [
    Class::Realistic,
    Class::Random,
    Class::Grid,
    Class::Boundary,
    Class::Sizes,
    Class::Refusal,
    Class::Places,
    Class::Halfway,
];

/// Fields as they are played on; the first is case A's.
const FIELDS: [[f32; 14]; 4] = [
    [14.0, 9.0, 2.5, 1.75, 1.0, 4.0, 3.0, 6.0, 2.0, 1.5, 1.0, 0.0625, 0.0625, 0.125],
    [9.0, 6.0, 2.6, 1.2, 1.0, 3.0, 2.0, 5.0, 1.5, 0.75, 1.0, 0.05, 0.05, 0.07],
    [14.0, 9.0, 2.6, 1.8, 1.0, 4.0, 3.0, 6.0, 2.1, 1.5, 1.0, 0.1, 0.05, 0.11],
    [22.0, 14.0, 2.6, 1.8, 0.75, 3.9, 2.25, 6.9, 3.6, 2.0, 1.0, 0.06, 0.08, 0.11],
];

/// x moved by n floats, in the order of their values; it stays finite for the values used here.
pub fn moved(x: f32, n: i64) -> f32 {
    let mut x = x;
    for _ in 0..n.abs() {
        x = if n > 0 { x.next_up() } else { x.next_down() };
    }
    x
}

pub fn situation(random: &mut Random, class: Class) -> Situation {
    match class {
        Class::Realistic => realistic(random, 0),
        Class::Random => anything(random),
        Class::Grid => realistic(random, 16),
        Class::Boundary => boundary(random),
        Class::Sizes => sizes(random),
        Class::Refusal => refusal(random),
        Class::Places => places(random),
        Class::Halfway => halfway(random),
    }
}

/// A situation of the class, mostly in a set play by which players are judged: for the coach's lines.
pub fn judged(random: &mut Random, class: Class) -> Situation {
    let mut s = situation(random, class);
    // The poses of that class suit its set play.
    if class == Class::Halfway || one_in(random, 4) {
        return s;
    }
    s.phase = byte(random, 4);
    s.stopped = one_in(random, 12);
    s.set_play = random.pick(&[KICK_OFF, KICK_OFF, PENALTY_KICK, PENALTY_KICK, GOAL_KICK, GOAL_KICK, 2, INDIRECT_FREE_KICK, 5, 7]);
    let at_mark = s.set_play == KICK_OFF || s.set_play == PENALTY_KICK;
    s.state = if at_mark && random.coin() { SET } else { PLAYING };
    s.kicking_side = maybe_side(random, 12);
    // Areas that overlap, so that a player is in both.
    if one_in(random, 10) {
        s.sizes[PENALTY_AREA_LENGTH] = s.sizes[LENGTH] * between(random, 0.4, 1.0);
    }
    s
}

/// A situation of the class with zeros and the numbers next to them where the numbers of a place come from: the ball, its radius and a
/// goalkeeper, which are placed as they are, a penalty mark in the centre and a penalty area up to the halfway line. It draws from `situation`,
/// whose situations stay those of their seed, since the list of the program replay is made of them.
pub fn zeros(random: &mut Random, class: Class) -> Situation {
    const NEXT: f32 = f32::from_bits(1);
    let mut s = situation(random, class);
    let zero = |random: &mut Random| random.pick(&[0.0, -0.0, -0.0, NEXT, -NEXT]);
    let side = byte(random, 2);
    if random.coin() {
        s.sizes[BALL_RADIUS] = random.pick(&[0.0, -0.0, -0.0, NEXT]);
    }
    match random.within(0, 5) {
        0 | 1 => {
            s.wish = Wish::BallAtRestart;
            s.set_play = random.pick(&[2, INDIRECT_FREE_KICK, 5]);
            for i in 0..2 {
                if !one_in(random, 4) {
                    s.ball[i] = zero(random);
                }
            }
        }
        2 => {
            s.sizes[PENALTY_AREA_LENGTH] = s.sizes[LENGTH] * 0.5 + s.sizes[LINE_WIDTH] * 0.5;
            free_kick(random, &mut s);
            if random.coin() {
                s.wish = Wish::PenaltyShot(side, 1);
                aim(random, &mut s);
            }
        }
        3 => {
            s.wish = Wish::BallInSet;
            s.set_play = random.pick(&[KICK_OFF, PENALTY_KICK]);
            s.sizes[PENALTY_MARK_DISTANCE] = s.sizes[LENGTH] * 0.5;
        }
        _ => {
            s.wish = Wish::Goalkeeper(side);
            aim(random, &mut s);
            let number = s.goalkeepers[usize::from(side)].filter(|number| (1..=20).contains(number)).unwrap_or(1);
            let keeper = &mut s.players[usize::from(side)][usize::from(number) - 1];
            keeper.penalty = 0;
            if let Some(pose) = &mut keeper.pose {
                pose.theta = zero(random);
                pose.y = if random.coin() { zero(random) } else { pose.y };
            }
        }
    }
    s
}

fn unit(random: &mut Random) -> f32 {
    (random.u64() >> 40) as f32 / (1u64 << 24) as f32
}

fn between(random: &mut Random, low: f32, high: f32) -> f32 {
    low + (high - low) * unit(random)
}

fn one_in(random: &mut Random, n: i64) -> bool {
    random.within(1, n) == 1
}

fn byte(random: &mut Random, values: i64) -> u8 {
    random.within(0, values - 1) as u8
}

fn maybe_side(random: &mut Random, none: i64) -> Option<u8> {
    if one_in(random, none) {
        None
    } else {
        Some(byte(random, 2))
    }
}

fn number(random: &mut Random) -> u8 {
    random.within(1, 20) as u8
}

fn maybe_number(random: &mut Random, none: i64) -> Option<u8> {
    if one_in(random, none) {
        None
    } else {
        Some(number(random))
    }
}

/// A multiple of 1/grid near x; x itself where grid is 0.
fn on_grid(x: f32, grid: i64) -> f32 {
    if grid == 0 {
        x
    } else {
        (x * grid as f32).round() / grid as f32
    }
}

fn inside_64(x: f32) -> f32 {
    x.clamp(-64.0, 64.0)
}

fn restart(random: &mut Random) -> Option<Restart> {
    if one_in(random, 3) {
        return None;
    }
    Some(Restart {
        kind: byte(random, 4),
        set_play: byte(random, 8),
        side: byte(random, 2),
        kicker: maybe_number(random, 2),
        kick_position: [f32::from_bits(random.u32()), f32::from_bits(random.u32())],
        flags: [one_in(random, 4), random.coin(), random.coin(), random.coin()],
    })
}

fn wish(random: &mut Random) -> Wish {
    match random.within(0, 6) {
        0 => Wish::Nothing,
        1 => Wish::BallAtRestart,
        2 => Wish::BallInSet,
        3 | 4 => Wish::Penalty(byte(random, 2), number(random)),
        5 => Wish::PenaltyShot(byte(random, 2), number(random)),
        _ => Wish::Goalkeeper(byte(random, 2)),
    }
}

/// A place where a robot of the side is likely to matter.
fn spot(random: &mut Random, s: &Situation, side: u8, radius: f32) -> (f32, f32) {
    let f = &s.sizes;
    let (half_length, half_width) = (f[LENGTH] * 0.5, f[WIDTH] * 0.5);
    // The own goal is at positive x for the side that defends the left goal.
    let own = if (side == 0) == (s.sides == 0) { 1.0 } else { -1.0 };
    let around = |random: &mut Random, x: f32, y: f32, distance: f32| {
        let angle = between(random, -PI, PI);
        let distance = distance + between(random, -0.1, 0.1);
        (x + distance * angle.cos(), y + distance * angle.sin())
    };
    match random.within(0, 9) {
        0 => (
            between(random, -1.2, 1.2) * (half_length + f[BORDER_STRIP_WIDTH]),
            between(random, -1.2, 1.2) * (half_width + f[BORDER_STRIP_WIDTH]),
        ),
        1..=3 => (
            own * (half_length - between(random, -0.3, 1.3) * f[GOAL_AREA_LENGTH]),
            between(random, -0.7, 0.7) * f[GOAL_AREA_WIDTH],
        ),
        4 => {
            let end = if random.coin() { own } else { -own };
            (
                end * (half_length - between(random, -0.1, 1.3) * f[PENALTY_AREA_LENGTH]),
                between(random, -0.6, 0.6) * f[PENALTY_AREA_WIDTH],
            )
        }
        5 => around(random, 0.0, 0.0, f[CENTER_CIRCLE_RADIUS] + radius),
        6 => {
            let which = if random.coin() { CENTER_CIRCLE_RADIUS } else { MARK_RADIUS };
            let end = if random.coin() { own } else { -own };
            around(random, end * (half_length - f[PENALTY_MARK_DISTANCE]), 0.0, f[which] + radius)
        }
        7 => around(random, s.ball[0], s.ball[1], f[CENTER_CIRCLE_RADIUS] + radius),
        8 => (own * (half_length - between(random, -1.5, 1.5) * radius), between(random, -0.6, 0.6) * f[GOAL_WIDTH]),
        _ => around(random, 0.0, 0.0, f[MARK_RADIUS] + radius),
    }
}

fn reference(random: &mut Random, pose: Pose, grid: i64) -> Pose {
    let angle = between(random, -PI, PI);
    let distance = if random.coin() { between(random, 0.0, 0.2) } else { 0.1 };
    let turns = random.within(-2, 2) as f32 * 2.0 * PI;
    let turned = if random.coin() { between(random, -0.5, 0.5) } else { 0.0 };
    Pose {
        x: inside_64(on_grid(pose.x + distance * angle.cos(), grid)),
        y: inside_64(on_grid(pose.y + distance * angle.sin(), grid)),
        theta: inside_64(pose.theta + turned + turns),
        radius: pose.radius,
    }
}

fn empty(random: &mut Random) -> Situation {
    let mut s = Situation::case_a();
    s.players = [[NOBODY; PLAYERS]; 2];
    s.sizes = random.pick(&FIELDS);
    s
}

fn game(random: &mut Random, s: &mut Situation) {
    s.sides = byte(random, 2);
    s.stopped = one_in(random, 6);
    s.phase = if one_in(random, 4) { SHOOTOUT } else { byte(random, 4) };
    s.state = match random.within(0, 9) {
        0 => byte(random, 6),
        1..=3 => SET,
        _ => PLAYING,
    };
    s.set_play = byte(random, 8);
    s.kicking_side = maybe_side(random, 5);
    s.goalkeepers = [maybe_number(random, 4), maybe_number(random, 4)];
    s.last_contact = maybe_side(random, 3);
    s.restart = restart(random);
    s.invalid_goals = !one_in(random, 4);
    s.rested = random.coin();
    s.wish = wish(random);
    s.distance = if one_in(random, 8) {
        random.pick(&[0.0, -0.0, -1.0, f32::INFINITY, f32::NEG_INFINITY, 1.0 / 64.0, 0.125, 64.0, 1e30])
    } else {
        random.pick(&[1.0, 0.5, 0.75, 2.0, 0.6, 0.9])
    };
}

fn ball(random: &mut Random, s: &mut Situation, grid: i64) {
    let f = s.sizes;
    let (half_length, half_width) = (f[LENGTH] * 0.5, f[WIDTH] * 0.5);
    let sign = if random.coin() { 1.0 } else { -1.0 };
    let (x, y) = match random.within(0, 5) {
        0 => (between(random, -1.1, 1.1) * half_length, between(random, -1.1, 1.1) * half_width),
        1 => (sign * (half_length + between(random, 0.0, 3.0) * f[BALL_RADIUS]), between(random, -0.7, 0.7) * f[GOAL_WIDTH]),
        2 => (between(random, -1.1, 1.1) * half_length, sign * (half_width + between(random, 0.0, 3.0) * f[BALL_RADIUS])),
        3 => (sign * 0.0, sign * (half_width + between(random, 0.0, 3.0) * f[BALL_RADIUS])),
        4 => (sign * (half_length - f[PENALTY_AREA_LENGTH] * unit(random)), between(random, -0.6, 0.6) * f[PENALTY_AREA_WIDTH]),
        _ => (random.pick(&[0.0, -0.0]), random.pick(&[0.0, -0.0])),
    };
    let z = if one_in(random, 4) { between(random, 0.0, 1.2) * f[GOAL_HEIGHT] } else { f[BALL_RADIUS] };
    s.ball = [inside_64(on_grid(x, grid)), inside_64(on_grid(y, grid)), inside_64(on_grid(z, grid))];
}

fn radius(random: &mut Random, grid: i64) -> f32 {
    if grid != 0 || one_in(random, 3) {
        random.pick(&[0.25, 0.125, 0.1875, 0.5])
    } else {
        between(random, 0.05, 0.6)
    }
}

fn players(random: &mut Random, s: &mut Situation, grid: i64) {
    let present = random.pick(&[3, 3, 3, 8, 8, 20]);
    // Sometimes a team crowds its own goal area.
    let one_radius = random.coin().then(|| radius(random, grid));
    for side in 0..2u8 {
        let crowd = one_in(random, 3);
        for i in 0..PLAYERS {
            let mut player = NOBODY;
            if one_in(random, 6) {
                player.penalty = byte(random, 14);
            }
            player.inside = random.coin();
            if one_in(random, 4) {
                player.allowance = on_grid(between(random, -0.5, 1.5), grid);
            }
            let here = if crowd { i < 9 } else { i < 6 };
            if (here || present == 20) && !one_in(random, present) {
                let radius = one_radius.unwrap_or_else(|| radius(random, grid));
                let (x, y) = spot(random, s, side, radius);
                let theta = if grid == 0 { between(random, -4.0, 4.0) } else { 0.0 };
                let mut pose =
                    Pose { x: inside_64(on_grid(x, grid)), y: inside_64(on_grid(y, grid)), theta, radius };
                if crowd && random.coin() {
                    let own = if (side == 0) == (s.sides == 0) { 1.0 } else { -1.0 };
                    pose.x = on_grid(own * (s.sizes[LENGTH] * 0.5 - s.sizes[GOAL_AREA_LENGTH] * unit(random)), grid);
                    pose.y = on_grid(between(random, -0.5, 0.5) * s.sizes[GOAL_AREA_WIDTH], grid);
                }
                player.pose = Some(pose);
                if random.coin() {
                    player.reference = Some(reference(random, pose, grid));
                }
            } else if one_in(random, 6) {
                let pose = Pose { x: 1.0, y: -1.0, theta: 0.5, radius: 0.25 };
                player.reference = Some(pose);
            }
            s.players[usize::from(side)][i] = player;
        }
    }
    aim(random, s);
}

/// The wished player is mostly there, and the kicking side mostly what the set play needs.
fn aim(random: &mut Random, s: &mut Situation) {
    if one_in(random, 8) {
        return;
    }
    let there = |s: &Situation, side: u8, random: &mut Random| {
        let numbers: Vec<u8> =
            (1..=20).filter(|&n| s.players[usize::from(side)][usize::from(n) - 1].pose.is_some()).collect();
        if numbers.is_empty() {
            1
        } else {
            random.pick(&numbers)
        }
    };
    s.wish = match s.wish {
        Wish::Penalty(side, _) => Wish::Penalty(side, there(s, side, random)),
        Wish::PenaltyShot(side, _) => Wish::PenaltyShot(side, there(s, side, random)),
        Wish::Goalkeeper(side) => {
            s.goalkeepers[usize::from(side)] = Some(there(s, side, random));
            s.wish
        }
        other => other,
    };
}

/// Earlier places at the edge of the carpet, at multiples of the distance from where the first would be.
fn earlier(random: &mut Random, s: &mut Situation, count: usize, grid: i64) {
    let f = s.sizes;
    let start = f[LENGTH] * 0.5 - f[PENALTY_MARK_DISTANCE];
    let step = if s.distance.is_finite() { s.distance } else { 1.0 };
    for _ in 0..count {
        let sign = if random.coin() { 1.0 } else { -1.0 };
        let side = if random.coin() { 1.0 } else { -1.0 };
        let steps = if random.coin() { random.within(-12, 12) as f32 } else { between(random, -12.0, 12.0) };
        let y = f[WIDTH] * 0.5 + f[BORDER_STRIP_WIDTH] - if random.coin() { 0.25 } else { unit(random) };
        s.xs.push(inside_64(on_grid(side * (start + steps * step), grid)));
        s.ys.push(inside_64(on_grid(sign * y, grid)));
    }
}

fn realistic(random: &mut Random, grid: i64) -> Situation {
    let mut s = empty(random);
    if grid != 0 {
        s.sizes = FIELDS[0];
    }
    game(random, &mut s);
    ball(random, &mut s, grid);
    players(random, &mut s, grid);
    let count = random.pick(&[0, 0, 1, 3, 10, 25]);
    earlier(random, &mut s, count, grid);
    s
}

/// A float of a column of random sort that is not refused.
fn any_float(random: &mut Random, low: f32, high: f32) -> f32 {
    match random.within(0, 7) {
        0 => low,
        1 => high,
        2 => (0.0f32).clamp(low, high),
        3 => (-0.0f32).clamp(low, high),
        4 => on_grid(between(random, low, high), 4).clamp(low, high),
        5 => {
            let x = f32::from_bits(random.u32());
            if x >= low && x <= high {
                x
            } else {
                high
            }
        }
        _ => between(random, low, high),
    }
}

fn any_pose(random: &mut Random) -> Pose {
    let radius = any_float(random, 0.0, 1.0);
    Pose {
        x: any_float(random, -64.0, 64.0),
        y: any_float(random, -64.0, 64.0),
        theta: any_float(random, -64.0, 64.0),
        radius: if radius > 0.0 { radius } else { f32::from_bits(1) },
    }
}

fn anything(random: &mut Random) -> Situation {
    let mut s = empty(random);
    for (i, size) in s.sizes.iter_mut().enumerate() {
        *size = match i {
            LENGTH | WIDTH => any_float(random, 4.0, 64.0),
            LINE_WIDTH => any_float(random, 0.0, 1.0),
            _ if random.coin() => any_float(random, 0.0, 8.0),
            _ => any_float(random, 0.0, 64.0),
        };
    }
    game(random, &mut s);
    s.state = byte(random, 6);
    s.phase = byte(random, 5);
    if s.distance > 0.0 && s.distance < 0.1 {
        s.distance = 0.3;
    }
    let close = random.coin();
    for side in 0..2 {
        for i in 0..PLAYERS {
            let mut player = NOBODY;
            player.penalty = if random.coin() { 0 } else { byte(random, 14) };
            player.inside = random.coin();
            player.allowance = any_float(random, -64.0, 64.0);
            if random.coin() {
                let mut pose = any_pose(random);
                if close {
                    (pose.x, pose.y) = spot(random, &s, side as u8, pose.radius);
                    (pose.x, pose.y) = (inside_64(pose.x), inside_64(pose.y));
                }
                player.pose = Some(pose);
            }
            if random.coin() {
                let near = player.pose.filter(|_| close).map(|pose| reference(random, pose, 0));
                player.reference = Some(near.unwrap_or_else(|| any_pose(random)));
            }
            s.players[side][i] = player;
        }
    }
    if close {
        ball(random, &mut s, 0);
    } else {
        s.ball = std::array::from_fn(|_| any_float(random, -64.0, 64.0));
    }
    let count = random.pick(&[0, 0, 1, 2, 7]);
    for _ in 0..count {
        s.xs.push(any_float(random, -64.0, 64.0));
        s.ys.push(any_float(random, -64.0, 64.0));
    }
    s
}

/// Puts a pose or the ball on a limit of some rule.
fn boundary(random: &mut Random) -> Situation {
    let grid = random.pick(&[0, 16]);
    let mut s = realistic(random, grid);
    if one_in(random, 4) {
        s.sizes = std::array::from_fn(|i| {
            let size = s.sizes[i] * between(random, 0.8, 1.2);
            if i == LENGTH || i == WIDTH {
                size.max(4.0)
            } else {
                size.min(64.0)
            }
        });
    }
    let ulps = |random: &mut Random| random.within(-2, 2);
    let f = s.sizes;
    let half_length = f[LENGTH] * 0.5;
    if random.coin() {
        let sign = if random.coin() { 1.0 } else { -1.0 };
        let x = match random.within(0, 4) {
            0 | 1 => half_length + f[BALL_RADIUS],
            2 => half_length - f[PENALTY_AREA_LENGTH],
            3 => half_length - f[PENALTY_AREA_LENGTH] + f[LINE_WIDTH] * 0.5,
            _ => half_length - f[LINE_WIDTH] * 0.5,
        };
        if random.coin() {
            s.ball[0] = inside_64(moved(sign * x, ulps(random)));
        }
        let sign = if random.coin() { 1.0 } else { -1.0 };
        let y = match random.within(0, 4) {
            0 => f[WIDTH] * 0.5 + f[BALL_RADIUS],
            1 => f[GOAL_WIDTH] * 0.5 - f[BALL_RADIUS],
            2 => f[PENALTY_AREA_WIDTH] * 0.5,
            3 => f[PENALTY_AREA_WIDTH] * 0.5 - f[LINE_WIDTH] * 0.5,
            _ => f[GOAL_WIDTH] * 0.5,
        };
        if random.coin() {
            s.ball[1] = inside_64(moved(sign * y, ulps(random)));
        }
        if one_in(random, 4) {
            s.ball[2] = inside_64(moved(f[GOAL_HEIGHT] - f[BALL_RADIUS], ulps(random)));
        }
    }
    for side in 0..2 {
        for i in 0..PLAYERS {
            let Some(mut pose) = s.players[side][i].pose else { continue };
            let own = if (side == 0) == (s.sides == 0) { 1.0 } else { -1.0 };
            let r = pose.radius;
            let allowance = s.players[side][i].allowance;
            if random.coin() {
                let x = match random.within(0, 10) {
                    0 | 1 => half_length - f[GOAL_AREA_LENGTH] - r,
                    2 => half_length - f[PENALTY_AREA_LENGTH] - r,
                    3 => -(half_length - f[PENALTY_AREA_LENGTH] - r),
                    4 => f[LINE_WIDTH] * 0.5 + r,
                    5 => half_length - f[PENALTY_MARK_DISTANCE],
                    6 => -(half_length - f[PENALTY_MARK_DISTANCE]),
                    7 => half_length - f[LINE_WIDTH] * 0.5 - r,
                    8 => half_length - f[LINE_WIDTH] * 0.5 + r,
                    _ => (half_length + f[BORDER_STRIP_WIDTH] + allowance + r) * if random.coin() { 1.0 } else { -1.0 },
                };
                pose.x = inside_64(moved(own * x, ulps(random)));
            }
            let sign = if random.coin() { 1.0 } else { -1.0 };
            if one_in(random, 3) {
                let y = match random.within(0, 3) {
                    0 => f[GOAL_AREA_WIDTH] * 0.5 + r,
                    1 => f[PENALTY_AREA_WIDTH] * 0.5 + r,
                    2 => f[GOAL_WIDTH] * 0.5,
                    _ => f[WIDTH] * 0.5 + f[BORDER_STRIP_WIDTH] + allowance + r,
                };
                pose.y = inside_64(moved(sign * y, ulps(random)));
            }
            if one_in(random, 4) {
                let limit = f[if random.coin() { CENTER_CIRCLE_RADIUS } else { MARK_RADIUS }] + r;
                let end = if random.coin() { 1.0 } else { -1.0 };
                let (x, y) = match random.within(0, 2) {
                    0 => (0.0, 0.0),
                    1 => (end * (half_length - f[PENALTY_MARK_DISTANCE]), 0.0),
                    _ => (s.ball[0], s.ball[1]),
                };
                on_circle(random, &mut pose, x, y, limit);
            }
            s.players[side][i].pose = Some(pose);
            if let (Some(mut reference), true) = (s.players[side][i].reference, random.coin()) {
                let angle = between(random, -PI, PI);
                reference.x = inside_64(moved(pose.x + 0.1 * angle.cos(), ulps(random)));
                reference.y = inside_64(moved(pose.y + 0.1 * angle.sin(), ulps(random)));
                if random.coin() {
                    reference.x = pose.x;
                    let turns = random.within(-2, 2) as f32 * 2.0 * PI;
                    reference.theta = inside_64(moved(pose.theta + sign * 0.3 + turns, ulps(random)));
                }
                s.players[side][i].reference = Some(reference);
            }
        }
    }
    if let Wish::Penalty(side, number) = s.wish {
        near_clearance(random, &mut s, side, number);
    }
    if one_in(random, 8) {
        free_kick(random, &mut s);
    }
    s
}

/// An indirect free kick from the edges of the penalty area, whose line is sometimes the halfway line.
fn free_kick(random: &mut Random, s: &mut Situation) {
    s.set_play = INDIRECT_FREE_KICK;
    s.wish = Wish::BallAtRestart;
    s.kicking_side = maybe_side(random, 8);
    if one_in(random, 4) {
        s.sizes[PENALTY_AREA_LENGTH] = s.sizes[LENGTH] * 0.5 + s.sizes[LINE_WIDTH] * 0.5;
    }
    let f = s.sizes;
    let line = f[LENGTH] * 0.5 - f[PENALTY_AREA_LENGTH] + f[LINE_WIDTH] * 0.5;
    let half_width = f[PENALTY_AREA_WIDTH] * 0.5 - f[LINE_WIDTH] * 0.5;
    let sign = if random.coin() { 1.0 } else { -1.0 };
    let x = if random.coin() { line } else { line + unit(random) };
    s.ball[0] = inside_64(if x == 0.0 { sign * x } else { moved(sign * x, random.within(-2, 2)) });
    let sign = if random.coin() { 1.0 } else { -1.0 };
    let y = if random.coin() { half_width } else { half_width * unit(random) };
    s.ball[1] = inside_64(moved(sign * y, random.within(-2, 2)));
}

/// A pose at the given distance from a point, or so close to it that floats allow.
fn on_circle(random: &mut Random, pose: &mut Pose, x: f32, y: f32, limit: f32) {
    let angle = match random.within(0, 3) {
        0 => random.pick(&[0.0, PI * 0.5, PI, -PI * 0.5]),
        // Multiples of 3-4-5.
        1 => random.pick(&[0.6f32, 0.8, -0.6, -0.8]).acos(),
        _ => between(random, -PI, PI),
    };
    pose.x = inside_64(moved(x + limit * angle.cos(), random.within(-2, 2)));
    // The other leg from the first, in f64.
    let (limit, dx) = (f64::from(limit), f64::from(pose.x) - f64::from(x));
    let dy = (limit * limit - dx * dx).max(0.0).sqrt() * if random.coin() { 1.0 } else { -1.0 };
    pose.y = inside_64(moved((f64::from(y) + dy) as f32, random.within(-2, 2)));
}

/// Earlier places whose distance from a candidate is the distance to keep, or a float or two from it.
fn near_clearance(random: &mut Random, s: &mut Situation, side: u8, number: u8) {
    let Some(pose) = s.players[usize::from(side)][usize::from(number) - 1].pose else { return };
    if !s.distance.is_finite() || s.distance <= 0.0 || s.distance > 8.0 {
        return;
    }
    let f = s.sizes;
    let own = if (side == 0) == (s.sides == 0) { 1.0 } else { -1.0 };
    let y = (f[WIDTH] * 0.5 + f[BORDER_STRIP_WIDTH] - pose.radius).copysign(pose.y);
    let start = f[LENGTH] * 0.5 - f[PENALTY_MARK_DISTANCE];
    for _ in 0..random.within(1, 12) {
        let candidate = own * (start + random.within(-6, 6) as f32 * s.distance);
        let mut place = pose;
        on_circle(random, &mut place, candidate, y, s.distance);
        s.xs.push(place.x);
        s.ys.push(place.y);
    }
}

fn sizes(random: &mut Random) -> Situation {
    let grid = random_grid(random);
    let mut s = realistic(random, grid);
    let count = random.within(1, 6);
    for _ in 0..count {
        let i = random.within(0, 13) as usize;
        s.sizes[i] = match i {
            LENGTH | WIDTH => random.pick(&[4.0, 64.0, 4.0f32.next_up(), 64.0f32.next_down(), 5.0]),
            LINE_WIDTH => random.pick(&[-0.0, 0.0, 1.0, f32::from_bits(1), 1.0f32.next_down(), 0.5]),
            _ => random.pick(&[-0.0, 0.0, 4.0, 64.0, 1.0, f32::from_bits(1), f32::MIN_POSITIVE, 64.0f32.next_down(), 0.5]),
        };
    }
    if s.distance > 0.0 && s.distance < 0.1 && s.xs.len() > 3 {
        s.distance = 0.25;
    }
    // New places for the new sizes.
    ball(random, &mut s, 0);
    for side in 0..2 {
        for i in 0..PLAYERS {
            if let Some(mut pose) = s.players[side][i].pose {
                if random.coin() {
                    let (x, y) = spot(random, &s, side as u8, pose.radius);
                    (pose.x, pose.y) = (inside_64(x), inside_64(y));
                }
                match random.within(0, 9) {
                    0 => pose.radius = 1.0,
                    1 => pose.radius = f32::from_bits(1),
                    2 => pose.x = random.pick(&[0.0, -0.0, 64.0, -64.0]),
                    3 => pose.y = random.pick(&[0.0, -0.0, 64.0, -64.0]),
                    _ => (),
                }
                s.players[side][i].pose = Some(pose);
            }
        }
    }
    s
}

fn random_grid(random: &mut Random) -> i64 {
    random.pick(&[0, 16])
}

/// One to three values at the edge of what is refused, on either side of it.
fn refusal(random: &mut Random) -> Situation {
    let mut s = realistic(random, 0);
    let count = random.pick(&[1, 1, 1, 2, 3]);
    for _ in 0..count {
        edge(random, &mut s);
    }
    s
}

/// At a bound, a float on either side of it, or nothing of the sort.
fn at_edge(random: &mut Random, low: f32, high: f32) -> f32 {
    let bound = if random.coin() { low } else { high };
    match random.within(0, 7) {
        0 => f32::NAN,
        1 => f32::from_bits(0xff80_0001),
        2 => random.pick(&[f32::INFINITY, f32::NEG_INFINITY]),
        3 => bound,
        4 => bound.next_up(),
        5 => bound.next_down(),
        6 => random.pick(&[0.0, -0.0]),
        _ => random.pick(&[3.5, 1e30, -1.0, 64.5]),
    }
}

fn edge(random: &mut Random, s: &mut Situation) {
    let side = random.within(0, 1) as usize;
    let i = random.within(0, 19) as usize;
    match random.within(0, 9) {
        0 => {
            let i = random.within(0, 13) as usize;
            let (low, high) = match i {
                LENGTH | WIDTH => (4.0, 64.0),
                LINE_WIDTH => (0.0, 1.0),
                _ => (0.0, 64.0),
            };
            s.sizes[i] = at_edge(random, low, high);
        }
        1 | 2 => {
            let mut pose = Pose { x: 1.0, y: 1.0, theta: 0.0, radius: 0.25 };
            match random.within(0, 3) {
                0 => pose.x = at_edge(random, -64.0, 64.0),
                1 => pose.y = at_edge(random, -64.0, 64.0),
                2 => pose.theta = at_edge(random, -64.0, 64.0),
                _ => pose.radius = at_edge(random, 0.0, 1.0),
            }
            if random.coin() {
                s.players[side][i].pose = Some(pose);
            } else {
                s.players[side][i].reference = Some(pose);
            }
        }
        3 => s.players[side][i].allowance = at_edge(random, -64.0, 64.0),
        4 => {
            let (x, y) = (at_edge(random, -64.0, 64.0), at_edge(random, -64.0, 64.0));
            s.xs.push(if random.coin() { x } else { 0.0 });
            s.ys.push(if random.coin() { y } else { 0.0 });
        }
        5 => match random.within(0, 2) {
            0 => s.xs.push(0.0),
            1 => s.ys.push(0.0),
            _ => {
                let (x, y) = random.pick(&[(4096, 4096), (4097, 4097), (4096, 4097), (4095, 4095), (4097, 4096), (0, 1), (1, 0)]);
                s.xs.resize(x, 1.0);
                s.ys.resize(y, 2.0);
                if s.distance < 0.5 {
                    s.distance = 0.5;
                }
            }
        },
        6 => s.ball[random.within(0, 2) as usize] = at_edge(random, -64.0, 64.0),
        7 => {
            let number = random.pick(&[0, 1, 20, 21, 255, 128]);
            match random.within(0, 4) {
                0 => s.goalkeepers[side] = Some(number),
                1 => s.wish = Wish::Penalty(side as u8, number),
                2 => s.wish = Wish::PenaltyShot(side as u8, number),
                _ => {
                    if let Some(restart) = s.restart.as_mut() {
                        restart.kicker = Some(number);
                    }
                }
            }
        }
        8 => s.distance = at_edge(random, 0.0, 1.0 / 64.0),
        _ => {
            // Not looked at: the record's kick position.
            if let Some(restart) = s.restart.as_mut() {
                restart.kick_position = [f32::NAN, f32::INFINITY];
            }
        }
    }
    if s.distance > 0.0 && s.distance < 0.1 && s.xs.len() > 100 {
        s.distance = 0.5;
    }
}

fn places(random: &mut Random) -> Situation {
    let grid = random_grid(random);
    let mut s = realistic(random, grid);
    let side = byte(random, 2);
    s.wish = Wish::Penalty(side, number(random));
    aim(random, &mut s);
    // Many places with a small distance take the original a second.
    let (least, most) = random.pick(&[(0, 8), (0, 8), (0, 40), (8, 120), (8, 120), (100, 1000)]);
    let count = match random.within(0, 399) {
        0 => random.pick(&[4095, 4096]),
        1 => random.within(1000, 4096) as usize,
        _ => random.within(least, most) as usize,
    };
    s.distance = if count > 200 {
        random.pick(&[1.0, 2.0, 0.75, f32::INFINITY])
    } else {
        random.pick(&[1.0, 2.0, 0.5, 0.25, 0.125, 3.0, 0.0, f32::INFINITY, 0.3])
    };
    if count < 8 && one_in(random, 4) {
        s.distance = random.pick(&[1.0 / 64.0, 1.0 / 64.0f32.next_down(), 0.02, 0.03]);
    }
    s.xs.clear();
    s.ys.clear();
    match random.within(0, 2) {
        0 => earlier(random, &mut s, count, grid),
        1 => {
            // A row along the edge of the carpet, which takes every candidate.
            let f = s.sizes;
            let sign = if random.coin() { 1.0 } else { -1.0 };
            let own = if (side == 0) == (s.sides == 0) { 1.0 } else { -1.0 };
            let gap = random.pick(&[0.25, 0.5, 1.0, 0.375]);
            for i in 0..count {
                s.xs.push(inside_64(own * (i as f32 * gap) % (f[LENGTH] * 0.5 + 1.0)));
                s.ys.push(inside_64(sign * (f[WIDTH] * 0.5 + f[BORDER_STRIP_WIDTH] - 0.25)));
            }
        }
        _ => {
            earlier(random, &mut s, count / 2, grid);
            if let Wish::Penalty(side, number) = s.wish {
                near_clearance(random, &mut s, side, number);
            }
        }
    }
    s
}

/// A candidate next to x zero, and an earlier place whose exact distance from it is next to a point halfway below the distance.
fn halfway_place(random: &mut Random) -> Situation {
    let mut s = empty(random);
    game(random, &mut s);
    s.sizes[PENALTY_MARK_DISTANCE] = s.sizes[LENGTH] * 0.5;
    let (side, number) = (byte(random, 2), number(random));
    let sign = if random.coin() { 1.0 } else { -1.0 };
    let radius = f32::from_bits(random.within(1, 3) as u32);
    s.players[usize::from(side)][usize::from(number) - 1].pose = Some(Pose { x: 0.0, y: sign, theta: 0.0, radius });
    s.wish = Wish::Penalty(side, number);
    s.distance = between(random, 2.5, 4.0);
    let edge = s.sizes[WIDTH] * 0.5 + s.sizes[BORDER_STRIP_WIDTH];
    for _ in 0..random.within(1, 3) {
        let (a, b) = near_halfway(random, s.distance);
        let (small, large) = if a.abs() < b.abs() { (a, b) } else { (b, a) };
        s.xs.push(small);
        s.ys.push(sign * (edge - large.abs()));
    }
    s
}

/// Poses whose exact distance from the point that counts is next to a point halfway below the limit.
fn halfway(random: &mut Random) -> Situation {
    if one_in(random, 8) {
        return halfway_place(random);
    }
    let mut s = realistic(random, 0);
    s.phase = byte(random, 4);
    s.stopped = false;
    s.state = if random.coin() { SET } else { PLAYING };
    s.set_play = random.pick(&[KICK_OFF, KICK_OFF, PENALTY_KICK, 2, 3, 5, GOAL_KICK, 7]);
    s.kicking_side = Some(byte(random, 2));
    s.wish = Wish::Nothing;
    let f = s.sizes;
    let half_length = f[LENGTH] * 0.5;
    if s.set_play == GOAL_KICK || s.set_play > PENALTY_KICK || s.set_play == 2 || s.set_play == 3 {
        s.state = PLAYING;
        if random.coin() {
            // A ball at the centre, so that differences of coordinates are exact.
            s.ball = [0.0, 0.0, f[BALL_RADIUS]];
        }
    }
    for side in 0..2 {
        let own = if (side == 0) == (s.sides == 0) { 1.0 } else { -1.0 };
        for i in 0..PLAYERS {
            let radius = radius(random, 0);
            let limit = f[if one_in(random, 4) { MARK_RADIUS } else { CENTER_CIRCLE_RADIUS }] + radius;
            let (x, y) = match s.set_play {
                KICK_OFF => (0.0, 0.0),
                PENALTY_KICK => {
                    let kicking = s.kicking_side == Some(side as u8);
                    let end = if kicking { -own } else { own };
                    (end * (half_length - f[PENALTY_MARK_DISTANCE]), 0.0)
                }
                _ => (s.ball[0], s.ball[1]),
            };
            let (dx, dy) = near_halfway(random, limit);
            let pose = Pose { x: inside_64(x + dx), y: inside_64(y + dy), theta: 0.0, radius };
            let mut player = NOBODY;
            player.pose = Some(pose);
            if random.coin() {
                let (dx, dy) = near_halfway(random, 0.1f32.next_up());
                player.reference = Some(Pose { x: pose.x + dx, y: pose.y + dy, ..pose });
                if one_in(random, 2) {
                    // Coordinates so small that the differences are exact.
                    player.pose = Some(Pose { x: 0.0, y: 0.0, ..pose });
                    player.reference = Some(Pose { x: dx, y: dy, ..pose });
                }
            }
            s.players[side][i] = player;
        }
    }
    s
}

/// Legs whose root is next to the point halfway between the limit and the float below it.
pub fn near_halfway(random: &mut Random, limit: f32) -> (f32, f32) {
    let halfway = (f64::from(limit) + f64::from(limit.next_down())) * 0.5;
    // Mostly one leg is close to the limit: then the other is small, and its floats lie so close that the root can be next to halfway.
    let leg = match random.within(0, 3) {
        0 => unit(random) * limit,
        1 => moved(limit, -random.within(1, 2)),
        _ => moved(limit, -random.within(1, 64)),
    };
    let other = ((halfway - f64::from(leg)) * (halfway + f64::from(leg))).max(0.0).sqrt() as f32;
    let other = moved(other, random.pick(&[0, 0, -1, 1]));
    let (a, b) = (if random.coin() { leg } else { -leg }, if random.coin() { other } else { -other });
    if random.coin() {
        (a, b)
    } else {
        (b, a)
    }
}
