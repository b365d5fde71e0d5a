//! Refusals with every reason and its near miss, the order of refusals, rooms, words that mean nothing, candidates, and zeros of a place: written down, not
//! searched for.

use super::{List, Question};
use crate::compare::plain;
use crate::entries;
use crate::random::Random;
use crate::situation::*;

const LEAST: f32 = f32::from_bits(1);

fn after(bound: f32) -> f32 {
    bound.next_up()
}

fn before(bound: f32) -> f32 {
    bound.next_down()
}

pub fn add(list: &mut List, random: &mut Random) {
    add_sizes(list);
    for reference in [false, true] {
        add_poses(list, reference);
    }
    add_allowances(list);
    add_places(list);
    add_lengths(list);
    add_ball(list);
    add_numbers(list);
    add_distances(list);
    add_orders(list);
    add_rooms(list);
    add_meaningless(list, random);
}

fn bounds(i: usize) -> (f32, f32) {
    match i {
        LENGTH | WIDTH => (4.0, 64.0),
        LINE_WIDTH => (0.0, 1.0),
        _ => (0.0, 64.0),
    }
}

fn add_sizes(list: &mut List) {
    let mut put = |why: String, change: &dyn Fn(&mut [f32; 14])| {
        let mut s = plain();
        change(&mut s.sizes);
        list.add("refusal 1 and near misses", why, &s);
    };
    for i in 0..14 {
        let (least, greatest) = bounds(i);
        for value in [before(least), after(greatest)] {
            put(format!("size {i} is {value:?}"), &|sizes| sizes[i] = value);
        }
    }
    for i in [WIDTH, GOAL_HEIGHT, MARK_RADIUS, LINE_WIDTH, BALL_RADIUS] {
        put(format!("size {i} is NaN"), &|sizes| sizes[i] = f32::NAN);
    }
    for value in [f32::INFINITY, f32::NEG_INFINITY, f32::from_bits(0xff80_0001)] {
        put(format!("length is {value:?}"), &|sizes| sizes[LENGTH] = value);
    }
    put("sizes are least".into(), &|sizes| *sizes = std::array::from_fn(|i| bounds(i).0));
    put("sizes are greatest".into(), &|sizes| *sizes = std::array::from_fn(|i| bounds(i).1));
    put("sizes are -0".into(), &|sizes| *sizes = std::array::from_fn(|i| if i < 2 { 4.0 } else { -0.0 }));
}

/// Sides and places of players, so that different ones are tried.
const WHO: [(usize, usize); 5] = [(0, 0), (1, 19), (0, 19), (1, 0), (0, 7)];

const USUAL: Pose = Pose { x: 1.0, y: 1.0, theta: 0.0, radius: 0.25 };

fn add_poses(list: &mut List, reference: bool) {
    let mut turn = 0;
    let mut put = |why: String, pose: Pose| {
        let (side, i) = WHO[turn % WHO.len()];
        turn += 1;
        let mut s = plain();
        let player = &mut s.players[side][i];
        if reference {
            player.reference = Some(pose);
        } else {
            player.pose = Some(pose);
        }
        let which = if reference { "reference pose" } else { "pose" };
        list.add("refusal 2 and near misses", format!("a {which} with {why}"), &s);
    };
    for value in [before(-64.0), after(64.0), f32::NAN] {
        put(format!("x {value:?}"), Pose { x: value, ..USUAL });
        put(format!("y {value:?}"), Pose { y: value, ..USUAL });
        put(format!("theta {value:?}"), Pose { theta: value, ..USUAL });
    }
    for value in [0.0, -0.0, after(1.0), f32::NAN] {
        put(format!("radius {value:?}"), Pose { radius: value, ..USUAL });
    }
    put("everything greatest".into(), Pose { x: 64.0, y: 64.0, theta: 64.0, radius: 1.0 });
    put("everything least".into(), Pose { x: -64.0, y: -64.0, theta: -64.0, radius: LEAST });
}

fn add_allowances(list: &mut List) {
    for (turn, value) in [before(-64.0), after(64.0), f32::NAN, -64.0, 64.0].into_iter().enumerate() {
        let (side, i) = WHO[turn];
        let mut s = plain();
        s.players[side][i].allowance = value;
        list.add("refusal 2 and near misses", format!("an allowance of {value:?}"), &s);
    }
}

/// A player that is wished a penalty place.
fn wishing() -> Situation {
    let mut s = plain();
    s.players[0][1].pose = Some(USUAL);
    s.wish = Wish::Penalty(0, 2);
    s
}

fn add_places(list: &mut List) {
    for value in [before(-64.0), after(64.0), f32::NAN, -64.0, 64.0] {
        let why = |axis: &str| format!("an earlier {axis} of {value:?}");
        let others = vec![0.0, 3.0];
        let last = vec![0.0, value];
        list.add("refusal 2 and near misses", why("x"), &Situation { xs: last.clone(), ys: others.clone(), ..wishing() });
        list.add("refusal 2 and near misses", why("y"), &Situation { xs: others, ys: last, ..wishing() });
    }
}

fn add_lengths(list: &mut List) {
    for (x, y) in [(1, 0), (0, 1), (3, 2), (2, 3), (4096, 4096), (4097, 4097)] {
        let s = Situation { xs: vec![0.0; x], ys: vec![0.0; y], ..wishing() };
        list.add("refusal 2 and near misses", format!("{x} earlier x and {y} earlier y"), &s);
    }
}

fn add_ball(list: &mut List) {
    for axis in 0..3 {
        for value in [before(-64.0), after(64.0), f32::NAN] {
            let mut s = plain();
            s.ball[axis] = value;
            list.add("refusal 3 and near misses", format!("coordinate {axis} of the ball is {value:?}"), &s);
        }
    }
    for value in [64.0, -64.0, f32::INFINITY] {
        list.add("refusal 3 and near misses", format!("the ball's coordinates are {value:?}"), &Situation { ball: [value; 3], ..plain() });
    }
}

fn restart_of(kicker: Option<u8>) -> Restart {
    Restart { kind: 0, set_play: 1, side: 0, kicker, kick_position: [f32::NAN, f32::INFINITY], flags: [false; 4] }
}

fn add_numbers(list: &mut List) {
    for number in [0, 21, 1, 20] {
        let mut put = |what: &str, s: Situation| list.add("refusal 4 and near misses", format!("{what} {number}"), &s);
        put("Home's goalkeeper", Situation { goalkeepers: [Some(number), None], ..plain() });
        put("Away's goalkeeper", Situation { goalkeepers: [None, Some(number)], ..plain() });
        put("a kicker", Situation { restart: Some(restart_of(Some(number))), ..plain() });
        put("a player wished for a penalty", Situation { wish: Wish::Penalty(1, number), ..plain() });
        put("a player wished for a shot", Situation { wish: Wish::PenaltyShot(0, number), ..plain() });
    }
}

fn add_distances(list: &mut List) {
    let limit = 1.0 / 64.0;
    let refused = [f32::NAN, f32::from_bits(0xffc0_0000), LEAST, before(limit)];
    let accepted = [limit, 0.0, -0.0, -LEAST, f32::INFINITY, f32::NEG_INFINITY];
    for value in refused.into_iter().chain(accepted) {
        list.add("refusal 5 and near misses", format!("distance {value:?}"), &Situation { distance: value, ..wishing() });
    }
}

/// Makes refusal n apply.
fn spoil(s: &mut Situation, n: usize) {
    match n {
        1 => s.sizes[LENGTH] = 3.5,
        2 => s.players[1][19].allowance = f32::NAN,
        3 => s.ball[2] = f32::NAN,
        4 => s.goalkeepers[1] = Some(255),
        _ => s.distance = 0.01,
    }
}

fn add_orders(list: &mut List) {
    for first in 1..=5 {
        for second in first + 1..=5 {
            let mut s = wishing();
            spoil(&mut s, second);
            spoil(&mut s, first);
            list.add("order of refusals", format!("{first} before {second}"), &s);
        }
        let mut s = Situation { ball: [7.25, 1.0, 0.125], ..wishing() };
        spoil(&mut s, first);
        list.add_question("order of refusals", format!("{first} before 7"), Question::of(&s), 10);
    }
}

fn add_rooms(list: &mut List) {
    for room in [134, 90, 10, 9, 0] {
        list.add_question("rooms", format!("A with {room} bytes"), Question::of(&Situation::case_a()), room);
    }
    let mut s = wishing();
    spoil(&mut s, 3);
    for room in [9, 0] {
        list.add_question("rooms", format!("refusal 3 with {room} bytes"), Question::of(&s), room);
    }
}

/// Words that a "none" makes meaningless, anything that their columns allow.
fn add_meaningless(list: &mut List, random: &mut Random) {
    for (why, s) in [("A", Situation::case_a()), ("a penalty place", wishing())] {
        let words = Box::new(s.to_words(Some(random)));
        let room = super::sheet_answer(&s, 8192).len();
        let question = Question::Situation { words, xs: s.xs.clone(), ys: s.ys.clone() };
        list.add_question("words that mean nothing", why, question, room);
    }
}

/// Zeros of both signs that are placed as they are, and the numbers next to them: x, y and z of the ball at a direct free kick, and y and heading of a
/// goalkeeper. They stand at the end of the list, so that the records before them stay as they were.
pub fn add_zeros(list: &mut List) {
    // Each with the ends, and with a goalkeeper's side.
    const NUMBERS: [(f32, u8); 4] = [(0.0, 0), (-0.0, 1), (LEAST, 0), (-LEAST, 1)];
    let mut put = |why: String, s: Situation| list.add("zeros of a place", why, &s);
    let free_kick = Situation { set_play: 2, wish: Wish::BallAtRestart, ..plain() };
    for (value, sides) in NUMBERS {
        put(format!("the ball at {value:?}, {value:?}, ends {sides}"), Situation { ball: [value, value, 0.125], sides, ..free_kick.clone() });
    }
    for (x, y) in [(-0.0, 0.5), (0.5, -0.0)] {
        put(format!("the ball at {x:?}, {y:?}"), Situation { ball: [x, y, 0.125], ..free_kick.clone() });
    }
    for radius in [0.0, -0.0, LEAST] {
        let mut s = free_kick.clone();
        s.sizes[BALL_RADIUS] = radius;
        put(format!("a ball of radius {radius:?}"), s);
    }
    for (value, side) in NUMBERS {
        let mut s = Situation { set_play: PENALTY_KICK, wish: Wish::Goalkeeper(side), ..plain() };
        s.goalkeepers[usize::from(side)] = Some(1);
        s.players[usize::from(side)][0].pose = Some(Pose { x: 1.0, y: value, theta: value, radius: 0.25 });
        put(format!("the goalkeeper of side {side}, y and heading {value:?}"), s);
    }
}

/// Document 01's, each reason of refusal 5 with its near miss, bounds that are crossed, a candidate on a bound and a float beyond it.
fn given_candidates() -> [[f32; 4]; 27] {
    let nan = f32::NAN;
    let least = 1.0 / 64.0;
    [
        [-5.0, -6.75, -0.25, 2.0],
        [-5.0, -6.75, -0.25, 1.0],
        [0.0, 1.0, -1.0, 1.0],
        [nan, -6.75, -0.25, 2.0],
        [f32::NEG_INFINITY, -6.75, -0.25, 2.0],
        [-5.0, before(-64.0), -60.0, 2.0],
        [-5.0, -64.0, -60.0, 2.0],
        [-5.0, 60.0, after(64.0), 2.0],
        [-5.0, 60.0, 64.0, 2.0],
        [-5.0, -6.75, -0.25, nan],
        [-5.0, -6.75, -0.25, LEAST],
        [-5.0, -5.5, -4.5, before(least)],
        [-5.0, -5.5, -4.5, least],
        [-8.0, -6.75, -0.25, 0.0],
        [9.0, -6.75, -0.25, -0.0],
        [-5.0, -6.75, -0.25, -1.0],
        [-5.0, -6.75, -0.25, f32::INFINITY],
        [-5.0, nan, -0.25, 2.0],
        [nan, -6.75, nan, nan],
        [nan, 3.0, before(3.0), nan],
        [1.0, 3.0, 3.0, 1.0],
        [-4.0, -5.0, -3.0, 1.0],
        [-4.0, after(-5.0), -3.0, 1.0],
        [-4.0, -5.0, before(-3.0), 1.0],
        [0.0, -0.0, 0.0, 1.0],
        [-1.0, -0.0, 0.0, 1.0],
        [1000.0, 900.0, -900.0, 1.0],
    ]
}

pub fn add_candidates(list: &mut List, random: &mut Random) {
    for arguments in given_candidates() {
        put_candidates(list, arguments);
    }
    for _ in 0..4 {
        put_candidates(list, short(random));
    }
    let longest = Question::Candidates([0.0, -64.0, 64.0, 1.0 / 64.0]);
    list.add_question("candidates", "the longest list", longest.clone(), 8200);
    list.add_question("candidates", "the longest list without room", longest, 8192);
}

/// Arguments of a list that is not long.
fn short(random: &mut Random) -> [f32; 4] {
    loop {
        let [start, min, max, step] = entries::arguments(random);
        let list = entries::candidates(start, min, max, step);
        if list.is_some_and(|list| (4..20).contains(&list.len())) {
            return [start, min, max, step];
        }
    }
}

/// With exact room or more, and one place too few.
fn put_candidates(list: &mut List, arguments: [f32; 4]) {
    let [start, min, max, step] = arguments;
    let question = Question::Candidates(arguments);
    match entries::candidates(start, min, max, step) {
        None => list.add_question("candidates", format!("{arguments:?}"), question, 40),
        Some(found) => {
            let n = found.len();
            let spare = [0, 3][list.records.len() % 2];
            list.add_question("candidates", format!("{arguments:?}"), question.clone(), n + spare);
            if (2..8).contains(&n) && list.records.len() % 2 == 0 {
                list.add_question("candidates", format!("{arguments:?} without room"), question, n - 1);
            }
        }
    }
}
