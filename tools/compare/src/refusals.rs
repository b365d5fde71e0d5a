//! Refusals 1 to 5, written from document 01's table. The original refuses nothing.

use crate::slips;
use crate::situation::{Pose, Situation, Wish, LENGTH, LINE_WIDTH, WIDTH};

const LEAST_NUMBER: u8 = 1;
const GREATEST_NUMBER: u8 = 20;
const MOST_PLACES: usize = 4096;

/// The lowest number that refuses.
pub fn refusal(s: &Situation) -> Option<i64> {
    let refused = [sizes(s), poses(s), ball(s), numbers(s), distance(s)];
    let first = if slips::on(slips::HIGHEST_REFUSAL) { refused.iter().rposition(|&r| r) } else { refused.iter().position(|&r| r) };
    first.map(|i| i as i64 + 1)
}

/// How many of the refusals apply.
pub fn applying(s: &Situation) -> usize {
    [sizes(s), poses(s), ball(s), numbers(s), distance(s)].iter().filter(|&&r| r).count()
}

/// NaN, or beyond 64 either way.
fn beyond(x: f32) -> bool {
    x.is_nan() || x < -64.0 || x > 64.0
}

fn sizes(s: &Situation) -> bool {
    s.sizes.iter().enumerate().any(|(i, &size)| {
        let (least, greatest) = match i {
            LENGTH | WIDTH => (4.0, 64.0),
            LINE_WIDTH => (0.0, 1.0),
            _ => (0.0, 64.0),
        };
        size.is_nan() || size < least || size > greatest
    })
}

fn poses(s: &Situation) -> bool {
    let bad_pose = |pose: Option<Pose>| {
        pose.is_some_and(|p| {
            let too_small = p.radius < 0.0 || (p.radius == 0.0 && !slips::on(slips::RADIUS_ZERO));
            beyond(p.x) || beyond(p.y) || beyond(p.theta) || p.radius.is_nan() || too_small || p.radius > 1.0
        })
    };
    s.players.iter().flatten().any(|p| bad_pose(p.pose) || bad_pose(p.reference) || beyond(p.allowance))
        || s.xs.iter().chain(&s.ys).any(|&x| beyond(x))
        || s.xs.len() != s.ys.len()
        || s.xs.len() > MOST_PLACES - usize::from(slips::on(slips::PLACES_4095))
}

fn ball(s: &Situation) -> bool {
    s.ball.iter().any(|&x| beyond(x))
}

fn numbers(s: &Situation) -> bool {
    let kicker = s.restart.and_then(|r| r.kicker);
    let wished = match s.wish {
        Wish::Penalty(_, number) | Wish::PenaltyShot(_, number) => Some(number),
        Wish::Nothing | Wish::BallAtRestart | Wish::BallInSet | Wish::Goalkeeper(_) => None,
    };
    [s.goalkeepers[0], s.goalkeepers[1], kicker, wished]
        .into_iter()
        .flatten()
        .any(|number| !(LEAST_NUMBER..=GREATEST_NUMBER).contains(&number))
}

fn distance(s: &Situation) -> bool {
    s.distance.is_nan() || (s.distance > 0.0 && s.distance < 1.0 / 64.0)
}
