//! The situation turned half round, what makes two decisions or two sheets equal, and the one exception, by documents 01 and 02.

use crate::decision::{Decision, Place, MINUS_ZERO};
use crate::situation::{Pose, Situation, Wish, BALL_RADIUS, PLAYING, SHOOTOUT, WIDTH};
use crate::slips::{self, on};
use std::f32::consts::PI;

/// x and y of poses, reference poses, ball and earlier places negated, zeros too; ends exchanged; the rest kept.
pub fn turned(s: &Situation) -> Situation {
    let pose = |p: Option<Pose>| p.map(|p| Pose { x: -p.x, y: -p.y, ..p });
    let mut t = s.clone();
    if !on(slips::TURN_KEEPS_ENDS) {
        t.sides = 1 - s.sides;
    }
    for player in t.players.iter_mut().flatten() {
        player.pose = pose(player.pose);
        player.reference = pose(player.reference);
    }
    t.ball = [-s.ball[0], -s.ball[1], s.ball[2]];
    if !on(slips::TURN_KEEPS_PLACES) {
        t.xs.iter_mut().chain(&mut t.ys).for_each(|x| *x = -*x);
    }
    t
}

/// Play runs unstopped outside a shoot-out, the ball is past a touchline with x zero, and the last contact is none.
pub fn excepted(s: &Situation) -> bool {
    s.state == PLAYING
        && !s.stopped
        && s.phase != SHOOTOUT
        && s.ball[1].abs() > s.sizes[WIDTH] * 0.5 + s.sizes[BALL_RADIUS]
        && s.ball[0] == 0.0
        && (s.last_contact.is_none() || on(slips::EXCEPTION_WITH_CONTACT))
        && !on(slips::NO_EXCEPTION)
}

/// A given heading turned half round.
fn heading(theta: f32) -> Option<f32> {
    [(0.0, PI), (PI, 0.0), (PI * 0.5, -PI * 0.5), (-PI * 0.5, PI * 0.5)]
        .into_iter()
        .find(|(from, _)| from.to_bits() == theta.to_bits())
        .map(|(_, to)| to)
}

/// The pattern of a given heading turned half round.
fn turned_heading(pattern: u32) -> Option<u32> {
    heading(f32::from_bits(pattern)).map(f32::to_bits)
}

/// The value of a row turned half round, if it can be turned: x and y are negated, but for 0, which is written for a zero of either sign; a
/// heading is turned, but that of a goalkeeper, and the ball's z stay; so do the rows of other kinds.
fn turned_value(wish: Wish, [kind, side, _, value]: [u32; 4]) -> Option<u32> {
    let ball = side == 2;
    match kind {
        7 | 8 if value == 0 && !on(slips::TURNED_ZERO_WITH_SIGN) => Some(0),
        7 | 8 => Some(value ^ MINUS_ZERO),
        9 if !ball && !matches!(wish, Wish::Goalkeeper(_)) && !on(slips::TURNED_HEADING_KEPT) => turned_heading(value),
        _ => Some(value),
    }
}

/// Whether a sheet is another one turned: as many rows, the header among them, each with the same kind, side and number, and the value turned.
pub fn same_sheets(wish: Wish, text: &str, turned: &str) -> bool {
    let (Some(rows), Some(turned)) = (rows(text), rows(turned)) else { return false };
    let as_turned = |row: [u32; 4]| turned_value(wish, row).map(|value| [row[0], row[1], row[2], value]);
    rows.len() == turned.len() && rows.into_iter().zip(turned).all(|(row, turned)| as_turned(row) == Some(turned))
}

/// The rows of a sheet: the numbers of each line, if there are four in each.
fn rows(text: &str) -> Option<Vec<[u32; 4]>> {
    let numbers = |line: &str| line.split_whitespace().map(|n| n.parse().ok()).collect::<Option<Vec<u32>>>();
    text.lines().map(|line| numbers(line)?.try_into().ok()).collect()
}

/// Whether `e` is `d` turned, item by item; x and y negated, zeros of both signs alike.
pub fn same(wish: Wish, d: &Decision, e: &Decision) -> bool {
    let reference = |(p, q): (&Option<Pose>, &Option<Pose>)| match (p, q) {
        (None, None) => true,
        (Some(p), Some(q)) => {
            q.x == -p.x && q.y == -p.y && q.theta.to_bits() == p.theta.to_bits() && q.radius.to_bits() == p.radius.to_bits()
        }
        _ => false,
    };
    let place = match (d.place, e.place) {
        (None, None) => true,
        (Some(Place::Ball(p)), Some(Place::Ball(q))) => q[0] == -p[0] && q[1] == -p[1] && q[2].to_bits() == p[2].to_bits(),
        (
            Some(Place::Player { side, number, x, y, theta }),
            Some(Place::Player { side: other_side, number: other_number, x: other_x, y: other_y, theta: other_theta }),
        ) => {
            let kept = matches!(wish, Wish::Goalkeeper(_));
            let expected = if kept { Some(theta) } else { heading(theta) };
            (side, number) == (other_side, other_number)
                && other_x == -x
                && other_y == -y
                && expected.map(f32::to_bits) == Some(other_theta.to_bits())
        }
        _ => false,
    };
    d.verdicts == e.verdicts
        && d.excess == e.excess
        && d.kicker == e.kicker
        && d.leaving == e.leaving
        && d.moved == e.moved
        && d.references.iter().flatten().zip(e.references.iter().flatten()).all(reference)
        && d.ball == e.ball
        && place
}
