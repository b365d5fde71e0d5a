//! Document 01's cases ("Both sides of a line") and those of document 02's request 4: the oracle must give what the documents say, before it is
//! compared with anything.

use crate::decision::Decision;
use crate::situation::*;
use crate::turn::turned;
use std::f32::consts::PI;

/// A case, the kinds of rows that it speaks of, and the rows that the sheet must then have of them.
pub struct Case {
    pub name: &'static str,
    pub situation: Situation,
    kinds: &'static [u32],
    rows: Vec<[u32; 4]>,
}

impl Case {
    pub fn holds(&self, decision: &Decision) -> bool {
        let rows: Vec<[u32; 4]> = decision.rows().into_iter().filter(|row| self.kinds.contains(&row[0])).collect();
        rows == self.rows
    }
}

const ALL: &[u32] = &[1, 2, 3, 4, 5, 6, 7, 8, 9];

pub fn cases() -> Vec<Case> {
    const PLACE: &[u32] = &[7, 8, 9];
    let mut cases = Vec::new();
    let mut case = |name, situation, kinds, rows| cases.push(Case { name, situation, kinds, rows });
    let a = Situation::case_a;
    let with_ball = |ball: [f32; 3]| Situation { ball, ..a() };
    let pose = |x, y| Some(Pose { x, y, theta: 0.0, radius: 0.25 });
    let nobody = || Situation { players: [[NOBODY; PLAYERS]; 2], ball: [0.0, 0.0, 0.125], ..a() };

    case("A", a(), ALL, vec![[2, 0, 5, 1], [6, 1, 1, 0]]);
    case("A in Set", Situation { state: SET, ..a() }, ALL, vec![[2, 0, 4, 1]]);
    let mut s = Situation { state: SET, ..a() };
    s.players[0][3].pose = None;
    s.players[0][5].pose = pose(6.75, -0.5);
    case("A in Set, 4 absent, 6 added", s, ALL, vec![[2, 0, 3, 1]]);

    case("ball on the line", with_ball([7.125, 0.0, 0.125]), &[6], vec![]);
    let past = 7.125 + 1.0 / (1 << 21) as f32;
    case("ball past the line", with_ball([past, 0.0, 0.125]), &[6], vec![[6, 1, 1, 0]]);
    let beside = with_ball([7.25, 1.125, 0.125]);
    case("ball beside the goal", beside.clone(), &[6], vec![[6, 0, 2, 0]]);
    case("the same, last contact Home", Situation { last_contact: Some(0), ..beside }, &[6], vec![[6, 1, 3, 0]]);
    let between = with_ball([0.0, 4.75, 0.125]);
    case("throw-in at x zero", between.clone(), &[6], vec![[6, 1, 4, 0]]);
    case("the same, turned", turned(&between), &[6], vec![[6, 0, 4, 0]]);

    let throw_in = Situation { ball: [8.0, 4.75, 0.125], set_play: 5, wish: Wish::BallAtRestart, ..nobody() };
    let place = |side, number, values: [f32; 3]| (7..).zip(values).map(|(kind, x)| [kind, side, number, x.to_bits()]).collect();
    case("throw-in place", throw_in, PLACE, place(2, 0, [6.96875, 4.46875, 0.125]));
    let mut s = Situation { wish: Wish::Penalty(0, 2), ..nobody() };
    s.players[0][1].pose = pose(0.0, -0.0);
    case("penalty place", s, PLACE, place(0, 2, [5.0, -5.25, PI * 0.5]));

    let mut s = Situation { set_play: KICK_OFF, kicking_side: Some(0), state: SET, ..nobody() };
    s.players[0][1].pose = pose(0.0, 0.25);
    case("kick-off in Set", s.clone(), &[1], vec![[1, 0, 2, 1]]);
    case("kick-off in Playing", Situation { state: PLAYING, ..s }, &[1], vec![[1, 0, 2, 2]]);
    cases.extend(near_edge());
    cases
}

/// Home 2 alone about the edge of the carpet, which is at x 8 and y 5.5, with allowance 0. Of radius 0.25 it does not leave at x 8.25 and at
/// y 5.75, and a float farther it does; at the corner of both the greater decides. 8 + 0.1 would be rounded to the last x.
fn near_edge() -> impl Iterator<Item = Case> {
    let (x, y) = (8.25f32, 5.75f32);
    let (next_x, next_y) = (x.next_up(), y.next_up());
    [
        ("near edge, x 8.25", x, 0.0, 0.25, false),
        ("near edge, the next x", next_x, 0.0, 0.25, true),
        ("near edge, x -8.25", -x, 0.0, 0.25, false),
        ("near edge, the next x below", -next_x, 0.0, 0.25, true),
        ("near edge, y 5.75", 0.0, y, 0.25, false),
        ("near edge, the next y", 0.0, next_y, 0.25, true),
        ("near edge, y -5.75", 0.0, -y, 0.25, false),
        ("near edge, the next y below", 0.0, -next_y, 0.25, true),
        ("near edge, corner", x, y, 0.25, false),
        ("near edge, corner, the next x", next_x, y, 0.25, true),
        ("near edge, corner, the next y", x, next_y, 0.25, true),
        ("near edge, x of 0x4101999a", f32::from_bits(0x4101_999a), 0.0, f32::from_bits(0x3dcc_cccd), true),
    ]
    .into_iter()
    .map(|(name, x, y, radius, leaves)| {
        let mut situation = Situation { players: [[NOBODY; PLAYERS]; 2], ball: [0.0, 0.0, 0.125], ..Situation::case_a() };
        situation.players[0][1].pose = Some(Pose { x, y, theta: 0.0, radius });
        let rows = if leaves { vec![[4, 0, 2, 0]] } else { vec![] };
        Case { name, situation, kinds: ALL, rows }
    })
}
