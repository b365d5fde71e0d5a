//! Deliberate slips. Each is off unless it is the one that is switched on. Those up to PLACED_WITHOUT_SIGN, and from RADIUS_NOT_TAKEN to
//! RADIUS_TO_EDGE_FIRST, are in the third build, into whose text build.rs puts the calls; the others are in the calls of the entries, in the
//! refusals, those of the lines and the lent bytes among them (sheet.rs), in the half turn and where a place becomes rows of the sheet. Those of
//! the coach's lines have a list of their own: they are where the tests record themselves (told.rs) and where the lines are made (coach.rs).

use std::cmp::Ordering;
use std::sync::atomic::{AtomicUsize, Ordering::Relaxed};

static SWITCHED_ON: AtomicUsize = AtomicUsize::new(usize::MAX);

pub const SQUARES: usize = 0;
pub const DEEPEST_FIRST: usize = 1;
pub const FIRST_CLEARANCE: usize = 2;
pub const FORGET_PLACES: usize = 3;
pub const MARGIN_ZERO_OUT: usize = 4;
pub const LOWER_NUMBER_FIRST: usize = 5;
pub const FOUR_IN_AREA: usize = 6;
pub const PENALTY_AREA_EDGE_IN: usize = 7;
pub const HALF_EDGE_IN: usize = 8;
pub const ALLOWANCE_REACHED: usize = 9;
pub const POSTS_OUT: usize = 10;
pub const CANDIDATE_AT_BOUND_OUT: usize = 11;
pub const LAST_OF_NEAREST: usize = 12;
pub const CLEARANCE_MUST_PASS: usize = 13;
pub const LINE_REACHED: usize = 14;
pub const GOAL_EDGE_IN: usize = 15;
pub const ZERO_POSITIVE: usize = 16;
pub const LESS_ANGLE: usize = 17;
pub const ANGLE_AS_IT_IS: usize = 18;
pub const ZERO_WITHOUT_SIGN: usize = 19;
pub const PLACED_WITHOUT_SIGN: usize = 20;
pub const WRITE_AFTER: usize = 21;
pub const WRITE_ON_REFUSAL: usize = 22;
pub const HIGHEST_REFUSAL: usize = 23;
pub const PLACES_4095: usize = 24;
pub const RADIUS_ZERO: usize = 25;
pub const TURN_KEEPS_ENDS: usize = 26;
pub const TURN_KEEPS_PLACES: usize = 27;
pub const NO_EXCEPTION: usize = 28;
pub const EXCEPTION_WITH_CONTACT: usize = 29;
pub const TURNED_ZERO_WITH_SIGN: usize = 30;
pub const TURNED_HEADING_KEPT: usize = 31;
pub const SHEET_KEEPS_SIGN_OF_X: usize = 32;
pub const SHEET_KEEPS_SIGN_OF_Y: usize = 33;
pub const SHEET_KEEPS_SIGN_OF_THIRD: usize = 34;
pub const LEAST_AS_ZERO: usize = 35;
pub const WORD_AFTER_PLACE: usize = 36;
pub const WORDS_ON_REFUSAL: usize = 37;
pub const WORDS_WITHOUT_PLACE: usize = 38;
pub const REFUSAL_BEFORE_LENGTH: usize = 39;
pub const RADIUS_NOT_TAKEN: usize = 40;
pub const RADIUS_ADDED: usize = 41;
pub const RADIUS_HALVED: usize = 42;
pub const RADIUS_FROM_X_ALONE: usize = 43;
pub const RADIUS_FROM_Y_ALONE: usize = 44;
pub const RADIUS_TO_EDGE_FIRST: usize = 45;
pub const ELEVEN_SHOWN: usize = 46;
pub const THIRTEEN_SHOWN: usize = 47;
pub const HEADER_COUNTED: usize = 48;
pub const SEVEN_BEFORE_TWELVE: usize = 49;
pub const TWELVE_BEFORE_FIVE: usize = 50;
pub const DESK_REFUSED: usize = 51;

/// What each slip does; the first five are document 01's.
pub const SLIPS: [&str; 52] = [
    "squares in f32 compared instead of the rounded distance",
    "the deepest defender named first",
    "the first of equal clearances kept",
    "earlier places forgotten",
    "a robot whose margin is 0 left out of the goal area",
    "of equal margins the lower number named first",
    "four players allowed in the goal area",
    "a margin of 0 counts as inside the opponents' penalty area",
    "a robot that touches the halfway line counts as in the opponents' half",
    "leaving as soon as the allowance is reached",
    "a robot at the post is not between the posts",
    "a candidate on the bound is left out",
    "of equal distances the highest number kicks",
    "a clearance that equals the distance is too small",
    "the ball is past the goal line when it reaches it",
    "a ball that touches the post's line is in the goal",
    "x of +0 and -0 counts as positive",
    "the angle for motion is less by 2^-22",
    "the angle for motion is not normalised",
    "the touchline for y of -0 is that of +0",
    "the decision drops the sign of a placed zero",
    "a byte after the sheet is written",
    "a byte is written on a refusal",
    "the highest refusal wins",
    "4,096 earlier places are refused",
    "a radius of 0 is accepted",
    "the half turn keeps the ends",
    "the half turn keeps the earlier places",
    "the half turn has no exception",
    "the exception looks at no contact",
    "the half turn of a sheet makes 2147483648 of 0",
    "the half turn of a sheet keeps the headings",
    "the sheet keeps the sign of a placed x of -0",
    "the sheet keeps the sign of a placed y of -0",
    "the sheet keeps the sign of a placed z or heading of -0",
    "the sheet has 0 for 2147483649, the number below -0",
    "a word after the five of the place is written",
    "words of a place are written on a refusal",
    "words of a place are written where there is none",
    "a refusal told before the -100 of fewer than five words",
    "leaving measured at the centre",
    "the radius added to the excess",
    "half the radius taken from the excess",
    "the radius taken from x alone",
    "the radius taken from y alone",
    "the radius added to the edge of the carpet first, which rounds elsewhere",
    "eleven lines shown by the display",
    "thirteen lines shown by the display",
    "the header counted among the twelve lines",
    "7 told before 12",
    "12 told before 5",
    "the desk refused with 12 too",
];

/// The slips that no sheet can show: what is decided otherwise is the sign of a zero.
pub const SEEN_BY_PLACE_ALONE: [usize; 1] = [PLACED_WITHOUT_SIGN];

/// Numbers that are told as each other.
const EXCHANGES: [(u8, u8); 15] = [
    (1, 2),
    (2, 3),
    (3, 4),
    (4, 5),
    (5, 6),
    (6, 7),
    (7, 8),
    (8, 9),
    (9, 10),
    (10, 11),
    (11, 12),
    (12, 13),
    (13, 14),
    (14, 15),
    (15, 13),
];
/// Of two tests joined by "or" the later and the earlier; the later is asked first.
const LATER_FIRST: [(u8, u8); 9] = [(5, 4), (7, 6), (9, 8), (11, 10), (12, 10), (12, 11), (14, 13), (15, 13), (15, 14)];

// The slips in the coach's lines are numbered after all those above: the two lists, and then these.
const EXCHANGED: usize = SLIPS.len();
const ASKED_FIRST: usize = EXCHANGED + EXCHANGES.len();
const COACH: usize = ASKED_FIRST + LATER_FIRST.len();
pub const ELSE_AS_TEST: usize = COACH;
pub const TENS_DROPPED: usize = COACH + 1;
pub const UNLESS_KICKER_EXCHANGED: usize = COACH + 2;
pub const REGION_EXCHANGED: usize = COACH + 3;
pub const SIDES_EXCHANGED: usize = COACH + 4;
pub const LENGTH_BEFORE_NUMBER: usize = COACH + 5;
pub const DISTANCE_BEFORE_NUMBER: usize = COACH + 6;
pub const NUMBER_BEFORE_BALL: usize = COACH + 7;
pub const NUMBER_AS_BYTE: usize = COACH + 8;
pub const REFUSAL_BEFORE_SIDE: usize = COACH + 9;
pub const LEGAL_WITHOUT_ROOM: usize = COACH + 10;

const COACH_SLIPS: [&str; 11] = [
    "the else, 3, told as the test before it, 2",
    "the tens of the number dropped",
    "the words of illegal and of illegal unless kicker exchanged",
    "the words of illegal and of in avoidance region exchanged",
    "the words of the sides exchanged",
    "8 told before the 4 of the number",
    "5 told before the 4 of the number",
    "the 4 of the number told before 3",
    "257 taken for the number 1",
    "a refusal told before the -100 of the side",
    "an empty text refused for a player that stands legally",
];

/// Switches the build with slips on, and none of them.
pub const NO_SLIP: usize = COACH + COACH_SLIPS.len();

/// Of the slips of the sheet those that change a line, a refusal, the lent bytes or the half turn.
const SEEN_BY_COACH: [usize; 10] = [
    SQUARES,
    PENALTY_AREA_EDGE_IN,
    HALF_EDGE_IN,
    POSTS_OUT,
    WRITE_AFTER,
    WRITE_ON_REFUSAL,
    HIGHEST_REFUSAL,
    PLACES_4095,
    RADIUS_ZERO,
    TURN_KEEPS_ENDS,
];

/// The slips that the command `coach-slips` tries, with what each does.
pub fn of_coach() -> Vec<(usize, String)> {
    let exchanges = EXCHANGES.map(|(a, b)| format!("{a} and {b} told as each other"));
    let first = LATER_FIRST.map(|(later, earlier)| format!("{later} asked before {earlier}"));
    let own = exchanges.into_iter().chain(first).chain(COACH_SLIPS.map(String::from));
    (EXCHANGED..).zip(own).chain(SEEN_BY_COACH.map(|slip| (slip, SLIPS[slip].to_string()))).collect()
}

/// The number that a test records.
pub fn recorded(number: u8) -> u8 {
    if on(ELSE_AS_TEST) && number == 3 {
        return 2;
    }
    match EXCHANGES.iter().enumerate().find(|(i, _)| on(EXCHANGED + i)) {
        Some((_, &(a, b))) if number == a => b,
        Some((_, &(a, b))) if number == b => a,
        _ => number,
    }
}

pub fn asked_first(later: u8, earlier: u8) -> bool {
    LATER_FIRST.iter().position(|&pair| pair == (later, earlier)).is_some_and(|i| on(ASKED_FIRST + i))
}

pub fn switch(slip: Option<usize>) {
    SWITCHED_ON.store(slip.unwrap_or(usize::MAX), Relaxed);
}

#[inline]
pub fn on(slip: usize) -> bool {
    SWITCHED_ON.load(Relaxed) == slip
}

pub fn any() -> bool {
    SWITCHED_ON.load(Relaxed) != usize::MAX
}

pub fn nearer(x: f32, y: f32, limit: f32) -> bool {
    if on(SQUARES) {
        x * x + y * y < limit * limit
    } else {
        crate::leaves::hypot(x, y) < limit
    }
}

pub fn by_margin(a: f32, b: f32) -> Ordering {
    if on(DEEPEST_FIRST) {
        b.total_cmp(&a)
    } else {
        a.total_cmp(&b)
    }
}

pub fn by_number(a: u8, b: u8) -> Ordering {
    if on(LOWER_NUMBER_FIRST) {
        a.cmp(&b)
    } else {
        b.cmp(&a)
    }
}

pub fn in_area(margin: f32) -> bool {
    if on(MARGIN_ZERO_OUT) {
        margin > 0.0
    } else {
        margin >= 0.0
    }
}

pub fn most_players(most: usize) -> usize {
    most + usize::from(on(FOUR_IN_AREA))
}

pub fn in_penalty_area(margin: f32) -> bool {
    if on(PENALTY_AREA_EDGE_IN) {
        margin >= 0.0
    } else {
        margin > 0.0
    }
}

pub fn in_half(x: f32, edge: f32) -> bool {
    if on(HALF_EDGE_IN) {
        x >= edge
    } else {
        x > edge
    }
}

/// The excess at the near edge, from that of the centre, the centre, the edges of the carpet and the radius. Both axes less the radius would be
/// no slip: rounding is monotone, so that the greater of the two stays the greater, or both become equal.
pub fn near_edge(excess: f32, centre: [f32; 2], edges: [f32; 2], radius: f32) -> f32 {
    let greater = |from_x: f32, from_y: f32, to_edge: f32| {
        let past = |i: usize| centre[i].abs() - (edges[i] + to_edge);
        crate::leaves::max(past(0) - from_x, past(1) - from_y)
    };
    match SWITCHED_ON.load(Relaxed) {
        RADIUS_NOT_TAKEN => excess,
        RADIUS_ADDED => excess + radius,
        RADIUS_HALVED => excess - radius * 0.5,
        RADIUS_FROM_X_ALONE => greater(radius, 0.0, 0.0),
        RADIUS_FROM_Y_ALONE => greater(0.0, radius, 0.0),
        RADIUS_TO_EDGE_FIRST => greater(0.0, 0.0, radius),
        _ => excess - radius,
    }
}

pub fn leaves(excess: f32, allowance: f32) -> bool {
    if on(ALLOWANCE_REACHED) {
        excess >= allowance
    } else {
        excess > allowance
    }
}

pub fn between_posts(y: f32, edge: f32) -> bool {
    if on(POSTS_OUT) {
        y < edge
    } else {
        y <= edge
    }
}

pub fn up_to(x: f32, bound: f32) -> bool {
    if on(CANDIDATE_AT_BOUND_OUT) {
        x < bound
    } else {
        x <= bound
    }
}

pub fn by_distance(a: f32, b: f32) -> Ordering {
    let order = a.total_cmp(&b);
    if on(LAST_OF_NEAREST) {
        order.then(Ordering::Greater)
    } else {
        order
    }
}

pub fn by_clearance(a: f32, b: f32) -> Ordering {
    let order = a.total_cmp(&b);
    if on(FIRST_CLEARANCE) {
        order.then(Ordering::Greater)
    } else {
        order
    }
}

pub fn reaches(clearance: f32, distance: f32) -> bool {
    if on(CLEARANCE_MUST_PASS) {
        clearance > distance
    } else {
        clearance >= distance
    }
}

pub fn past(x: f32, line: f32) -> bool {
    if on(LINE_REACHED) {
        x >= line
    } else {
        x > line
    }
}

pub fn in_goal(edge: f32, post: f32) -> bool {
    if on(GOAL_EDGE_IN) {
        edge <= post
    } else {
        edge < post
    }
}

pub fn positive(x: f32) -> bool {
    if on(ZERO_POSITIVE) {
        x >= 0.0
    } else {
        x > 0.0
    }
}

pub fn angle(limit: f32) -> f32 {
    if on(LESS_ANGLE) {
        limit - 1.0 / (1 << 22) as f32
    } else {
        limit
    }
}

pub fn normalized(normalize: impl Fn(f32) -> f32, angle: f32) -> f32 {
    if on(ANGLE_AS_IT_IS) {
        angle
    } else {
        normalize(angle)
    }
}

pub fn zero_sign(y: f32) -> f32 {
    if on(ZERO_WITHOUT_SIGN) && y == 0.0 {
        0.0
    } else {
        y
    }
}

pub fn placed(x: f32) -> f32 {
    if on(PLACED_WITHOUT_SIGN) && x == 0.0 {
        0.0
    } else {
        x
    }
}
