//! The items of a decision, and the sheet of them: document 01's, with document 02's one zero for the numbers of a place.

use crate::situation::{Pose, PLAYERS};
use crate::slips::{self, on};

#[derive(Clone, Copy, Debug)]
pub enum Place {
    Ball([f32; 3]),
    Player { side: u8, number: u8, x: f32, y: f32, theta: f32 },
}

/// The patterns of -0 and of the number below it.
pub const MINUS_ZERO: u32 = 1 << 31;
const LEAST_BELOW: u32 = MINUS_ZERO + 1;

const SIGNS_KEPT: [usize; 3] = [slips::SHEET_KEEPS_SIGN_OF_X, slips::SHEET_KEEPS_SIGN_OF_Y, slips::SHEET_KEEPS_SIGN_OF_THIRD];

impl Place {
    /// Side and number, of the ball 2 and 0, and the patterns of the three numbers as decided, a zero with its sign.
    pub fn words(self) -> [u32; 5] {
        let (side, number, values) = match self {
            Place::Ball(position) => (2, 0, position),
            Place::Player { side, number, x, y, theta } => (side, number, [x, y, theta]),
        };
        let [x, y, third] = values.map(f32::to_bits);
        [side.into(), number.into(), x, y, third]
    }

    /// The rows of the sheet.
    pub fn rows(self) -> [[u32; 4]; 3] {
        let [side, number, values @ ..] = self.words();
        std::array::from_fn(|i| [7 + i as u32, side, number, on_sheet(i, values[i])])
    }
}

/// The i-th of a place's three numbers on the sheet: 0 for a zero of either sign, otherwise the pattern.
fn on_sheet(i: usize, pattern: u32) -> u32 {
    match pattern {
        MINUS_ZERO if !on(SIGNS_KEPT[i]) => 0,
        LEAST_BELOW if on(slips::LEAST_AS_ZERO) => 0,
        _ => pattern,
    }
}

#[derive(Clone, Debug)]
pub struct Decision {
    /// 0 Legal, then document 01's numbers.
    pub verdicts: [[u8; PLAYERS]; 2],
    pub excess: [Vec<u8>; 2],
    pub kicker: Option<(u8, u8)>,
    pub leaving: Vec<(u8, u8)>,
    pub moved: Vec<(u8, u8)>,
    pub references: [[Option<Pose>; PLAYERS]; 2],
    /// Code and side, 2 for none.
    pub ball: Option<(u8, u8)>,
    pub place: Option<Place>,
}

/// For each player the verdict and the number of the test that settled it, 0 where there is none.
pub type Settled = [[(u8, u8); PLAYERS]; 2];

const ITEMS: [&str; 8] = ["verdicts", "excess", "kicker", "leaving", "moved", "references", "ball", "place"];

impl Decision {
    /// The rows of the sheet: kind, side, number, value.
    pub fn rows(&self) -> Vec<[u32; 4]> {
        let mut rows = Vec::new();
        for (side, verdicts) in self.verdicts.iter().enumerate() {
            for (i, &verdict) in verdicts.iter().enumerate().filter(|(_, &v)| v != 0) {
                rows.push([1, side as u32, i as u32 + 1, verdict.into()]);
            }
        }
        for (side, excess) in self.excess.iter().enumerate() {
            for (i, &number) in excess.iter().enumerate() {
                rows.push([2, side as u32, number.into(), i as u32 + 1]);
            }
        }
        let player = |kind, &(side, number): &(u8, u8)| [kind, side.into(), number.into(), 0];
        rows.extend(self.kicker.iter().map(|p| player(3, p)));
        rows.extend(self.leaving.iter().map(|p| player(4, p)));
        rows.extend(self.moved.iter().map(|p| player(5, p)));
        rows.extend(self.ball.map(|(code, side)| [6, side.into(), code.into(), 0]));
        rows.extend(self.place.into_iter().flat_map(Place::rows));
        rows
    }

    pub fn sheet(&self) -> String {
        let rows = self.rows();
        let mut text = String::with_capacity(45 * (rows.len() + 1));
        for [kind, side, number, value] in std::iter::once([0, 2, rows.len() as u32, 1]).chain(rows) {
            text += &format!("{kind:>11}{side:>11}{number:>11}{value:>11}\n");
        }
        text
    }

    /// The items in which two decisions differ.
    pub fn differing(&self, other: &Decision) -> Vec<&'static str> {
        let bits = |p: &Option<Pose>| p.map(|p| [p.x, p.y, p.theta, p.radius].map(f32::to_bits));
        let references = |d: &Decision| d.references.each_ref().map(|side| side.each_ref().map(bits));
        let place = |d: &Decision| d.place.map(Place::words);
        let same = [
            self.verdicts == other.verdicts,
            self.excess == other.excess,
            self.kicker == other.kicker,
            self.leaving == other.leaving,
            self.moved == other.moved,
            references(self) == references(other),
            self.ball == other.ball,
            place(self) == place(other),
        ];
        ITEMS.into_iter().zip(same).filter(|(_, same)| !same).map(|(item, _)| item).collect()
    }
}
