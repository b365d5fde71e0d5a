//! A situation in plain Rust, and its words. The numbers of enums are those of the words.

use crate::layout;
pub use crate::layout::{
    BALL_RADIUS, BORDER_STRIP_WIDTH, CENTER_CIRCLE_RADIUS, GOAL_AREA_LENGTH, GOAL_AREA_WIDTH, GOAL_HEIGHT, GOAL_WIDTH, FIELD_LENGTH as LENGTH, LINE_WIDTH, MARK_RADIUS,
    PENALTY_AREA_LENGTH, PENALTY_AREA_WIDTH, PENALTY_MARK_DISTANCE, FIELD_WIDTH as WIDTH, WORDS,
};
use crate::random::Random;

pub const PLAYERS: usize = 20;

#[derive(Clone, Copy, Debug, PartialEq)]
pub struct Pose {
    pub x: f32,
    pub y: f32,
    pub theta: f32,
    pub radius: f32,
}

#[derive(Clone, Copy, Debug, PartialEq)]
pub struct Player {
    pub penalty: u8,
    pub pose: Option<Pose>,
    pub reference: Option<Pose>,
    pub allowance: f32,
    pub inside: bool,
}

pub const NOBODY: Player = Player { penalty: 0, pose: None, reference: None, allowance: 0.0, inside: false };

#[derive(Clone, Copy, Debug, PartialEq)]
pub struct Restart {
    pub kind: u8,
    pub set_play: u8,
    pub side: u8,
    pub kicker: Option<u8>,
    pub kick_position: [f32; 2],
    /// other_touch, kicker_touched_outside_center_circle, kicker_touched_far_from_kick, ball_moved_since_kick
    pub flags: [bool; 4],
}

#[derive(Clone, Copy, Debug, PartialEq)]
pub enum Wish {
    Nothing,
    BallAtRestart,
    BallInSet,
    Penalty(u8, u8),
    PenaltyShot(u8, u8),
    Goalkeeper(u8),
}

#[derive(Clone, Debug, PartialEq)]
pub struct Situation {
    pub sizes: [f32; 14],
    pub distance: f32,
    pub sides: u8,
    pub stopped: bool,
    pub phase: u8,
    pub state: u8,
    pub set_play: u8,
    pub kicking_side: Option<u8>,
    pub goalkeepers: [Option<u8>; 2],
    pub players: [[Player; PLAYERS]; 2],
    pub ball: [f32; 3],
    pub last_contact: Option<u8>,
    pub restart: Option<Restart>,
    pub invalid_goals: bool,
    pub rested: bool,
    pub wish: Wish,
    pub xs: Vec<f32>,
    pub ys: Vec<f32>,
}

pub const SHOOTOUT: u8 = layout::PHASE_PENALTY_SHOOTOUT;
pub const SET: u8 = layout::STATE_SET;
pub const PLAYING: u8 = layout::STATE_PLAYING;
pub const NO_SET_PLAY: u8 = layout::SET_PLAY_NO_SET_PLAY;
pub const KICK_OFF: u8 = layout::SET_PLAY_KICK_OFF;
pub const INDIRECT_FREE_KICK: u8 = layout::SET_PLAY_INDIRECT_FREE_KICK;
pub const PENALTY_KICK: u8 = layout::SET_PLAY_PENALTY_KICK;
pub const GOAL_KICK: u8 = layout::SET_PLAY_GOAL_KICK;

impl Situation {
    /// Document 01's case A.
    pub fn case_a() -> Situation {
        let mut players = [[NOBODY; PLAYERS]; 2];
        for (number, x, y, inside) in [(2, 6.5, 0.0, true), (3, 6.5, 1.0, true), (4, 6.25, -1.0, true), (5, 6.75, 0.5, false)] {
            let player: &mut Player = &mut players[0][number - 1];
            player.pose = Some(Pose { x, y, theta: 0.0, radius: 0.25 });
            player.inside = inside;
        }
        Situation {
            sizes: [14.0, 9.0, 2.5, 1.75, 1.0, 4.0, 3.0, 6.0, 2.0, 1.5, 1.0, 0.0625, 0.0625, 0.125],
            distance: 1.0,
            sides: 0,
            stopped: false,
            phase: 0,
            state: PLAYING,
            set_play: NO_SET_PLAY,
            kicking_side: None,
            goalkeepers: [None; 2],
            players,
            ball: [7.25, 1.0, 0.125],
            last_contact: None,
            restart: None,
            invalid_goals: false,
            rested: false,
            wish: Wish::Nothing,
            xs: Vec::new(),
            ys: Vec::new(),
        }
    }

    /// The words; those that a "none" makes meaningless are 0, or with `noise` anything that their columns allow.
    pub fn to_words(&self, mut noise: Option<&mut Random>) -> [u32; WORDS] {
        let mut words = [0; WORDS];
        let mut at = 0;
        let mut put = |word: u32| {
            words[at] = word;
            at += 1;
        };
        let mut any = |values: u64| noise.as_mut().map_or(0, |random| random.within(0, values as i64 - 1) as u32);
        let float = 1 << 32;
        self.sizes.iter().for_each(|x| put(x.to_bits()));
        put(self.distance.to_bits());
        for word in [self.sides, u8::from(self.stopped), self.phase, self.state, self.set_play] {
            put(word.into());
        }
        put(self.kicking_side.map_or(layout::NO_SIDE, u32::from));
        self.goalkeepers.iter().for_each(|g| put(g.map_or(layout::NO_NUMBER, u32::from)));
        self.players.iter().flatten().for_each(|p| put(p.penalty.into()));
        let mut put_pose = |pose: Option<Pose>| match pose {
            Some(p) => [1, p.x.to_bits(), p.y.to_bits(), p.theta.to_bits(), p.radius.to_bits()].into_iter().for_each(&mut put),
            None => {
                put(0);
                (0..4).for_each(|_| put(any(float)));
            }
        };
        self.players.iter().flatten().for_each(|p| put_pose(p.pose));
        self.players.iter().flatten().for_each(|p| put_pose(p.reference));
        self.players.iter().flatten().for_each(|p| put(p.allowance.to_bits()));
        self.players.iter().flatten().for_each(|p| put(p.inside.into()));
        self.ball.iter().for_each(|x| put(x.to_bits()));
        put(self.last_contact.map_or(layout::NO_SIDE, u32::from));
        match self.restart {
            Some(r) => {
                put(1);
                put(r.kind.into());
                put(r.set_play.into());
                put(r.side.into());
                put(r.kicker.map_or(layout::NO_NUMBER, u32::from));
                r.kick_position.iter().for_each(|x| put(x.to_bits()));
                r.flags.iter().for_each(|&f| put(f.into()));
            }
            None => {
                put(0);
                for i in layout::RESTART_KIND..layout::INVALID_GOALS_JUDGED {
                    put(any(values(i)));
                }
            }
        }
        put(self.invalid_goals.into());
        put(self.rested.into());
        let (kind, side, number) = match self.wish {
            Wish::Nothing => (0, None, None),
            Wish::BallAtRestart => (1, None, None),
            Wish::BallInSet => (2, None, None),
            Wish::Penalty(side, number) => (3, Some(side), Some(number)),
            Wish::PenaltyShot(side, number) => (4, Some(side), Some(number)),
            Wish::Goalkeeper(side) => (5, Some(side), None),
        };
        put(kind);
        put(side.map_or_else(|| any(values(layout::WISHED_SIDE)), u32::from));
        put(number.map_or_else(|| any(values(layout::WISHED_PLAYER)), u32::from));
        assert_eq!(at, WORDS);
        words
    }

    /// Words that are no situation, or none.
    pub fn from_words(words: &[u32], xs: Vec<f32>, ys: Vec<f32>) -> Option<Situation> {
        if words.len() != WORDS || words.iter().enumerate().any(|(i, &w)| u64::from(w) >= values(i)) {
            return None;
        }
        let float = |i: usize| f32::from_bits(words[i]);
        let byte = |i: usize| words[i] as u8;
        let flag = |i: usize| words[i] == 1;
        let side = |i: usize| (words[i] < layout::NO_SIDE).then_some(byte(i));
        let number = |i: usize| (words[i] < layout::NO_NUMBER).then_some(byte(i));
        let pose = |i: usize| {
            flag(i).then(|| Pose { x: float(i + 1), y: float(i + 2), theta: float(i + 3), radius: float(i + 4) })
        };
        Some(Situation {
            sizes: std::array::from_fn(float),
            distance: float(layout::PENALTY_PLACEMENT_DISTANCE),
            sides: byte(layout::SIDES),
            stopped: flag(layout::STOPPED),
            phase: byte(layout::PHASE),
            state: byte(layout::STATE),
            set_play: byte(layout::SET_PLAY),
            kicking_side: side(layout::KICKING_SIDE),
            goalkeepers: [number(layout::GOALKEEPERS), number(layout::GOALKEEPERS + 1)],
            players: std::array::from_fn(|s| {
                std::array::from_fn(|p| {
                    let i = s * PLAYERS + p;
                    Player {
                        penalty: byte(layout::PENALTIES + i),
                        pose: pose(layout::POSES + layout::POSE_WORDS * i),
                        reference: pose(layout::REFERENCES + layout::POSE_WORDS * i),
                        allowance: float(layout::ALLOWANCES + i),
                        inside: flag(layout::PREVIOUSLY_INSIDE + i),
                    }
                })
            }),
            ball: [float(layout::BALL), float(layout::BALL + 1), float(layout::BALL + 2)],
            last_contact: side(layout::LAST_CONTACT),
            restart: flag(layout::RESTART).then(|| Restart {
                kind: byte(layout::RESTART_KIND),
                set_play: byte(layout::RESTART_SET_PLAY),
                side: byte(layout::RESTART_SIDE),
                kicker: number(layout::RESTART_KICKER),
                kick_position: [float(layout::KICK_POSITION), float(layout::KICK_POSITION + 1)],
                flags: std::array::from_fn(|i| flag(layout::OTHER_TOUCH + i)),
            }),
            invalid_goals: flag(layout::INVALID_GOALS_JUDGED),
            rested: flag(layout::BALL_RESTED),
            wish: match words[layout::WISH] {
                0 => Wish::Nothing,
                1 => Wish::BallAtRestart,
                2 => Wish::BallInSet,
                3 => Wish::Penalty(byte(layout::WISHED_SIDE), byte(layout::WISHED_PLAYER)),
                4 => Wish::PenaltyShot(byte(layout::WISHED_SIDE), byte(layout::WISHED_PLAYER)),
                _ => Wish::Goalkeeper(byte(layout::WISHED_SIDE)),
            },
            xs,
            ys,
        })
    }
}

/// The number of values that the column of word i has; they begin at 0.
pub fn values(i: usize) -> u64 {
    let run = layout::RUNS.iter().rev().find(|run| run.0 <= i).expect("the first run begins at 0");
    u64::from(run.2[(i - run.0) % run.2.len()]) + 1
}
