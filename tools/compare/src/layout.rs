//! Made by tools/words/make from crates/columns/specs/Layout.antt and crates/game/src/lib.rt. Change those and not this file.
#![allow(dead_code)]

pub const WORDS: usize = 563;
pub const POSE_WORDS: usize = 5;
pub const NO_NUMBER: u32 = 256;
pub const NO_SIDE: u32 = 2;

/// the length of the field
pub const FIELD_LENGTH: usize = 0;
/// the width of the field
pub const FIELD_WIDTH: usize = 1;
/// the width of a goal
pub const GOAL_WIDTH: usize = 2;
/// the height of a goal
pub const GOAL_HEIGHT: usize = 3;
/// the length of a goal area
pub const GOAL_AREA_LENGTH: usize = 4;
/// the width of a goal area
pub const GOAL_AREA_WIDTH: usize = 5;
/// the length of a penalty area
pub const PENALTY_AREA_LENGTH: usize = 6;
/// the width of a penalty area
pub const PENALTY_AREA_WIDTH: usize = 7;
/// the distance of a penalty mark from its goal line
pub const PENALTY_MARK_DISTANCE: usize = 8;
/// the radius of the centre circle
pub const CENTER_CIRCLE_RADIUS: usize = 9;
/// the width of the border strip
pub const BORDER_STRIP_WIDTH: usize = 10;
/// the radius of a mark
pub const MARK_RADIUS: usize = 11;
/// the width of a line
pub const LINE_WIDTH: usize = 12;
/// the radius of the ball
pub const BALL_RADIUS: usize = 13;
/// the distance between placed players
pub const PENALTY_PLACEMENT_DISTANCE: usize = 14;
/// which goal Home defends
pub const SIDES: usize = 15;
/// the game is stopped
pub const STOPPED: usize = 16;
/// the phase
pub const PHASE: usize = 17;
/// the state
pub const STATE: usize = 18;
/// the set play
pub const SET_PLAY: usize = 19;
/// the kicking side
pub const KICKING_SIDE: usize = 20;
/// the goalkeepers of Home and of Away
pub const GOALKEEPERS: usize = 21;
/// the penalties of the 40 players
pub const PENALTIES: usize = 23;
/// the poses of the 40 players
pub const POSES: usize = 63;
/// the reference poses of the 40 players, for motion
pub const REFERENCES: usize = 263;
/// the allowances of the 40 players
pub const ALLOWANCES: usize = 463;
/// which of the 40 players were inside their goal area
pub const PREVIOUSLY_INSIDE: usize = 503;
/// the ball: x, y, z
pub const BALL: usize = 543;
/// the side that touched the ball last
pub const LAST_CONTACT: usize = 546;
/// a Restart record is present
pub const RESTART: usize = 547;
/// the kind of the Restart
pub const RESTART_KIND: usize = 548;
/// the set play of the Restart
pub const RESTART_SET_PLAY: usize = 549;
/// the side of the Restart
pub const RESTART_SIDE: usize = 550;
/// the kicker of the Restart
pub const RESTART_KICKER: usize = 551;
/// the kick position of the Restart: x, y
pub const KICK_POSITION: usize = 552;
/// other_touch of the Restart
pub const OTHER_TOUCH: usize = 554;
/// kicker_touched_outside_center_circle of the Restart
pub const KICKER_TOUCHED_OUTSIDE_CENTER_CIRCLE: usize = 555;
/// kicker_touched_far_from_kick of the Restart
pub const KICKER_TOUCHED_FAR_FROM_KICK: usize = 556;
/// ball_moved_since_kick of the Restart
pub const BALL_MOVED_SINCE_KICK: usize = 557;
/// invalid goals are judged
pub const INVALID_GOALS_JUDGED: usize = 558;
/// the ball has rested since the kick
pub const BALL_RESTED: usize = 559;
/// what is wished
pub const WISH: usize = 560;
/// the wished side (wishes 3, 4, 5)
pub const WISHED_SIDE: usize = 561;
/// the wished player (wishes 3, 4)
pub const WISHED_PLAYER: usize = 562;

/// First word, how many groups, greatest values of a group.
pub const RUNS: [(usize, usize, &[u32]); 44] = [
    (FIELD_LENGTH, 1, &[u32::MAX]),
    (FIELD_WIDTH, 1, &[u32::MAX]),
    (GOAL_WIDTH, 1, &[u32::MAX]),
    (GOAL_HEIGHT, 1, &[u32::MAX]),
    (GOAL_AREA_LENGTH, 1, &[u32::MAX]),
    (GOAL_AREA_WIDTH, 1, &[u32::MAX]),
    (PENALTY_AREA_LENGTH, 1, &[u32::MAX]),
    (PENALTY_AREA_WIDTH, 1, &[u32::MAX]),
    (PENALTY_MARK_DISTANCE, 1, &[u32::MAX]),
    (CENTER_CIRCLE_RADIUS, 1, &[u32::MAX]),
    (BORDER_STRIP_WIDTH, 1, &[u32::MAX]),
    (MARK_RADIUS, 1, &[u32::MAX]),
    (LINE_WIDTH, 1, &[u32::MAX]),
    (BALL_RADIUS, 1, &[u32::MAX]),
    (PENALTY_PLACEMENT_DISTANCE, 1, &[u32::MAX]),
    (SIDES, 1, &[1]),
    (STOPPED, 1, &[1]),
    (PHASE, 1, &[4]),
    (STATE, 1, &[5]),
    (SET_PLAY, 1, &[7]),
    (KICKING_SIDE, 1, &[2]),
    (GOALKEEPERS, 2, &[256]),
    (PENALTIES, 40, &[13]),
    (POSES, 40, &[1, u32::MAX, u32::MAX, u32::MAX, u32::MAX]),
    (REFERENCES, 40, &[1, u32::MAX, u32::MAX, u32::MAX, u32::MAX]),
    (ALLOWANCES, 40, &[u32::MAX]),
    (PREVIOUSLY_INSIDE, 40, &[1]),
    (BALL, 3, &[u32::MAX]),
    (LAST_CONTACT, 1, &[2]),
    (RESTART, 1, &[1]),
    (RESTART_KIND, 1, &[3]),
    (RESTART_SET_PLAY, 1, &[7]),
    (RESTART_SIDE, 1, &[1]),
    (RESTART_KICKER, 1, &[256]),
    (KICK_POSITION, 2, &[u32::MAX]),
    (OTHER_TOUCH, 1, &[1]),
    (KICKER_TOUCHED_OUTSIDE_CENTER_CIRCLE, 1, &[1]),
    (KICKER_TOUCHED_FAR_FROM_KICK, 1, &[1]),
    (BALL_MOVED_SINCE_KICK, 1, &[1]),
    (INVALID_GOALS_JUDGED, 1, &[1]),
    (BALL_RESTED, 1, &[1]),
    (WISH, 1, &[5]),
    (WISHED_SIDE, 1, &[1]),
    (WISHED_PLAYER, 1, &[255]),
];

// Side
pub const SIDE_HOME: u8 = 0;
pub const SIDE_AWAY: u8 = 1;

// SideMapping
pub const SIDE_MAPPING_HOME_DEFENDS_LEFT_GOAL: u8 = 0;
pub const SIDE_MAPPING_HOME_DEFENDS_RIGHT_GOAL: u8 = 1;

// Phase
pub const PHASE_FIRST_HALF: u8 = 0;
pub const PHASE_SECOND_HALF: u8 = 1;
pub const PHASE_FIRST_EXTRA_HALF: u8 = 2;
pub const PHASE_SECOND_EXTRA_HALF: u8 = 3;
pub const PHASE_PENALTY_SHOOTOUT: u8 = 4;

// State
pub const STATE_INITIAL: u8 = 0;
pub const STATE_READY: u8 = 1;
pub const STATE_SET: u8 = 2;
pub const STATE_PLAYING: u8 = 3;
pub const STATE_FINISHED: u8 = 4;
pub const STATE_TIMEOUT: u8 = 5;

// SetPlay
pub const SET_PLAY_NO_SET_PLAY: u8 = 0;
pub const SET_PLAY_KICK_OFF: u8 = 1;
pub const SET_PLAY_DIRECT_FREE_KICK: u8 = 2;
pub const SET_PLAY_INDIRECT_FREE_KICK: u8 = 3;
pub const SET_PLAY_PENALTY_KICK: u8 = 4;
pub const SET_PLAY_THROW_IN: u8 = 5;
pub const SET_PLAY_GOAL_KICK: u8 = 6;
pub const SET_PLAY_CORNER_KICK: u8 = 7;

// Penalty
pub const PENALTY_NO_PENALTY: u8 = 0;
pub const PENALTY_ILLEGAL_POSITIONING: u8 = 1;
pub const PENALTY_MOTION_IN_SET: u8 = 2;
pub const PENALTY_MOTION_IN_STOP: u8 = 3;
pub const PENALTY_LOCAL_GAME_STUCK: u8 = 4;
pub const PENALTY_INCAPABLE_ROBOT: u8 = 5;
pub const PENALTY_PICKED_UP: u8 = 6;
pub const PENALTY_BALL_HOLDING: u8 = 7;
pub const PENALTY_LEAVING_THE_FIELD: u8 = 8;
pub const PENALTY_PLAYING_WITH_ARMS_HANDS: u8 = 9;
pub const PENALTY_PUSHING: u8 = 10;
pub const PENALTY_CAUTIONED: u8 = 11;
pub const PENALTY_SENT_OFF: u8 = 12;
pub const PENALTY_SUBSTITUTE: u8 = 13;

// RestartKind
pub const RESTART_KIND_KICK_OFF: u8 = 0;
pub const RESTART_KIND_INDIRECT: u8 = 1;
pub const RESTART_KIND_DIRECT: u8 = 2;
pub const RESTART_KIND_PENALTY_SHOT: u8 = 3;

// Wish
pub const WISH_NOTHING: u8 = 0;
pub const WISH_BALL_AT_RESTART: u8 = 1;
pub const WISH_BALL_IN_SET: u8 = 2;
pub const WISH_FOR_PENALTY: u8 = 3;
pub const WISH_FOR_PENALTY_SHOT: u8 = 4;
pub const WISH_GOALKEEPER: u8 = 5;
