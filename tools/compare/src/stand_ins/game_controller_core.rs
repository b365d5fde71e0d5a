//! What of game_controller_core the automatic referee uses. The controller does nothing: it records what is applied and answers true.

use std::time::Duration;

use action::VAction;
use types::{ActionSource, Game, Params};

/// The original types.rs.
#[allow(dead_code)]
pub mod types {
    include!(concat!(env!("OUT_DIR"), "/types.rs"));
}

pub mod timer {
    use std::ops::{Neg, Sub};
    use std::time::Duration;

    /// Nanoseconds.
    #[derive(Clone, Copy, Debug, PartialEq, PartialOrd)]
    pub struct SignedDuration(i128);

    impl SignedDuration {
        pub const ZERO: Self = Self(0);

        pub const fn seconds(seconds: i64) -> Self {
            Self(seconds as i128 * 1_000_000_000)
        }

        pub const fn is_negative(self) -> bool {
            self.0 < 0
        }

        pub const fn is_zero(self) -> bool {
            self.0 == 0
        }
    }

    impl TryFrom<Duration> for SignedDuration {
        type Error = std::num::TryFromIntError;

        fn try_from(duration: Duration) -> Result<Self, Self::Error> {
            duration.as_nanos().try_into().map(Self)
        }
    }

    impl Sub for SignedDuration {
        type Output = Self;

        fn sub(self, other: Self) -> Self {
            Self(self.0 - other.0)
        }
    }

    impl Neg for SignedDuration {
        type Output = Self;

        fn neg(self) -> Self {
            Self(-self.0)
        }
    }

    /// No clock runs here, so that a timer is only what it was made as.
    #[derive(Clone, Copy, Debug, PartialEq)]
    #[allow(dead_code)]
    pub enum Timer {
        Started { remaining: SignedDuration },
        Stopped,
    }

    impl Timer {
        pub fn get_remaining(&self) -> SignedDuration {
            match self {
                Self::Started { remaining } => *remaining,
                Self::Stopped => SignedDuration::ZERO,
            }
        }
    }
}

#[allow(dead_code)]
pub mod actions {
    use super::types::{PenaltyCall, PlayerNumber, SetPlay, Side};

    #[derive(Debug)]
    pub struct FinishHalf;

    #[derive(Debug)]
    pub struct FinishPenaltyShot;

    #[derive(Debug)]
    pub struct FinishSetPlay;

    #[derive(Debug)]
    pub struct FreeSetPlay;

    #[derive(Debug)]
    pub struct GlobalGameStuck;

    #[derive(Debug)]
    pub struct Goal {
        pub side: Side,
    }

    #[derive(Debug)]
    pub struct Penalize {
        pub side: Side,
        pub player: PlayerNumber,
        pub call: PenaltyCall,
    }

    #[derive(Debug)]
    pub struct StartSetPlay {
        pub side: Option<Side>,
        pub set_play: SetPlay,
    }

    #[derive(Debug)]
    pub struct StopPlay {
        pub resume: bool,
    }

    #[derive(Debug)]
    pub struct Unpenalize {
        pub side: Side,
        pub player: PlayerNumber,
        pub force: bool,
    }

    #[derive(Debug)]
    pub struct WaitForSetPlay;
}

pub mod action {
    use super::actions;

    #[derive(Debug)]
    #[allow(dead_code)]
    pub enum VAction {
        FinishHalf(actions::FinishHalf),
        FinishPenaltyShot(actions::FinishPenaltyShot),
        FinishSetPlay(actions::FinishSetPlay),
        FreeSetPlay(actions::FreeSetPlay),
        GlobalGameStuck(actions::GlobalGameStuck),
        Goal(actions::Goal),
        Penalize(actions::Penalize),
        StartSetPlay(actions::StartSetPlay),
        StopPlay(actions::StopPlay),
        Unpenalize(actions::Unpenalize),
        WaitForSetPlay(actions::WaitForSetPlay),
    }
}

/// No judge of the base looks at the parameters; reading them is a fault.
pub struct NoParams;

impl std::ops::Deref for NoParams {
    type Target = Params;

    fn deref(&self) -> &Params {
        unreachable!("the parameters of a competition are not part of a situation")
    }
}

pub struct GameController {
    pub params: NoParams,
    game: Game,
    recorded: Vec<VAction>,
}

impl GameController {
    pub fn new(game: Game) -> Self {
        Self { params: NoParams, game, recorded: Vec::new() }
    }

    pub fn get_game(&self, _delayed: bool) -> &Game {
        &self.game
    }

    pub fn get_time(&self) -> Duration {
        Duration::ZERO
    }

    pub fn apply(&mut self, action: VAction, _source: ActionSource) -> bool {
        self.recorded.push(action);
        true
    }

    /// What was applied since the last call of this.
    pub fn taken(&mut self) -> Vec<VAction> {
        std::mem::take(&mut self.recorded)
    }
}
