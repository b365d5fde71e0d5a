//! Each item of a decision, asked of the original functions as document 01's "Under the sheet" says. This module stands inside each
//! build of the original text (`super`), so that it reaches the private items.

use std::time::Duration;

use super::*;
use crate::decision::{Decision, Place, Settled};
use crate::situation::{self, Situation, Wish};
use crate::stand_ins::game_controller_core::types::{Player, Team};
use crate::told;

const SIDES: [Side; 2] = [Side::Home, Side::Away];
const PHASES: [Phase; 5] =
    [Phase::FirstHalf, Phase::SecondHalf, Phase::FirstExtraHalf, Phase::SecondExtraHalf, Phase::PenaltyShootout];
const STATES: [State; 6] = [State::Initial, State::Ready, State::Set, State::Playing, State::Finished, State::Timeout];
const SET_PLAYS: [SetPlay; 8] = [
    SetPlay::NoSetPlay,
    SetPlay::KickOff,
    SetPlay::DirectFreeKick,
    SetPlay::IndirectFreeKick,
    SetPlay::PenaltyKick,
    SetPlay::ThrowIn,
    SetPlay::GoalKick,
    SetPlay::CornerKick,
];
const PENALTIES: [Penalty; 14] = [
    Penalty::NoPenalty,
    Penalty::IllegalPositioning,
    Penalty::MotionInSet,
    Penalty::MotionInStop,
    Penalty::LocalGameStuck,
    Penalty::IncapableRobot,
    Penalty::PickedUp,
    Penalty::BallHolding,
    Penalty::LeavingTheField,
    Penalty::PlayingWithArmsHands,
    Penalty::Pushing,
    Penalty::Cautioned,
    Penalty::SentOff,
    Penalty::Substitute,
];

/// The decision on an accepted situation.
pub fn decide(s: &Situation) -> Decision {
    let game = game_of(s);
    let world = world_of(s);
    let field = field_of(s);
    let margins = compute_margins(&game, &world, &field);

    let mut verdicts = [[0; NUM_PLAYERS]; 2];
    let mut leaving = Vec::new();
    for (side, player) in all_players() {
        let verdict = rules::is_illegally_positioned(&game, &world, &field, &margins, side, player);
        verdicts[side as usize][index(player)] = verdict_number(verdict);
        let allowance = s.players[side as usize][index(player)].allowance;
        if rules::is_leaving_the_field(&game, &world, &field, side, player, allowance) {
            leaving.push((side as u8, u8::from(player)));
        }
    }

    // Asked outside the shoot-out in Set or Playing; newcomers first only in Playing.
    let excess = SIDES.map(|side| {
        if game.phase == Phase::PenaltyShootout || !matches!(game.state, State::Set | State::Playing) {
            return Vec::new();
        }
        let inside = s.players[side as usize].map(|p| p.inside);
        rules::goal_area_excess(&game, &margins, side, &inside, game.state == State::Playing)
            .into_iter()
            .map(u8::from)
            .collect()
    });

    let kicker = game.kicking_side.and_then(|side| {
        rules::determine_kicking_player(&game, &world, &field, &margins, side).map(|player| (side as u8, u8::from(player)))
    });

    let place = place_of(s, &game, &world, &field);
    let mut gc = GameController::new(game);
    let ball = ball_of(s, &mut gc, &world, &field);
    let (moved, references) = motion_of(s, &mut gc, &world, &field);
    Decision { verdicts, excess, kicker, leaving, moved, references, ball, place }
}

fn verdict_number(verdict: rules::Positioning) -> u8 {
    match verdict {
        rules::Positioning::Legal => 0,
        rules::Positioning::Illegal => 1,
        rules::Positioning::IllegalUnlessKicker => 2,
        rules::Positioning::InAvoidanceRegion => 3,
    }
}

/// The verdicts on an accepted situation, each with the test that recorded itself meanwhile; in a text without such tests there is none.
pub fn settled(s: &Situation) -> Settled {
    let (game, world, field) = (game_of(s), world_of(s), field_of(s));
    let margins = compute_margins(&game, &world, &field);
    let mut settled = [[(0, 0); NUM_PLAYERS]; 2];
    for (side, player) in all_players() {
        told::taken();
        let verdict = rules::is_illegally_positioned(&game, &world, &field, &margins, side, player);
        settled[side as usize][index(player)] = (verdict_number(verdict), told::taken());
    }
    settled
}

/// check_motion, with the situation's reference poses, and those after it.
fn motion_of(
    s: &Situation,
    gc: &mut GameController,
    world: &World,
    field: &FieldDimensions,
) -> (Vec<(u8, u8)>, [[Option<situation::Pose>; NUM_PLAYERS]; 2]) {
    let mut referee = referee(s, field, Features::PENALIZE_MOTION_IN_SET | Features::PENALIZE_MOTION_IN_STOP);
    referee.motion_check_from = Some(Duration::ZERO);
    referee.motion_reference = Some(EnumMap::from_fn(|side| poses_of(s, side, |p| p.reference)));
    referee.check_motion(gc, world);
    let moved = gc
        .taken()
        .into_iter()
        .map(|action| match action {
            VAction::Penalize(Penalize { side, player, .. }) => (side as u8, u8::from(player)),
            other => panic!("check_motion applied {other:?}"),
        })
        .collect();
    let after = referee.motion_reference.expect("the reference poses stay");
    let references = SIDES.map(|side| {
        after[side].map(|pose| pose.map(|p| situation::Pose { x: p.x, y: p.y, theta: p.theta, radius: p.radius }))
    });
    (moved, references)
}

/// check_ball_out; the clock is set so that the ball has rested since the kick exactly where the situation says so.
fn ball_of(s: &Situation, gc: &mut GameController, world: &World, field: &FieldDimensions) -> Option<(u8, u8)> {
    let features = if s.invalid_goals { Features::INVALID_GOAL } else { Features::empty() };
    let mut referee = referee(s, field, features);
    referee.detect_movement(world);
    referee.last_contact = s.last_contact.map(side_of);
    referee.clock = if s.rested { Autoreferee::BALL_REST_DURATION } else { Duration::ZERO };
    referee.restart = s.restart.map(|r| Restart {
        kind: [RestartKind::KickOff, RestartKind::Indirect, RestartKind::Direct, RestartKind::PenaltyShot][usize::from(r.kind)],
        set_play: SET_PLAYS[usize::from(r.set_play)],
        side: side_of(r.side),
        kicker: r.kicker.map(|number| (PlayerNumber::new(number), Duration::ZERO)),
        kick_position: r.kick_position,
        other_touch: r.flags[0],
        kicker_touched_outside_center_circle: r.flags[1],
        kicker_touched_far_from_kick: r.flags[2],
        ball_moved_since_kick: r.flags[3],
    });
    referee.check_ball_out(gc, world);
    let mut judgments = gc.taken().into_iter().filter_map(|action| match action {
        VAction::Goal(Goal { side }) => Some((1, side as u8)),
        VAction::FinishPenaltyShot(FinishPenaltyShot) => Some((5, 2)),
        VAction::StartSetPlay(StartSetPlay { side, set_play }) => {
            let code = match set_play {
                SetPlay::GoalKick => 2,
                SetPlay::CornerKick => 3,
                SetPlay::ThrowIn => 4,
                other => panic!("check_ball_out started {other:?}"),
            };
            Some((code, side.expect("a side is given") as u8))
        }
        VAction::StopPlay(_) => None,
        other => panic!("check_ball_out applied {other:?}"),
    });
    let judgment = judgments.next();
    assert!(judgments.next().is_none(), "check_ball_out applied two judgments");
    judgment
}

/// The place wished for: an arm of `observe` for a ball, the function of that name for a player.
fn place_of(s: &Situation, game: &Game, world: &World, field: &FieldDimensions) -> Option<Place> {
    let mut commands: Vec<Command> = Vec::new();
    let referee = |features| referee(s, field, features);
    match s.wish {
        Wish::Nothing => return None,
        Wish::BallAtRestart => {
            // A set play begins in Playing: before, there was none.
            let now = Game { state: State::Playing, ..game.clone() };
            let last = Game { set_play: SetPlay::NoSetPlay, ..now.clone() };
            let mut referee = referee(Features::PLACE_BALL);
            referee.last_game = Some(last);
            referee.observe(&GameController::new(now), world, &mut commands);
        }
        Wish::BallInSet => {
            // Set begins.
            let now = Game { state: State::Set, ..game.clone() };
            let last = Game { state: State::Ready, ..now.clone() };
            let mut referee = referee(Features::PLACE_BALL);
            referee.last_game = Some(last);
            referee.observe(&GameController::new(now), world, &mut commands);
        }
        Wish::Penalty(side, number) => {
            commands.reserve_exact(s.xs.len() + 1);
            commands.extend(s.xs.iter().zip(&s.ys).map(|(&x, &y)| Command::PlacePlayer {
                side: Side::Home,
                player: PlayerNumber::new(PlayerNumber::MIN),
                x,
                y,
                theta: 0.0,
            }));
            referee(Features::empty()).place_for_penalty(game, world, side_of(side), PlayerNumber::new(number), &mut commands);
            commands.drain(..s.xs.len());
        }
        Wish::PenaltyShot(side, number) => {
            referee(Features::empty()).place_for_penalty_shot(
                game,
                world,
                side_of(side),
                PlayerNumber::new(number),
                &mut commands,
            );
        }
        Wish::Goalkeeper(side) => {
            referee(Features::empty()).place_penalty_goalkeeper(game, world, side_of(side), &mut commands);
        }
    }
    assert!(commands.len() < 2, "two places: {commands:?}");
    commands.pop().map(|command| match command {
        Command::PlaceBall { position } => Place::Ball(position),
        Command::PlacePlayer { side, player, x, y, theta } => {
            Place::Player { side: side as u8, number: u8::from(player), x, y, theta }
        }
        Command::Whistle => panic!("a whistle for a wish"),
    })
}

/// The original's candidates; it is not asked where document 01 refuses, since it may not end there.
pub fn candidates(start: f32, min: f32, max: f32, step: f32) -> Vec<f32> {
    rules::penalty_placement_candidates(start, min, max, step)
}

pub fn normalize_angle(angle: f32) -> f32 {
    rules::normalize_angle(angle)
}

fn side_of(side: u8) -> Side {
    SIDES[usize::from(side)]
}

fn poses_of(
    s: &Situation,
    side: Side,
    which: impl Fn(&situation::Player) -> Option<situation::Pose>,
) -> [Option<PlayerPose>; NUM_PLAYERS] {
    s.players[side as usize]
        .each_ref()
        .map(|player| which(player).map(|p| PlayerPose { x: p.x, y: p.y, theta: p.theta, radius: p.radius }))
}

fn world_of(s: &Situation) -> World {
    World { ball: s.ball, players: EnumMap::from_fn(|side| poses_of(s, side, |p| p.pose)) }
}

fn game_of(s: &Situation) -> Game {
    Game {
        sides: [SideMapping::HomeDefendsLeftGoal, SideMapping::HomeDefendsRightGoal][usize::from(s.sides)],
        stopped: s.stopped,
        phase: PHASES[usize::from(s.phase)],
        state: STATES[usize::from(s.state)],
        set_play: SET_PLAYS[usize::from(s.set_play)],
        kicking_side: s.kicking_side.map(side_of),
        primary_timer: Timer::Stopped,
        secondary_timer: Timer::Stopped,
        timeout_rewind_timer: Timer::Stopped,
        switch_half_timer: Timer::Stopped,
        teams: EnumMap::from_fn(|side: Side| Team {
            goalkeeper: s.goalkeepers[side as usize].map(PlayerNumber::new),
            score: 0,
            penalty_counter: 0,
            timeout_budget: 0,
            message_budget: 0,
            illegal_communication: false,
            penalty_shot: 0,
            penalty_shot_mask: 0,
            players: s.players[side as usize].each_ref().map(|player| Player {
                penalty: PENALTIES[usize::from(player.penalty)],
                penalty_timer: Timer::Stopped,
                penalty_duration: Duration::ZERO,
                cautions: 0,
            }),
        }),
    }
}

fn field_of(s: &Situation) -> FieldDimensions {
    let [length, width, goal_width, goal_height, goal_area_length, goal_area_width, penalty_area_length, penalty_area_width, penalty_mark_distance, center_circle_radius, border_strip_width, mark_radius, line_width, ball_radius] =
        s.sizes;
    FieldDimensions {
        length,
        width,
        goal_width,
        goal_height,
        goal_area_length,
        goal_area_width,
        penalty_area_length,
        penalty_area_width,
        penalty_mark_distance,
        center_circle_radius,
        border_strip_width,
        mark_radius,
        line_width,
        ball_radius,
    }
}

fn referee(s: &Situation, field: &FieldDimensions, features: Features) -> Autoreferee {
    Autoreferee::new(Config {
        features,
        field: field.clone(),
        time_until_switch_to_set: Duration::ZERO,
        time_until_switch_to_playing: Duration::ZERO,
        penalty_placement_distance: s.distance,
    })
}
