/* Made by tools/words/make from crates/columns/specs/Layout.antt and crates/game/src/lib.rt. Change those and not this file.
 *
 * The words of a situation: REFEREE_W_.. is the first word of what it is named after. Players are in the order Home 1 to 20, then Away 1 to 20.
 */
#ifndef REFEREE_WORDS_H
#define REFEREE_WORDS_H

/* How many words a situation has. */
#define REFEREE_WORDS 563

/* How many words a pose has: present, x, y, theta, radius. */
#define REFEREE_POSE_WORDS 5

/* the length of the field; float, its bit pattern */
#define REFEREE_W_FIELD_LENGTH 0
/* the width of the field; float, its bit pattern */
#define REFEREE_W_FIELD_WIDTH 1
/* the width of a goal; float, its bit pattern */
#define REFEREE_W_GOAL_WIDTH 2
/* the height of a goal; float, its bit pattern */
#define REFEREE_W_GOAL_HEIGHT 3
/* the length of a goal area; float, its bit pattern */
#define REFEREE_W_GOAL_AREA_LENGTH 4
/* the width of a goal area; float, its bit pattern */
#define REFEREE_W_GOAL_AREA_WIDTH 5
/* the length of a penalty area; float, its bit pattern */
#define REFEREE_W_PENALTY_AREA_LENGTH 6
/* the width of a penalty area; float, its bit pattern */
#define REFEREE_W_PENALTY_AREA_WIDTH 7
/* the distance of a penalty mark from its goal line; float, its bit pattern */
#define REFEREE_W_PENALTY_MARK_DISTANCE 8
/* the radius of the centre circle; float, its bit pattern */
#define REFEREE_W_CENTER_CIRCLE_RADIUS 9
/* the width of the border strip; float, its bit pattern */
#define REFEREE_W_BORDER_STRIP_WIDTH 10
/* the radius of a mark; float, its bit pattern */
#define REFEREE_W_MARK_RADIUS 11
/* the width of a line; float, its bit pattern */
#define REFEREE_W_LINE_WIDTH 12
/* the radius of the ball; float, its bit pattern */
#define REFEREE_W_BALL_RADIUS 13
/* the distance between placed players; float, its bit pattern */
#define REFEREE_W_PENALTY_PLACEMENT_DISTANCE 14
/* which goal Home defends; 0 HomeDefendsLeftGoal, 1 HomeDefendsRightGoal */
#define REFEREE_W_SIDES 15
/* the game is stopped; 0, 1 */
#define REFEREE_W_STOPPED 16
/* the phase; 0 to 4: Phase */
#define REFEREE_W_PHASE 17
/* the state; 0 to 5: State */
#define REFEREE_W_STATE 18
/* the set play; 0 to 7: SetPlay */
#define REFEREE_W_SET_PLAY 19
/* the kicking side; 0 Home, 1 Away, 2 none */
#define REFEREE_W_KICKING_SIDE 20
/* the goalkeepers of Home and of Away; 0 to 255 the number, 256 none */
#define REFEREE_W_GOALKEEPERS 21
/* the penalties of the 40 players; 0 to 13: Penalty */
#define REFEREE_W_PENALTIES 23
/* the poses of the 40 players; present (0, 1), then x, y, theta, radius, a float each */
#define REFEREE_W_POSES 63
/* the reference poses of the 40 players, for motion; present (0, 1), then x, y, theta, radius, a float each */
#define REFEREE_W_REFERENCES 263
/* the allowances of the 40 players; float, its bit pattern */
#define REFEREE_W_ALLOWANCES 463
/* which of the 40 players were inside their goal area; 0, 1 */
#define REFEREE_W_PREVIOUSLY_INSIDE 503
/* the ball: x, y, z; float, its bit pattern */
#define REFEREE_W_BALL 543
/* the side that touched the ball last; 0 Home, 1 Away, 2 none */
#define REFEREE_W_LAST_CONTACT 546
/* a Restart record is present; 0, 1 */
#define REFEREE_W_RESTART 547
/* the kind of the Restart; 0 to 3: RestartKind */
#define REFEREE_W_RESTART_KIND 548
/* the set play of the Restart; 0 to 7: SetPlay */
#define REFEREE_W_RESTART_SET_PLAY 549
/* the side of the Restart; 0 Home, 1 Away */
#define REFEREE_W_RESTART_SIDE 550
/* the kicker of the Restart; 0 to 255 the number, 256 none */
#define REFEREE_W_RESTART_KICKER 551
/* the kick position of the Restart: x, y; float, its bit pattern */
#define REFEREE_W_KICK_POSITION 552
/* other_touch of the Restart; 0, 1 */
#define REFEREE_W_OTHER_TOUCH 554
/* kicker_touched_outside_center_circle of the Restart; 0, 1 */
#define REFEREE_W_KICKER_TOUCHED_OUTSIDE_CENTER_CIRCLE 555
/* kicker_touched_far_from_kick of the Restart; 0, 1 */
#define REFEREE_W_KICKER_TOUCHED_FAR_FROM_KICK 556
/* ball_moved_since_kick of the Restart; 0, 1 */
#define REFEREE_W_BALL_MOVED_SINCE_KICK 557
/* invalid goals are judged; 0, 1 */
#define REFEREE_W_INVALID_GOALS_JUDGED 558
/* the ball has rested since the kick; 0, 1 */
#define REFEREE_W_BALL_RESTED 559
/* what is wished; 0 to 5: Wish */
#define REFEREE_W_WISH 560
/* the wished side (wishes 3, 4, 5); 0 Home, 1 Away */
#define REFEREE_W_WISHED_SIDE 561
/* the wished player (wishes 3, 4); 0 to 255 */
#define REFEREE_W_WISHED_PLAYER 562

/* Where there is no number, and where there is no side. */
#define REFEREE_NO_NUMBER 256
#define REFEREE_NO_SIDE 2

/* Side */
#define REFEREE_SIDE_HOME 0
#define REFEREE_SIDE_AWAY 1

/* SideMapping */
#define REFEREE_SIDE_MAPPING_HOME_DEFENDS_LEFT_GOAL 0
#define REFEREE_SIDE_MAPPING_HOME_DEFENDS_RIGHT_GOAL 1

/* Phase */
#define REFEREE_PHASE_FIRST_HALF 0
#define REFEREE_PHASE_SECOND_HALF 1
#define REFEREE_PHASE_FIRST_EXTRA_HALF 2
#define REFEREE_PHASE_SECOND_EXTRA_HALF 3
#define REFEREE_PHASE_PENALTY_SHOOTOUT 4

/* State */
#define REFEREE_STATE_INITIAL 0
#define REFEREE_STATE_READY 1
#define REFEREE_STATE_SET 2
#define REFEREE_STATE_PLAYING 3
#define REFEREE_STATE_FINISHED 4
#define REFEREE_STATE_TIMEOUT 5

/* SetPlay */
#define REFEREE_SET_PLAY_NO_SET_PLAY 0
#define REFEREE_SET_PLAY_KICK_OFF 1
#define REFEREE_SET_PLAY_DIRECT_FREE_KICK 2
#define REFEREE_SET_PLAY_INDIRECT_FREE_KICK 3
#define REFEREE_SET_PLAY_PENALTY_KICK 4
#define REFEREE_SET_PLAY_THROW_IN 5
#define REFEREE_SET_PLAY_GOAL_KICK 6
#define REFEREE_SET_PLAY_CORNER_KICK 7

/* Penalty */
#define REFEREE_PENALTY_NO_PENALTY 0
#define REFEREE_PENALTY_ILLEGAL_POSITIONING 1
#define REFEREE_PENALTY_MOTION_IN_SET 2
#define REFEREE_PENALTY_MOTION_IN_STOP 3
#define REFEREE_PENALTY_LOCAL_GAME_STUCK 4
#define REFEREE_PENALTY_INCAPABLE_ROBOT 5
#define REFEREE_PENALTY_PICKED_UP 6
#define REFEREE_PENALTY_BALL_HOLDING 7
#define REFEREE_PENALTY_LEAVING_THE_FIELD 8
#define REFEREE_PENALTY_PLAYING_WITH_ARMS_HANDS 9
#define REFEREE_PENALTY_PUSHING 10
#define REFEREE_PENALTY_CAUTIONED 11
#define REFEREE_PENALTY_SENT_OFF 12
#define REFEREE_PENALTY_SUBSTITUTE 13

/* RestartKind */
#define REFEREE_RESTART_KIND_KICK_OFF 0
#define REFEREE_RESTART_KIND_INDIRECT 1
#define REFEREE_RESTART_KIND_DIRECT 2
#define REFEREE_RESTART_KIND_PENALTY_SHOT 3

/* Wish */
#define REFEREE_WISH_NOTHING 0
#define REFEREE_WISH_BALL_AT_RESTART 1
#define REFEREE_WISH_BALL_IN_SET 2
#define REFEREE_WISH_FOR_PENALTY 3
#define REFEREE_WISH_FOR_PENALTY_SHOT 4
#define REFEREE_WISH_GOALKEEPER 5

#endif
