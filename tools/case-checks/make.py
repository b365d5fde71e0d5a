#!/usr/bin/env python3
"""Makes what the program case_checks reads, and what it must print: crates/case_checks/stdin and stdout.

usage: make.py            write the files
       make.py --check    write nothing, and fail where a file is not what would be written
       make.py --list     print the name of each record

Expected values are document 01's: case A and its lines under 'The sheet', the cases under 'Both sides of a line',
and the table of refusals. What is printed for an input that is no situation was worked out by hand from the layout
of an input; the coach's lines, document 02's first request, from the original's rules.rs and the words of
docs/COACH.md; the places with zeros, its second request, from the original's lib.rs; the texts that are read, its third
request, from its own words (readings.py); who leaves the field, its fourth request, from its words and the original's
carpet_excess; what the display shows, its fifth request, from its words, the original's rules.rs and lib.rs, and the
length of a line. Nothing of the project is run.

README.md has the form of a record. A situation is words of 32 bits; a float is its bit pattern. tools/words/layout.py
has where each run of words begins; PLACES has the words that cases change, by name. Players are in the order Home 1
to 20, then Away 1 to 20. A pose is five words: present (0 or 1), x, y, theta and radius.

Case A leaves open whether invalid goals are judged and whether the ball has rested: both are 0. The words of the
Restart record, which is absent, are 0.
"""

import pathlib
import struct
import sys

CRATE = pathlib.Path(__file__).resolve().parents[2] / "crates" / "case_checks"

sys.path.insert(0, str(pathlib.Path(__file__).resolve().parents[1] / "words"))
import layout  # tools/words/make writes it
import readings
from layout import AT, NO_NUMBER, NO_SIDE

HOME, AWAY = layout.SIDE_HOME, layout.SIDE_AWAY
READY, SET, PLAYING = layout.STATE_READY, layout.STATE_SET, layout.STATE_PLAYING
KICK_OFF, THROW_IN = layout.SET_PLAY_KICK_OFF, layout.SET_PLAY_THROW_IN
PENALTY_KICK, GOAL_KICK = layout.SET_PLAY_PENALTY_KICK, layout.SET_PLAY_GOAL_KICK
DIRECT, INDIRECT, CORNER = layout.SET_PLAY_DIRECT_FREE_KICK, layout.SET_PLAY_INDIRECT_FREE_KICK, layout.SET_PLAY_CORNER_KICK


def bits(x):
    """The pattern of a number."""
    return struct.unpack("<I", struct.pack("<f", x))[0]


def place(side, number):
    """The place of a player among the 40."""
    return 20 * side + number - 1


SIZES = [14, 9, 2.5, 1.75, 1, 4, 3, 6, 2, 1.5, 1, 1 / 16, 1 / 16, 1 / 8]
POSES = {
    place(HOME, 2): (6.5, 0.0),
    place(HOME, 3): (6.5, 1.0),
    place(HOME, 4): (6.25, -1.0),
    place(HOME, 5): (6.75, 0.5),
}
INSIDE = [place(HOME, number) for number in (2, 3, 4)]


def pose(k):
    """The five words of the pose of the player at a place."""
    if k not in POSES:
        return [0] * 5
    x, y = POSES[k]
    return [1, bits(x), bits(y), bits(0.0), bits(0.25)]


# The words of case A by the name of their run; a run that is not named is 0.
CASE_A = {
    **dict(zip((name for name, _, _, _ in layout.RUNS), ([bits(x)] for x in SIZES))),
    "PENALTY_PLACEMENT_DISTANCE": [bits(1.0)],
    "SIDES": [layout.SIDE_MAPPING_HOME_DEFENDS_LEFT_GOAL],
    "STATE": [PLAYING],
    "KICKING_SIDE": [NO_SIDE],
    "GOALKEEPERS": [NO_NUMBER] * 2,
    "POSES": [word for k in range(40) for word in pose(k)],
    "PREVIOUSLY_INSIDE": [int(k in INSIDE) for k in range(40)],
    "BALL": [bits(7.25), bits(1.0), bits(0.125)],
    "LAST_CONTACT": [NO_SIDE],
}


def player_name(side, number):
    """What a player's words are called by."""
    return f"{('home', 'away')[side]} {number}"


def pose_places(run, k, name):
    """The words of a player's pose in a run of poses, by name; that which says whether the pose is present has the name alone."""
    at = AT[run] + layout.POSE_WORDS * k
    return {name: at, f"{name} x": at + 1, f"{name} y": at + 2, f"{name} theta": at + 3, f"{name} radius": at + 4}


def player_places(side, number):
    """The words of a player's pose, reference pose, penalty and allowance, by name."""
    k = place(side, number)
    name = player_name(side, number)
    pose_words = {**pose_places("POSES", k, name), **pose_places("REFERENCES", k, f"{name} reference")}
    return {**pose_words, f"{name} penalty": AT["PENALTIES"] + k, f"{name} allowance": AT["ALLOWANCES"] + k}


# the words that cases change, by name
PLACES = {
    "length": AT["FIELD_LENGTH"],
    "penalty area length": AT["PENALTY_AREA_LENGTH"],
    "circle": AT["CENTER_CIRCLE_RADIUS"],
    "ball radius": AT["BALL_RADIUS"],
    "distance": AT["PENALTY_PLACEMENT_DISTANCE"],
    "sides": AT["SIDES"],
    "state": AT["STATE"],
    "set play": AT["SET_PLAY"],
    "kicking side": AT["KICKING_SIDE"],
    "home goalkeeper": AT["GOALKEEPERS"],
    "away goalkeeper": AT["GOALKEEPERS"] + 1,
    **{name: at for side in (HOME, AWAY) for number in range(1, 21) for name, at in player_places(side, number).items()},
    "home 2 inside": AT["PREVIOUSLY_INSIDE"] + place(HOME, 2),
    "home 3 inside": AT["PREVIOUSLY_INSIDE"] + place(HOME, 3),
    "home 4 inside": AT["PREVIOUSLY_INSIDE"] + place(HOME, 4),
    "ball x": AT["BALL"],
    "ball y": AT["BALL"] + 1,
    "ball z": AT["BALL"] + 2,
    "last contact": AT["LAST_CONTACT"],
    "restart": AT["RESTART"],
    "kicker": AT["RESTART_KICKER"],
    "wish": AT["WISH"],
    "wished side": AT["WISHED_SIDE"],
    "wished player": AT["WISHED_PLAYER"],
}


def words_of(runs):
    """The words of a situation by the name of their run; a run that is not named is 0."""
    return [word for name, _, groups, group in layout.RUNS for word in runs.get(name, [0] * (groups * len(group)))]


A = words_of(CASE_A)


def edited(base, edits):
    """The words of a situation with some changed, by name: a float in its pattern, a whole number as it is."""
    words = list(base)
    for name, value in edits.items():
        words[PLACES[name]] = bits(value) if isinstance(value, float) else value
    return words


# the field of A with nobody on it, and the ball at its centre
NOBODY = {"home 2": 0, "home 3": 0, "home 4": 0, "home 5": 0, "home 2 inside": 0, "home 3 inside": 0, "home 4 inside": 0}
EMPTY_FIELD = edited(A, {**NOBODY, "ball x": 0.0, "ball y": 0.0})

# the same with 0 in every word of the players and the ball, for the coach's lines: these situations are shorter to write
BARE_FIELD = words_of({name: words for name, words in CASE_A.items() if name not in ("POSES", "PREVIOUSLY_INSIDE", "BALL")})

# the patterns of a NaN, of the least numbers above 64, 1 and 0, and of the greatest below 0
NAN = 0x7FC0_0000
ABOVE_64, ABOVE_1, ABOVE_0 = 0x4280_0001, 0x3F80_0001, 0x0000_0001
BELOW_0 = 0x8000_0001


# ---- records ----

TELLS = 1  # the kind of a record whose input the program `judge` reads, and whose answer is told: a refusal, or what is wrong
ANSWERS = 2  # the same, and the answer is a sheet
COACH_TELLS, COACH_ANSWERS = 3, 4  # the same two of `judge coach`, whose answer is lines for the coach
READ_TELLS, READ_ANSWERS = 5, 6  # the same two of `judge read`, whose answer is a line for each item of a sheet
DISPLAY_TELLS, DISPLAY_ANSWERS = 7, 8  # the same two of `judge display`, whose answer is a sheet for the display
WRITE_SHEET = 10  # the kind of a record of the library's entry that no refusal is expected of; the refusal n makes it 10 + n
WRITE_LINE = 20  # the same of the coach's line of one player
WRITE_DISPLAY = 30  # the same of a sheet for the display
AMPLE = 7680  # all bytes that the program can lend, for the items of a sheet, or for a sheet with ample room
MOST = 512  # bytes that are lent where a case says nothing else
LIST_ROOM = 458752  # bytes that the program case_checks has for the list


def sheet(rows):
    """The text of lines of four numbers: each right-justified in 11 columns."""
    return "".join("".join(f"{number:11}" for number in row) + "\n" for row in rows)


def record(kind, room, given, answer):
    """A record: its head, its input and its answer."""
    return f"{kind:11}{room:11}{len(given):11}{len(answer):11}\n{given}{answer}"


def situation(words, places=(0, 0), value=0.0, player=()):
    """The input of a record of the library's entry: the words, how many earlier x and y, the pattern of each of these, and for the coach's line
    the player's side and number."""
    pattern = bits(value) if isinstance(value, float) else value
    return " ".join(map(str, [*words, *places, pattern, *player])) + "\n"


def written(name, base, edits, rows, room=MOST, kind=WRITE_SHEET):
    """A case for which a sheet of these lines is written."""
    return name, record(kind, room, situation(edited(base, edits)), sheet(rows))


def refused(name, base, edits, refusal, room, kind=WRITE_SHEET, **places):
    """A case that is refused: no byte is written."""
    return name, record(kind + refusal, room, situation(edited(base, edits), **places), "")


def empty(name, edits, refusal, **places):
    """A case on the empty field with 200 bytes lent: refused, or with the header's line alone where the refusal is 0."""
    if refusal:
        return refused(name, EMPTY_FIELD, edits, refusal, 200, **places)
    given = situation(edited(EMPTY_FIELD, edits), **places)
    return name, record(WRITE_SHEET, 200, given, sheet([(0, 2, 0, 1)]))


# ---- document 01's sheets ----

HEADER_2 = (0, 2, 2, 1)
EXCESS_5 = (2, 0, 5, 1)
ROWS_OF_A = [HEADER_2, EXCESS_5, (6, 1, 1, 0)]

# the lines of A as document 01 prints them
TEXT_OF_A = (
    "          0          2          2          1\n"
    "          2          0          5          1\n"
    "          6          1          1          0\n"
)


def whole():
    """A whole."""
    assert sheet(ROWS_OF_A) == TEXT_OF_A
    return [
        written("A, 135 bytes lent", A, {}, ROWS_OF_A, 135),
        written("A, 200 bytes lent", A, {}, ROWS_OF_A, 200),
        refused("A, 134 bytes lent", A, {}, 7, 134),
        refused("A, nothing lent", A, {}, 7, 0),
    ]


def in_set():
    """A in Set: margins alone decide. With 4 absent and 6 there, those of 2, 3, 5 and 6 are 0.75, 0.75, 1 and 1."""
    six = {"home 4": 0, "home 6": 1, "home 6 x": 6.75, "home 6 y": -0.5, "home 6 radius": 0.25}
    return [
        written("A in Set", A, {"state": SET}, [(0, 2, 1, 1), (2, 0, 4, 1)]),
        written("A in Set, 6 for 4", A, {"state": SET, **six}, [(0, 2, 1, 1), (2, 0, 3, 1)]),
    ]


def goal_line():
    """The ball about the goal line. The goals are Away's, since Home defends the goal at positive x."""
    past = 0x40E4_0001  # 7.125 + 2^-21
    return [
        written("ball on the goal line", A, {"ball x": 7.125, "ball y": 0.0}, [(0, 2, 1, 1), EXCESS_5]),
        written("ball past the goal line", A, {"ball x": past, "ball y": 0.0}, [HEADER_2, EXCESS_5, (6, 1, 1, 0)]),
        written("ball beside the goal", A, {"ball y": 1.125}, [HEADER_2, EXCESS_5, (6, 0, 2, 0)]),
        written(
            "ball beside the goal, from Home",
            A,
            {"ball y": 1.125, "last contact": HOME},
            [HEADER_2, EXCESS_5, (6, 1, 3, 0)],
        ),
    ]


def touchline():
    """The ball past a touchline at x zero, and the same turned half round: x and y negated, the ends exchanged."""
    turned = {
        "sides": 1,
        "home 2 x": -6.5,
        "home 2 y": -0.0,
        "home 3 x": -6.5,
        "home 3 y": -1.0,
        "home 4 x": -6.25,
        "home 4 y": 1.0,
        "home 5 x": -6.75,
        "home 5 y": -0.5,
        "ball x": -0.0,
        "ball y": -4.75,
    }
    return [
        written("ball past the touchline", A, {"ball x": 0.0, "ball y": 4.75}, [HEADER_2, EXCESS_5, (6, 1, 4, 0)]),
        written("ball past the touchline, turned", A, turned, [HEADER_2, EXCESS_5, (6, 0, 4, 0)]),
    ]


def headed(rows):
    """The lines of a sheet: the header, which counts the others, and these."""
    return [(0, 2, len(rows), 1), *rows]


def place_rows(side, number, x, y, third):
    """The lines of a place: whose it is, and the patterns of its three numbers."""
    return [(7, side, number, x), (8, side, number, y), (9, side, number, third)]


def placements():
    """The place of a throw-in, for which no ball is judged in Ready: 6.96875, 4.46875 and 0.125. A penalty place of
    Home 2 of radius 0.25 at (0, -0): 5, -5.25 and, of the heading inward, PI/2."""
    throw_in = {"state": READY, "set play": THROW_IN, "ball x": 8.0, "ball y": 4.75, "wish": 1}
    penalty = {"home 2": 1, "home 2 x": 0.0, "home 2 y": -0.0, "wish": 3, "wished side": HOME, "wished player": 2}
    place_of_throw_in = place_rows(NO_SIDE, 0, 0x40DF_0000, 0x408F_0000, 0x3E00_0000)
    place_for_penalty = place_rows(HOME, 2, 0x40A0_0000, 0xC0A8_0000, 0x3FC9_0FDB)
    return [
        written("throw-in place", EMPTY_FIELD, throw_in, headed(place_of_throw_in)),
        written("penalty place", EMPTY_FIELD, penalty, headed(place_for_penalty)),
    ]


def kick_off():
    """Home 2 of radius 0.25 at (0, 0.25), Home kicks off. There is no kicking player's line, in Set or Playing:
    determine_kicking_player asks for a distance from the mark of at least its radius and the player's, 0.3125, and
    does not ask for the state; the player's distance is 0.25."""
    player = {"set play": KICK_OFF, "kicking side": HOME, "home 2": 1, "home 2 x": 0.0, "home 2 y": 0.25}
    return [
        written("kick-off in Set", EMPTY_FIELD, {"state": SET, **player}, [(0, 2, 1, 1), (1, 0, 2, 1)]),
        written("kick-off in Playing", EMPTY_FIELD, {"state": PLAYING, **player}, [(0, 2, 1, 1), (1, 0, 2, 2)]),
    ]


# Document 02's second request: on the lines of a place a zero of either sign is 0; the numbers next to it have their patterns, 1 and 2147483649.


def free_kick_places():
    """A direct free kick is taken where the ball is, and its radius is z. The ball is in the field, and so not judged. The first two are the example of document 02's second
    request: a free kick at the centre mark, and the same with the field turned."""

    def ball(name, x, y, values, radius=0.125, sides=LEFT):
        edits = {"sides": sides, "set play": DIRECT, "wish": 1, "ball x": x, "ball y": y, "ball radius": radius}
        return written(f"free kick, {name}", BARE_FIELD, edits, headed(place_rows(NO_SIDE, 0, *values)))

    half, eighth = bits(0.5), bits(0.125)
    return [
        ball("ball at (0, 0)", 0.0, 0.0, (0, 0, eighth)),
        ball("ball at (-0, -0), turned", -0.0, -0.0, (0, 0, eighth), sides=RIGHT),
        ball("ball x above 0, y -0", ABOVE_0, -0.0, (1, 0, eighth)),
        ball("ball x below -0, y 0", BELOW_0, 0.0, (2147483649, 0, eighth)),
        ball("ball x -0, y above 0", -0.0, ABOVE_0, (0, 1, eighth)),
        ball("ball x 0, y below -0", 0.0, BELOW_0, (0, 2147483649, eighth)),
        ball("ball of radius -0", 0.5, 0.5, (half, half, 0), radius=-0.0),
        ball("ball of radius above 0", 0.5, 0.5, (half, half, 1), radius=ABOVE_0),
    ]


def keeper_places():
    """Home takes a penalty kick in Set. Away's goalkeeper, 1, is at x -6, which is not on its goal line, and is placed at x -(7 - 1/32) = -6.96875, with its y, since |y| is at most
    2.5/2 - 1/4, and with its heading. It stands legally, since it is the goalkeeper of the side that does not kick, and nobody is there to kick."""
    kick = {"state": SET, "set play": PENALTY_KICK, "kicking side": HOME, "away goalkeeper": 1, "wish": 5, "wished side": AWAY}

    def keeper(name, y, theta, values):
        edits = {**kick, **stands(AWAY, 1, -6.0, y), "away 1 theta": theta}
        return written(f"goalkeeper, {name}", BARE_FIELD, edits, headed(place_rows(AWAY, 1, 0xC0DF_0000, *values)))

    return [
        keeper("heading -0", 0.5, -0.0, (bits(0.5), 0)),
        keeper("heading above 0, y -0", -0.0, ABOVE_0, (0, 1)),
        keeper("heading below -0, y below -0", BELOW_0, BELOW_0, (2147483649, 2147483649)),
    ]


# Document 02's fourth request: what carpet_excess gives for the centre, less the radius, must be above the allowance. On the field of A the carpet ends at x 7 + 1 = 8 and y 4.5 + 1 = 5.5.


def leaving(name, edits, *who):
    """A case in which these players leave the field, and nothing else is on the sheet."""
    return written(f"near edge, {name}", BARE_FIELD, edits, headed([(4, side, number, 0) for side, number in who]))


def near_edge():
    """Of radius 0.25 a player is 8.25 - 8 - 0.25 = 0 past the end at x 8.25, and 5.75 - 5.5 - 0.25 = 0 past the side at y 5.75: not above the allowance 0, and one float farther it is. At the
    corner the greater of both decides. Of radius 1 it is x 9. With the allowance 0.5 it is x 8.75, where 0.75 - 0.25 = 0.5, and with -0.5 it is x 7.75, where -0.25 - 0.25 = -0.5."""
    two = (HOME, 2)

    def at_2(x, y=0.0, radius=0.25):
        return stands(*two, x, y, radius)

    cases = [
        leaving("x 8.25", at_2(8.25)),
        leaving("x above 8.25", at_2(farther(8.25)), two),
        leaving("x -8.25", at_2(-8.25)),
        leaving("x below -8.25", at_2(farther(-8.25)), two),
        leaving("y 5.75", at_2(0.0, 5.75)),
        leaving("y above 5.75", at_2(0.0, farther(5.75)), two),
        leaving("y -5.75", at_2(0.0, -5.75)),
        leaving("y below -5.75", at_2(0.0, farther(-5.75)), two),
        leaving("corner (8.25, 5.75)", at_2(8.25, 5.75)),
        leaving("corner, x above 8.25", at_2(farther(8.25), 5.75), two),
        leaving("corner, y above 5.75", at_2(8.25, farther(5.75)), two),
        leaving("corner (-8.25, -5.75)", at_2(-8.25, -5.75)),
        leaving("corner, y below -5.75", at_2(-8.25, farther(-5.75)), two),
        leaving("radius 1, x 9", at_2(9.0, 0.0, 1.0)),
        leaving("radius 1, x above 9", at_2(farther(9.0), 0.0, 1.0), two),
    ]
    for allowance, x in ((0.5, 8.75), (-0.5, 7.75)):
        cases.append(leaving(f"allowance {allowance}, x {x}", {**at_2(x), "home 2 allowance": allowance}))
        cases.append(leaving(f"allowance {allowance}, x above {x}", {**at_2(farther(x)), "home 2 allowance": allowance}, two))
    return cases + near_edge_rounded() + near_edge_of_several()


def near_edge_rounded():
    """In units of 2^-27, 0x4101999a is 8 and 13421824 of them, and 0x3dcccccd 13421773: as x and radius they are 51 apart after the 8, and the player leaves. Floats about x are 128 of these units
    apart, so that 8 and the radius together are rounded to x: with the radius added to the edge first the player would not leave. One float nearer it is 51 - 128 = -77."""
    x, radius = 0x4101_999A, 0x3DCC_CCCD
    return [
        leaving("x of 0x4101999a, radius of 0x3dcccccd", stands(HOME, 2, x, 0.0, radius), (HOME, 2)),
        leaving("x of 0x41019999, radius of 0x3dcccccd", stands(HOME, 2, x - 1, 0.0, radius)),
    ]


def near_edge_of_several():
    """Both sides, with the ends exchanged; a penalised player and one whose foot is on the carpet do not leave. The lines are in the order of the players."""
    home = {**stands(HOME, 2, farther(8.25), 0.0), **stands(HOME, 3, 8.25, 1.0), **stands(HOME, 20, 0.0, farther(-5.75))}
    away = {**stands(AWAY, 1, farther(-8.25), 0.0), **stands(AWAY, 4, -9.0, 0.0), **stands(AWAY, 20, -8.25, farther(5.75))}
    edits = {"sides": RIGHT, **home, **away, "away 4 penalty": layout.PENALTY_PUSHING}
    return [leaving("both sides", edits, (HOME, 2), (HOME, 20), (AWAY, 1), (AWAY, 20))]


# ---- document 01's refusals 1 to 5, each with a near miss; 6 is among the vectors of tools/leaf-vectors, 7 alone above ----


def refusals_of_players():
    """Refusal 2: a present player of a radius, the allowance of an absent player, and the earlier places."""
    return [
        empty("2, radius 0", {"home 2": 1, "home 2 radius": 0.0}, 2),
        empty("2 not, radius above 0", {"home 2": 1, "home 2 radius": ABOVE_0}, 0),
        empty("2 not, radius 1", {"home 2": 1, "home 2 radius": 1.0}, 0),
        empty("2, radius above 1", {"home 2": 1, "home 2 radius": ABOVE_1}, 2),
        empty("2 not, radius 0, absent", {"home 2": 0, "home 2 radius": 0.0}, 0),
        empty("2, allowance NaN", {"away 20 allowance": NAN}, 2),
        empty("2, allowance above 64", {"away 20 allowance": ABOVE_64}, 2),
        empty("2 not, allowance 64", {"away 20 allowance": 64.0}, 0),
        empty("2, one x and no y", {}, 2, places=(1, 0)),
        empty("2, no x and one y", {}, 2, places=(0, 1)),
        empty("2 not, one x and one y", {}, 0, places=(1, 1)),
        empty("2, 4097 places", {}, 2, places=(4097, 4097)),
        empty("2 not, 4096 places", {}, 0, places=(4096, 4096)),
        empty("2, place NaN", {}, 2, places=(1, 1), value=NAN),
        empty("2, place above 64", {}, 2, places=(1, 1), value=ABOVE_64),
        empty("2 not, place 64", {}, 0, places=(1, 1), value=64.0),
    ]


def refusals_of_numbers():
    """Refusal 4. PlayerNumber::MIN is 1, and MAX is 20. A penalty place is wished for an absent player, who has none; and
    no wish names nobody."""
    return [
        empty("4, goalkeeper 255", {"home goalkeeper": 255}, 4),
        empty("4, goalkeeper 21", {"away goalkeeper": 21}, 4),
        empty("4 not, goalkeeper 20", {"away goalkeeper": 20}, 0),
        empty("4, kicker 0", {"restart": 1, "kicker": 0}, 4),
        empty("4 not, kicker 1", {"restart": 1, "kicker": 1}, 0),
        empty("4, wished player 0", {"wish": 3, "wished player": 0}, 4),
        empty("4 not, wished player 1", {"wish": 3, "wished player": 1}, 0),
        empty("4 not, no wish", {"wish": 0, "wished player": 0}, 0),
    ]


def refusals():
    """Refusals 1 to 5 alone."""
    return [
        empty("1, length 3.5", {"length": 3.5}, 1),
        empty("1 not, length 4", {"length": 4.0}, 0),
        *refusals_of_players(),
        empty("3, z NaN", {"ball z": NAN}, 3),
        empty("3, z above 64", {"ball z": ABOVE_64}, 3),
        empty("3 not, z 64", {"ball z": 64.0}, 0),
        *refusals_of_numbers(),
        empty("5, distance 0.01", {"distance": 0.01}, 5),
        empty("5, distance NaN", {"distance": NAN}, 5),
        empty("5 not, distance 1/64", {"distance": 1 / 64}, 0),
        empty("5 not, distance 0", {"distance": 0.0}, 0),
    ]


def several():
    """Several at once: the lowest number wins. A needs 135 bytes."""
    five = {"distance": 0.01}
    four = {**five, "home goalkeeper": 255}
    three = {**four, "ball z": NAN}
    two = {**three, "home 2 radius": 0.0}
    one = {**two, "length": 3.5}
    return [
        refused("1, with 2, 3, 4, 5 and 7", A, one, 1, 134),
        refused("2, with 3, 4, 5 and 7", A, two, 2, 134),
        refused("3, with 4, 5 and 7", A, three, 3, 134),
        refused("4, with 5 and 7", A, four, 4, 134),
        refused("5, with 7", A, five, 5, 134),
        refused("1, with 3 and nothing lent", A, {"length": 3.5, "ball z": NAN}, 1, 0),
    ]


# ---- inputs of `judge` that are no situation, or one that is refused; and case A as it reads it ----

NOT_A_NUMBER = "not a number from 0 to 4294967295; a float is written as its bit pattern"
TOO_LARGE = "greater than 4294967295"
MISSING = "missing"
EXTRA = "more than the situation has"


def none_of_its_values(value):
    """What is said of a word outside its column."""
    return f"{value} is none of its values"


def long_list(value):
    """What is said of the number of a list."""
    return f"{value} is more than 4097"


# Each has how many zeros, with a blank after each, then what follows; where something is wrong, and what. 0 is one of the values of every column.

# what is no number, or too large, or missing, at a word of nobody's
PLAIN = [
    (0, "", "word 0 (field length)", MISSING),
    (0, " \n\t\r\n", "word 0 (field length)", MISSING),
    (0, "x", "word 0 (field length)", NOT_A_NUMBER),
    (2, "-1", "word 2 (goal width)", NOT_A_NUMBER),
    (0, "14.0", "word 0 (field length)", NOT_A_NUMBER),
    (3, "0x41600000", "word 3 (goal height)", NOT_A_NUMBER),
    (3, "1,2", "word 3 (goal height)", NOT_A_NUMBER),
    (6, "1\v2", "word 6 (penalty area length)", NOT_A_NUMBER),
    (7, "1\f2", "word 7 (penalty area width)", NOT_A_NUMBER),
    (543, "y", "word 543 (ball x)", NOT_A_NUMBER),
    (545, "", "word 545 (ball z)", MISSING),
    (553, "1e3", "word 553 (kick position y)", NOT_A_NUMBER),
    (0, "4294967295", "word 1 (field width)", MISSING),
    (0, "4294967296", "word 0 (field length)", TOO_LARGE),
    (9, "99999999999999999999999999", "word 9 (center circle radius)", TOO_LARGE),
    (0, "1x 4294967296", "word 0 (field length)", NOT_A_NUMBER),
    (0, "4294967296 1x", "word 0 (field length)", TOO_LARGE),
    # a tab, a carriage return and both of a line's end separate: the third and the fourth number are the faults
    (13, "1\t2\t2", "word 15 (sides)", none_of_its_values(2)),
    (12, "1\r2\r\n3\r\nx", "word 15 (sides)", NOT_A_NUMBER),
]

# words outside their columns, and the greatest values, after which the next is missing
COLUMNS = [
    (15, "2", "word 15 (sides)", none_of_its_values(2)),
    (15, "1", "word 16 (stopped)", MISSING),
    (17, "5", "word 17 (phase)", none_of_its_values(5)),
    (19, "8", "word 19 (set play)", none_of_its_values(8)),
    (19, "7 2", "word 21 (Home goalkeeper)", MISSING),
    (20, "3", "word 20 (kicking side)", none_of_its_values(3)),
    (21, "257", "word 21 (Home goalkeeper)", none_of_its_values(257)),
    (22, "257", "word 22 (Away goalkeeper)", none_of_its_values(257)),
    (21, "256 256", "word 23 (Home 1 penalty)", MISSING),
    (547, "2", "word 547 (restart)", none_of_its_values(2)),
    (548, "4", "word 548 (restart kind)", none_of_its_values(4)),
    (555, "2", "word 555 (kicker touched outside center circle)", none_of_its_values(2)),
    (562, "256 0 0", "word 562 (wished player)", none_of_its_values(256)),
    (562, "4294967295 0 0", "word 562 (wished player)", none_of_its_values(4294967295)),
    (562, "255", "number of earlier x", MISSING),
    # a word outside its column goes before what is missing or too much, and after what is no number
    (15, "2 3 4", "word 15 (sides)", none_of_its_values(2)),
    (15, "2 y", "word 16 (stopped)", NOT_A_NUMBER),
    (15, "2 4294967296", "word 16 (stopped)", TOO_LARGE),
    (562, "256 5000", "word 562 (wished player)", none_of_its_values(256)),
    (562, "256 0 0 7", "word 562 (wished player)", none_of_its_values(256)),
]

# the words of players: 5 of a pose from 63 on, 5 of a reference pose from 263 on
PLAYERS = [
    (23, "14", "word 23 (Home 1 penalty)", none_of_its_values(14)),
    (23, "13", "word 24 (Home 2 penalty)", MISSING),
    (43, "14", "word 43 (Away 1 penalty)", none_of_its_values(14)),
    (62, "-", "word 62 (Away 20 penalty)", NOT_A_NUMBER),
    (63, "2", "word 63 (Home 1 present)", none_of_its_values(2)),
    (64, "-1", "word 64 (Home 1 x)", NOT_A_NUMBER),
    (66, "", "word 66 (Home 1 theta)", MISSING),
    (67, "4294967296", "word 67 (Home 1 radius)", TOO_LARGE),
    (68, "2", "word 68 (Home 2 present)", none_of_its_values(2)),
    (162, "x", "word 162 (Home 20 radius)", NOT_A_NUMBER),
    (163, "2", "word 163 (Away 1 present)", none_of_its_values(2)),
    (165, "", "word 165 (Away 1 y)", MISSING),
    (262, "4294967296", "word 262 (Away 20 radius)", TOO_LARGE),
    (263, "2", "word 263 (Home 1 reference present)", none_of_its_values(2)),
    (264, "1.5", "word 264 (Home 1 reference x)", NOT_A_NUMBER),
    (363, "2", "word 363 (Away 1 reference present)", none_of_its_values(2)),
    (366, "4294967296", "word 366 (Away 1 reference theta)", TOO_LARGE),
    (462, "", "word 462 (Away 20 reference radius)", MISSING),
    (463, "x", "word 463 (Home 1 allowance)", NOT_A_NUMBER),
    (502, "4294967296", "word 502 (Away 20 allowance)", TOO_LARGE),
    (503, "2", "word 503 (Home 1 previously inside)", none_of_its_values(2)),
    (542, "2", "word 542 (Away 20 previously inside)", none_of_its_values(2)),
]

# past the words: the two lists, and what comes after them
LISTS = [
    (563, "", "number of earlier x", MISSING),
    (563, "1.0", "number of earlier x", NOT_A_NUMBER),
    (563, "4294967296", "number of earlier x", TOO_LARGE),
    (563, "4097", "earlier x 1", MISSING),
    (563, "4098", "number of earlier x", long_list(4098)),
    (563, "5000 1 2", "number of earlier x", long_list(5000)),
    (563, "3 0 0", "earlier x 3", MISSING),
    (563, "3 0 x", "earlier x 2", NOT_A_NUMBER),
    (563, "2 4294967296", "earlier x 1", TOO_LARGE),
    (563, "5000 1 x", "earlier x 2", NOT_A_NUMBER),
    (563, "4294967295 1 2 3 -4", "earlier x 4", NOT_A_NUMBER),
    (563, "0", "number of earlier y", MISSING),
    (563, "1 0", "number of earlier y", MISSING),
    (563, "1 0 -1", "number of earlier y", NOT_A_NUMBER),
    (563, "1 0 4294967296", "number of earlier y", TOO_LARGE),
    (563, "0 4097", "earlier y 1", MISSING),
    (563, "0 4098", "number of earlier y", long_list(4098)),
    (563, "2 1 1 4294967295", "number of earlier y", long_list(4294967295)),
    (563, "0 2 5", "earlier y 2", MISSING),
    (563, "1 0 2 5 z", "earlier y 2", NOT_A_NUMBER),
    (563, "0 1 99999999999", "earlier y 1", TOO_LARGE),
    (563, "0 0 7", "earlier y 1", EXTRA),
    (563, "1 0 1 0 8 9", "earlier y 2", EXTRA),
    (563, "0 3 1 2 3 4", "earlier y 4", EXTRA),
    (563, "0 0 7 x", "earlier y 2", NOT_A_NUMBER),
]

# nothing is wrong with the input; its sizes are refused. Leading zeros and any separators between numbers do not matter
ZEROS = [(565, ""), (563, "  000\n\n 0\n"), (563, "\t0\r\n\r0\t\n"), (563, "1 0 1 0"), (562, "255 1 4294967295 1 0")]

LONGEST = 7470  # bytes that `judge` lends: the longest sheet, 166 lines of 45


def input_text(zeros, after):
    """A text that begins with so many zeros."""
    return "0 " * zeros + after


# an input that is no situation, and what is told of it
SIDES_2 = input_text(15, "2")
SIDES_2_FAULT = "word 15 (sides): 2 is none of its values\n"


def inputs():
    """A record for each input that is no situation, and for each that is refused."""
    out = []
    for zeros, after, where, what in PLAIN + COLUMNS + PLAYERS + LISTS:
        out.append((f"{zeros} zeros and {after!r}", record(TELLS, LONGEST, input_text(zeros, after), f"{where}: {what}\n")))
    for zeros, after in ZEROS:
        out.append((f"{zeros} zeros and {after!r}", record(TELLS, LONGEST, input_text(zeros, after), "refused 1\n")))
    return out


def sheets_of_a():
    """Case A as `judge` reads it, with each separator: the sheet is an answer. A refusal is none, nor is anything where the lent bytes are too few for it: 135 for the
    sheet of A, 10 for the line of a refusal."""
    numbers = [*map(str, A), "0", "0"]
    blanks = " ".join(numbers)
    return [
        *((f"A for judge, separated by {by!r}", record(ANSWERS, LONGEST, by.join(numbers) + by, TEXT_OF_A)) for by in (" ", "\n", "\t", "\r\n", "\r")),
        ("A for judge, 135 bytes", record(ANSWERS, 135, blanks, TEXT_OF_A)),
        ("A for judge, 134 bytes", record(TELLS, 134, blanks, "refused 7\n")),
        ("A for judge, 10 bytes", record(TELLS, 10, blanks, "refused 7\n")),
        ("A for judge, 9 bytes", record(TELLS, 9, blanks, "")),
        ("a fault, 41 bytes", record(TELLS, 41, SIDES_2, SIDES_2_FAULT)),
        ("a fault, 40 bytes", record(TELLS, 40, SIDES_2, "")),
    ]


# ---- the coach's lines of one player: each condition of docs/COACH.md on both sides of its boundary ----

# The field is that of A, with floats for all of this: half the length is 7, a penalty mark is 7 - 2 = 5 from x 0, and a player of radius 0.25 touches the
# centre circle at 1.5 + 0.25 = 1.75 from its centre, a mark at 1/16 + 0.25 = 0.3125, the halfway line at 1/32 + 0.25 = 0.28125 from x 0, and a penalty area at
# 7 - 3 - 0.25 = 3.75 from x 0 and at 6/2 + 0.25 = 3.25 from y 0. The team's x has the own goal at -7: it is x negated for Home where Home defends the left
# goal, and for Away where Home defends the right one; otherwise it is x.

LEFT, RIGHT = layout.SIDE_MAPPING_HOME_DEFENDS_LEFT_GOAL, layout.SIDE_MAPPING_HOME_DEFENDS_RIGHT_GOAL


def nearer(x, steps=1):
    """The pattern of the float that is next to x on the side of zero, or so many floats away."""
    return bits(x) - steps


def farther(x):
    """The pattern of the float that is next to x on the side away from zero."""
    return bits(x) + 1


def posed(name, x, y, radius=0.25):
    """The words that change where a pose, by name, is at a place."""
    return {name: 1, f"{name} x": x, f"{name} y": y, f"{name} radius": radius}


def stands(side, number, x, y, radius=0.25):
    """The words that change where a player stands at a place."""
    return posed(player_name(side, number), x, y, radius)


def line(name, edits, player, answer, room=MOST):
    """A case for which this line of a player is written: an empty one where the player stands legally."""
    return name, record(WRITE_LINE, room, situation(edited(BARE_FIELD, edits), player=player), answer)


def no_line(name, edits, player, refusal, room=MOST):
    """A case in which the line of a player is refused: no byte is written."""
    return name, record(WRITE_LINE + refusal, room, situation(edited(BARE_FIELD, edits), player=player), "")


def at(game, player, x, y):
    """The words that change for a game and a player at a place."""
    return {**game, **stands(*player, x, y)}


ONLY_KICKER_20 = "Away 20 illegal unless kicker: only the kicker may be in the centre circle"
CIRCLE_20 = {"sides": RIGHT, "state": SET, "set play": KICK_OFF, "kicking side": AWAY}


def on_centre_mark():
    """1, at x 0, where hypot(0, y) is |y|: the float below 0.3125 is on the mark, 0.3125 is not. In Playing the mark is not asked for. Whoever is not on it
    is in the other half, since 0 is above -0.28125, and in the circle: 3. A penalised player stands legally."""
    game = {"sides": LEFT, "set play": KICK_OFF, "kicking side": HOME}
    player = (HOME, 1)
    in_set, playing = {**game, "state": SET}, {**game, "state": PLAYING}
    on = nearer(0.3125)
    only_kicker = "Home 1 illegal unless kicker: only the kicker may be in the centre circle"
    return [
        line("condition 1, y below 0.3125", at(in_set, player, 0.0, on), player, "Home 1 illegal: on the centre mark"),
        line("condition 1 not but 3, y 0.3125", at(in_set, player, 0.0, 0.3125), player, only_kicker),
        line("condition 1 not but 3, y below 0.3125 in Playing", at(playing, player, 0.0, on), player, only_kicker),
        line("condition 1 not, penalised", {**at(in_set, player, 0.0, on), "home 1 penalty": layout.PENALTY_SUBSTITUTE}, player, ""),
    ]


def about_circle():
    """2 and 3, at x 0, in the other half: at y -1.75 the distance is 1.75 and the player not in the circle; with the float nearer to 0 it is in it. That
    line is the longest of all, 74 bytes, and no more are lent."""
    player = (AWAY, 20)
    assert len(ONLY_KICKER_20) == 74
    return [
        line("condition 2, y -1.75", at(CIRCLE_20, player, 0.0, -1.75), player, "Away 20 illegal: outside the centre circle"),
        line("condition 3, y above -1.75, 74 bytes lent", at(CIRCLE_20, player, 0.0, nearer(-1.75)), player, ONLY_KICKER_20, 74),
    ]


def other_half():
    """4 where no side kicks, and 5 where none does and where the other side does, at y 0, where the distance is |x|. The other half is where the team's x
    is above -0.28125: 4 and 5 hold there, and at -0.28125 only 5. At -1.75 the distance is 1.75 and neither holds."""
    nobody_kicks = {"sides": LEFT, "state": SET, "set play": KICK_OFF, "kicking side": NO_SIDE}
    home_kicks = {**nobody_kicks, "state": PLAYING, "kicking side": HOME}
    nine, ten = (HOME, 9), (AWAY, 10)
    return [
        line("condition 4 before 5, x below 0.28125", at(nobody_kicks, nine, nearer(0.28125), 0.0), nine, "Home 9 illegal: opponent half"),
        line("condition 4 not but 5, x 0.28125", at(nobody_kicks, nine, 0.28125, 0.0), nine, "Home 9 illegal: centre circle"),
        line("condition 5, x above -1.75", at(home_kicks, ten, nearer(-1.75), 0.0), ten, "Away 10 illegal: centre circle"),
        line("condition 5 not, x -1.75", at(home_kicks, ten, -1.75, 0.0), ten, ""),
    ]


def about_penalty_mark():
    """6 and 7. The team's x is the float above 5, 2^-21 beyond the mark. With y about 0.3125, where floats are 2^-25 apart, the root is above y by less
    than 2^-40, so that hypot is y. Below 0.3125 both 6 and 7 hold in Set; at 0.3125, and in Playing, 7 holds and 6 does not. At x 5 the player is not
    beyond the mark, and is in the penalty area, with the margin 5 - 3.75: 8."""
    player = (AWAY, 1)
    in_set = {"sides": LEFT, "state": SET, "set play": PENALTY_KICK, "kicking side": AWAY}
    playing = {**in_set, "state": PLAYING}
    on, past = nearer(0.3125), farther(5.0)
    beyond = "Away 1 illegal: beyond the penalty mark"
    return [
        line("condition 6 before 7, y below 0.3125", at(in_set, player, past, on), player, "Away 1 illegal: on the penalty mark"),
        line("condition 6 not but 7, y 0.3125", at(in_set, player, past, 0.3125), player, beyond),
        line("condition 7, x above 5, in Playing", at(playing, player, past, on), player, beyond),
        line("condition 7 not but 8, x 5", at(playing, player, 5.0, on), player, "Away 1 illegal unless kicker: opponent penalty area"),
    ]


def near_penalty_mark():
    """8 and 9, at y 0, where the margin of the area is the team's x - 3.75 and the distance from the mark 5 - x. With the float above 3.75 the margin is
    above 0, and 8 and 9 hold; at 3.75 it is 0, and 9 holds. The player is the goalkeeper, who is not exempt on the side that kicks. With the float above
    3.25 the distance is 1.75 - 2^-22, a float; at 3.25 it is 1.75, and the player stands legally."""
    keeper = {"sides": RIGHT, "state": SET, "set play": PENALTY_KICK, "kicking side": HOME, "home goalkeeper": 10}
    field_player = {"sides": LEFT, "state": SET, "set play": PENALTY_KICK, "kicking side": HOME}
    ten, twenty = (HOME, 10), (HOME, 20)
    return [
        line("condition 8 before 9, x above 3.75, the goalkeeper", at(keeper, ten, farther(3.75), 0.0), ten, "Home 10 illegal unless kicker: opponent penalty area"),
        line("condition 8 not but 9, x 3.75, the goalkeeper", at(keeper, ten, 3.75, 0.0), ten, "Home 10 illegal unless kicker: near the penalty mark"),
        line("condition 9, x below -3.25", at(field_player, twenty, farther(-3.25), 0.0), twenty, "Home 20 illegal unless kicker: near the penalty mark"),
        line("condition 9 not, x -3.25", at(field_player, twenty, -3.25, 0.0), twenty, ""),
    ]


def behind_own_mark():
    """10, 11 and 12 with a circle of radius 4, so that all three can hold: near the mark is less than 4.25 from it, and y is 3.25 at most. With the team's
    x the float below -5 and y the float below 3.25 the margin of the area is 2^-22, and all hold; at y 3.25 it is 0, and 11 and 12 hold; at x -5 only 12.
    The goalkeeper of the player's side is exempt, and the other side's, of the same number here, is not."""
    game = {"sides": RIGHT, "state": SET, "set play": PENALTY_KICK, "kicking side": HOME, "circle": 4.0, "home goalkeeper": 9}
    player = (AWAY, 9)
    inside = at(game, player, farther(5.0), nearer(3.25))
    return [
        line("condition 10 before 11 and 12, y below 3.25", inside, player, "Away 9 illegal: own penalty area"),
        line("condition 10 not but 11 before 12, x above 5, y 3.25", at(game, player, farther(5.0), 3.25), player, "Away 9 illegal: behind own penalty mark"),
        line("condition 11 not but 12, x 5, y 3.25", at(game, player, 5.0, 3.25), player, "Away 9 illegal: near own penalty mark"),
        line("condition 10 not, the goalkeeper", {**inside, "away goalkeeper": 9}, player, ""),
    ]


def near_own_mark():
    """12, at y 0, where the distance from the mark is the team's x + 5: 1.75 at -3.25, and 1.75 - 2^-22 with the float below. Both places are outside the
    area, which is touched at -3.75."""
    game = {"sides": LEFT, "state": PLAYING, "set play": PENALTY_KICK, "kicking side": AWAY}
    player = (HOME, 4)
    return [
        line("condition 12, x above 3.25", at(game, player, farther(3.25), 0.0), player, "Home 4 illegal: near own penalty mark"),
        line("condition 12 not, x 3.25", at(game, player, 3.25, 0.0), player, ""),
    ]


def near_ball():
    """13. At a goal kick with the ball at (5, 0.5) a player at (5, 2.25) is 1.75 from it; with the float below 2.25 the distance is 1.75 - 2^-22. Both
    places are in the area of the goal kick: 14. At a corner with the ball at (-6, 0.5) a player at x about -6.71875 and y 1.25 is nearer than 1.75 to it,
    and both are in the player's own penalty area: 13 and 15 hold. But whoever is on the own goal line is exempt: |y| is at most 2.5/2, and |x + (7 - 1/32)|
    at most 0.25. At x -6.71875 that is 0.25; with the float above it is 2^-21 more."""
    goal_kick = {"sides": LEFT, "state": PLAYING, "set play": GOAL_KICK, "kicking side": HOME, "ball x": 5.0, "ball y": 0.5}
    corner = {"sides": RIGHT, "state": PLAYING, "set play": CORNER, "kicking side": AWAY, "ball x": -6.0, "ball y": 0.5}
    two, one = (AWAY, 2), (HOME, 1)
    return [
        line("condition 13 before 14, y below 2.25", at(goal_kick, two, 5.0, nearer(2.25)), two, "Away 2 in avoidance region: near the ball"),
        line("condition 13 not but 14, y 2.25", at(goal_kick, two, 5.0, 2.25), two, "Away 2 in avoidance region: penalty area of the goal kick"),
        line("condition 13 before 15, x above -6.71875", at(corner, one, nearer(-6.71875), 1.25), one, "Home 1 in avoidance region: near the ball"),
        line("condition 13 not, on the goal line, x -6.71875", at(corner, one, -6.71875, 1.25), one, ""),
    ]


def goal_kick_area():
    """14, with penalty areas of length 8, so that 15 can hold too. The margin of the area of the goal kick is the team's x - (7 - 8 - 0.25): 0 at -1.25,
    above 0 with the float above. That of the own area, (-7 + 8 + 0.25) - x, is above 0 at both; the ball, at -5 in the team's x, is in that area, and more
    than 1.75 away."""
    game = {"sides": LEFT, "state": PLAYING, "set play": GOAL_KICK, "kicking side": AWAY, "penalty area length": 8.0, "ball x": 5.0}
    player = (HOME, 3)
    return [
        line("condition 14 before 15, x below 1.25", at(game, player, nearer(1.25), 0.0), player, "Home 3 in avoidance region: penalty area of the goal kick"),
        line("condition 14 not but 15, x 1.25", at(game, player, 1.25, 0.0), player, "Home 3 in avoidance region: own penalty area with the ball in it"),
    ]


def area_of_ball():
    """15, with the ball on the corner of the area, at -4 in the team's x and y -3, which is in it; with its x one float nearer to 0 it is not. The margin
    of the player is -3.75 - x: 0 at -3.75, above 0 with the float below. Its distance from the ball is at least 3, and no goal kick is taken."""
    game = {"sides": RIGHT, "state": PLAYING, "set play": INDIRECT, "kicking side": HOME, "ball x": 4.0, "ball y": -3.0}
    player = (AWAY, 20)
    inside = at(game, player, farther(3.75), 0.0)
    return [
        line("condition 15, x above 3.75", inside, player, "Away 20 in avoidance region: own penalty area with the ball in it"),
        line("condition 15 not, x 3.75", at(game, player, 3.75, 0.0), player, ""),
        line("condition 15 not, ball x below 4", {**inside, "ball x": nearer(4.0)}, player, ""),
    ]


def coach_lines():
    """The lines of one player."""
    kick_offs = on_centre_mark() + about_circle() + other_half()
    penalty_kicks = about_penalty_mark() + near_penalty_mark() + behind_own_mark() + near_own_mark()
    return kick_offs + penalty_kicks + near_ball() + goal_kick_area() + area_of_ball()


# ---- the coach's line refused ----

# Players, each with a line, that a number out of range could be mistaken for: Away 1 for Home 21, Home 20 for Away 0, Home 1 for Home 257, and Home 19 for Away
# 4294967295, as -1. At the centre mark, where no side kicks, they are in the opponents' half.
MISTAKEN = {
    "set play": KICK_OFF,
    **stands(HOME, 1, 0.0, 0.0),
    **stands(HOME, 19, 0.0, 0.0),
    **stands(HOME, 20, 0.0, 0.0),
    **stands(AWAY, 1, 0.0, 0.0),
}


def coach_room():
    """8: the longest line with one byte too few, and with none. A player that stands legally needs none: an absent one, whose other words are as before."""
    player = (AWAY, 20)
    there = at(CIRCLE_20, player, 0.0, nearer(-1.75))
    return [
        no_line("coach refused 8, 73 bytes lent", there, player, 8, 73),
        no_line("coach refused 8, nothing lent", there, player, 8, 0),
        line("coach, absent, nothing lent", {**there, "away 20": 0}, player, "", 0),
    ]


def coach_numbers():
    """4: a number outside 1 to 20, which goes before 5 and 8, and a goalkeeper's, when a player is asked for that has no line. 1, 2 and 3 go before 4. 5
    goes before 8: the line of Home 1 has 29 bytes."""
    five = {**MISTAKEN, "distance": 0.01}
    return [
        no_line("coach refused 4, Away 0, nothing lent", MISTAKEN, (AWAY, 0), 4, 0),
        no_line("coach refused 4, Home 21, with 5", five, (HOME, 21), 4),
        no_line("coach refused 4, Home 255", MISTAKEN, (HOME, 255), 4),
        no_line("coach refused 4, Away 256", MISTAKEN, (AWAY, 256), 4),
        no_line("coach refused 4, Home 257", MISTAKEN, (HOME, 257), 4),
        no_line("coach refused 4, Away 4294967295", MISTAKEN, (AWAY, 4294967295), 4),
        no_line("coach refused 4, goalkeeper 255", {**MISTAKEN, "away goalkeeper": 255}, (HOME, 2), 4),
        no_line("coach refused 1, with Home 257 and nothing lent", {**MISTAKEN, "length": 3.5}, (HOME, 257), 1, 0),
        no_line("coach refused 2, with Away 0", {**MISTAKEN, "home 1 radius": 0.0}, (AWAY, 0), 2),
        no_line("coach refused 3, with Home 21", {**MISTAKEN, "ball z": NAN}, (HOME, 21), 3),
        no_line("coach refused 5, 28 bytes lent", five, (HOME, 1), 5, 28),
    ]


# ---- `judge coach` ----


def judge_input(edits, base=BARE_FIELD):
    """A situation as `judge` reads it, without earlier places."""
    return " ".join(map(str, [*edited(base, edits), 0, 0])) + "\n"


def coach_answer(lines):
    """What `judge coach` answers: each line with a line feed."""
    return "".join(text + "\n" for text in lines)


def players(side, places):
    """The words that change where players of a side stand at places, by their number."""
    return {name: word for number, spot in places.items() for name, word in stands(side, number, *spot).items()}


def judged_kick_off():
    """Home kicks off in Set; its team's x is x, that of Away x negated. Home 1 is on the mark, though not in the other half; 2 is 0.3125 from it. 3 and 9
    are in the other half, outside the circle and in it; 4 and 10, a float farther back, are not. 18, 19 and 20 have radius 1 and touch the circle at 2.5,
    the distance of (1.5, 2). With y less by 2^-23 the root is less by 0.4 of the 2^-22 between floats, and rounded to 2.5; with y less by 2^-22 it is less
    by 0.8 of it, and rounded to the float below. Away 1 and 2 are about x 0.28125, outside the circle, 9 and 10 about its edge; 20 is penalised."""
    game = {"sides": RIGHT, "state": SET, "set play": KICK_OFF, "kicking side": HOME}
    home = {1: (nearer(-0.3125), 0.0), 2: (-0.3125, 0.0), 3: (nearer(-0.28125), 2.0), 4: (-0.28125, 2.0), 9: (nearer(-0.28125), 1.0), 10: (-0.28125, 1.0)}
    large = {18: (1.5, 2.0, 1.0), 19: (1.5, nearer(2.0), 1.0), 20: (1.5, nearer(2.0, 2), 1.0)}
    away = {1: (nearer(0.28125), 3.0), 2: (0.28125, 3.0), 9: (1.75, 0.0), 10: (nearer(1.75), 0.0), 20: (0.0, 0.0)}
    edits = {**game, **players(HOME, home), **players(HOME, large), **players(AWAY, away), "away 20 penalty": layout.PENALTY_PUSHING}
    lines = [
        "Home 1 illegal: on the centre mark",
        "Home 3 illegal: outside the centre circle",
        "Home 9 illegal unless kicker: only the kicker may be in the centre circle",
        "Home 18 illegal: outside the centre circle",
        "Home 19 illegal: outside the centre circle",
        "Home 20 illegal unless kicker: only the kicker may be in the centre circle",
        "Away 1 illegal: opponent half",
        "Away 10 illegal: centre circle",
    ]
    return "coach for judge, kick-off", record(COACH_ANSWERS, LONGEST, judge_input(edits), coach_answer(lines))


def judged_penalty_kick():
    """Away takes a penalty kick in Set, at (-5, 0); its team's x is x negated, that of Home x. Home 1 is the goalkeeper, and 9 has the number of Away's.
    Home 2 and 3 are about x -3.75, near the mark; 4 and 5 about y 3.25, behind the mark; 6 and 7 about x -5, beside the area; 20 is penalised. Away 1 and 2
    are about 0.3125 from the mark, 3 and 4 about x -5; 9, the goalkeeper, and 10 about y -3.25, more than 1.75 from the mark; 20 is above 3.25 in the
    team's x by one float."""
    game = {"sides": RIGHT, "state": SET, "set play": PENALTY_KICK, "kicking side": AWAY, "home goalkeeper": 1, "away goalkeeper": 9}
    home = {2: (farther(-3.75), 0.0), 3: (-3.75, 0.0), 4: (-6.0, nearer(3.25)), 5: (-6.0, 3.25), 6: (farther(-5.0), 4.0), 7: (-5.0, 4.0)}
    more = {1: (-6.0, 0.0), 9: (-6.0, 0.0), 20: (-6.0, 0.0)}
    away = {1: (-5.0, nearer(0.3125)), 2: (-5.0, 0.3125), 3: (farther(-5.0), 1.0), 4: (-5.0, 1.0), 20: (farther(-3.25), 0.0)}
    beside = {9: (-4.5, nearer(-3.25)), 10: (-4.5, -3.25)}
    of_home = {**players(HOME, home), **players(HOME, more), "home 20 penalty": layout.PENALTY_SENT_OFF}
    edits = {**game, **of_home, **players(AWAY, away), **players(AWAY, beside)}
    lines = [
        "Home 2 illegal: own penalty area",
        "Home 3 illegal: near own penalty mark",
        "Home 4 illegal: own penalty area",
        "Home 5 illegal: behind own penalty mark",
        "Home 6 illegal: behind own penalty mark",
        "Home 9 illegal: own penalty area",
        "Away 1 illegal: on the penalty mark",
        "Away 2 illegal unless kicker: opponent penalty area",
        "Away 3 illegal: beyond the penalty mark",
        "Away 4 illegal unless kicker: opponent penalty area",
        "Away 9 illegal unless kicker: opponent penalty area",
        "Away 20 illegal unless kicker: near the penalty mark",
    ]
    return "coach for judge, penalty kick", record(COACH_ANSWERS, LONGEST, judge_input(edits), coach_answer(lines))


def judged_goal_kick():
    """Away takes a goal kick with the ball at (6, -1); the team's x of Home is x. Home 1 and 2 are about x 3.75, 11 and 12 about y 3.25; 3 is in its own
    area, where the ball is not; 20 is penalised. 8, 9 and 10 are in the area at the ball's x, so that the distance is y + 1: 1.75 at y 0.75; with y less by
    2^-24 midway between two floats, and rounded to the even one, 1.75; with y less by 2^-23 a float. Away 1 is of the side that kicks."""
    game = {"sides": RIGHT, "state": PLAYING, "set play": GOAL_KICK, "kicking side": AWAY, "ball x": 6.0, "ball y": -1.0}
    home = {1: (farther(3.75), 2.0), 2: (3.75, 2.0), 3: (-6.0, 0.0), 11: (4.0, nearer(3.25)), 12: (4.0, 3.25), 20: (6.0, -1.0)}
    above = {8: (6.0, 0.75), 9: (6.0, nearer(0.75)), 10: (6.0, nearer(0.75, 2))}
    of_home = {**players(HOME, home), **players(HOME, above), "home 20 penalty": layout.PENALTY_ILLEGAL_POSITIONING}
    edits = {**game, **of_home, **players(AWAY, {1: (6.0, -1.0)})}
    lines = [
        "Home 1 in avoidance region: penalty area of the goal kick",
        "Home 8 in avoidance region: penalty area of the goal kick",
        "Home 9 in avoidance region: penalty area of the goal kick",
        "Home 10 in avoidance region: near the ball",
        "Home 11 in avoidance region: penalty area of the goal kick",
    ]
    return "coach for judge, goal kick", record(COACH_ANSWERS, LONGEST, judge_input(edits), coach_answer(lines))


def judged_free_kick():
    """Home takes a free kick with the ball at (-4, 3), a corner of Away's penalty area; the team's x of Away is x. Away 1 and 2 are about x -3.75, 9 and 10
    about y -3.25; 3 and 4 are on the goal line at y 1.25, a goal post, and one float beyond it; 20 is in the other penalty area, which is avoided at a goal
    kick. Home 5 is of the side that kicks. Nobody is near the ball. The three lines have 65 bytes each with their line feeds. With the ball's y the float
    above 3 it is not in the area, and nobody has a line."""
    game = {"sides": LEFT, "state": PLAYING, "set play": DIRECT, "kicking side": HOME, "ball x": -4.0, "ball y": 3.0}
    away = {1: (farther(-3.75), 0.0), 2: (-3.75, 0.0), 3: (-7.0, 1.25), 4: (-7.0, farther(1.25)), 20: (4.0, 0.0)}
    beside = {9: (-6.0, nearer(-3.25)), 10: (-6.0, -3.25)}
    edits = {**game, **players(AWAY, away), **players(AWAY, beside), **players(HOME, {5: (-5.0, 0.0)})}
    lines = [
        "Away 1 in avoidance region: own penalty area with the ball in it",
        "Away 4 in avoidance region: own penalty area with the ball in it",
        "Away 9 in avoidance region: own penalty area with the ball in it",
    ]
    return [
        ("coach for judge, free kick, 195 bytes", record(COACH_ANSWERS, 195, judge_input(edits), coach_answer(lines))),
        ("coach for judge, free kick, 194 bytes", record(COACH_TELLS, 194, judge_input(edits), "refused 8\n")),
        ("coach for judge, nobody has a line", record(COACH_ANSWERS, LONGEST, judge_input({**edits, "ball y": farther(3.0)}), "")),
    ]


def judged_coach():
    """What `judge coach` answers and tells: lines of both sides, none, a refusal and a fault, this with too few bytes too."""
    return [
        judged_kick_off(),
        judged_penalty_kick(),
        judged_goal_kick(),
        *judged_free_kick(),
        ("coach for judge, 565 zeros", record(COACH_TELLS, LONGEST, input_text(565, ""), "refused 1\n")),
        ("coach for judge, a fault, 41 bytes", record(COACH_TELLS, 41, SIDES_2, SIDES_2_FAULT)),
        ("coach for judge, a fault, 40 bytes", record(COACH_TELLS, 40, SIDES_2, "")),
    ]


def read_sheets():
    """What `judge read` answers and tells: the texts of readings.py, and A's sheet with too few bytes for its two lines, which have 45 and 14."""
    cases = []
    for name, given, expected in readings.CASES:
        kind, answer = (READ_ANSWERS, readings.said(given)) if expected >= 0 else (READ_TELLS, f"refused {-expected}\n")
        assert expected < 0 or answer.count("\n") == expected, name
        cases.append((f"read, {name}", record(kind, AMPLE, given.decode("latin-1"), answer)))
    lines = "Home 5 is in excess in its goal area, rank 1\ngoal for Away\n"
    sheet_a = readings.A.decode()
    return cases + [
        ("read, case A, 59 bytes", record(READ_ANSWERS, 59, sheet_a, lines)),
        ("read, case A, 58 bytes", record(READ_ANSWERS, 58, sheet_a, "")),
        ("read, empty text, 11 bytes", record(READ_TELLS, 11, "", "refused 11\n")),
        ("read, empty text, 10 bytes", record(READ_TELLS, 10, "", "")),
    ]


# ---- document 02's fifth request: for the display 12 is refused where more than twelve lines follow the header, after 5 and before 7 ----

# Lines are made by players on the centre mark, (0, 0), at a kick-off that no side takes. By is_illegally_positioned each is illegal: its x in the team's direction, 0, is above
# -(1/32 + radius), so that it is in the opponents' half. Nothing else is on the sheet but a place that is wished for: nobody kicks, the goal areas and the edges are far away, and the ball,
# at (0, 0), is in the field. The radius is the least above 0, which is short to write.
#
# The place is that of the ball in Set: by `observe` it is the centre mark at a kick-off, and z is the ball's radius.
BALL_ON_MARK = place_rows(NO_SIDE, 0, 0, 0, bits(0.125))


def on_mark(count):
    """So many players on the centre mark, half of them Home from 1 on, the others Away up to 20, and where the number is odd one more of Home: the words that change, and the lines."""
    home, away = range(1, (count + 1) // 2 + 1), range(21 - count // 2, 21)
    spot = (0.0, 0.0, ABOVE_0)
    edits = {"set play": KICK_OFF, **players(HOME, dict.fromkeys(home, spot)), **players(AWAY, dict.fromkeys(away, spot))}
    return edits, [*((1, HOME, number, 1) for number in home), *((1, AWAY, number, 1) for number in away)]


TWELVE, ROWS_OF_TWELVE = on_mark(12)
THIRTEEN, ROWS_OF_THIRTEEN = on_mark(13)


def shown(name, edits, rows, room):
    """A case for which a sheet of these lines after the header is written for the display."""
    return written(f"display, {name}", BARE_FIELD, edits, headed(rows), room, WRITE_DISPLAY)


def not_shown(name, edits, refusal, room):
    """A case that is refused for the display: no byte is written."""
    return refused(f"display refused {refusal}, {name}", BARE_FIELD, edits, refusal, room, WRITE_DISPLAY)


def display_rooms():
    """A line has 45 bytes: twelve and the header are 13 x 45 = 585, thirteen and the header 14 x 45 = 630. For the display twelve need 585, and thirteen are refused with 12 whatever is lent.
    For the desk both are written where the lent bytes are enough."""
    return [
        *(shown(f"12 lines, {room} bytes lent", TWELVE, ROWS_OF_TWELVE, room) for room in (AMPLE, 585)),
        not_shown("12 lines, 584 bytes lent", TWELVE, 7, 584),
        not_shown("12 lines, nothing lent", TWELVE, 7, 0),
        *(not_shown(f"13 lines, {room} bytes lent", THIRTEEN, 12, room) for room in (AMPLE, 630, 585, 584)),
        not_shown("13 lines, nothing lent", THIRTEEN, 12, 0),
        written("desk, 12 lines, 585 bytes lent", BARE_FIELD, TWELVE, headed(ROWS_OF_TWELVE), 585),
        written("desk, 13 lines, 630 bytes lent", BARE_FIELD, THIRTEEN, headed(ROWS_OF_THIRTEEN), 630),
        refused("desk refused 7, 13 lines, 629 bytes lent", BARE_FIELD, THIRTEEN, 7, 629),
    ]


def display_lines():
    """No line, and eleven. With a place, which is three lines, nine are twelve, and ten are thirteen: 12, though the 630 bytes that they need are lent."""
    eleven, rows_of_eleven = on_mark(11)
    (nine, rows_of_nine), (ten, _) = on_mark(9), on_mark(10)
    wish = {"wish": layout.WISH_BALL_IN_SET}
    return [
        shown("no line, 585 bytes lent", {}, [], 585),
        shown("11 lines, 585 bytes lent", eleven, rows_of_eleven, 585),
        shown(f"9 lines and a place, {AMPLE} bytes lent", {**nine, **wish}, rows_of_nine + BALL_ON_MARK, AMPLE),
        not_shown("10 lines and a place, 630 bytes lent", {**ten, **wish}, 12, 630),
    ]


def display_several():
    """With thirteen lines and too few bytes for them, each of 1 to 5 goes before 12 and 7; 5 with ample room too."""
    wrong = {1: {"length": 3.5}, 2: {"home 1 radius": 0.0}, 3: {"ball z": NAN}, 4: {"home goalkeeper": 255}, 5: {"distance": 0.01}}
    cases = [not_shown("with 12 and 7", {**THIRTEEN, **edits}, refusal, 584) for refusal, edits in wrong.items()]
    return [*cases, not_shown("with 12", {**THIRTEEN, **wrong[5]}, 5, AMPLE)]


def every_kind():
    """Twelve lines, of all kinds: the words that change, and the lines. Home kicks off in Playing; its team's x is x negated, that of Away x. Home 1 is in the opponents' half and in the
    circle, 0.5 from the mark: illegal unless kicker, and the kicking player. Home 3 is in the opponents' half and 2 from the mark, outside the circle, and Away 1 is in the opponents' half:
    illegal. Home 4 to 8 are in their goal area, with the margins x - 5.75; none was inside before, so that of the five 5 and then 4 are too many, whose margins are 0.25 and 0.5. Away 2 is
    6 - 5.5 - 0.25 past the side of the carpet. Away 3 is 1 from its reference pose, more than 0.1. The ball is past a touchline at x 0: document 01's throw-in for Away."""
    game = {"set play": KICK_OFF, "kicking side": HOME, "ball y": 4.75, "wish": layout.WISH_BALL_IN_SET}
    home = {1: (0.0, 0.5), 3: (0.0, 2.0), 4: (6.25, 0.0), 5: (6.0, 0.0), 6: (6.5, 0.0), 7: (6.75, 0.0), 8: (7.0, 0.0)}
    away = {1: (0.0, 3.0), 2: (-3.0, 6.0), 3: (-4.0, 0.0)}
    edits = {**game, **players(HOME, home), **players(AWAY, away), **posed("away 3 reference", -4.0, 1.0)}
    verdicts = [(1, HOME, 1, 2), (1, HOME, 3, 1), (1, AWAY, 1, 1)]
    others = [(2, HOME, 5, 1), (2, HOME, 4, 2), (3, HOME, 1, 0), (4, AWAY, 2, 0), (5, AWAY, 3, 0), (6, AWAY, 4, 0)]
    return edits, verdicts + others + BALL_ON_MARK


def judged_display():
    """What `judge display` answers and tells: A's sheet and one of twelve lines, 12 and 1 for thirteen, and a fault; 12 and the fault with too few bytes too. The line of 12 has 11 bytes."""
    edits, rows = every_kind()
    assert len(rows) == 12
    thirteen = judge_input(THIRTEEN)
    return [
        ("display for judge, A", record(DISPLAY_ANSWERS, LONGEST, judge_input({}, A), TEXT_OF_A)),
        ("display for judge, 12 lines of all kinds", record(DISPLAY_ANSWERS, LONGEST, judge_input(edits), sheet(headed(rows)))),
        ("display for judge, 13 lines", record(DISPLAY_TELLS, LONGEST, thirteen, "refused 12\n")),
        ("display for judge, 13 lines, 11 bytes", record(DISPLAY_TELLS, 11, thirteen, "refused 12\n")),
        ("display for judge, 13 lines, 10 bytes", record(DISPLAY_TELLS, 10, thirteen, "")),
        ("display for judge, 1, with 12", record(DISPLAY_TELLS, LONGEST, judge_input({**THIRTEEN, "length": 3.5}), "refused 1\n")),
        ("display for judge, a fault, 41 bytes", record(DISPLAY_TELLS, 41, SIDES_2, SIDES_2_FAULT)),
        ("display for judge, a fault, 40 bytes", record(DISPLAY_TELLS, 40, SIDES_2, "")),
    ]


def main():
    """Writes the files, compares them, or prints the names."""
    assert len(A) == layout.WORDS and set(CASE_A) <= set(AT), len(A)
    cases = whole() + in_set() + goal_line() + touchline() + placements() + kick_off()
    cases += free_kick_places() + keeper_places() + near_edge()
    cases += refusals() + several() + inputs() + sheets_of_a()
    cases += coach_lines() + coach_room() + coach_numbers() + judged_coach()
    cases += read_sheets()
    cases += display_rooms() + display_lines() + display_several() + judged_display()
    if sys.argv[1:] == ["--list"]:
        for number, (name, _) in enumerate(cases, 1):
            print(f"{number}: {name}")
        return 0
    texts = {"stdin": "".join(text for _, text in cases), "stdout": f"{len(cases)} of {len(cases)} agree\n"}
    assert len(texts["stdin"]) < LIST_ROOM, len(texts["stdin"])
    wrong = 0
    for name, text in texts.items():
        file = CRATE / name
        if sys.argv[1:] != ["--check"]:
            file.write_bytes(text.encode("latin-1"))
        elif not file.is_file() or file.read_bytes() != text.encode("latin-1"):
            print("not as made:", name)
            wrong = 1
    return wrong


if __name__ == "__main__":
    sys.exit(main())
