#!/usr/bin/env python3
"""Texts that the desk's reader of sheets accepts or refuses, for make.py. Each expected answer is worked out by hand from the words of document 02's third request: how many lines
follow the header, or -9, -10 or -11. The comment behind a case says why. `said` gives the readable lines of a text that is accepted, from the words of README.md.

usage: readings.py    print name, answer and text of each case with tabs between them, a byte that is not printed as \\xNN, for `compare read-cases`
"""

import fractions
import struct


def line(kind, side, number, value):
    """Four numbers, each right-justified with blanks in 11 columns, and a line feed."""
    return b"%11d%11d%11d%11d\n" % (kind, side, number, value)


def text(*rows):
    """The lines of these rows; the first is the header where the case has one."""
    return b"".join(line(*row) for row in rows)


def head(count, side=2, value=1):
    """The header's row with a count that the case gives."""
    return (0, side, count, value)


def put(whole, row, column, new):
    """The text with eleven other bytes in a column; rows and columns count from 0."""
    assert len(new) == 11
    at = 45 * row + 11 * column
    return whole[:at] + new + whole[at + 11 :]


def byte(whole, row, place, new):
    """The text with one other byte; the place counts from 0 in its row, and 44 is the line feed's."""
    at = 45 * row + place
    return whole[:at] + new + whole[at + 1 :]


def without(whole, at):
    """The text without one byte."""
    return whole[:at] + whole[at + 1 :]


def added(whole, at, new):
    """The text with bytes put in."""
    return whole[:at] + new + whole[at:]


KIND, SIDE, NUMBER, VALUE = 0, 1, 2, 3

# Document 01's case A.
A = text(head(2), (2, 0, 5, 1), (6, 1, 1, 0))
# The places of the ball and of Home 2: x, y and the third number are 1, that is the pattern 1065353216.
ONE = 1065353216
BALL = [(7, 2, 0, ONE), (8, 2, 0, ONE), (9, 2, 0, ONE)]
HOME_2 = [(7, 0, 2, ONE), (8, 0, 2, ONE), (9, 0, 2, ONE)]


def placed(value):
    """A sheet with a place of the ball whose y is this pattern."""
    return text(head(3), (7, 2, 0, 0), (8, 2, 0, value), (9, 2, 0, 0))


def everybody(kind, value):
    """The 40 players, Home 1 to 20 and then Away 1 to 20."""
    return [(kind, side, number, value) for side in (0, 1) for number in range(1, 21)]


# Twenty ranks on each side, the highest number first.
RANKS = [(2, side, 21 - rank, rank) for side in (0, 1) for rank in range(1, 21)]
# 40 + 40 + 1 + 40 + 40 + 1 + 3 = 165 lines.
MOST = everybody(1, 1) + RANKS + [(3, 0, 1, 0)] + everybody(4, 0) + everybody(5, 0) + [(6, 0, 1, 0)] + BALL

CASES = [
    # ---- accepted, and an empty text
    ("header alone", text(head(0)), 0),  # a header that counts no lines, and none follows
    ("case A", A, 2),  # document 01's sheet
    ("one line of each kind", text(head(9), (1, 0, 1, 1), (2, 0, 1, 1), (3, 0, 1, 0), (4, 0, 1, 0), (5, 0, 1, 0), (6, 0, 1, 0), *HOME_2), 9),  # every clause just kept
    ("the longest sheet", text(head(165), *MOST), 165),  # all players in kinds 1, 2, 4 and 5, one line each of 3, 6, 7, 8, 9
    ("empty text", b"", -11),  # 11 for an empty text, by the request's words
    # ---- 9: 45 bytes and a line feed
    ("no line feed at the end", A[:-1], -9),  # the last line has 44 bytes
    ("header without its line feed", text(head(0))[:-1], -9),  # the only line has 44 bytes
    ("a line feed too many", A + b"\n", -9),  # a byte is left over after the third line
    ("a line feed alone", b"\n", -9),  # a line of one byte
    ("a blank alone", b" ", -9),  # a line of one byte, and not an empty text
    ("a blank after the text", A + b" ", -9),  # a byte is left over
    ("45 blanks after the text", A + b" " * 45, -9),  # 45 bytes, but no digit and no line feed
    ("44 blanks and a line feed", b" " * 44 + b"\n", -9),  # columns without a digit
    ("a line feed in the midst", byte(A, 1, 21, b"\n"), -9),  # the first line after the header has 22 bytes
    ("a blank in the line feed's place", byte(A, 0, 44, b" "), -9),  # the first line does not end after 45 bytes
    ("a carriage return in the line feed's place", byte(A, 2, 44, b"\r"), -9),  # no line feed
    ("carriage return and line feed", A.replace(b"\n", b"\r\n"), -9),  # lines of 46 bytes
    ("a byte removed", without(A, 3), -9),  # the first line has 44 bytes
    ("a byte added", added(A, 45, b" "), -9),  # the second line has 46 bytes
    ("a byte moved over a line's end", added(without(A, 50), 0, b" "), -9),  # as many bytes, but the first line has 46 and the second 44
    # ---- 9: blanks and then digits
    ("a column of blanks", put(A, 1, VALUE, b"           "), -9),  # at least one digit is asked
    ("a tab before a number", put(A, 1, NUMBER, b"\t         5"), -9),  # a tab is no blank
    ("a byte 0 before a number", put(A, 1, NUMBER, b"         \x005"), -9),  # a byte 0 is no blank
    ("a blank after a number", put(A, 1, NUMBER, b"         5 "), -9),  # not right-justified
    ("left-justified", put(A, 2, KIND, b"6          "), -9),  # blanks after the digit
    ("a blank between digits", put(A, 1, NUMBER, b"        1 5"), -9),  # a digit, a blank, a digit
    ("a plus sign", put(A, 1, NUMBER, b"         +5"), -9),  # a sign is no digit
    ("a minus sign", put(A, 2, VALUE, b"         -0"), -9),  # a sign is no digit
    ("a decimal point", put(A, 2, VALUE, b"        0.0"), -9),  # a point is no digit
    ("the byte before 0", put(A, 2, VALUE, b"          /"), -9),  # / is no digit
    ("the byte after 9", put(A, 2, VALUE, b"          :"), -9),  # : is no digit
    ("a digit with the highest bit", put(A, 2, VALUE, b"          \xb0"), -9),  # 0xb0 is 0x30, the digit 0, plus 128
    ("a blank with the highest bit", put(A, 2, VALUE, b"\xa0         0"), -9),  # 0xa0 is 0x20, the blank, plus 128
    ("a letter", put(A, 1, KIND, b"          a"), -9),  # no digit
    # ---- 9: leading zeros
    ("0 alone", text(head(1), (3, 0, 1, 0)), 1),  # one digit 0 is no leading zero
    ("00", put(text(head(1), (3, 0, 1, 0)), 1, VALUE, b"         00"), -9),  # of two digits the first is 0
    ("01", put(text(head(1), (3, 0, 1, 0)), 1, NUMBER, b"         01"), -9),  # of two digits the first is 0
    ("10", text(head(1), (3, 0, 10, 0)), 1),  # a zero at the end is no leading one
    ("a column full of zeros and a digit", put(text(head(1), (3, 0, 1, 0)), 1, NUMBER, b"00000000001"), -9),  # eleven digits, the first is 0
    ("a leading zero in the header's kind", put(A, 0, KIND, b"         00"), -9),  # the header is a line as the others
    ("a leading zero in the count", put(A, 0, NUMBER, b"         02"), -9),  # the count is right, but 9 comes first
    # ---- 9: 32 bits
    ("4294967295", placed(4294967295), -11),  # fits 32 bits; as a pattern it is a NaN
    ("4294967296", placed(4294967296), -9),  # one more does not fit
    ("9999999999", placed(9999999999), -9),  # ten digits above 32 bits
    ("10000000000", placed(10000000000), -9),  # eleven digits
    ("4294967297 for 1", text(head(1), (3, 0, 4294967297, 0)), -9),  # 2^32 + 1 is no 1
    ("a count of 4294967296 for 0", text(head(4294967296)), -9),  # 2^32 is no 0, and 9 comes before 10
    # ---- 10
    ("count one too many", text(head(3), (2, 0, 5, 1), (6, 1, 1, 0)), -10),  # 3 is told, 2 follow
    ("count one too few", text(head(1), (2, 0, 5, 1), (6, 1, 1, 0)), -10),  # 1 is told, 2 follow
    ("count 0 before a line", text(head(0), (6, 1, 1, 0)), -10),  # 0 is told, 1 follows
    ("count 1 before no line", text(head(1)), -10),  # 1 is told, 0 follow
    ("count more by 256", text(head(258), (2, 0, 5, 1), (6, 1, 1, 0)), -10),  # 258 is told, 2 follow
    ("count 4294967295", text(head(4294967295), (2, 0, 5, 1), (6, 1, 1, 0)), -10),  # fits 32 bits, so not 9; 2 follow
    ("count the bytes", text(head(135), (2, 0, 5, 1), (6, 1, 1, 0)), -10),  # 135 is told, 2 follow
    ("two sheets, one after the other", text(head(0), head(0)), -10),  # 0 is told, and the second header follows
    ("the longest sheet with a line too few", text(head(165), *MOST[:-1]), -10),  # 165 is told, 164 follow
    # ---- 10 whatever the header's side and value
    ("count wrong, side 0", text(head(1, side=0)), -10),  # 10 before the 11 of the side
    ("count wrong, value 2", text(head(1, value=2)), -10),  # 10 before the 11 of the value
    ("count wrong, side and value too", text(head(1, side=7, value=0)), -10),  # 10 before both
    # ---- 11: the header
    ("header of side 0", text(head(0, side=0)), -11),  # side 2 is asked; the count is right
    ("header of side 3", text(head(0, side=3)), -11),  # side 2 is asked
    ("header of value 0", text(head(0, value=0)), -11),  # value 1 is asked
    ("header of value 2", text(head(0, value=2)), -11),  # value 1 is asked
    ("no header", text((2, 0, 5, 1), (6, 1, 1, 0)), -11),  # the first line has kind 2, so its number 5 is no count
    ("no header, and the number counts the lines", text((1, 2, 0, 1)), -11),  # a first line of kind 1
    ("no header, and the number does not count the lines", text((1, 0, 5, 1)), -11),  # 10 is for a first line of kind 0 alone
    # ---- 11: kinds 1 to 9 that never fall
    ("kind 0 after the header", text(head(1), head(0)), -11),  # the count is right, but kinds are 1 to 9
    ("kind 10", text(head(1), (10, 0, 1, 0)), -11),  # kinds are 1 to 9
    ("kind 4294967295", text(head(1), (4294967295, 0, 1, 0)), -11),  # fits 32 bits, but kinds are 1 to 9
    ("kinds 3 and 4", text(head(2), (3, 0, 1, 0), (4, 0, 1, 0)), 2),  # kinds rise
    ("kinds 4 and 3", text(head(2), (4, 0, 1, 0), (3, 0, 1, 0)), -11),  # kinds fall
    ("kinds 4, 5, 4", text(head(3), (4, 0, 1, 0), (5, 0, 1, 0), (4, 0, 2, 0)), -11),  # kinds fall, though players rise in each
    ("kinds 1 and 6", text(head(2), (1, 0, 1, 1), (6, 0, 1, 0)), 2),  # kinds may be left out
    # ---- 11: players
    ("numbers 1 and 20", text(head(2), (1, 0, 1, 1), (1, 0, 20, 1)), 2),  # the first and the last player
    ("number 0", text(head(1), (1, 0, 0, 1)), -11),  # numbers are 1 to 20
    ("number 21", text(head(1), (4, 1, 21, 0)), -11),  # numbers are 1 to 20
    ("number 257", text(head(1), (3, 1, 257, 0)), -11),  # 257 is no 1
    ("number 21 in kind 2", text(head(1), (2, 0, 21, 1)), -11),  # numbers are 1 to 20
    ("number 0 in kind 5", text(head(1), (5, 0, 0, 0)), -11),  # numbers are 1 to 20
    ("side 1 of a player", text(head(1), (5, 1, 20, 0)), 1),  # Away
    ("side 2 of a player", text(head(1), (5, 2, 20, 0)), -11),  # a player has side 0 or 1
    ("side 2 in kind 2", text(head(1), (2, 2, 5, 1)), -11),  # a player has side 0 or 1
    ("side 2 in kind 3", text(head(1), (3, 2, 0, 0)), -11),  # no kicker is no line
    # ---- 11: players rise in kinds 1, 4 and 5
    ("Home 20, Away 1", text(head(2), (1, 0, 20, 1), (1, 1, 1, 1)), 2),  # Home before Away, though the number falls
    ("Away 1, Home 20", text(head(2), (1, 1, 1, 1), (1, 0, 20, 1)), -11),  # Away before Home
    ("kind 1, a player twice", text(head(2), (1, 0, 4, 1), (1, 0, 4, 2)), -11),  # strictly rising
    ("kind 1, players that fall", text(head(2), (1, 1, 5, 1), (1, 1, 4, 1)), -11),  # 5 before 4
    ("kind 4, neighbours", text(head(2), (4, 0, 4, 0), (4, 0, 5, 0)), 2),  # 4 before 5
    ("kind 4, a player twice", text(head(2), (4, 0, 4, 0), (4, 0, 4, 0)), -11),  # strictly rising
    ("kind 4, players that fall", text(head(2), (4, 0, 5, 0), (4, 0, 4, 0)), -11),  # 5 before 4
    ("kind 5, the same number on both sides", text(head(2), (5, 0, 4, 0), (5, 1, 4, 0)), 2),  # two players
    ("kind 5, a player twice", text(head(2), (5, 1, 4, 0), (5, 1, 4, 0)), -11),  # strictly rising
    ("kind 5, Away before Home", text(head(2), (5, 1, 4, 0), (5, 0, 5, 0)), -11),  # Away before Home, though the number rises
    ("a player in all kinds", text(head(5), (1, 0, 4, 1), (2, 0, 4, 1), (3, 0, 4, 0), (4, 0, 4, 0), (5, 0, 4, 0)), 5),  # nothing is asked between the kinds
    # ---- 11: values
    ("verdicts 1, 2, 3", text(head(3), (1, 0, 1, 1), (1, 0, 2, 2), (1, 0, 3, 3)), 3),  # the three verdicts
    ("verdict 0", text(head(1), (1, 0, 1, 0)), -11),  # Legal has no line
    ("verdict 4", text(head(1), (1, 0, 1, 4)), -11),  # no such verdict
    ("kind 3 of value 1", text(head(1), (3, 0, 1, 1)), -11),  # value 0 is asked
    ("kind 4 of value 1", text(head(1), (4, 0, 1, 1)), -11),  # value 0 is asked
    ("kind 5 of value 1", text(head(1), (5, 0, 1, 1)), -11),  # value 0 is asked
    ("kind 5 of value 2147483648", text(head(1), (5, 0, 1, 2147483648)), -11),  # value 0 is asked, and this is not read as a zero
    # ---- 11: ranks
    ("ranks of both sides", text(head(3), (2, 0, 9, 1), (2, 0, 3, 2), (2, 1, 9, 1)), 3),  # each side from 1; numbers may fall; Home 9 and Away 9 are two players
    ("ranks from 0", text(head(2), (2, 0, 9, 0), (2, 0, 3, 1)), -11),  # ranks begin with 1
    ("ranks from 2", text(head(1), (2, 0, 9, 2)), -11),  # ranks begin with 1
    ("a gap between ranks", text(head(2), (2, 0, 9, 1), (2, 0, 3, 3)), -11),  # 2 is missing
    ("equal ranks", text(head(2), (2, 0, 9, 1), (2, 0, 3, 1)), -11),  # the second is 2
    ("ranks that fall", text(head(2), (2, 0, 9, 2), (2, 0, 3, 1)), -11),  # the first is 1
    ("Away's ranks after Home's", text(head(2), (2, 0, 9, 1), (2, 1, 3, 2)), -11),  # Away's first rank is 1
    ("Away alone", text(head(1), (2, 1, 9, 1)), 1),  # Home's list is empty
    ("Away's ranks first", text(head(2), (2, 1, 9, 1), (2, 0, 3, 1)), -11),  # Home's lines come first
    ("Home, Away, Home", text(head(3), (2, 0, 9, 1), (2, 1, 3, 1), (2, 0, 4, 2)), -11),  # Home's lines come first
    ("a player twice in kind 2", text(head(2), (2, 0, 9, 1), (2, 0, 9, 2)), -11),  # no player twice
    ("a player twice with another between", text(head(3), (2, 1, 9, 1), (2, 1, 3, 2), (2, 1, 9, 3)), -11),  # no player twice
    ("20 ranks of a side", text(head(20), *RANKS[:20]), 20),  # all players of Home; no limit on ranks is told
    ("21 ranks of a side", text(head(21), *RANKS[:20], (2, 0, 7, 21)), -11),  # Home has twenty players, so one is there twice
    # ---- 11: kind 3 at most once
    ("two lines of kind 3", text(head(2), (3, 0, 1, 0), (3, 1, 1, 0)), -11),  # at most one line, though the players differ
    # ---- 11: kind 6
    ("codes with a side", text(head(1), (6, 1, 4, 0)), 1),  # the last code that has a side
    ("code 5 without a side", text(head(1), (6, 2, 5, 0)), 1),  # the end of a penalty shot
    ("code 5 with a side", text(head(1), (6, 0, 5, 0)), -11),  # 5 has side 2
    ("code 4 without a side", text(head(1), (6, 2, 4, 0)), -11),  # 1 to 4 have side 0 or 1
    ("code 0", text(head(1), (6, 0, 0, 0)), -11),  # codes are 1 to 5
    ("code 6", text(head(1), (6, 2, 6, 0)), -11),  # codes are 1 to 5
    ("kind 6 of side 3", text(head(1), (6, 3, 1, 0)), -11),  # 1 has side 0 or 1
    ("kind 6 of value 1", text(head(1), (6, 0, 1, 1)), -11),  # value 0 is asked
    ("two lines of kind 6", text(head(2), (6, 0, 1, 0), (6, 2, 5, 0)), -11),  # at most one line
    # ---- 11: kinds 7, 8 and 9
    ("a place of the ball", text(head(3), *BALL), 3),  # side 2 and number 0
    ("a place of Away 20", text(head(3), (7, 1, 20, ONE), (8, 1, 20, ONE), (9, 1, 20, ONE)), 3),  # the last player
    ("7 and 8 without 9", text(head(2), *BALL[:2]), -11),  # one each, or none
    ("8 and 9 without 7", text(head(2), *BALL[1:]), -11),  # one each, or none
    ("7 and 9 without 8", text(head(2), BALL[0], BALL[2]), -11),  # one each, or none
    ("8 twice", text(head(4), BALL[0], BALL[1], BALL[1], BALL[2]), -11),  # one each
    ("7, 8 and 9 twice", text(head(6), BALL[0], BALL[0], BALL[1], BALL[1], BALL[2], BALL[2]), -11),  # one each, though kinds never fall
    ("two places, one after the other", text(head(6), *BALL, *HOME_2), -11),  # kinds fall, and one each is asked
    ("7, 9, 8", text(head(3), BALL[0], BALL[2], BALL[1]), -11),  # kinds fall
    ("9 of another player", text(head(3), *HOME_2[:2], (9, 0, 3, ONE)), -11),  # the same player is asked
    ("8 of the other side", text(head(3), HOME_2[0], (8, 1, 2, ONE), HOME_2[2]), -11),  # Away 2 is another player
    ("7 of the ball, 8 and 9 of a player", text(head(3), BALL[0], *HOME_2[1:]), -11),  # the same player or ball is asked
    ("a place of the ball with number 1", text(head(3), (7, 2, 1, ONE), (8, 2, 1, ONE), (9, 2, 1, ONE)), -11),  # the ball has number 0
    ("a place of Home 0", text(head(3), (7, 0, 0, ONE), (8, 0, 0, ONE), (9, 0, 0, ONE)), -11),  # numbers are 1 to 20
    ("a place of Home 21", text(head(3), (7, 0, 21, ONE), (8, 0, 21, ONE), (9, 0, 21, ONE)), -11),  # numbers are 1 to 20
    ("a place of side 3", text(head(3), (7, 3, 0, ONE), (8, 3, 0, ONE), (9, 3, 0, ONE)), -11),  # the ball has side 2
    # ---- 11: placed values. The infinity is 0x7f800000 = 2139095040, and 2147483648 more with the sign
    ("value 0", placed(0), 3),  # +0
    ("value 1", placed(1), 3),  # the least number above 0
    ("value 8388607", placed(8388607), 3),  # the greatest subnormal number, 0x007fffff
    ("value 2139095039", placed(2139095039), 3),  # 0x7f7fffff, the greatest finite number
    ("value 2139095040", placed(2139095040), -11),  # the infinity
    ("value 2139095041", placed(2139095041), -11),  # 0x7f800001, a NaN
    ("value 2143289344", placed(2143289344), -11),  # 0x7fc00000, a NaN
    ("value 2147483647", placed(2147483647), -11),  # 0x7fffffff, a NaN
    ("value 2147483648", placed(2147483648), -11),  # -0, which is not accepted
    ("value 2147483649", placed(2147483649), 3),  # the least number below 0
    ("value 4286578687", placed(4286578687), 3),  # 2139095039 + 2147483648, the least finite number
    ("value 4286578688", placed(4286578688), -11),  # the infinity below 0
    ("x 2147483648", text(head(3), (7, 2, 0, 2147483648), (8, 2, 0, 0), (9, 2, 0, 0)), -11),  # not in kind 7
    ("third number 2147483648", text(head(3), (7, 2, 0, 0), (8, 2, 0, 0), (9, 2, 0, 2147483648)), -11),  # not in kind 9
    # ---- lines added to the longest sheet, the count adapted
    ("the longest sheet and one more verdict", text(head(166), *MOST[:40], (1, 1, 20, 1), *MOST[40:]), -11),  # Away 20 a second time
    ("the longest sheet and one more line of kind 9", text(head(166), *MOST, MOST[-1]), -11),  # 9 twice
    # ---- several faults
    ("9 in the last line, count wrong in the first", byte(text(head(7), (2, 0, 5, 1), (6, 1, 1, 0)), 2, 44, b" "), -9),  # 9 is asked of the whole text first
    ("9 in the last line, 11 in the first", put(text((1, 0, 1, 1), (6, 1, 1, 0)), 1, VALUE, b"         00"), -9),  # 9 first
    ("9 in the last line, kinds fall before", put(text(head(3), (6, 1, 1, 0), (2, 0, 5, 1), (6, 1, 1, 0)), 3, KIND, b"         06"), -9),  # 9 first
    ("9 behind the counted lines", text(head(1), (6, 1, 1, 0)) + b"\n", -9),  # the count is right, but a byte is left over
    ("9, 10 and 11", put(text(head(9, side=0), (6, 1, 1, 0), (2, 0, 5, 1)), 2, VALUE, b"        1  "), -9),  # 9 first
    ("10, and kinds fall", text(head(3), (6, 1, 1, 0), (2, 0, 5, 1)), -10),  # 10 before 11
    ("10, and verdict 4", text(head(0), (1, 0, 1, 4)), -10),  # 10 before 11
    ("10, and header's side 1, and an infinity", text(head(2, side=1), (7, 2, 0, 2139095040)), -10),  # 10 before 11
    ("11 twice", text(head(2, value=0), (4, 0, 1, 1), (4, 0, 1, 1)), -11),  # header's value, and a player twice with value 1
    ("too great and a leading zero", put(A, 1, VALUE, b"04294967296"), -9),  # both are 9
    ("a first line of kind 1 with a wrong count and a leading zero later", put(text((1, 0, 9, 1), (3, 0, 1, 0)), 1, NUMBER, b"         01"), -9),  # 9 before 11
]


SIDES = {0: "Home", 1: "Away"}
VERDICTS = {1: "stands illegally", 2: "stands illegally unless it is the kicker", 3: "stands in the region that it must avoid"}
CALLS = {1: "goal", 2: "goal kick", 3: "corner", 4: "throw-in"}


def amount(pattern):
    """A placed number to the nearest millionth, a half away from zero, and its pattern; the pattern alone from 2^24 on."""
    value = fractions.Fraction(struct.unpack("<f", struct.pack("<I", pattern))[0])
    if abs(value) >= 2**24:
        return f"of pattern {pattern}"
    millionths = int(abs(value) * 1000000 + fractions.Fraction(1, 2))
    sign = "-" if pattern >= 2**31 else ""
    return f"{sign}{millionths // 1000000}.{millionths % 1000000:06}, pattern {pattern}"


def item(kind, side, number, value):
    """What a line after the header says."""
    if kind == 6:
        return "end of the penalty shot" if number == 5 else f"{CALLS[number]} for {SIDES[side]}"
    who = "the ball" if side == 2 else f"{SIDES[side]} {number}"
    if kind == 9 and side != 2:
        return f"{who} is placed with heading {amount(value)}"
    if kind >= 7:
        return f"{who} is placed at {'xyz'[kind - 7]} {amount(value)}"
    rank = f"is in excess in its goal area, rank {value}"
    return f"{who} " + {1: VERDICTS.get(value), 2: rank, 3: "is the kicking player", 4: "leaves the field", 5: "has moved"}[kind]


def said(whole):
    """The readable lines of an accepted text."""
    rows = [tuple(map(int, row.split())) for row in whole.decode().splitlines()]
    return "".join(item(*row) + "\n" for row in rows[1:])


def escaped(whole):
    """A text on one line."""
    named = {0x0A: "\\n", 0x5C: "\\\\"}
    return "".join(named.get(b, chr(b) if 32 <= b < 127 else "\\x%02x" % b) for b in whole)


if __name__ == "__main__":
    for name, whole, expected in CASES:
        print(name, expected, escaped(whole), sep="\t")
