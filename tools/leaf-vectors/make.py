#!/usr/bin/env python3
"""Makes what the program leaf_vectors reads, and what it must print: crates/leaf_vectors/stdin and stdout,
and src/decimals.rt, the numbers that it has in decimal.

usage: make.py            write the files
       make.py --check    write nothing, and fail where a file is not what would be written
       make.py --list     print each vector with its line, its function and why it is there

What a function of `floats` should give is computed here from its definition, on bit patterns and whole numbers
alone: minimumNumber, maximumNumber, totalOrder and hypot are those of IEEE 754-2019; abs, copysign, clamp and
rem_euclid are those of Rust's documentation of f32. No function of the project is run, and no float is used. The
vectors of hypot and rem_euclid are computed a second time, with decimal numbers of many digits, and the script
fails where the two differ. The vectors of `candidates`, and two of hypot, are document 01's; others of hypot are
CPython's, with the results that its test data has, and the script fails where the definition gives another.

The choice of the operands is the same at each run: those that look random come from a generator that is
written out below. Where the C library can be loaded, the script also says at how many vectors of hypot its
hypotf differs. That goes to standard output and into no file.
"""

import ctypes
import decimal
import pathlib
import struct
import sys
from fractions import Fraction
from math import isqrt

SIGN = 0x8000_0000  # the bit of the sign
INF = 0x7F80_0000  # the pattern of +inf
MAX = 0x7F7F_FFFF  # the largest finite number
NORMAL = 0x0080_0000  # the smallest normal number
NAN = 0x7FC0_0000  # the pattern that stands for every NaN
ONE = 0x3F80_0000
HIDDEN = 1 << 23  # the leading digit of a normal number's significand


# ---- patterns ----


def magnitude(p):
    """The pattern without its sign."""
    return p % SIGN


def negative(p):
    """Whether the pattern's sign is set."""
    return p >= SIGN


def is_nan(p):
    """Whether the pattern is a NaN's."""
    return magnitude(p) > INF


def one_nan(p):
    """The pattern, with NAN for each NaN: the leaves know one NaN, whose sign counts as plus."""
    return NAN if is_nan(p) else p


def units(m):
    """The number of a pattern without sign, in units of 2 ** -149. From +inf on the exponents go on."""
    field = m >> 23
    return m if field == 0 else (m % HIDDEN + HIDDEN) << (field - 1)


def whole(p):
    """The number of a pattern that is no NaN, in units of 2 ** -149. Both zeros are 0."""
    return -units(magnitude(p)) if negative(p) else units(p)


def nearest(amount):
    """The f32 nearest to a Fraction that is not negative, in units of 2 ** -149. At a tie, the even one."""
    drop = max(0, (amount.numerator // amount.denominator).bit_length() - 24)
    step = amount.denominator << drop
    digits, rest = divmod(amount.numerator, step)
    if 2 * rest > step or (2 * rest == step and digits % 2 == 1):
        digits += 1
    return min((drop << 23) + digits, INF)


def of_decimal(text):
    """The f32 nearest to a decimal number."""
    p = nearest(abs(Fraction(text)) * 2**149)
    return p + SIGN if text.startswith("-") else p


def pattern(field, significand):
    """The pattern with this field for the exponent, of a significand with its leading digit."""
    return (field << 23) + significand - HIDDEN


def scaled(number, power):
    """The f32 that is number * 2 ** (power - 149)."""
    p = nearest(Fraction(number << power))
    assert units(p) == number << power, "no f32"
    return p


# ---- what each leaf should give ----


def expect_is_nan(p):
    """1 for a NaN, else 0."""
    return int(is_nan(p))


def expect_bits(k):
    """The pattern of the number at a place of NUMBERS, and past the last place a NaN's."""
    return NUMBERS[k] if k < len(NUMBERS) else NAN


def expect_from_bits(p):
    """The pattern itself, or NAN."""
    return one_nan(p)


def expect_abs(p):
    """Rust: the absolute value. The sign goes, a zero's too."""
    return magnitude(one_nan(p))


def expect_copysign(x, y):
    """Rust: the magnitude of x with the sign of y."""
    return NAN if is_nan(x) else magnitude(x) + (SIGN if negative(one_nan(y)) else 0)


def below(x, y):
    """Whether x is less than y, where -0 is less than +0. Neither is a NaN."""
    return (whole(x), not negative(x)) < (whole(y), not negative(y))


def expect_min(x, y):
    """IEEE 754-2019, 9.6, minimumNumber: of a number and a NaN the number, and -0 is less than +0."""
    if is_nan(x) or is_nan(y):
        return one_nan(y if is_nan(x) else x)
    return x if below(x, y) else y


def expect_max(x, y):
    """IEEE 754-2019, 9.6, maximumNumber: of a number and a NaN the number, and -0 is less than +0."""
    if is_nan(x) or is_nan(y):
        return one_nan(y if is_nan(x) else x)
    return y if below(x, y) else x


def expect_clamp(x, low, high):
    """Rust: high if x is greater than high, low if x is less than low, otherwise x.
    Where Rust panics, at a NaN for a bound and at low > high, it is x."""
    if is_nan(x) or is_nan(low) or is_nan(high) or whole(low) > whole(high):
        return one_nan(x)
    if whole(x) > whole(high):
        return high
    return low if whole(x) < whole(low) else x


def expect_total_cmp(x, y):
    """IEEE 754-2019, 5.10, totalOrder: -0 is below +0, and the NaN above +inf. 0 less, 1 equal, 2 greater."""
    x, y = one_nan(x), one_nan(y)
    a = -1 - magnitude(x) if negative(x) else x
    b = -1 - magnitude(y) if negative(y) else y
    return 0 if a < b else 1 if a == b else 2


def expect_rem_euclid(x, y):
    """Rust: r = x % y, and r + |y| where r < 0. The remainder is exact and has the sign of x, also where it
    is zero; the sum is rounded once."""
    if is_nan(x) or is_nan(y) or magnitude(x) == INF or magnitude(y) == 0:
        return NAN
    if magnitude(y) == INF:
        return INF if whole(x) < 0 else x
    r = units(magnitude(x)) % units(magnitude(y))
    if negative(x) and r > 0:
        return nearest(Fraction(units(magnitude(y)) - r))
    return nearest(Fraction(r)) + (SIGN if negative(x) else 0)


def past(squares, p):
    """Whether the root of squares, in units of 2 ** -298, is nearer to the next pattern than to p: it is past
    the point halfway between the two, or at the point and p is odd."""
    halfway = units(p) + units(p + 1)  # in units of 2 ** -150
    return 4 * squares > halfway**2 or (4 * squares == halfway**2 and p % 2 == 1)


def expect_hypot(x, y):
    """IEEE 754-2019, 9.2.1: the f32 nearest to the exact root, at a tie the even one. An infinity gives +inf
    beside a NaN too."""
    if INF in (magnitude(x), magnitude(y)):
        return INF
    if is_nan(x) or is_nan(y):
        return NAN
    squares = whole(x) ** 2 + whole(y) ** 2
    low, high = 0, INF
    while low < high:
        middle = (low + high) // 2
        if past(squares, middle):
            low = middle + 1
        else:
            high = middle
    return low


def expect_from_count(k):
    """The f32 of a whole number below 65536, which is exact."""
    return scaled(k, 149)


# ---- a second way, with decimal numbers ----

# Enough digits that a root which is no halfway point is not taken for one: the two differ within 300 digits.
MANY = decimal.Context(prec=1200, Emin=-9999, Emax=9999, rounding=decimal.ROUND_HALF_EVEN, traps=[])


def power_of_two(k):
    """2 ** k as an exact decimal number."""
    return decimal.Decimal(2**k) if k >= 0 else MANY.scaleb(decimal.Decimal(5**-k), k)


def as_decimal(p):
    """The exact decimal number of a pattern. A zero keeps its sign."""
    m = magnitude(p)
    field = max(m >> 23, 1)
    number = MANY.multiply(decimal.Decimal(m - ((field - 1) << 23)), power_of_two(field - 150))
    if m >= INF:
        number = decimal.Decimal("Infinity" if m == INF else "NaN")
    return number.copy_negate() if negative(p) else number


def of_many_digits(number):
    """The f32 nearest to a decimal number, at a tie the even one."""
    if number.is_nan():
        return NAN
    sign = SIGN if number.is_signed() else 0
    size = number.copy_abs()
    if size >= power_of_two(128):
        return sign + INF
    drop = 0
    while size >= power_of_two(drop - 125):
        drop += 1
    digits = MANY.to_integral_value(MANY.multiply(size, power_of_two(149 - drop)))
    return sign + min((drop << 23) + int(digits), INF)


def second_hypot(x, y):
    """hypot of finite operands, by a root of many digits."""
    a, b = as_decimal(x), as_decimal(y)
    return of_many_digits(MANY.sqrt(MANY.add(MANY.multiply(a, a), MANY.multiply(b, b))))


def second_rem_euclid(x, y):
    """rem_euclid by the remainder of decimal numbers, which has the sign of x as well."""
    a, b = as_decimal(x), as_decimal(y)
    r = MANY.remainder(a, b)
    if r.is_nan():
        return NAN
    return of_many_digits(MANY.add(r, b.copy_abs()) if r < 0 else r)


def cross_check(rows_of):
    """Fails where the two ways differ."""
    for x, y, _ in rows_of["hypot"]:
        if magnitude(x) < INF and magnitude(y) < INF and second_hypot(x, y) != expect_hypot(x, y):
            sys.exit(f"the two ways differ at hypot of {x:#010x} and {y:#010x}")
    for x, y, _ in rows_of["rem_euclid"]:
        if second_rem_euclid(x, y) != expect_rem_euclid(x, y):
            sys.exit(f"the two ways differ at rem_euclid of {x:#010x} and {y:#010x}")
    for name, x, y, root in carried():
        if expect_hypot(x, y) != root:
            sys.exit(f"CPython's {name} has another result than the definition of hypot")


# ---- operands: a row is the operands and a label ----


class Dice:
    """Numbers that look random and are the same at each run (splitmix64)."""

    def __init__(self, seed):
        self.state = seed

    def bits(self, count):
        """A number of count bits."""
        self.state = (self.state + 0x9E37_79B9_7F4A_7C15) % 2**64
        z = self.state
        z = (z ^ (z >> 30)) * 0xBF58_476D_1CE4_E5B9 % 2**64
        z = (z ^ (z >> 27)) * 0x94D0_49BB_1331_11EB % 2**64
        return (z ^ (z >> 31)) >> (64 - count)

    def between(self, low, high):
        """A number from low to high, both among the answers."""
        return low + (self.bits(64) * (high - low + 1) >> 64)

    def finite(self):
        """A finite number."""
        return (self.bits(1) << 31) + self.between(0, MAX)

    def significand(self):
        """A significand with its leading digit."""
        return HIDDEN + self.bits(23)


def labelled(label, rows):
    """The rows with a label."""
    return [(*row, label) for row in rows]


def crossed(first, second):
    """Each of the first with each of the second."""
    return [(x, y) for x in first for y in second]


SPECIAL = [0, SIGN, 1, ONE + SIGN, INF, INF + SIGN, NAN, NAN + SIGN]
NEIGHBOURS = [
    (ONE, ONE + 1),
    (ONE + 1, ONE),
    (ONE, ONE),
    (ONE - 1, ONE),
    (ONE + SIGN, ONE + SIGN + 1),
    (ONE + SIGN + 1, ONE + SIGN),
    (MAX, INF),
    (INF, MAX),
    (MAX + SIGN, INF + SIGN),
    (NORMAL, NORMAL - 1),
    (NORMAL - 1, NORMAL),
    (1 + SIGN, 2 + SIGN),
    (2, 1),
    (INF + 1, ONE),
    (ONE + SIGN, 0xFFFF_FFFF),
]


def rows_of_one(dice):
    """Operands of the leaves that take one pattern."""
    nans = [NAN, NAN + SIGN, INF + 1, INF + 1 + SIGN, 0x7FFF_FFFF, 0xFFFF_FFFF, 0x7FBF_FFFF]
    small = [1, 2, 0x0000_1234, 0x0040_0000, 0x007F_FFFE, 0x007F_FFFF]
    edges = [NORMAL, NORMAL + SIGN, ONE - 1, ONE + 1, MAX - 1, MAX, MAX + SIGN]
    out = labelled("special", [(p + s,) for p in (0, ONE, INF) for s in (0, SIGN)])
    out += labelled("NaN", [(p,) for p in nans])
    out += labelled("subnormal", [(p + s,) for p in small for s in (0, SIGN)])
    out += labelled("neighbour", [(p,) for p in edges])
    return out + labelled("random", [(dice.finite(),) for _ in range(12)])


def rows_bits(_):
    """The places of NUMBERS, and the next."""
    return labelled("decimal", [(k,) for k in range(len(NUMBERS))]) + [(len(NUMBERS), "NaN")]


def rows_by_order(dice):
    """Operands of the leaves that go by the order of two numbers."""
    out = labelled("special", crossed(SPECIAL, SPECIAL)) + labelled("neighbour", NEIGHBOURS)
    return out + [(dice.finite(), dice.finite(), "random")]


def rows_copysign(dice):
    """Specials crossed, then numbers of both signs."""
    out = labelled("special", crossed(SPECIAL, [0, SIGN, 1 + SIGN, INF, INF + SIGN, NAN]))
    out += labelled("neighbour", NEIGHBOURS)
    return out + labelled("random", [(dice.finite(), dice.finite()) for _ in range(12)])


def rows_clamp(dice):
    """Each x with each pair of bounds, then numbers at and beside a bound."""
    bounds = [(ONE + SIGN, ONE), (0, ONE), (SIGN, 0), (0, SIGN), (ONE, ONE + SIGN), (NAN, ONE)]
    bounds += [(ONE + SIGN, NAN + SIGN), (INF + SIGN, INF)]
    inner = [0, SIGN, 1 + SIGN, ONE + 1, INF, INF + SIGN, NAN]
    low, high = of_decimal("-6.75"), of_decimal("-0.25")
    out = labelled("special", [(x, *pair) for pair in bounds for x in inner])
    out += labelled("beside a bound", [(p + d, low, high) for p in (low, high) for d in (-1, 0, 1)])
    out += labelled("infinite", [(INF, INF, INF), (ONE, INF, INF), (ONE, INF + SIGN, INF + SIGN)])
    out += labelled("subnormal", [(1, 2, NORMAL - 1), (NORMAL, 2, NORMAL - 1), (2, 2, 2)])
    return out + labelled("random", [(dice.finite(), dice.finite(), dice.finite()) for _ in range(12)])


def rows_from_count(dice):
    """Whole numbers, small and large, and beside powers of two."""
    out = labelled("small", [(k,) for k in (0, 1, 2, 3, 5, 7, 10, 11, 45, 100, 135, 1000)])
    out += labelled("beside a power of two", [(2**e + d,) for e in (4, 8, 12, 15) for d in (-1, 0, 1)])
    out += labelled("large", [(k,) for k in (8200, 49151, 65534, 65535)])
    return out + labelled("random", [(dice.bits(16),) for _ in range(12)])


# ---- the operands of rem_euclid ----

HALF_TURN = of_decimal("3.1415927")  # PI, as f32 has it
TURN = HALF_TURN + HIDDEN


def decimals(*pairs):
    """Pairs of decimal numbers."""
    return [(of_decimal(x), of_decimal(y)) for x, y in pairs]


def rounded_sums():
    """Small negative numbers beside y = 1 and y = 3, so that r + |y| is a tie or beside one."""
    out = [(scaled(k, 124) + SIGN, ONE) for k in range(1, 8)]
    for y in (of_decimal("3"), of_decimal("-3") - 1):
        out += [(scaled(k, 126) + SIGN, y) for k in (1, 3, 5)]
    return out


def angles():
    """Angles to be brought into one turn."""
    out = []
    for p in (1, HALF_TURN, HALF_TURN + 1, TURN - 1, TURN, TURN + 1, of_decimal("9.424778")):
        out += [(p, TURN), (p + SIGN, TURN)]
    return out + [(of_decimal(t), TURN) for t in ("-0.25", "-1.5707964", "64", "-64", "-1e-7", "-2e-7", "-3e-7")]


def rows_rem_euclid(dice):
    """Specials, the examples of Rust's documentation, whole quotients, rounded sums, angles, far exponents."""
    first, second = [0, SIGN, ONE, ONE + SIGN, INF, NAN], [0, SIGN, TURN + SIGN, INF, INF + SIGN, NAN + SIGN]
    rust = decimals(("7", "4"), ("-7", "4"), ("7", "-4"), ("-7", "-4"), ("-0.00000011920929", "3"))
    quotients = decimals(("6", "3"), ("-6", "3"), ("-6", "-3"), ("7.5", "2.5"), ("-7.5", "2.5"), ("2e38", "-1"))
    small = [(3, 2), (3 + SIGN, 2), (1 + SIGN, NORMAL - 1), (1 + SIGN, NORMAL), (NORMAL + 5 + SIGN, 7)]
    far = [(1 + SIGN, MAX), (MAX, 3), (MAX + SIGN, 3), (MAX + SIGN, MAX - 1), (MAX + SIGN, NORMAL + 1)]
    out = labelled("special", crossed(first, second)) + labelled("Rust's documentation", rust)
    out += labelled("whole quotient", quotients) + labelled("the sum is a tie or beside one", rounded_sums())
    out += labelled("angle", angles()) + labelled("subnormal", small)
    out += labelled("far exponents", far + decimals(("1e30", "7"), ("-5e30", "1e-3")))
    out += labelled("random", [(dice.finite(), dice.finite()) for _ in range(8)])
    for _ in range(12):
        x = pattern(dice.between(120, 134), dice.significand())
        out.append((x + SIGN, pattern(dice.between(120, 130), dice.significand()), "random, negative"))
    return out


# ---- the operands of hypot ----

# Pairs at which hypotf of glibc 2.36 gives a neighbour of the nearest f32: it rounds the sum of the squares,
# and the root, to f64 before it rounds to f32.
GLIBC_DIFFERS = [
    (0x3EA0_0000, 0x38CA_62C2),
    (0x40AC_CCB7, 0x3DEA_C5F7),
    (0x4166_0D00, 0x3D18_6E4D),
    (0x40F6_838E, 0x3C0F_E65E),
    (0x3FF6_27DD, 0x3B48_EBFA),
    (0x400F_E99C, 0x3AA6_39F4),
    (0x4039_FAB0, 0x3ABC_F735),
    (0x3FB6_9E0F, 0x39D8_37B6),
]
GLIBC = "glibc 2.36 differs"


def flipped(rows, dice):
    """The rows with signs and sides changed here and there, neither of which changes the root."""
    out = []
    for x, y, label in rows:
        x, y = x ^ (dice.bits(1) << 31), y ^ (dice.bits(1) << 31)
        out.append((y, x, label) if dice.bits(2) == 0 else (x, y, label))
    return out


def right_triangles():
    """Pairs with a whole root, at several exponents."""
    legs = [(3, 4), (5, 12), (8, 15), (7, 24), (20, 21), (12, 35), (9, 40), (28, 45), (4059, 4060), (4194303, 4096)]
    assert all(isqrt(a * a + b * b) ** 2 == a * a + b * b for a, b in legs)
    powers = (0, 1, 22, 24, 120, 130, 200, 240, 241)
    return [(scaled(a, 149), scaled(b, 149)) for a, b in legs] + [
        (scaled(a, e), scaled(b, e)) for (a, b), e in zip(legs, powers)
    ]


def sides(root):
    """The right triangles of whole numbers with this longest side, an odd number: the odd side, of at most
    24 digits, and the even one."""
    found = []
    divisors = [d for d in range(1, isqrt(root) + 1) if root % d == 0]
    for times in divisors + [root // d for d in divisors]:
        for m in range(1, isqrt(root // times) + 1):
            n = isqrt(root // times - m * m)
            if 0 < n < m and times * (m * m + n * n) == root and times * (m * m - n * n) < 2**24:
                found.append((times * (m * m - n * n), times * 2 * m * n))
    return sorted(found)


def ties(dice):
    """Pairs whose root is an odd number of 25 digits, so that it is halfway between two f32s."""
    found = sides(2**24 + 1)[:2]
    while len(found) < 16:
        # A root of 4 * k + 1 is rounded down and one of 4 * k + 3 up, and the second kind is a multiple.
        times = 3 + 4 * dice.between(0, 4) if len(found) % 2 == 1 else 1
        m, n = dice.between(1, 5792), dice.between(1, 4096)
        odd, even, root = times * abs(m * m - n * n), times * 2 * m * n, times * (m * m + n * n)
        if root % 2 == 1 and 2**24 < root < 2**25 and odd < 2**24:
            found.append((odd, even))
    powers = (0, 1, 102, 125, 126, 127, 128, 240, 0, 2, 103, 124, 126, 128, 129, 241)
    return [(scaled(a, e), scaled(b, e)) for (a, b), e in zip(found, powers)]


def beside(pairs):
    """The pairs with one side larger or smaller by one pattern."""
    changes = [(1, 0), (-1, 0), (0, 1), (0, -1)]
    return [(x + changes[k % 4][0], y + changes[k % 4][1]) for k, (x, y) in enumerate(pairs)]


def near_ties(dice, gap, tries):
    """Of many pairs whose exponents differ by gap, the one whose root is least below a halfway point, and the
    one whose root is least above. Each is rounded otherwise than a tie at that point, so that an error as
    small as its distance shows."""
    best = {}
    for _ in range(tries):
        x, y = dice.significand() << gap, dice.significand()
        twice = isqrt(4 * (x * x + y * y))
        step = twice.bit_length() - 25  # twice the root counts halves, and an f32 has 24 digits
        odd = (twice >> step) | 1
        square = (odd << step) ** 2  # of the halfway point, in quarters
        y = isqrt(square // 4 - x * x)
        for side in (y, y + 1):
            over = 4 * (x * x + side * side) - square
            far = Fraction(abs(over), square)
            tie_goes_up = odd // 2 % 2 == 1
            if HIDDEN <= side < 2 * HIDDEN and over != 0 and tie_goes_up == (over < 0):
                best[over > 0] = min(best.get(over > 0, (far, x, side)), (far, x, side))
    out = []
    for above in (False, True):
        _, x, y = best[above]
        field = dice.between(gap + 1, 253)
        out.append((pattern(field, x >> gap), pattern(field - gap, y)))
    return out


def all_near_ties(dice):
    """Pairs near a tie, at several differences of the exponents."""
    out = []
    for gap in (0, 1, 3, 6, 8, 9, 10, 11, 12):
        out += near_ties(dice, gap, 2000)
    return out


def turning(x):
    """x with the last pattern beside which it stays, and with the first beside which it is rounded up."""
    low, high = 0, x
    while low < high:
        middle = (low + high) // 2
        if expect_hypot(x, middle) == x:
            low = middle + 1
        else:
            high = middle
    return [(x, low - 1), (x, low)]


def carries():
    """Roots that are rounded up to a power of two, and so to a larger exponent, and those that just are not."""
    out = [(scaled(a, e), scaled(b, e)) for (a, b), e in zip(sides(2**25 - 1), (0, 126))]
    for x in (0x007F_FFFF, 0x00FF_FFFF, 0x3DFF_FFFF, 0x3FFF_FFFF, 0x40FF_FFFF, 0x7EFF_FFFF):
        out += turning(x)
    half = of_decimal("0.70710678")
    return out + [(half - 1, half), (half, half), (half, half + 1)]


def overflows():
    """Roots at and beside the point halfway between the largest number and 2 ** 128, and beyond."""
    odd, even = sides(2**25 - 1)[0]
    x, y = scaled(odd, 252), scaled(even, 252)
    half, big = of_decimal("2.4061597e38"), of_decimal("1.7014118e38")
    out = [(x, y), (x, y - 1), (x + 1, y)] + turning(MAX)
    out += [(half + d, half + k) for d, k in ((-1, -1), (-1, 0), (0, 0), (0, 1), (1, 1))]
    return out + [(MAX, MAX), (big, big), (MAX, big), (MAX, NORMAL), (MAX, 1)]


def subnormals(dice):
    """Small roots, roots at the smallest normal number, and subnormal numbers beside normal ones."""
    out = [(1, 1), (1, 2), (2, 2), (2, 3), (3, 3), (5, 5), (1, NORMAL - 1), (1, NORMAL)]
    out += [(0x005A_8279, 0x005A_8279 + d) for d in (0, 1, 2)]
    out += [(0x0060_0000, dice.between(0x0050_0000, 0x0058_0000)) for _ in range(3)]
    out += [(dice.bits(23), dice.bits(23)) for _ in range(6)]
    return out + [(NORMAL + dice.bits(25), dice.bits(23)) for _ in range(4)]


def far_apart(dice, gap):
    """Exponents that differ by gap, at both ends of the significands."""
    out = []
    for a in (HIDDEN, 2 * HIDDEN - 1, dice.significand()):
        for b in (HIDDEN, 2 * HIDDEN - 1):
            field = dice.between(gap + 1, 254)
            out.append((pattern(field, a), pattern(field - gap, b)))
    return out


def field_distances(dice):
    """Differences of places on a field, in metres: some chosen, then sixteenths, thousandths, and any."""
    out = decimals(("6.5", "0.5"), ("7.25", "1"), ("14", "9"), ("1.5", "1.5"), ("64", "64"), ("0.25", "0.01"))
    for steps in (16, 1000, 2**60):
        for _ in range(10):
            x, y = dice.between(0, 14 * steps), dice.between(0, 9 * steps)
            out.append((nearest(Fraction(x, steps) * 2**149), nearest(Fraction(y, steps) * 2**149)))
    return out


def rows_hypot(dice):
    """Each kind above, then random ones."""
    special = crossed([0, SIGN, ONE + SIGN, INF, INF + SIGN, NAN], [0, SIGN, ONE, INF + SIGN, NAN, NAN + SIGN])
    special += [(INF + 1, ONE), (INF + 1 + SIGN, INF + SIGN), (INF, 0xFFFF_FFFF), (1, NAN)]
    special += [(0, 1), (MAX + SIGN, SIGN), (SIGN, NORMAL + SIGN)]
    exact = ties(dice)
    out = labelled("whole root", right_triangles()) + labelled("tie", exact)
    out += labelled("beside a tie", beside(exact[:8])) + labelled("near a tie", all_near_ties(dice))
    out += labelled(GLIBC, GLIBC_DIFFERS) + labelled("carries or just not", carries())
    out += labelled("overflow or just not", overflows()) + labelled("subnormal", subnormals(dice))
    for gap in range(11, 16):
        out += labelled(f"exponents {gap} apart", far_apart(dice, gap))
    out = labelled("special", special) + flipped(out + labelled("field", field_distances(dice)), dice)
    out += labelled("random", [(dice.finite(), dice.finite()) for _ in range(12)])
    for _ in range(20):
        field = dice.between(6, 249)
        x, y = pattern(field, dice.significand()), pattern(field + dice.between(-5, 5), dice.significand())
        out.append((x, y + SIGN, "random, exponents alike"))
    return out


# ---- the numbers that src/decimals.rt has in decimal ----

NUMBERS = [p + s for p in (0, ONE, 1, NORMAL - 1, NORMAL, MAX, ONE + 1, ONE - 1, HALF_TURN, TURN) for s in (0, SIGN)]
NUMBERS += [of_decimal(t) for t in ("0.1", "-0.3", "0.5", "1.5", "2", "-2.5", "14", "-6.75", "0.0625", "65535")]
NUMBERS += [of_decimal(t) for t in ("16777216", "-16777215", "1e10", "-1e-10")]


def in_decimal(p):
    """The number of a pattern with nine digits, which are enough to tell it from every other f32."""
    size = decimal.Context(prec=9).plus(as_decimal(magnitude(p))).normalize()
    power = size.adjusted()
    if -5 < power < 9:
        text = f"{size:f}" if "." in f"{size:f}" else f"{size:f}.0"
    else:
        first, *others = map(str, size.as_tuple().digits)
        text = f"{first}.{''.join(others) or '0'}e{power}"
    text = "-" + text if negative(p) else text
    assert of_decimal(text) == p, text
    return text


# ---- the functions of `floats` ----

# for each: its number in a vector, what is expected, and the operands
LEAVES = {
    "is_nan": (1, expect_is_nan, rows_of_one),
    "bits": (2, expect_bits, rows_bits),
    "from_bits": (3, expect_from_bits, rows_of_one),
    "abs": (4, expect_abs, rows_of_one),
    "copysign": (5, expect_copysign, rows_copysign),
    "min": (6, expect_min, rows_by_order),
    "max": (7, expect_max, rows_by_order),
    "clamp": (8, expect_clamp, rows_clamp),
    "total_cmp": (9, expect_total_cmp, rows_by_order),
    "rem_euclid": (10, expect_rem_euclid, rows_rem_euclid),
    "hypot": (11, expect_hypot, rows_hypot),
    "from_count": (12, expect_from_count, rows_from_count),
}


def all_rows():
    """The rows of each leaf, none twice. Each leaf has a seed of its own, so a change of one leaves the others."""
    out = {}
    for seed, (leaf, (_, _, rows)) in enumerate(LEAVES.items()):
        first = {}
        for row in rows(Dice(seed)):
            first.setdefault(row[:-1], row)
        out[leaf] = list(first.values())
    return out


# ---- document 01's cases: 'Candidates, then the leaves', 'Both sides of a line' and the table of refusals ----

FILL = of_decimal("7")  # what each place of the list holds before a call
PLACES = 16  # how many places the list has
FILLED, REFUSAL, FILLED_AT, ANSWERED, ANSWERED_AT, LEFT_AT = 13, 14, 15, 16, 17, 18  # the functions' numbers


def floats(text):
    """The patterns of decimal numbers."""
    return [NAN if word == "nan" else of_decimal(word) for word in text.split()]


# start, min, max and step; how many places are lent; the refusal, 0 for none; the candidates; why
LISTS = [
    ("-5 -6.75 -0.25 2", 16, 0, "-5 -3 -1", "step 2"),
    ("-5 -6.75 -0.25 2", 3, 0, "-5 -3 -1", "3 lent"),
    ("-5 -6.75 -0.25 2", 2, 6, "", "6, 2 lent"),
    ("-5 -6.75 -0.25 1", 16, 0, "-5 -6 -4 -3 -2 -1", "step 1"),
    # bounds of which one is a NaN, or which are crossed, come before refusal 5
    ("0 1 -1 1", 16, 0, "0", "min above max"),
    ("0 nan 1 1", 16, 0, "nan", "min NaN"),
    ("nan 1 nan 0.01", 16, 0, "nan", "max NaN"),
    # a step of 0 gives the clamped start, and the least other step is 1/64
    ("-8 -6.75 -0.25 0", 16, 0, "-6.75", "step 0"),
    ("0 0 0.015625 0.015625", 16, 0, "0 0.015625", "step 1/64"),
    # refusal 5, and 5 before 6
    ("-5 -6.75 -0.25 0.01", 0, 5, "", "5, step 0.01, nothing lent"),
    ("-5 -6.75 -0.25 nan", 16, 5, "", "5, step NaN"),
    ("nan -6.75 -0.25 2", 16, 5, "", "5, start NaN"),
    ("-5 -65 -0.25 2", 16, 5, "", "5, min -65"),
]


def document_01():
    """The vectors of document 01, each with its label."""
    out = []
    for query, lent, refusal, candidates, why in LISTS:
        asked, want = floats(query), floats(candidates)
        places = want + [FILL] * (PLACES - len(want))
        rows = [(FILLED, *asked, lent, 0, len(want)), (REFUSAL, *asked, lent, 0, refusal)]
        rows += [(FILLED_AT, *asked, lent, k, p) for k, p in enumerate(places)]
        out += labelled(f"candidates, {why}", rows)
    # the part that the entry answers, and the list after it, whose rest is kept; on a refusal all of it
    for query, candidates in (("-5 -6.75 -0.25 2", "-5 -3 -1"), ("-5 -6.75 -0.25 nan", "")):
        asked, want = floats(query), floats(candidates)
        rows = [(ANSWERED, *asked, PLACES, 0, len(want))]
        rows += [(ANSWERED_AT, *asked, PLACES, k, p) for k, p in enumerate(want)]
        rows += [(LEFT_AT, *asked, PLACES, k, p) for k, p in enumerate(want + [FILL] * (PLACES - len(want)))]
        out += labelled("candidates, the part", rows)
    # 8,200 places always do
    out.append((REFUSAL, *floats("0 -64 64 0.015625"), 8200, 0, 0, "candidates, 8200 lent"))
    hypot = LEAVES["hypot"][0]
    out.append((hypot, *floats("3 4"), 0, 0, 0, 0, of_decimal("5"), "hypot of 3 and 4"))
    out.append((hypot, 0, SIGN, 0, 0, 0, 0, 0, "hypot of 0 and -0"))
    return out


# ---- published vectors of hypot ----

# From CPython's test data, which is for binary64: Python 3.11.2, in Debian's libpython3.11-testsuite; copyright
# 2001-2023 Python Software Foundation, PSF licence version 2. A line here is a name, two operands and the result.
# - cmath_testcases.txt: each line of `polar`, with its first result, the modulus. By the file's comment that is cabs of
#   C99's Annex G, which is hypot. The second result, the argument, is left out. The file has no lines of `abs`.
# - testHypot in test_math.py: the calls with two finite operands whose result is written as a number, each once. Those
#   with an infinity or a NaN say the same as lines of `polar`.
CPYTHON = """
polar0100 1.4e308 1.4e308 inf
polar1000 0.0 0.0 0.0
polar1001 0.0 -0.0 0.0
polar1002 -0.0 0.0 0.0
polar1003 -0.0 -0.0 0.0
polar1004 inf 0.0 inf
polar1005 inf 2.3 inf
polar1006 inf inf inf
polar1007 2.3 inf inf
polar1008 0.0 inf inf
polar1009 -0.0 inf inf
polar1010 -2.3 inf inf
polar1011 -inf inf inf
polar1012 -inf 2.3 inf
polar1013 -inf 0.0 inf
polar1014 -inf -0.0 inf
polar1015 -inf -2.3 inf
polar1016 -inf -inf inf
polar1017 -2.3 -inf inf
polar1018 -0.0 -inf inf
polar1019 0.0 -inf inf
polar1020 2.3 -inf inf
polar1021 inf -inf inf
polar1022 inf -2.3 inf
polar1023 inf -0.0 inf
polar1024 nan -inf inf
polar1025 nan -2.3 nan
polar1026 nan -0.0 nan
polar1027 nan 0.0 nan
polar1028 nan 2.3 nan
polar1029 nan inf inf
polar1030 nan nan nan
polar1031 inf nan inf
polar1032 2.3 nan nan
polar1033 0.0 nan nan
polar1034 -0.0 nan nan
polar1035 -2.3 nan nan
polar1036 -inf nan inf
testHypot 12.0 5.0 13.0
testHypot 0.375 0.15625 0.40625
"""
SPECIAL_WORDS = {"inf": INF, "-inf": INF + SIGN, "nan": NAN}


def is_f32(word):
    """Whether a published number is an f32 as it stands."""
    return word in SPECIAL_WORDS or Fraction(whole(of_decimal(word)), 2**149) == Fraction(word)


def carries_over(x, y, root):
    """Whether a vector for binary64 holds for binary32 too: all its numbers are f32s; or an operand is an infinity
    or a NaN, beside which the digits of a finite operand do not count, and that operand is finite after rounding too.
    polar0100 does not carry over: its operands are no f32s, and the f32 nearest to them is an infinity."""
    if any(word in SPECIAL_WORDS for word in (x, y)):
        return root in SPECIAL_WORDS and all(w in SPECIAL_WORDS or magnitude(of_decimal(w)) < INF for w in (x, y))
    return all(is_f32(word) for word in (x, y, root))


def carried():
    """CPython's vectors that carry over: the name, the operands and the root as patterns."""
    out = []
    for name, *words in map(str.split, CPYTHON.strip().splitlines()):
        if carries_over(*words):
            out.append((name, *(SPECIAL_WORDS[w] if w in SPECIAL_WORDS else of_decimal(w) for w in words)))
    return out


# ---- the files ----

CRATE = pathlib.Path(__file__).resolve().parents[2] / "crates" / "leaf_vectors"
WIDTH = 8  # the numbers of a vector: its function's, six operands and what is expected


def vectors(rows_of):
    """All vectors, each with its label: the computed ones, then document 01's, then CPython's."""
    out = []
    for leaf, (number, expect, _) in LEAVES.items():
        for *operands, label in rows_of[leaf]:
            unused = [0] * (WIDTH - 2 - len(operands))
            out.append((number, *operands, *unused, expect(*operands), f"{leaf}, {label}"))
    out += document_01()
    hypot = LEAVES["hypot"][0]
    out += [(hypot, x, y, 0, 0, 0, 0, root, f"hypot, CPython's {name}") for name, x, y, root in carried()]
    assert all(len(vector) == WIDTH + 1 for vector in out)
    return out


def decimals_source():
    """The text of src/decimals.rt."""
    lines = ["// Numbers with the digits that tell them from every other f32: the operands of `bits`."]
    lines += ["// Made by tools/leaf-vectors/make.py. Change that script and not this file."]
    lines += [f"pub const NUMBERS: [f32; {len(NUMBERS)}] = ["]
    return "\n".join(lines + [f"    {in_decimal(p)}," for p in NUMBERS] + ["];", ""])


def compare_with_libm(rows):
    """Says at how many vectors of hypot the C library's hypotf differs."""
    try:
        hypotf = ctypes.CDLL("libm.so.6").hypotf
    except (OSError, AttributeError):
        return "hypotf of the C library could not be called"
    hypotf.restype, hypotf.argtypes = ctypes.c_float, [ctypes.c_float, ctypes.c_float]
    labels = []
    for x, y, label in rows:
        operands = struct.unpack("<2f", struct.pack("<2I", x, y))
        got = struct.unpack("<I", struct.pack("<f", hypotf(*operands)))[0]
        if max(magnitude(x), magnitude(y)) < INF and got != expect_hypot(x, y):
            labels.append(label)
    marked = labels.count(GLIBC)
    return f"hypotf of the C library at hand differs at {len(labels)} vectors of hypot, {marked} of them marked"


def main():
    """Writes the files, compares them, or prints the vectors."""
    rows_of = all_rows()
    cross_check(rows_of)
    made = vectors(rows_of)
    if sys.argv[1:] == ["--list"]:
        for line, (*numbers, label) in enumerate(made, 1):
            print(f"{line}: {' '.join(f'{number:#x}' for number in numbers)}: {label}")
        return 0
    texts = {
        "stdin": "".join(" ".join(map(str, vector[:WIDTH])) + "\n" for vector in made),
        "stdout": f"{len(made)} of {len(made)} agree\n",
        "src/decimals.rt": decimals_source(),
    }
    wrong = 0
    for name, text in texts.items():
        file = CRATE / name
        if sys.argv[1:] != ["--check"]:
            file.write_text(text)
        elif not file.is_file() or file.read_text() != text:
            print("not as made:", name)
            wrong = 1
    print(", ".join(f"{leaf} {len(rows)}" for leaf, rows in rows_of.items()))
    print(f"document 01's {len(document_01())}, CPython's {len(carried())} of {len(CPYTHON.split()) // 4}")
    print(compare_with_libm(rows_of["hypot"]))
    return wrong


if __name__ == "__main__":
    sys.exit(main())
