"""Between which numbers a term of a condition lies, whatever the values are: so that a condition is refused that no
value can change, also where its values are too many to try each."""
import ast
import math
import operator
from collections.abc import Callable, Sequence
from typing import NamedTuple

Number = int | float


class Range(NamedTuple):
    """The lowest and the highest number that a term may be, and whether it may be none, as what is divided by 0, or
    C's NaN."""

    low: Number
    high: Number
    may_be_none: bool = False

    def joined(self, other: "Range") -> "Range":
        none = self.may_be_none or other.may_be_none
        return Range(min(self.low, other.low), max(self.high, other.high), none)

    def mapped(self, work: Callable[[Number], Number]) -> "Range":
        """What a work that never falls makes of it."""
        return Range(work(self.low), work(self.high), self.may_be_none)

    def is_known(self) -> bool:
        return math.isfinite(self.low) and math.isfinite(self.high)

    def is_true(self) -> bool:
        """Whether it certainly counts as true."""
        return not self.may_be_none and (self.low > 0 or self.high < 0)

    def is_false(self) -> bool:
        return self.low == self.high == 0


ANY = Range(-math.inf, math.inf, True)
WHOLE = Range(-math.inf, math.inf)  # a number, and nobody knows which
TRUE, FALSE, EITHER = Range(1, 1), Range(0, 0), Range(0, 1)


def truth(is_true: bool, is_false: bool) -> Range:
    return TRUE if is_true else FALSE if is_false else EITHER


def conjunction(terms: Sequence[Range]) -> Range:
    return truth(all(it.is_true() for it in terms), any(it.is_false() for it in terms))


def disjunction(terms: Sequence[Range]) -> Range:
    return truth(any(it.is_true() for it in terms), all(it.is_false() for it in terms))


def negation(term: Range) -> Range:
    return truth(term.is_false(), term.is_true())


def comparison(kind: type[ast.cmpop], one: Range, other: Range, same: bool) -> Range:
    """What comes of a comparison; `same` where both sides are one term. What is not a number fulfils none, and NaN `!=`
    alone."""
    none = one.may_be_none or other.may_be_none
    if same:
        is_less = kind in (ast.Lt, ast.Gt)
        return truth(not none and not is_less and kind is not ast.NotEq, is_less or kind is ast.NotEq and not none)
    if kind in (ast.Gt, ast.GtE):
        one, other = other, one
    if kind in (ast.Lt, ast.Gt):
        is_true, is_false = one.high < other.low, one.low >= other.high
    elif kind in (ast.LtE, ast.GtE):
        is_true, is_false = one.high <= other.low, one.low > other.high
    else:
        is_apart = one.high < other.low or other.high < one.low
        is_one = one.low == one.high == other.low == other.high
        is_true, is_false = (is_one, is_apart) if kind is ast.Eq else (is_apart, is_one)
    return truth(is_true and not none, is_false and not (none and kind is ast.NotEq))


def minus(term: Range) -> Range:
    return Range(-term.high, -term.low, term.may_be_none)


def inverted(term: Range) -> Range:
    return Range(-1 - term.high, -1 - term.low, term.may_be_none)


def of_corners(work: Callable[[Number, Number], Number]) -> Callable[[Range, Range], Range]:
    """A sum, a difference or a product lies between those of the ends."""

    def found(a: Range, b: Range) -> Range:
        none = a.may_be_none or b.may_be_none
        if not (a.is_known() and b.is_known()):
            return Range(-math.inf, math.inf, none)
        corners = [work(x, y) for x in (a.low, a.high) for y in (b.low, b.high)]
        return Range(min(corners), max(corners), none)

    return found


def quotient(a: Range, b: Range) -> Range:
    if not a.is_known() or not isinstance(b.low, int) or b.low != b.high or b.low <= 0:
        return ANY
    if not (isinstance(a.low, int) and isinstance(a.high, int)):
        return ANY
    ends = [abs(x) // b.low * (-1 if x < 0 else 1) for x in (a.low, a.high)]
    return Range(min(ends), max(ends), a.may_be_none or b.may_be_none)


def remainder(a: Range, b: Range) -> Range:
    if not a.is_known() or not isinstance(b.low, int) or b.low != b.high or b.low <= 0:
        return ANY
    most = b.low - 1
    return Range(max(a.low, -most) if a.low < 0 else 0, min(a.high, most) if a.high > 0 else 0, a.may_be_none)


def bits_of_both(a: Range, b: Range) -> Range:
    """`&`: it has no bit that one of them, where that is not below 0, has not."""
    highs = [it.high for it in (a, b) if it.low >= 0]
    return Range(0, min(highs), a.may_be_none or b.may_be_none) if highs else joined_bits(a, b)


def joined_bits(a: Range, b: Range) -> Range:
    """`|` and `^` of what is not below 0: no higher bit than the highest of both."""
    none = a.may_be_none or b.may_be_none
    if a.low < 0 or b.low < 0 or not (a.is_known() and b.is_known()):
        return Range(-math.inf, math.inf, none)
    return Range(0, (1 << int(max(a.high, b.high)).bit_length()) - 1, none)


def common_bits(a: Range, b: Range) -> Range:
    """`|`: of what is not below 0 it is no less than each of both."""
    found = joined_bits(a, b)
    return found._replace(low=max(a.low, b.low)) if found.is_known() else found


MOST_SHIFTED = 63  # bits


def shifted(work: Callable[[int, int], int]) -> Callable[[Range, Range], Range]:
    """`<<` and `>>` of whole numbers lie between what comes of the ends."""
    corners = of_corners(lambda x, y: work(int(x), int(y)))

    def found(a: Range, b: Range) -> Range:
        if not a.is_known() or not 0 <= b.low <= b.high <= MOST_SHIFTED:
            return Range(-math.inf, math.inf, a.may_be_none or b.may_be_none)
        return corners(a, b)

    return found


OPERATIONS: dict[type[ast.operator], Callable[[Range, Range], Range]] = {
    ast.Add: of_corners(lambda x, y: x + y),
    ast.Sub: of_corners(lambda x, y: x - y),
    ast.Mult: of_corners(lambda x, y: x * y),
    ast.Div: quotient,
    ast.Mod: remainder,
    ast.BitAnd: bits_of_both,
    ast.BitOr: common_bits,
    ast.BitXor: joined_bits,
    ast.LShift: shifted(operator.lshift),
    ast.RShift: shifted(operator.rshift),
}


def of_numbers(numbers: Sequence[Number]) -> Range:
    """Of a quantity, by the numbers of its bytes at their ends."""
    if all(isinstance(it, int) for it in numbers):
        return Range(min(numbers), max(numbers))
    return ANY  # a float may be no number
