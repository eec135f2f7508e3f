"""A root on paper, as Wish 5 of 02 has it: "Build the root digit by digit, keeping the remainder."

Of a square n/d in the unit 1/s: the digits are found from the first place on, and what is left beside them is s^2*n - d*k^2, k being the digits
found so far with zeros behind them.
"""

from typing import NamedTuple

FIRST = 10**7


class Line(NamedTuple):
    """A place, its digit, the digits down to it with zeros behind them, what is left beside them."""

    place: int
    digit: int
    found: int
    left: int


def lines(n, d, s):
    """Every line: at each place the largest digit with d*k^2 not above s^2*n."""
    k, place = 0, FIRST
    while place:
        digit = max(c for c in range(10) if d * (k + c * place)**2 <= s**2 * n)
        k += digit * place
        yield Line(place, digit, k, s**2 * n - d * k**2)
        place //= 10


def roots(n, d, s):
    """The lower root, which is all the digits, and the upper: the lower one, or one more where something is left."""
    last = list(lines(n, d, s))[-1]
    return last.found, last.found + (last.left > 0)
