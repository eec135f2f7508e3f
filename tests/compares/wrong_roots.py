"""Wrong ideas of the roots, as changes of the model, and the jobs that are to show them."""

from tests.compares.drawn_calls import calls_in
from tests.draws.exact_roots import root_strata
from tests.model import paper, response


def always_one_more(square, s):
    """The upper root always one more than the lower."""
    return response.lower_root(square, s) + 1


def one_place_short(square, s, right=response.lower_root):
    """The last digit left out."""
    return right(square, s) // 10 * 10


def last_digit_too_large(square, s, right=response.lower_root):
    """One more than fits."""
    return right(square, s) + 1


def remainder_dropped(square, s):
    """What is left of the first digit on is forgotten: each digit is that of the whole square."""
    k, place = 0, paper.FIRST
    while place:
        k += place * max(c for c in range(10) if (c * place)**2 <= square * s**2)
        place //= 10
    return k


ERRORS = {
    'the upper root always one more': [(response, 'upper_root', always_one_more)],
    'the last digit left out': [(response, 'lower_root', one_place_short)],
    'the last digit one too large': [(response, 'lower_root', last_digit_too_large)],
    'what is left is dropped': [(response, 'lower_root', remainder_dropped)],
}


def drawn(rng, count):
    """Jobs where nothing is left beside a root and beside such ones, sites, the Basin and two pairs by turns."""
    return calls_in(rng, count, root_strata)
