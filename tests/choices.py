#!/usr/bin/env python3
"""What choosers name, straight from their rules and with none of the program's code: every denominator in turn, in exact numbers.

choices.py expect            answers the intervals on standard input, as the program `choices` does
choices.py random SEED N     writes N intervals, most of them good ones
"""
import random
import re
import sys
from fractions import Fraction
from functools import cache

LIMIT = 2**18
LIKELY = Fraction(5, 12)


def is_interval(scale, lower, upper):
    """The rules of an interval; an end is a numerator and a divisor, or None."""
    ends = [end for end in (lower, upper) if end is not None]
    return (
        1 <= scale <= LIMIT
        and ends != []
        and all(abs(n) <= 2**41 and 1 <= d <= 2**20 for n, d in ends)
        and (len(ends) == 1 or Fraction(*lower) <= Fraction(*upper))
    )


def short(fraction):
    return abs(fraction.numerator) <= LIMIT and fraction.denominator <= LIMIT


def inside(low, high, fraction):
    return (low is None or low <= fraction) and (high is None or fraction <= high)


def nearest(low, high, q):
    """Of the whole numbers p with p/q in the interval, the nearest to 0."""
    least = None if low is None else -(-low.numerator * q // low.denominator)
    most = None if high is None else high.numerator * q // high.denominator
    if least is not None and most is not None and least > most:
        return None
    p = 0
    if most is not None:
        p = min(p, most)
    if least is not None:
        p = max(p, least)
    return p


@cache
def simplest(low, high):
    for q in range(1, LIMIT + 1):
        p = nearest(low, high, q)
        if p is not None:
            return Fraction(p, q) if abs(p) <= LIMIT else None
    return None


def edge(below):
    def rule(low, high):
        for end in (low, high):
            if end is not None and short(end):
                return end
        return below(low, high)

    return rule


def dyadic(below):
    def rule(low, high):
        for m in (2**k for k in range(19)):
            n = nearest(low, high, m)
            if n is not None and abs(n) <= LIMIT:
                return Fraction(n, m)
        return below(low, high)

    return rule


def likely(below):
    def rule(low, high):
        return LIKELY if inside(low, high, LIKELY) else below(low, high)

    return rule


PILES = [
    ("simplest", simplest),
    ("edge", edge(simplest)),
    ("dyadic", dyadic(simplest)),
    ("dyadic edge", dyadic(edge(simplest))),
    ("edge dyadic", edge(dyadic(simplest))),
    ("likely", likely(simplest)),
]


def shown(fraction):
    return "nothing" if fraction is None else f"{fraction.numerator}/{fraction.denominator}"


LINE = re.compile(r"(\d+) (-|-?\d+/\d+) (-|-?\d+/\d+)\n")


def parsed(word):
    return None if word == "-" else tuple(int(part) for part in word.split("/"))


def fits(scale, lower, upper):
    """Whether the numbers fit their types: 32 bits, and 64 signed bits for a numerator."""
    ends = [end for end in (lower, upper) if end is not None]
    return scale < 2**32 and all(-(2**63) <= n < 2**63 and d < 2**32 for n, d in ends)


def expect():
    for line in sys.stdin:
        words = LINE.fullmatch(line)
        parts = words and (int(words[1]), parsed(words[2]), parsed(words[3]))
        if not parts or not fits(*parts):
            print("not understood")
            continue
        scale, lower, upper = parts
        if not is_interval(scale, lower, upper):
            print("no interval")
            continue
        low, high = (None if end is None else Fraction(end[0], end[1] * scale) for end in (lower, upper))
        print(", ".join(f"{name} {shown(rule(low, high))}" for name, rule in PILES))


def some_end(rng, scale):
    """An end; most are near numbers that a crew might meet, some anywhere."""
    divisor = rng.choice([1, rng.randint(1, 50), rng.randint(1, 2**20)])
    size = rng.choice([10, 1000, 2**18, 2**19])
    numerator = rng.choice(
        [
            rng.randint(-size, size) * divisor * scale // rng.randint(1, 60),
            rng.randint(-(2**41), 2**41),
            rng.randint(-20, 20),
        ]
    )
    return max(-(2**41), min(2**41, numerator)), divisor


def near(rng, end):
    """An end a little above another."""
    n, d = end
    factor = rng.randint(1, max(1, min(2**20 // d, 2**41 // max(1, abs(n)))))
    return n * factor + rng.choice([0, 1, 2, rng.randint(0, 1000)]), d * factor


def some_interval(rng):
    scale = rng.choice([1, rng.randint(1, 100), rng.randint(1, LIMIT)])
    lower = some_end(rng, scale)
    upper = rng.choice([near(rng, lower), some_end(rng, scale), lower])
    if Fraction(*lower) > Fraction(*upper) and rng.random() < 0.95:
        lower, upper = upper, lower
    return scale, *rng.choice([(lower, upper)] * 6 + [(lower, None), (None, upper)])


def written(end):
    return "-" if end is None else f"{end[0]}/{end[1]}"


def make(seed, count):
    rng = random.Random(seed)
    for _ in range(count):
        scale, lower, upper = some_interval(rng)
        print(scale, written(lower), written(upper))


if __name__ == "__main__":
    if sys.argv[1] == "expect":
        expect()
    else:
        make(int(sys.argv[2]), int(sys.argv[3]))
