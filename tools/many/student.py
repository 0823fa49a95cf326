"""Means with their intervals: what a mean of so many values may be off by, by Student's t distribution.

Python's own library has no quantile of this distribution, so it is found here from the incomplete beta function. tools/check
holds some quantiles against the tables of textbooks.
"""
from __future__ import annotations

import functools
import math
import statistics
import typing


class Spread(typing.NamedTuple):
    """What a column of values comes to. With one value there is no deviation, and no half width."""

    count: int
    mean: float
    deviation: float | None
    least: float
    greatest: float
    half: float | None


def beta_fraction(a, b, x):
    """The continued fraction of the incomplete beta function, by the method of Lentz."""
    tiny, near = 1e-300, 1e-15
    sum_of, above, below = a + b, a + 1, a - 1
    upper = 1.0
    lower = 1 - sum_of * x / above
    lower = 1 / (lower if abs(lower) > tiny else tiny)
    value = lower
    for step in range(1, 100_000):
        for part in (
            step * (b - step) * x / ((below + 2 * step) * (a + 2 * step)),
            -(a + step) * (sum_of + step) * x / ((a + 2 * step) * (above + 2 * step)),
        ):
            lower = 1 + part * lower
            lower = 1 / (lower if abs(lower) > tiny else tiny)
            upper = 1 + part / upper
            upper = upper if abs(upper) > tiny else tiny
            value *= upper * lower
        if abs(upper * lower - 1) < near:
            return value
    raise ArithmeticError(f"the incomplete beta function of {a}, {b} and {x} isn't found")


def incomplete_beta(a, b, x):
    """The regularised incomplete beta function: the chance that a value of the beta distribution of a and b is below x."""
    if x <= 0 or x >= 1:
        return float(x >= 1)
    front = math.exp(math.lgamma(a + b) - math.lgamma(a) - math.lgamma(b) + a * math.log(x) + b * math.log1p(-x))
    if x < (a + 1) / (a + b + 2):
        return front * beta_fraction(a, b, x) / a
    return 1 - front * beta_fraction(b, a, 1 - x) / b


def chance_within(t, degrees):
    """The chance that a value of Student's t with so many degrees of freedom lies between -t and t."""
    square = t * t
    if square > degrees:
        return 1 - incomplete_beta(degrees / 2, 0.5, degrees / (degrees + square))
    return incomplete_beta(0.5, degrees / 2, square / (degrees + square))


@functools.cache
def quantile(degrees, chance=0.95):
    """The t between which and -t a value lies with this chance."""
    low, high = 0.0, 1.0
    while chance_within(high, degrees) < chance:
        low, high = high, 2 * high
    for _ in range(200):
        middle = (low + high) / 2
        if middle in (low, high):
            break
        if chance_within(middle, degrees) < chance:
            low = middle
        else:
            high = middle
    return (low + high) / 2


def spread_of(values):
    """What at least one value comes to."""
    count = len(values)
    mean = math.fsum(values) / count
    if count == 1:
        return Spread(1, mean, None, values[0], values[0], None)
    deviation = statistics.stdev(values)
    half = quantile(count - 1) * deviation / math.sqrt(count)
    return Spread(count, mean, deviation, min(values), max(values), half)
