"""Document 02, [7]: an opening with a domain share G from the national accounts, and its exact side."""

from fractions import Fraction
from math import floor

from . import Refused
from .chain import HIGHEST_RELATIVE, LEAST_WEIGHT, LOWEST_RELATIVE, MOST_WEIGHT, PLACES, Direct, Record, outside_index_range


def sampled_units(marks):
    """Places of the units that were sampled; any mark but 0 says so."""
    return [place for place, mark in enumerate(marks) if mark != 0]


def wrong_relative(g, a):
    """13: 0 for an absent unit, within the range for a present one."""
    return a != 0 if g == 0 else not LOWEST_RELATIVE <= a <= HIGHEST_RELATIVE


def inner_floor(W, marks, G):
    """ "floor(n x X x G / 10,000)", where n counts the sampled units and X is their W."""
    sampled = sampled_units(marks)
    return floor(Fraction(len(sampled) * W[sampled[0]] * G, 10_000))


def shared_weights(W, g, marks, G):
    """The u of all units, once 9 to 13 and 29 do not apply."""
    sampled = sampled_units(marks)
    u = [floor(Fraction(W[i] * g[i], 10_000)) for i in range(len(W))]
    T = sum(g[i] for i in sampled)
    for i in sampled:
        u[i] = floor(Fraction(inner_floor(W, marks, G) * g[i], T))
    return u


def outside_refusal(W, g, a, start, marks, G):
    """The first of 9, 10, 11, 12, 13, 29, 21 and 22 that applies, or None."""
    if not 1 <= len(W) <= PLACES or {len(g), len(a), len(marks)} != {len(W)}:
        return 9
    if min(W) == 0 or sum(W) > MOST_WEIGHT:
        return 10
    if max(g) > 10_000 or max(g) == 0:
        return 11
    if outside_index_range(start):
        return 12
    if any(map(wrong_relative, g, a)):
        return 13
    sampled = sampled_units(marks)
    if sampled:
        if not 1 <= G <= 10_000 or not any(g[i] for i in sampled) or len({W[i] for i in sampled}) > 1:
            return 29
        if inner_floor(W, marks, G) < LEAST_WEIGHT:
            return 21
    u = shared_weights(W, g, marks, G)
    v = [floor(Fraction(u[i] * a[i], 100_000)) for i in range(len(W))]
    if any(g[i] and min(u[i], v[i]) < LEAST_WEIGHT for i in range(len(W))):
        return 21
    if sum(v) > MOST_WEIGHT:
        return 22
    return None


def open_outside(W, g, a, start, marks, G):
    """A new record, its places beyond the units 0, or a refusal."""
    refusal = outside_refusal(W, g, a, start, marks, G)
    if refusal is not None:
        return Refused(refusal)
    u = shared_weights(W, g, marks, G)
    v = [floor(Fraction(u[i] * a[i], 100_000)) for i in range(len(W))]
    return Record(len(W), v + [0] * (PLACES - len(W)), start, 0, 0)


class OutsideDirect(Direct):
    """e, E and m of an opening with G: a sampled unit's e is n x X x G x g x a / T over the same scale; the bound has m + 2."""

    def __init__(self, W, g, a, start, marks, G):
        super().__init__(W, g, a, start)
        sampled = sampled_units(marks)
        T = sum(g[i] for i in sampled)
        for i in sampled:
            self.e[i] = Fraction(len(sampled) * W[i] * G * g[i] * a[i], T * 1_000_000_000)
        self.E = sum(self.e)
        self.more = 2 if sampled else 1

    def allowed(self):
        return self.m + self.more
