"""Document 02, [9]: draw and rotation with a threshold and the take-all lists of previous draws, by either key.

The group is the enlarged one (frame.enlarged); all else is a draw and a rotation with births as before, with 30 directly after 6.
"""

from . import Refused
from .frame import (
    CIRCLE,
    LAST_STEP,
    MOST_PANEL,
    MOST_TURNOVER,
    MOST_UNITS,
    STEP,
    WHOLE_FRACTION,
    Drawn,
    Rotated,
    base_weight,
    by_falling_key,
    enlarged,
    frame_refusal,
    pareto_key,
    previous_refusal,
    required_leavers,
    rising,
    sampled,
    shifted,
)


def draw(numbers, turnovers, randoms, z, start, threshold, first, second, out_numbers, out_weights, key=pareto_key):
    """Answer, and both buffers as they are afterwards."""
    refusal = frame_refusal(numbers, turnovers, randoms, z, start)
    if refusal is None and (len(out_numbers) < z or len(out_weights) < z):
        refusal = 6
    if refusal is None:
        refusal = previous_refusal(threshold, first, second)
    if refusal is not None:
        return Refused(refusal), list(out_numbers), list(out_weights)
    stratum = enlarged(numbers, turnovers, z, threshold, first, second)
    places = sorted(stratum.group | sampled(numbers, turnovers, randoms, start, stratum, key))
    panel = [numbers[i] for i in places]
    weights = [base_weight(i, turnovers, stratum) for i in places]
    return Drawn(stratum.n, stratum.X), panel + out_numbers[z:], weights + out_weights[z:]


def lists_refusal(numbers, old_panel, f, previous_n, previous_rest, births, keeping, out_leavers):
    """6, 30, 7, 25 or 26, in this order, or None."""
    if len(out_leavers) < len(old_panel) + len(births):
        return 6
    if previous_refusal(*keeping) is not None:
        return 30
    if f > WHOLE_FRACTION or len(old_panel) > MOST_PANEL or not rising(old_panel):
        return 7
    if previous_n > MOST_PANEL or previous_rest > MOST_TURNOVER or (previous_rest == 0 and previous_n != 0):
        return 25
    if len(births) > MOST_UNITS or not rising(births) or not set(births) <= set(numbers):
        return 26
    return None


def rotate(
    numbers,
    turnovers,
    randoms,
    z,
    old_start,
    old_panel,
    f,
    previous_n,
    previous_rest,
    births,
    threshold,
    first,
    second,
    out_leavers,
    key=pareto_key,
):
    """Answer, and the leavers' buffer as it is afterwards. Members and births are those outside the enlarged group."""
    keeping = (threshold, first, second)
    refusal = frame_refusal(numbers, turnovers, randoms, z, old_start)
    if refusal is None:
        refusal = lists_refusal(numbers, old_panel, f, previous_n, previous_rest, births, keeping, out_leavers)
    if refusal is not None:
        return Refused(refusal), list(out_leavers)
    stratum = enlarged(numbers, turnovers, z, *keeping)

    def member(i):
        if i in stratum.group:
            return False
        if numbers[i] in old_panel:
            return True
        joins = shifted(randoms[i], old_start) * previous_rest < CIRCLE * previous_n * turnovers[i]
        return numbers[i] in births and joins

    members = [i for i in range(len(numbers)) if member(i)]
    required = required_leavers(f, len(members))
    for k in range(LAST_STEP + 1):
        start = (old_start + STEP * k) % CIRCLE
        stay = sampled(numbers, turnovers, randoms, start, stratum, key)
        leavers = [i for i in members if i not in stay]
        if len(leavers) >= required:
            phoned = [numbers[i] for i in by_falling_key(turnovers, leavers)]
            return Rotated(k, start, len(leavers)), phoned + out_leavers[len(leavers) :]
    return Refused(8), list(out_leavers)
