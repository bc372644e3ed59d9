"""Document 02, [11]: one chain through many panels. A renewal, and the exact side of a list of quarters, closes and renewals."""

from dataclasses import dataclass, replace
from fractions import Fraction

from . import Refused
from .chain import Direct, breaks_a_limit, open_chain
from .outside import OutsideDirect, open_outside


@dataclass(frozen=True)
class Renewed:
    """A renewal was accepted; its record is handed back beside it."""


def opened(start, opening):
    """The opening without or with an outside share: W, g, a, and perhaps marks and G."""
    return open_outside(start=start, **opening) if "G" in opening else open_chain(start=start, **opening)


def renew(record, **opening):
    """ "takes its C as the start index and its link count onward; its closes begin at 0"; or the record as it came and a refusal.

    19 of the record comes before all else, then the opening's; 24 never.
    """
    if breaks_a_limit(record):
        return record, Refused(19)
    new = opened(record.index, opening)
    if isinstance(new, Refused):
        return record, new
    return replace(new, closes=0, links=record.links), Renewed()


class Course:
    """ "the first start index times the product of the panels' means (each panel's direct index without its start index)" """

    def __init__(self, start, **opening):
        self.product = Fraction(start)
        self.accepted = 0
        self.left = 0
        self.enter(opening)

    def enter(self, opening):
        """A panel, whose direct index has a start index of 1."""
        self.panel = OutsideDirect(start=1, **opening) if "G" in opening else Direct(start=1, **opening)
        self.extra = self.panel.allowed() - self.panel.m
        self.closes = 0

    @property
    def m(self):
        """ "the number of accepted closes of all panels before this call, plus one" """
        return self.accepted + 1

    def D(self, p):
        return self.product * self.panel.D(p)

    def closed(self, p):
        self.panel.closed(p)
        self.closes += 1
        self.accepted += 1

    def renewed(self, opening):
        """ "Of a panel that was left, only its accepted closes enter the product." """
        self.product *= sum(self.panel.e) / self.panel.E
        if self.closes > 0:
            self.left += self.extra
        self.enter(opening)

    def allowed(self):
        """ "m plus one (two with an outside share) for each panel that has an accepted close or gives the figure" """
        return self.m + self.left + self.extra
