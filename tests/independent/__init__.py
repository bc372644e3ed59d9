"""The independent computation: document 01 once more, in exact whole numbers and fractions.

It shares nothing with the product and takes no shortcut. Where the two
disagree, one of them misread a sentence.
"""

from dataclasses import dataclass


@dataclass(frozen=True)
class Refused:
    """ "A refusal answers its number alone and changes nothing." """

    number: int
