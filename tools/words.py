"""The refusals in words.

docs/REFUSALS.md, README.md, the code's enum and include/vougecress.h have the same (tests/test_refusals.py).
"""

# number -> the name of the enum's variant, and document 01's words
REFUSALS = {
    1: ("FrameLists", "frame lists unequal, empty or over 16,384"),
    2: ("UnitNumbers", "unit numbers not rising"),
    3: ("Turnovers", "a turnover 0, or total over 10^12"),
    4: ("RandomNumbers", "random number or start over 999,999"),
    5: ("PanelSize", "z is 0, over 100 or over the units"),
    6: ("ResultBuffer", "a result buffer shorter than z, or for leavers than the old panel and the births together"),
    7: ("OldPanel", "f over 1,000, or old panel over 100 or not rising"),
    8: ("NoStep", "no step rotates enough"),
    9: ("UnitLists", "unit lists empty, over 100, or unequal to each other or to the record"),
    10: ("BaseWeights", "a W of 0, or their sum over 10^13"),
    11: ("Shares", "a share over 10,000, or all 0"),
    12: ("StartIndex", "start index outside 10^8 to 10^10"),
    13: ("Relatives", "a relative out of range, 0 for a present unit, or not 0 for an absent one"),
    14: ("Sectors", "sector lists unequal, empty, over 64, not adding to 1,000,000, or an index outside 12's range"),
    15: ("StreamLength", "stream over 32,768 bytes"),
    16: ("UnknownCommand", "command not 1 to 7"),
    17: ("CutShort", "command cut short"),
    18: ("Place", "place not below panel size"),
    19: ("State", "open without a panel, quarter or close without a chain; a record that breaks a limit"),
    20: ("FrameFull", "a unit when 1,024 are held"),
    21: ("LowWeight", "a present u or v below 1,000,000, at open or after close"),
    22: ("WeightSum", "sum of v over 10^13, at open or after close"),
    23: ("FigureRange", "F outside 10^8 to 10^10"),
    24: ("ClosesSpent", "forty closes accepted (quarter too)"),
    25: ("PreviousSample", "n' is over 100, X' is over 10^12, or X' is 0 while n' is not"),
    26: ("Births", "births exceed 16,384, are not rising or are not all in the frame"),
    27: ("Writing", "lists given are unequal, or the buffer is shorter than the stream needs"),
    28: ("YearRoom", "the figures buffer has fewer than four places"),
    29: ("OutsideShare", "some unit is sampled and G is 0 or over 10,000, T is 0, or sampled units differ in W"),
    30: ("PreviousLists", "γ is 0 or over 1,000, or a previous list is over 100 or not rising"),
    31: ("Sample", "the lists are unequal, empty or over 64, a strength is out of range, T is over 6,400 or the minima together exceed T"),
    32: ("SheetLine", "a name is otherwise, a figure is outside 10^8 to 10^10 or the buffer is shorter than 49 bytes (a name is 1 to 20 printable ASCII bytes)"),
    33: ("TestLoad", "the start is 2^31 or more, or the count is 0 or over 16,384, or a buffer is shorter"),
    34: ("RegisterLine", "a line is not of this form"),
    35: ("RegisterRoom", "there are more lines than the list holds"),
}


def words(number):
    """Document 01's words for a number; a later number than these has none here."""
    return REFUSALS[number][1] if number in REFUSALS else "a refusal that this front has no words for"
