"""The generators of test cases in one place.

    for case in generate.draw_cases(seed, count): ...
    case = generate.again("draw_cases", seed, number)

See `cases` for what a case is; each generator's first line says which refusals it means to hit.
"""

from cases import GENERATORS, U32, U64, Case, again
from cases.chains import chain_cases, close_cases, open_cases, quarter_cases, total_cases
from cases.frames import (
    draw_cases,
    large_draw_cases,
    near_draw_cases,
    poisson_draw_cases,
    poisson_rotate_cases,
    rotate_cases,
    take_all_cases,
)
from cases.kept import (
    kept_draw_cases,
    kept_poisson_draw_cases,
    kept_poisson_rotate_cases,
    kept_rotate_cases,
    large_kept_draw_cases,
    take_all_units_cases,
)
from cases.loads import load_cases
from cases.outsides import outside_cases, outside_chain_cases
from cases.panels import panels_cases, renew_cases, renew_outside_cases
from cases.streams import LISTING, many_draw_cases, reader_cases, stream_cases, word_cases
from cases.samples import sample_cases
from cases.registers import register_cases
from cases.sheets import sheet_cases
from cases.writings import read_all_cases, write_cases
from cases.years import year_cases, year_chain_cases

__all__ = [
    "GENERATORS",
    "LISTING",
    "U32",
    "U64",
    "Case",
    "again",
    "chain_cases",
    "close_cases",
    "draw_cases",
    "kept_draw_cases",
    "kept_poisson_draw_cases",
    "kept_poisson_rotate_cases",
    "kept_rotate_cases",
    "large_draw_cases",
    "large_kept_draw_cases",
    "load_cases",
    "many_draw_cases",
    "near_draw_cases",
    "open_cases",
    "outside_cases",
    "outside_chain_cases",
    "panels_cases",
    "poisson_draw_cases",
    "poisson_rotate_cases",
    "quarter_cases",
    "read_all_cases",
    "reader_cases",
    "register_cases",
    "renew_cases",
    "renew_outside_cases",
    "rotate_cases",
    "sample_cases",
    "sheet_cases",
    "stream_cases",
    "take_all_cases",
    "take_all_units_cases",
    "total_cases",
    "word_cases",
    "write_cases",
    "year_cases",
    "year_chain_cases",
]
