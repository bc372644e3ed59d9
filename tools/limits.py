"""The numbers of document 01 that the messages speak of, each named once (tests hold them against crates/*/specs/Limits.antt)."""

# a relative of no change, and the range of a relative
RELATIVE_SCALE = 100_000
LOWEST_RELATIVE = 25_000
HIGHEST_RELATIVE = 400_000

SHARE_SCALE = 10_000
LINK_SCALE = 1_000

MOST_TURNOVER = 10**12
RANDOM_RANGE = 1_000_000
MOST_PANEL = 100
MOST_HELD = 1_024
MOST_STREAM = 32_768

LEAST_WEIGHT = 1_000_000
MOST_WEIGHT = 10**13
LOWEST_INDEX = 10**8
HIGHEST_INDEX = 10**10
MOST_CLOSES = 40
