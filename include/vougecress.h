/*
 * vougecress: panel and chained price index for services (document 01), for callers in C.
 *
 * Lists are lent for the length of a call: a pointer and a count of elements. A call reads its input lists and writes only
 * what is said below. Every function takes any list and any number. It answers a result, with `refusal` 0, or one refusal
 * number of document 01, with every other field of the answer 0 (34 alone comes with an offset, and a year's refusal with
 * the count of its calls); after a refusal every lent list is as it was, but for the figures of a year's accepted calls.
 * A null pointer is allowed where the count is 0. Lists that are lent to be written may not overlap other lists of the call.
 * No call asks for memory of its own but on the stack, of which it takes up to 640 KB. Nothing is kept between calls, so that
 * threads may call at once, each with its own lists.
 *
 * Compile and link: gcc program.c -Ibuild build/libvougecress.a, or, once it is installed (PREFIX=... ./install.sh),
 * gcc program.c $(pkg-config --cflags --libs vougecress).
 */
#ifndef VOUGECRESS_H
#define VOUGECRESS_H

#include <stddef.h>
#include <stdint.h>

#ifdef __cplusplus
extern "C" {
#endif

/* ---- Version
 *
 * The major number goes up where an entry's arguments or results change (the shared library is then another one, by its
 * SONAME), the minor one where an entry is added, the patch otherwise.
 */
#define VOUGECRESS_VERSION_MAJOR 3
#define VOUGECRESS_VERSION_MINOR 0
#define VOUGECRESS_VERSION_PATCH 0
#define VOUGECRESS_VERSION (VOUGECRESS_VERSION_MAJOR * 10000 + VOUGECRESS_VERSION_MINOR * 100 + VOUGECRESS_VERSION_PATCH)

/* The version of the library that was linked; VOUGECRESS_VERSION is that of the header that was compiled. */
uint32_t vougecress_version(void);

/* ---- Refusals (docs/REFUSALS.md says what to do about each). 0 is none. */
enum vougecress_refusal {
    VOUGECRESS_REFUSED_FRAME_LISTS = 1,      /* frame lists unequal, empty or over 16,384 */
    VOUGECRESS_REFUSED_UNIT_NUMBERS = 2,     /* unit numbers not rising */
    VOUGECRESS_REFUSED_TURNOVERS = 3,        /* a turnover 0, or total over 10^12 */
    VOUGECRESS_REFUSED_RANDOM_NUMBERS = 4,   /* random number or start over 999,999 */
    VOUGECRESS_REFUSED_PANEL_SIZE = 5,       /* z is 0, over 100 or over the units */
    VOUGECRESS_REFUSED_RESULT_BUFFER = 6,    /* a result buffer shorter than z, or for leavers than the old panel and the births together */
    VOUGECRESS_REFUSED_OLD_PANEL = 7,        /* f over 1,000, or old panel over 100 or not rising */
    VOUGECRESS_REFUSED_NO_STEP = 8,          /* no step rotates enough */
    VOUGECRESS_REFUSED_UNIT_LISTS = 9,       /* unit lists empty, over 100, or unequal to each other or to the record */
    VOUGECRESS_REFUSED_BASE_WEIGHTS = 10,    /* a W of 0, or their sum over 10^13 */
    VOUGECRESS_REFUSED_SHARES = 11,          /* a share over 10,000, or all 0 */
    VOUGECRESS_REFUSED_START_INDEX = 12,     /* start index outside 10^8 to 10^10 */
    VOUGECRESS_REFUSED_RELATIVES = 13,       /* a relative out of range, 0 for a present unit, or not 0 for an absent one */
    VOUGECRESS_REFUSED_SECTORS = 14,         /* sector lists unequal, empty, over 64, not adding to 1,000,000, or an index outside 12's range */
    VOUGECRESS_REFUSED_STREAM_LENGTH = 15,   /* stream over 32,768 bytes */
    VOUGECRESS_REFUSED_UNKNOWN_COMMAND = 16, /* command not 1 to 7 */
    VOUGECRESS_REFUSED_CUT_SHORT = 17,       /* command cut short */
    VOUGECRESS_REFUSED_PLACE = 18,           /* place not below panel size */
    VOUGECRESS_REFUSED_STATE = 19,           /* open without a panel, quarter or close without a chain; a record that breaks a limit */
    VOUGECRESS_REFUSED_FRAME_FULL = 20,      /* a unit when 1,024 are held */
    VOUGECRESS_REFUSED_LOW_WEIGHT = 21,      /* a present u or v below 1,000,000, at open or after close */
    VOUGECRESS_REFUSED_WEIGHT_SUM = 22,      /* sum of v over 10^13, at open or after close */
    VOUGECRESS_REFUSED_FIGURE_RANGE = 23,    /* F outside 10^8 to 10^10 */
    VOUGECRESS_REFUSED_CLOSES_SPENT = 24,    /* forty closes accepted (quarter too) */
    VOUGECRESS_REFUSED_PREVIOUS_SAMPLE = 25, /* n' is over 100, X' is over 10^12, or X' is 0 while n' is not */
    VOUGECRESS_REFUSED_BIRTHS = 26,          /* births exceed 16,384, are not rising or are not all in the frame */
    VOUGECRESS_REFUSED_WRITING = 27,         /* lists given are unequal, or the buffer is shorter than the stream needs */
    VOUGECRESS_REFUSED_YEAR_ROOM = 28,       /* the figures buffer has fewer than four places */
    VOUGECRESS_REFUSED_OUTSIDE_SHARE = 29,   /* some unit is sampled and G is 0 or over 10,000, T is 0, or sampled units differ in W */
    VOUGECRESS_REFUSED_PREVIOUS_LISTS = 30,  /* γ is 0 or over 1,000, or a previous list is over 100 or not rising */
    VOUGECRESS_REFUSED_SAMPLE = 31,          /* the lists are unequal, empty or over 64, a strength is out of range, T is over 6,400 or the minima together exceed T */
    VOUGECRESS_REFUSED_SHEET_LINE = 32,      /* a name is otherwise, a figure is outside 10^8 to 10^10 or the buffer is shorter than 49 bytes (a name is 1 to 20 printable ASCII bytes) */
    VOUGECRESS_REFUSED_TEST_LOAD = 33,       /* the start is 2^31 or more, or the count is 0 or over 16,384, or a buffer is shorter */
    VOUGECRESS_REFUSED_REGISTER_LINE = 34,   /* a line is not of this form */
    VOUGECRESS_REFUSED_REGISTER_ROOM = 35    /* there are more lines than the list holds */
};

/* ---- Limits of document 01. A number beyond one is refused, never cut. */
#define VOUGECRESS_MOST_FRAME 16384                          /* units of a frame */
#define VOUGECRESS_MOST_TURNOVER UINT64_C(1000000000000)     /* euros of a frame in all; each turnover is at least 1 */
#define VOUGECRESS_RANDOM_RANGE 1000000                      /* random numbers and starts are below this */
#define VOUGECRESS_MOST_PANEL 100                            /* units of a panel, and of a record */
#define VOUGECRESS_FRACTION_SCALE 1000                       /* the fraction of a rotation is in thousandths, 0 to this */
#define VOUGECRESS_THRESHOLD_SCALE 1000                      /* the threshold of a draw with previous lists is in thousandths, 1 to this */
#define VOUGECRESS_SHARE_SCALE 10000                         /* a whole share; shares are 0 to this */
#define VOUGECRESS_RELATIVE_SCALE 100000                     /* a relative of no change */
#define VOUGECRESS_LOWEST_RELATIVE 25000                     /* the range of a relative; 0 for an absent unit, and only for it */
#define VOUGECRESS_HIGHEST_RELATIVE 400000
#define VOUGECRESS_LEAST_WEIGHT UINT64_C(1000000)            /* the least u or v of a unit that is present */
#define VOUGECRESS_MOST_WEIGHT UINT64_C(10000000000000)      /* the W of an open in all, and the v of a record in all */
#define VOUGECRESS_LOWEST_INDEX UINT64_C(100000000)          /* the range of an index: 10, */
#define VOUGECRESS_HIGHEST_INDEX UINT64_C(10000000000)       /* to 1,000 */
#define VOUGECRESS_INDEX_OF_100 UINT64_C(1000000000)
#define VOUGECRESS_MOST_CLOSES 40                            /* closes of one chain, over all its panels: its links */
#define VOUGECRESS_YEAR_PLACES 4                             /* figures of a year: three quarters and the close */
#define VOUGECRESS_MOST_SECTORS 64                           /* sectors of a total, and of a sample; places of a sample's lists */
#define VOUGECRESS_SECTOR_SCALE 1000000                      /* what the sector shares add to */
#define VOUGECRESS_MOST_STREAM 32768                         /* bytes of a job stream */
#define VOUGECRESS_MOST_HELD 1024                            /* units that a job stream holds */
#define VOUGECRESS_STATE_RANGE UINT64_C(2147483648)          /* the start of a test load is below this */
#define VOUGECRESS_LOWEST_STRENGTH 1                         /* the range of a sector's strength in a sample */
#define VOUGECRESS_HIGHEST_STRENGTH UINT64_C(1000000000)
#define VOUGECRESS_MOST_INTERVIEWS 6400                      /* interviews of a sample */
#define VOUGECRESS_MOST_FIELD 20                             /* digits of a field of a register's line */
#define VOUGECRESS_NAME_COLUMNS 20                           /* bytes of a sector's name on the quarterly sheet */
#define VOUGECRESS_LINE_BYTES 49                             /* bytes of a line of the sheet, its line feed among them */

/* ---- Chain record ("Chain record")
 *
 * The record is a lent list of VOUGECRESS_RECORD numbers whose every field the caller sees. A longer list is taken, and
 * places beyond stay; a shorter one is no record and is refused by 19 (by 6 where open is to write it).
 */
enum {
    VOUGECRESS_UNITS = 0,   /* number of units */
    VOUGECRESS_INDEX = 1,   /* C; an index of 100 is 1,000,000,000 */
    VOUGECRESS_CLOSES = 2,  /* accepted closes of the present panel */
    VOUGECRESS_LINKS = 3,   /* accepted closes of all panels since the open */
    VOUGECRESS_WEIGHTS = 4, /* first of 100 weights v, one a unit; places beyond the units are 0 after an open or a renewal */
    VOUGECRESS_RECORD = 104 /* places of a record */
};

struct vougecress_figure {
    uint32_t refusal;
    uint64_t figure;
};

/*
 * Opens a chain: W, shares g in ten-thousandths and updating relatives a in hundred-thousandths, one a unit, and a start index.
 * An updating relative leads from the reference year, in which the turnovers were made, to the opening.
 * Writes the first 104 places of `record`. Answers 0, or 6 (record shorter than 104), 9, 10, 11, 12, 13, 21 or 22.
 */
uint32_t vougecress_open(const uint64_t *weights, size_t weights_count,
                         const uint32_t *shares, size_t shares_count,
                         const uint32_t *relatives, size_t relatives_count,
                         uint64_t start,
                         uint64_t *record, size_t record_count);

/*
 * Opens a chain with a domain share G from the national accounts (document 02, [7]): as vougecress_open, with `sampled`, a mark
 * a unit, and `domain`, which is G in ten-thousandths. A mark that is not 0 says that the unit was SAMPLED, and 0 that it is
 * take-all. The marks of vougecress_take_all say the contrary, 1 for take-all, and stand by place in the frame and not in the
 * panel: handed over as they are they give other weights, and no refusal shows it. For each unit of a drawn panel, `sampled` is
 * 1 less the take-all mark at the unit's place in the frame (examples/open_outside.py).
 * With n the count of marked units, absent ones among them, X their W, alike for all, and T the sum of their shares, a sampled
 * unit's u is floor(floor(n x X x G / 10,000) x g / T); a take-all unit keeps its u. With no unit marked G is not read.
 * Writes the first 104 places of `record`. Answers 0, or 6 (record shorter than 104), 9 (also for marks of another length), 10,
 * 11, 12, 13, 29, 21 or 22; 29 comes before 21.
 */
uint32_t vougecress_open_outside(const uint64_t *weights, size_t weights_count,
                                 const uint32_t *shares, size_t shares_count,
                                 const uint32_t *relatives, size_t relatives_count,
                                 uint64_t start,
                                 const uint8_t *sampled, size_t sampled_count,
                                 uint32_t domain,
                                 uint64_t *record, size_t record_count);

/*
 * What the relatives of a quarter and of a close are measured against: prices at the opening or, after a close, at the last
 * accepted close, and never at the quarter before. A price that rises by 2 percent in one quarter and by 2 percent more in the
 * next has the relatives 102,000 and 104,040; 102,000 twice is the usual mistake, and gives the same figure twice.
 */

/* The figure F of a quarter with one relative a unit. Refusals 19, 9, 13, 23, 24. The record stays. */
struct vougecress_figure vougecress_quarter(const uint64_t *record, size_t record_count,
                                            const uint32_t *relatives, size_t relatives_count);

/*
 * The figure F of a year's close. The record's index becomes F, each weight floor(v x p / 100,000), and one close and one link
 * are counted. Refusals 19, 9, 13, 21, 22, 23, 24.
 */
struct vougecress_figure vougecress_close(uint64_t *record, size_t record_count,
                                          const uint32_t *relatives, size_t relatives_count);

/* How far a year came: the refusal that stopped it, or 0, and the calls that were accepted, 4 without a refusal. */
struct vougecress_came {
    uint32_t refusal;
    uint64_t count;
};

/*
 * A year in one call: three quarters and the close, made one by one, each list judged when its call comes. The figures of the
 * accepted calls are in the first `count` places of `figures`, after a refusal too (no other refused call has written), and
 * other places stay. The record is the close's, or after a refusal as it was.
 * Refusals 28 (fewer than 4 places for figures), before anything else, 19 included; then those of the calls, one after the other.
 */
struct vougecress_came vougecress_year(uint64_t *record, size_t record_count,
                                       const uint32_t *first, size_t first_count,
                                       const uint32_t *second, size_t second_count,
                                       const uint32_t *third, size_t third_count,
                                       const uint32_t *last, size_t last_count,
                                       uint64_t *figures, size_t figures_count);

/*
 * Renews the panel of a chain: opens new weights from a record, with lists as an open has them, of a length of their own. The
 * record's index is the start index, its links go onward, and its closes begin at 0; of its weights nothing goes on. An updating
 * relative leads from the reference year to the renewal, and the relatives of the calls after it are measured against the
 * renewal as against an opening. Writes the first 104 places of `record`.
 * Answers 0, or 19 (the record breaks a limit, or is shorter than 104), 9, 10, 11, 13, 21 or 22.
 * Never 24: at forty links a renewal is accepted, and each quarter or close after it is refused by 24.
 */
uint32_t vougecress_renew(const uint64_t *weights, size_t weights_count,
                          const uint32_t *shares, size_t shares_count,
                          const uint32_t *relatives, size_t relatives_count,
                          uint64_t *record, size_t record_count);

/*
 * The same with an outside share: the domain share G in ten-thousandths, and for each unit whether it was sampled, 0 for a
 * take-all unit and any other number for a sampled one (the marks of vougecress_take_all say the contrary).
 * Answers 0, or 19, 9 (also where there is not one mark for each unit), 10, 11, 13, 29, 21 or 22.
 */
uint32_t vougecress_renew_outside(const uint64_t *weights, size_t weights_count,
                                  const uint32_t *shares, size_t shares_count,
                                  const uint32_t *relatives, size_t relatives_count,
                                  const uint8_t *sampled, size_t sampled_count,
                                  uint32_t domain,
                                  uint64_t *record, size_t record_count);

/* ---- Frame ("Frame and weights", "Draw")
 *
 * A frame is three lists of equal length: unit numbers (rising), turnovers in euros and random numbers (0 to 999,999).
 */
struct vougecress_taken {
    uint32_t refusal;
    uint64_t q;    /* units of the take-all group */
    uint64_t n;    /* units to sample */
    uint64_t rest; /* X, the rest turnover; 0 under cut-off */
};

struct vougecress_drawn {
    uint32_t refusal;
    uint64_t n;
    uint64_t rest;
};

/*
 * The take-all group of a frame for a panel of z units. Writes a mark for each unit, 1 in the group and 0 outside, into the
 * first turnovers_count places of `marks`. Refusals 1, 3, 5, 6 (marks shorter than the turnovers).
 * Which units of a panel are take-all: those whose place in the frame is marked by the call with the same turnovers and z
 * (every marked unit is in the panel; examples/example.c). The weight does not tell, since n x turnover can equal X.
 * vougecress_open_outside wants marks that say the contrary, 1 for a sampled unit, in the order of the panel.
 */
struct vougecress_taken vougecress_take_all(const uint64_t *turnovers, size_t turnovers_count, size_t z,
                                            uint8_t *marks, size_t marks_count);

/*
 * Draws a panel of z units under a start (0 to 999,999). Writes the unit numbers, in rising order, into the first z places
 * of `panel` and their base weights W into the first z places of `weights`. Refusals 1 to 6.
 */
struct vougecress_drawn vougecress_draw(const uint32_t *numbers, size_t numbers_count,
                                        const uint64_t *turnovers, size_t turnovers_count,
                                        const uint32_t *randoms, size_t randoms_count,
                                        size_t z, uint32_t start,
                                        uint32_t *panel, size_t panel_count,
                                        uint64_t *weights, size_t weights_count);

/*
 * The same draw by sequential Poisson sampling: the n smallest keys r over turnover are sampled, equal keys by lower unit
 * number; take-all, n, X, the weights and the refusals are those of vougecress_draw. Which draw a panel comes from is not
 * seen from it: rotate it by the function of the same method.
 */
struct vougecress_drawn vougecress_draw_poisson(const uint32_t *numbers, size_t numbers_count,
                                                const uint64_t *turnovers, size_t turnovers_count,
                                                const uint32_t *randoms, size_t randoms_count,
                                                size_t z, uint32_t start,
                                                uint32_t *panel, size_t panel_count,
                                                uint64_t *weights, size_t weights_count);

/* ---- Rotation ("Rotation") */
struct vougecress_rotated {
    uint32_t refusal;
    uint32_t k;     /* the smallest step that suffices, 0 to 999 */
    uint32_t start; /* the new start */
    uint64_t count; /* leavers */
};

/*
 * Rotates an old panel (rising unit numbers, at most 100) by at least `fraction` thousandths of its members. Writes the unit
 * numbers of the leavers, by falling turnover in this frame and equal turnovers by lower unit number, into the first `count`
 * places of `leavers`, which must be at least as long as the old panel and the births together; the other places stay.
 * Births (rising unit numbers of this frame) join the members where they are not take-all and
 * r x previous_rest < 1,000,000 x previous_n x turnover, r shifted by old_start. previous_n is the previous draw's n (0 to
 * 100) and previous_rest its X (0 to 10^12, not 0 unless previous_n is 0). Without births give 0, 0 and an empty list.
 * A birth of the old panel is one member. Refusals 1 to 7, 25, 26, 8, in this order.
 */
struct vougecress_rotated vougecress_rotate(const uint32_t *numbers, size_t numbers_count,
                                            const uint64_t *turnovers, size_t turnovers_count,
                                            const uint32_t *randoms, size_t randoms_count,
                                            size_t z, uint32_t old_start,
                                            const uint32_t *old_panel, size_t old_panel_count,
                                            uint32_t fraction,
                                            size_t previous_n, uint64_t previous_rest,
                                            const uint32_t *births, size_t births_count,
                                            uint32_t *leavers, size_t leavers_count);

/* The same rotation by sequential Poisson keys: a leaver is a member that vougecress_draw_poisson does not sample.
 * The births join by the same comparison, which no key enters. */
struct vougecress_rotated vougecress_rotate_poisson(const uint32_t *numbers, size_t numbers_count,
                                                    const uint64_t *turnovers, size_t turnovers_count,
                                                    const uint32_t *randoms, size_t randoms_count,
                                                    size_t z, uint32_t old_start,
                                                    const uint32_t *old_panel, size_t old_panel_count,
                                                    uint32_t fraction,
                                                    size_t previous_n, uint64_t previous_rest,
                                                    const uint32_t *births, size_t births_count,
                                                    uint32_t *leavers, size_t leavers_count);

/* ---- Firms at the border (document 02, [9])
 *
 * A firm just under the take-all limit would leave the group and return year by year. `threshold` is 1 to 1,000 thousandths
 * (the paper's is 800); `first` and `second` are the take-all lists of up to two previous draws, rising unit numbers, at
 * most 100 each. An empty list is no list, and their order does not matter. After the base search with its n and X, a unit
 * outside the group that stands in a list is kept where 1,000 x n x turnover is at least threshold x X: at most n, the
 * largest first, equal turnovers by lower unit number. The enlarged group is take-all; its n is n less the kept units, its
 * X less their turnovers. Where all n are kept n and X are 0, W is the turnover, and units may remain outside the group.
 * With no lists each function answers as the one without `_kept`. Refusal 30: threshold 0 or over 1,000, also with no lists,
 * or a list over 100 or not rising; it comes directly after 6.
 */

/*
 * The take-all group as unit numbers, the list that a later draw takes: the base group with no lists, the enlarged one with
 * lists. Writes them, rising, into the first q places of `units`, which must have z places; the others stay. The paper
 * speaks of units whose inclusion probability was at least 1, which is the base group: hand that to later draws. Handed the
 * enlarged one, a firm once kept stays as long as it reaches the threshold; handed the base group, for two draws at most.
 * Refusals 1, 2, 3, 5, 6, 30.
 */
struct vougecress_taken vougecress_take_all_units(const uint32_t *numbers, size_t numbers_count,
                                                  const uint64_t *turnovers, size_t turnovers_count,
                                                  size_t z, uint32_t threshold,
                                                  const uint32_t *first, size_t first_count,
                                                  const uint32_t *second, size_t second_count,
                                                  uint32_t *units, size_t units_count);

/* vougecress_draw with a threshold and previous lists. Refusals 1 to 6, 30. */
struct vougecress_drawn vougecress_draw_kept(const uint32_t *numbers, size_t numbers_count,
                                             const uint64_t *turnovers, size_t turnovers_count,
                                             const uint32_t *randoms, size_t randoms_count,
                                             size_t z, uint32_t start, uint32_t threshold,
                                             const uint32_t *first, size_t first_count,
                                             const uint32_t *second, size_t second_count,
                                             uint32_t *panel, size_t panel_count,
                                             uint64_t *weights, size_t weights_count);

/* The same by sequential Poisson keys. */
struct vougecress_drawn vougecress_draw_poisson_kept(const uint32_t *numbers, size_t numbers_count,
                                                     const uint64_t *turnovers, size_t turnovers_count,
                                                     const uint32_t *randoms, size_t randoms_count,
                                                     size_t z, uint32_t start, uint32_t threshold,
                                                     const uint32_t *first, size_t first_count,
                                                     const uint32_t *second, size_t second_count,
                                                     uint32_t *panel, size_t panel_count,
                                                     uint64_t *weights, size_t weights_count);

/*
 * vougecress_rotate with a threshold and previous lists: members and births are those outside the enlarged group, and where
 * all places are kept every member leaves at step 0. Refusals 1 to 6, 30, 7, 25, 26, 8, in this order.
 */
struct vougecress_rotated vougecress_rotate_kept(const uint32_t *numbers, size_t numbers_count,
                                                 const uint64_t *turnovers, size_t turnovers_count,
                                                 const uint32_t *randoms, size_t randoms_count,
                                                 size_t z, uint32_t old_start,
                                                 const uint32_t *old_panel, size_t old_panel_count,
                                                 uint32_t fraction, size_t previous_n, uint64_t previous_rest,
                                                 const uint32_t *births, size_t births_count, uint32_t threshold,
                                                 const uint32_t *first, size_t first_count,
                                                 const uint32_t *second, size_t second_count,
                                                 uint32_t *leavers, size_t leavers_count);

/* The same by sequential Poisson keys. */
struct vougecress_rotated vougecress_rotate_poisson_kept(const uint32_t *numbers, size_t numbers_count,
                                                         const uint64_t *turnovers, size_t turnovers_count,
                                                         const uint32_t *randoms, size_t randoms_count,
                                                         size_t z, uint32_t old_start,
                                                         const uint32_t *old_panel, size_t old_panel_count,
                                                         uint32_t fraction, size_t previous_n, uint64_t previous_rest,
                                                         const uint32_t *births, size_t births_count, uint32_t threshold,
                                                         const uint32_t *first, size_t first_count,
                                                         const uint32_t *second, size_t second_count,
                                                         uint32_t *leavers, size_t leavers_count);

/* ---- Total ("Total"): shares in millionths that add to 1,000,000, and an index a sector. Refusal 14. */
struct vougecress_figure vougecress_total(const uint32_t *shares, size_t shares_count,
                                          const uint64_t *indices, size_t indices_count);

/* ---- Job stream ("Job stream"): commands of one byte and their big-endian operands, at most 32,768 bytes. */
struct vougecress_reading {
    uint32_t refusal;
    uint32_t command; /* 1 unit, 2 draw, 3 share, 4 relative, 5 open, 6 quarter, 7 close; 0: the stream has ended */
    uint64_t taken;   /* bytes of the command; 0 at the end */
    uint64_t first;   /* the operands in the order of the stream, absent ones 0: number, size, place or start index */
    uint64_t second;  /* turnover, start, share or relative */
    uint64_t third;   /* random number */
};

struct vougecress_printed {
    uint32_t refusal;
    uint64_t length; /* bytes of the text that was written */
};

/*
 * The command at the front of `stream`; the next begins `taken` bytes further on. Writes nothing. With nothing left it
 * answers command 0, which is no refusal. Refusals 15, 16, 17.
 */
struct vougecress_reading vougecress_read(const uint8_t *stream, size_t stream_count);

/*
 * Does a whole stream and writes what the program chainrun prints for it into the first `length` places of `out`; places
 * beyond stay, and no zero byte is added. What the stream itself is refused by is a line of the text (`R number offset`) and
 * no refusal of the call. Refusal 6: `out` is shorter than the text; it is then as it was.
 */
struct vougecress_printed vougecress_run(const uint8_t *stream, size_t stream_count, uint8_t *out, size_t out_count);

/* The bytes of the text that vougecress_run writes for a stream. It only counts, and refuses nothing. */
uint64_t vougecress_run_length(const uint8_t *stream, size_t stream_count);

/* ---- Test load (document 02, [13]) */

struct vougecress_loaded {
    uint32_t refusal;
    uint64_t count; /* units made */
};

/*
 * A frame without real firms that two bureaus can make alike. A state starts as `start`, below 2^31, and steps to
 * (state x 1,103,515,245 + 12,345) mod 2^31. Unit i, from 1, takes two steps: the first state mod 10,000,000, plus 1, is its
 * turnover, the second mod 1,000,000 its random number, and i its number. Writes the first `count` places of the three
 * lists; places beyond stay. A draw accepts every such frame.
 * Refusal 33: start 2^31 or more, count 0 or over 16,384, or a list shorter than count.
 */
struct vougecress_loaded vougecress_load(uint64_t start, size_t count,
                                         uint32_t *numbers, size_t numbers_count,
                                         uint64_t *turnovers, size_t turnovers_count,
                                         uint32_t *randoms, size_t randoms_count);

/* ---- A word of a job stream (document 02, [3]) */

struct vougecress_found {
    uint32_t refusal;
    uint32_t word;
};

/*
 * The 32-bit word at the front of `part`, its first byte the highest; `part` may be of any length, and bytes beyond the fourth
 * are not looked at. An operand of eight bytes is two such words, the upper first. Writes nothing.
 * Refusal 17: fewer than four bytes are left, none among them.
 */
struct vougecress_found vougecress_word(const uint8_t *part, size_t part_count);

/* ---- Sample over sectors (document 02, [10]) */

/* A place for each sector, in the order in which they are handed in; places beyond the sectors are 0. */
struct vougecress_allocation {
    uint32_t refusal;
    uint64_t counts[VOUGECRESS_MOST_SECTORS];     /* interviews; they add to T */
    uint64_t wholes[VOUGECRESS_MOST_SECTORS];     /* the whole part of the quota; 0 for a sector that left */
    uint64_t remainders[VOUGECRESS_MOST_SECTORS]; /* the remainder of its division, not reduced; 0 for a sector that left */
};

/*
 * Shares T interviews over sectors, each with a strength (1 to 10^9) and a minimum. The quota of a sector is T' x strength
 * over the strengths of the sectors left, where T' is T less what has been given. In a pass all sectors whose exact quota is
 * below their minimum get the minimum and leave; the passes repeat until none leaves. The others get the whole part of
 * their quota, and one more each by largest remainder, equal remainders by earlier sector, until all T are given. No sector
 * gets less than its minimum. Nothing is written but the answer, which is handed back by value, 1,544 bytes.
 * Refusal 31: lists unequal, empty or over 64, a strength out of range, T over 6,400, or minima that exceed T together.
 */
struct vougecress_allocation vougecress_sample(uint64_t interviews,
                                               const uint64_t *strengths, size_t strengths_count,
                                               const uint64_t *minima, size_t minima_count);

/* ---- Registers as comma lines (document 02, [14]) */

struct vougecress_register {
    uint32_t refusal;
    uint64_t count;  /* units filled */
    uint64_t offset; /* with refusal 34, and with it alone: the byte, from 0, where the first bad line begins */
};

struct vougecress_unit {
    uint32_t number;
    uint64_t turnover;
    uint32_t random;
};

/*
 * Imports a register: a text of any length, of lines of three decimal fields, number, turnover and random number, separated
 * by commas and ended by a line feed. One carriage return may stand directly before the line feed. The last line feed may be
 * missing, then with no carriage return. A field has 1 to 20 digits, leading zeros among them, and nothing else; number and
 * random number fit 32 bits, the turnover 64. A text of no bytes has no lines; an empty line is refused.
 * Line i fills place i of the three lists, in the order of the text; places beyond the count stay. The lists hold as many
 * units as the shortest has places. The draw judges its own, tighter limits.
 * Refusal 34: a line is not of this form; `offset` says where the first such line begins. Refusal 35: more lines than places.
 * All lines are judged before one is written: 34 is given wherever the bad line stands, and after both every list is as it was.
 */
struct vougecress_register vougecress_import(const uint8_t *text, size_t text_count,
                                             uint32_t *numbers, size_t numbers_count,
                                             uint64_t *turnovers, size_t turnovers_count,
                                             uint32_t *randoms, size_t randoms_count);

/* The same into a list of units. */
struct vougecress_register vougecress_import_units(const uint8_t *text, size_t text_count,
                                                   struct vougecress_unit *list, size_t list_count);

/* ---- Quarterly sheet (document 02, [12]) */

struct vougecress_laid {
    uint32_t refusal;
    int64_t change; /* hundredths of a percent against the year before, floored */
    uint64_t rest;  /* (figure - year_before) x 10,000 = change x year_before + rest, 0 <= rest < year_before */
};

/*
 * Lays one line of the sheet into the first 49 bytes of `out`; bytes beyond stay, and no zero byte is added. A line is the
 * sector's name, 20 columns, left; the figure in index points with seven decimals, 14 columns, right; the change with two
 * decimals and a minus sign where it is negative, 14 columns, right; and a line feed. The figure of a total can be printed too.
 * Refusal 32: a name that is not 1 to 20 bytes of 32 to 126, a figure outside 10^8 to 10^10, or `out` shorter than 49 bytes.
 */
struct vougecress_laid vougecress_sheet(const uint8_t *name, size_t name_count, uint64_t figure, uint64_t year_before,
                                        uint8_t *out, size_t out_count);

/* ---- Writer (document 02, [4])
 *
 * A list of commands is six lists side by side, one place a command, whose elements have exactly their operand's width:
 *   kinds    the command byte: 1 unit, 2 draw, 3 share, 4 relative, 5 open, 6 quarter, 7 close
 *   sizes    the size of a draw; the place of a share or a relative
 *   shares   the share
 *   numbers  the number of a unit; the start of a draw; the relative
 *   randoms  the random number of a unit
 *   amounts  the turnover of a unit; the start index of an open
 * What a list holds for a command that has no such operand is not looked at when it is written, and 0 when it is read.
 * A stream that was written is read as the same commands, and what was read is written as the same bytes.
 */
struct vougecress_written {
    uint32_t refusal;
    uint64_t length; /* bytes of the stream */
};

struct vougecress_listed {
    uint32_t refusal;
    uint64_t count; /* commands of the stream */
};

/*
 * Writes the stream of a list of commands into the first `length` places of `out`; places beyond stay. A buffer of
 * VOUGECRESS_MOST_STREAM places always suffices. No value is judged: that is done by who runs the stream.
 * Refusals, in this order: 27 lists unequal; 15 a stream of over 32,768 bytes, an unknown command counted as one; 16 a
 * command byte that is not 1 to 7; 27 a buffer shorter than the stream.
 */
struct vougecress_written vougecress_write(const uint8_t *kinds, size_t kinds_count,
                                           const uint8_t *sizes, size_t sizes_count,
                                           const uint16_t *shares, size_t shares_count,
                                           const uint32_t *numbers, size_t numbers_count,
                                           const uint32_t *randoms, size_t randoms_count,
                                           const uint64_t *amounts, size_t amounts_count,
                                           uint8_t *out, size_t out_count);

/*
 * Reads a whole stream into the first `count` places of the six lists; places beyond stay, and the lists need not be of one
 * length. VOUGECRESS_MOST_STREAM places always suffice. Refusals: 15, 16 or 17, that of the first command that cannot be
 * read; then 6, a list with fewer places than the stream has commands.
 */
struct vougecress_listed vougecress_read_all(const uint8_t *stream, size_t stream_count,
                                             uint8_t *kinds, size_t kinds_count,
                                             uint8_t *sizes, size_t sizes_count,
                                             uint16_t *shares, size_t shares_count,
                                             uint32_t *numbers, size_t numbers_count,
                                             uint32_t *randoms, size_t randoms_count,
                                             uint64_t *amounts, size_t amounts_count);

#ifdef __cplusplus
}
#endif

#endif
