/*
 * A year of one sector and the turn to the next: draw a panel of three, see which units are take-all, open a chain, three
 * quarters and the close, rotate half of the panel, draw again, open at the close's figure, a quarter, and the total over
 * two sectors. The same job as examples/year.txt, which has no rotation and no total of its own. Every refusal is looked at.
 *
 *     ./build.sh
 *     gcc -o example examples/example.c -Ibuild build/libvougecress.a && ./example
 */
#include <inttypes.h>
#include <stdio.h>
#include <stdlib.h>

#include "vougecress.h"

enum { FRAME = 5, PANEL = 3 };

static const uint32_t numbers[FRAME] = {11, 12, 13, 14, 15};
static const uint64_t turnovers[FRAME] = {70000000, 10000000, 8000000, 7000000, 5000000};
static const uint32_t randoms[FRAME] = {300000, 500000, 200000, 900000, 100000};

/* Ends the program where a call was refused. */
static void accepted(const char *call, uint32_t refusal) {
    if (refusal == 0) return;
    fprintf(stderr, "%s: refusal %" PRIu32 " (docs/REFUSALS.md)\n", call, refusal);
    exit(1);
}

/* Draws a panel and prints it. A panel unit is take-all if its place in the frame is marked. */
static void draw(uint32_t start, uint32_t *panel, uint64_t *weights) {
    uint8_t marks[FRAME];
    accepted("take-all", vougecress_take_all(turnovers, FRAME, PANEL, marks, FRAME).refusal);
    struct vougecress_drawn drawn =
        vougecress_draw(numbers, FRAME, turnovers, FRAME, randoms, FRAME, PANEL, start, panel, PANEL, weights, PANEL);
    accepted("draw", drawn.refusal);
    printf("draw from start %" PRIu32 ": n = %" PRIu64 ", X = %" PRIu64 "\n", start, drawn.n, drawn.rest);
    for (int place = 0, unit = 0; place < PANEL; place++) {
        while (numbers[unit] != panel[place]) unit++; /* both lists rise */
        printf("  unit %" PRIu32 " weight %" PRIu64 " %s\n", panel[place], weights[place], marks[unit] ? "take-all" : "sampled");
    }
}

/* Opens a chain on a panel's weights; every unit belongs to the sector wholly. */
static void open_chain(const uint64_t *weights, const uint32_t *updating, uint64_t start, uint64_t *record) {
    const uint32_t whole[PANEL] = {VOUGECRESS_SHARE_SCALE, VOUGECRESS_SHARE_SCALE, VOUGECRESS_SHARE_SCALE};
    accepted("open", vougecress_open(weights, PANEL, whole, PANEL, updating, PANEL, start, record, VOUGECRESS_RECORD));
    printf("opened at %" PRIu64 "\n", start);
}

static void quarter(const char *name, const uint64_t *record, const uint32_t *relatives) {
    struct vougecress_figure answer = vougecress_quarter(record, VOUGECRESS_RECORD, relatives, PANEL);
    accepted(name, answer.refusal);
    printf("%s: %" PRIu64 "\n", name, answer.figure);
}

int main(void) {
    if (vougecress_version() != VOUGECRESS_VERSION) {
        fprintf(stderr, "compiled for version %d, linked with %" PRIu32 "\n", VOUGECRESS_VERSION, vougecress_version());
        return 1;
    }
    uint32_t panel[PANEL];
    uint64_t weights[PANEL];
    uint64_t record[VOUGECRESS_RECORD];
    draw(0, panel, weights);
    open_chain(weights, (const uint32_t[]){100000, 100000, 100000}, VOUGECRESS_INDEX_OF_100, record);

    /* Measured against the opening: 2 percent, and then 2 percent more, are 102,000 and 104,040. */
    quarter("first quarter", record, (const uint32_t[]){102000, 102000, 102000});
    quarter("second quarter", record, (const uint32_t[]){104040, 104040, 104040});
    quarter("third quarter", record, (const uint32_t[]){105000, 99000, 115000});
    struct vougecress_figure close =
        vougecress_close(record, VOUGECRESS_RECORD, (const uint32_t[]){105000, 98000, 120000}, PANEL);
    accepted("close", close.refusal);
    printf("close of the year: %" PRIu64 "\n", close.figure);

    uint32_t leavers[PANEL];
    struct vougecress_rotated turn = vougecress_rotate(numbers, FRAME, turnovers, FRAME, randoms, FRAME, PANEL, 0, panel, PANEL,
                                                       500, 0, 0, NULL, 0, leavers, PANEL); /* no births */
    accepted("rotation", turn.refusal);
    printf("rotation of half: step %" PRIu32 ", new start %" PRIu32 ", leavers", turn.k, turn.start);
    for (uint64_t i = 0; i < turn.count; i++) printf(" %" PRIu32, leavers[i]);
    printf("\n");
    draw(turn.start, panel, weights);
    open_chain(weights, (const uint32_t[]){105000, 103000, 98000}, close.figure, record);
    quarter("first quarter", record, (const uint32_t[]){100000, 101000, 102000});

    /* A refused call answers its number, and the record is as it was. */
    uint32_t refusal = vougecress_quarter(record, VOUGECRESS_RECORD, (const uint32_t[]){24999, 100000, 100000}, PANEL).refusal;
    printf("a relative of 24,999: refusal %" PRIu32 "%s\n", refusal, refusal == VOUGECRESS_REFUSED_RELATIVES ? " (relatives)" : "");

    const uint32_t shares[] = {600000, 400000};
    const uint64_t indices[] = {close.figure, VOUGECRESS_INDEX_OF_100};
    struct vougecress_figure total = vougecress_total(shares, 2, indices, 2);
    accepted("total", total.refusal);
    printf("total of the year over two sectors: %" PRIu64 "\n", total.figure);
    return 0;
}
