/*
 * A regulator that records a frame a minute and has time for few stores at once: it begins an append
 * and makes it in turns. The power is cut between two of them; after the restart the half-made frame
 * is not there, and is begun again.
 */
#include "dialmoth.h"

#include <inttypes.h>
#include <stdio.h>
#include <stdlib.h>

/* What is left where the power is cut, as a region of flash would be. */
static uint8_t image[1024];

/* Stores for which there is time at once. */
#define STORES 6

/* Where a refusal is a mistake of this program. */
static void must(const char *what, uint64_t number)
{
    if (number != 0) {
        fprintf(stderr, "%s: refused %" PRIu64 ": %s\n", what, number,
                dialmoth_refusal_text(number));
        exit(1);
    }
}

/* Sets the heating from the last frame; this may be done between turns, and after a cut. */
static void set_heating(void)
{
    uint64_t counts[3], duty[2];

    must("open", dialmoth_open(image, sizeof image, counts));
    if (counts[0] == 0) {
        printf("no frame yet\n");
        return;
    }
    must("element", dialmoth_element(image, sizeof image, counts[0] - 1, DIALMOTH_TEXT("heater"),
                                     0, duty));
    printf("frame %" PRIu64 ": heater duty %" PRIu64 "\n", counts[0] - 1, duty[1]);
}

/*
 * Appends a frame in at most so many turns, and heats between them; answers whether it is there.
 * Where the turns are too few, the power is cut: sheet and state are lost.
 */
static int record(uint8_t duty, int turns)
{
    /* One row: N, M, type, length of the name, two zeros; then its name, and the duty in per cent. */
    const uint8_t sheet[] = {1, 0, 0, 0, 1, 0, 0, 0, 0, 0, 0, 0, 1, 0, 0, 0, DIALMOTH_U8, 6, 0, 0,
                             'h', 'e', 'a', 't', 'e', 'r', duty};
    uint64_t state[DIALMOTH_STATE_WORDS], begun[2], turn[1], made = 0;

    must("begin", dialmoth_begin(image, sizeof image, sheet, sizeof sheet, state, begun));
    for (; turns > 0 && made < begun[0]; turns--) {
        must("turn", dialmoth_turn(state, image, sizeof image, sheet, sizeof sheet, STORES, turn));
        made += turn[0];
        printf("%" PRIu64 " of %" PRIu64 " stores, ", made, begun[0]);
        set_heating();
    }
    return made == begun[0];
}

int main(void)
{
    must("create", dialmoth_create(image, sizeof image, DIALMOTH_TEXT("regulator"),
                                   DIALMOTH_TEXT("night"), 0x00010000, 2, 1));
    if (!record(40, 10))
        return 1;

    /* The power is cut between two turns of the next minute. */
    if (record(55, 2))
        return 1;
    printf("power is back, ");
    set_heating();

    /* Its frame is begun again. */
    return !record(55, 10);
}
