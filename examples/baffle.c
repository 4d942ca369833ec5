/* A telescope whose round baffle hides the corners of the grid. A shot of a field lacks the stars in the hidden cells, so that it is far from the field's code where every cell counts.
 * Under a mask of the cells that are left it is near, and the verdict names the field. */
#include <stdio.h>
#include "tirnavoy.h"

enum { W = 1, M = 8, FIELDS = 60, STARS = 14, SHOWN = 40, REACH = 4, GAP = 3 };
enum { STARTS = TIRNAVOY_STARTS_LENGTH(W, M), IDS = TIRNAVOY_IDS_LENGTH(W, M, FIELDS), MARKS = TIRNAVOY_MARK_WORDS(FIELDS) };

/* the cells that the baffle leaves, as one sees them: the highest row first */
static const char *const baffle[8] = {
    "..####..",
    ".######.",
    "########",
    "########",
    "########",
    "########",
    ".######.",
    "..####..",
};

static uint32_t stars[FIELDS];
static uint64_t codes[FIELDS * W];
static double across[FIELDS][STARS], up[FIELDS][STARS];
static uint32_t starts[STARTS], ids[IDS];
static uint64_t marks[MARKS];

/* a number from 0 up to, not including, 1: the same sky on every machine */
static double chance(void) {
    static uint64_t state = 8;
    state = state * 6364136223846793005u + 1442695040888963407u;
    return (double)(state >> 11) / 9007199254740992.0;
}

static int make_catalogue(void) {
    uint32_t place;
    for (int f = 0; f < FIELDS; f++) {
        stars[f] = 1000 + (uint32_t)f;
        for (int k = 0; k < STARS; k++) {
            across[f][k] = 8 * chance() - 4;
            up[f][k] = 8 * chance() - 4;
        }
        if (tirnavoy_sky_degrees(across[f], STARS, up[f], STARS, &codes[f], &place) != TIRNAVOY_NONE) return 0;
    }
    return tirnavoy_build(W, M, stars, FIELDS, codes, FIELDS * W, starts, STARTS, ids, IDS) == TIRNAVOY_NONE;
}

/* the mask: bit 8 * row + column is 1 where the baffle leaves that cell */
static uint64_t cells_left(void) {
    uint64_t mask = 0;
    for (int row = 0; row < 8; row++)
        for (int column = 0; column < 8; column++)
            if (baffle[7 - row][column] == '#') mask |= (uint64_t)1 << (8 * row + column);
    return mask;
}

/* the nearest field, and the verdict with its reach and gap: without a mask, and under one */
static uint32_t ask(const uint64_t *shot, const uint64_t *mask) {
    uint32_t entry[1], nearest[1], answers, verdict, star, other, distance, farther, opened, tested, table, bucket, refusal;
    if (mask)
        refusal = tirnavoy_nearest_masked(W, M, stars, FIELDS, codes, FIELDS * W, starts, STARTS, ids, IDS, shot, W, mask, W, 1, marks, MARKS, entry, 1, nearest, 1, &answers, &opened, &tested,
                                          &table, &bucket);
    else
        refusal = tirnavoy_nearest(W, M, stars, FIELDS, codes, FIELDS * W, starts, STARTS, ids, IDS, shot, W, 1, marks, MARKS, entry, 1, nearest, 1, &answers, &opened, &tested, &table, &bucket);
    if (refusal != TIRNAVOY_NONE) return refusal;
    printf("    nearest: field %u at distance %u (%u buckets, %u tested)\n", (unsigned)stars[entry[0]], (unsigned)nearest[0], (unsigned)opened, (unsigned)tested);

    if (mask)
        refusal = tirnavoy_verdict_masked(W, M, stars, FIELDS, codes, FIELDS * W, starts, STARTS, ids, IDS, shot, W, mask, W, REACH, GAP, marks, MARKS, &verdict, &star, &other, &distance,
                                          &farther, &opened, &tested, &table, &bucket);
    else
        refusal = tirnavoy_verdict(W, M, stars, FIELDS, codes, FIELDS * W, starts, STARTS, ids, IDS, shot, W, REACH, GAP, marks, MARKS, &verdict, &star, &other, &distance, &farther, &opened,
                                   &tested, &table, &bucket);
    if (refusal != TIRNAVOY_NONE) return refusal;
    printf("    verdict: ");
    if (verdict == TIRNAVOY_MATCH) printf("field %u at distance %u", (unsigned)star, (unsigned)distance);
    if (verdict == TIRNAVOY_UNSURE) printf("unsure, field %u at distance %u or field %u at %u", (unsigned)star, (unsigned)distance, (unsigned)other, (unsigned)farther);
    if (verdict == TIRNAVOY_NO_FIELD) printf("none");
    printf(" (%u buckets, %u tested)\n", (unsigned)opened, (unsigned)tested);
    return TIRNAVOY_NONE;
}

int main(void) {
    const uint64_t mask = cells_left();
    uint64_t shot;
    uint32_t place;
    /* the last of the field's stars is too faint for the shot, and those in the hidden cells are lost */
    if (!make_catalogue() || tirnavoy_sky_degrees(across[SHOWN], STARS - 1, up[SHOWN], STARS - 1, &shot, &place) != TIRNAVOY_NONE) return 1;
    shot &= mask;
    printf("field %u, every cell counts\n", (unsigned)stars[SHOWN]);
    if (ask(&shot, NULL) != TIRNAVOY_NONE) return 1;
    printf("field %u, only the cells that the baffle leaves count\n", (unsigned)stars[SHOWN]);
    if (ask(&shot, &mask) != TIRNAVOY_NONE) return 1;
    return 0;
}
