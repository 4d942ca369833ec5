/* A class's table: 30 groups hand in a shot each, and one call finds the nearest field of every one. Most groups lose a few stars of their field or see some that are not in it;
 * group 13 exchanges across and up, and its row shows it by the distance. */
#include <stdio.h>
#include "tirnavoy.h"

enum { W = 1, M = 8, FIELDS = 60, STARS = 14, GROUPS = 30, MIXED_UP = 13, K = 1 };
enum { STARTS = TIRNAVOY_STARTS_LENGTH(W, M), IDS = TIRNAVOY_IDS_LENGTH(W, M, FIELDS), MARKS = TIRNAVOY_MARK_WORDS(FIELDS) };
enum { OUTCOMES = TIRNAVOY_OUTCOMES_LENGTH(GROUPS), RECORDS = TIRNAVOY_RECORDS_LENGTH(GROUPS, K) };

static uint32_t stars[FIELDS];
static uint64_t codes[FIELDS * W], shots[GROUPS * W];
static double across[FIELDS][STARS], up[FIELDS][STARS];
static uint32_t starts[STARTS], ids[IDS], outcomes[OUTCOMES];
static uint64_t marks[MARKS];
static struct tirnavoy_answer answers[RECORDS];

/* a number from 0 up to, not including, 1: the same sky on every machine */
static double chance(void) {
    static uint64_t state = 30;
    state = state * 6364136223846793005u + 1442695040888963407u;
    return (double)(state >> 11) / 9007199254740992.0;
}

static double offset(void) { return 8 * chance() - 4; }

static int make_catalogue(void) {
    uint32_t place;
    for (int f = 0; f < FIELDS; f++) {
        stars[f] = 1000 + (uint32_t)f;
        for (int k = 0; k < STARS; k++) {
            across[f][k] = offset();
            up[f][k] = offset();
        }
        if (tirnavoy_sky_degrees(across[f], STARS, up[f], STARS, &codes[f], &place) != TIRNAVOY_NONE) return 0;
    }
    return tirnavoy_build(W, M, stars, FIELDS, codes, FIELDS * W, starts, STARTS, ids, IDS) == TIRNAVOY_NONE;
}

/* group g's shot of some field: g % 5 of its stars are lost, and g % 3 others are seen */
static int take_shot(int g, uint64_t *code) {
    const int f = (int)(FIELDS * chance()), seen = STARS - g % 5, all = seen + g % 3;
    double x[STARS + 2], y[STARS + 2];
    uint32_t place;
    for (int k = 0; k < all; k++) {
        x[k] = k < seen ? across[f][k] : offset();
        y[k] = k < seen ? up[f][k] : offset();
    }
    if (g == MIXED_UP) return tirnavoy_sky_degrees(y, (size_t)all, x, (size_t)all, code, &place) == TIRNAVOY_NONE;
    return tirnavoy_sky_degrees(x, (size_t)all, y, (size_t)all, code, &place) == TIRNAVOY_NONE;
}

static void print_row(int g) {
    const uint32_t *outcome = &outcomes[TIRNAVOY_OUTCOMES_LENGTH(g - 1)];
    const struct tirnavoy_answer *nearest = &answers[TIRNAVOY_RECORDS_LENGTH(g - 1, K)];
    if (outcome[TIRNAVOY_OUTCOME_REFUSAL] != TIRNAVOY_NONE)
        printf("%5d refused %u\n", g, (unsigned)outcome[TIRNAVOY_OUTCOME_REFUSAL]);
    else if (outcome[TIRNAVOY_OUTCOME_ANSWERS] == 0)
        printf("%5d none\n", g);
    else
        printf("%5d %5u %8u %7u\n", g, (unsigned)nearest->star, (unsigned)nearest->distance, (unsigned)outcome[TIRNAVOY_OUTCOME_OPENED]);
}

int main(void) {
    if (!make_catalogue()) {
        printf("the catalogue was refused\n");
        return 1;
    }
    for (int g = 1; g <= GROUPS; g++)
        if (!take_shot(g, &shots[g - 1])) return 1;
    const uint32_t refusal = tirnavoy_batch(W, M, stars, FIELDS, codes, FIELDS * W, starts, STARTS, ids, IDS, shots, GROUPS * W, K, marks, MARKS, outcomes, OUTCOMES, answers, RECORDS);
    if (refusal != TIRNAVOY_NONE) {
        printf("the batch was refused %u\n", (unsigned)refusal);
        return 1;
    }
    printf("group field distance buckets\n");
    for (int g = 1; g <= GROUPS; g++) print_row(g);
    return 0;
}
