/* A small simulator: it draws fields, makes a catalogue of their exposures, takes a shot of one field and asks which it is. Most fields have two exposures, a short one and a
 * long one that shows fainter stars too: both are near the shot, and the verdict still names the one field.
 * Then it hands the same shot over with across and up exchanged: a nonsense code is far from everything, and the verdict says so. */
#include <stdio.h>
#include "tirnavoy.h"

/* a short exposure of every field shows SHORT stars, a long exposure of the first TWICE fields shows LONG */
enum { W = 1, M = 8, FIELDS = 60, TWICE = 40, N = FIELDS + TWICE, SHORT = 14, LONG = 16, REACH = 6, GAP = 3 };
enum { STARTS = TIRNAVOY_STARTS_LENGTH(W, M), IDS = TIRNAVOY_IDS_LENGTH(W, M, N), MARKS = TIRNAVOY_MARK_WORDS(N) };

static uint32_t stars[N];
static uint64_t codes[N];
static double across[FIELDS][LONG], up[FIELDS][LONG];
static uint32_t starts[STARTS], ids[IDS];
static uint64_t marks[MARKS];

/* a number from 0 up to, not including, 1: the same sky on every machine */
static double chance(void) {
    static uint64_t state = 2014;
    state = state * 6364136223846793005u + 1442695040888963407u;
    return (double)(state >> 11) / 9007199254740992.0;
}

static void draw_fields(void) {
    for (int f = 0; f < FIELDS; f++) {
        for (int k = 0; k < LONG; k++) {
            across[f][k] = 8 * chance() - 4;
            up[f][k] = 8 * chance() - 4;
        }
    }
}

/* entry e is an exposure of field f that shows n stars */
static int expose(int e, int f, size_t n) {
    uint32_t place;
    stars[e] = 1000 + (uint32_t)f;
    return tirnavoy_sky_degrees(across[f], n, up[f], n, &codes[e], &place) == TIRNAVOY_NONE;
}

static int make_catalogue(void) {
    for (int f = 0; f < FIELDS; f++)
        if (!expose(f, f, SHORT)) return 0;
    for (int f = 0; f < TWICE; f++)
        if (!expose(FIELDS + f, f, LONG)) return 0;
    return tirnavoy_build(W, M, stars, N, codes, N, starts, STARTS, ids, IDS) == TIRNAVOY_NONE;
}

/* which two entries are nearest, whatever their fields */
static void nearest_two(const char *what, const double *x, const double *y, size_t n) {
    uint64_t code;
    uint32_t place, answers, opened, tested, table, bucket, entry[2], distance[2];
    uint32_t refusal = tirnavoy_sky_degrees(x, n, y, n, &code, &place);
    if (refusal == TIRNAVOY_NONE)
        refusal = tirnavoy_nearest(W, M, stars, N, codes, N, starts, STARTS, ids, IDS, &code, 1, 2, marks, MARKS, entry, 2, distance, 2, &answers, &opened, &tested, &table, &bucket);
    if (refusal != TIRNAVOY_NONE) {
        printf("%s: refused %u\n", what, (unsigned)refusal);
        return;
    }
    printf("%s:", what);
    for (uint32_t a = 0; a < answers; a++)
        printf("%s entry %u of field %u at distance %u", a ? "," : "", (unsigned)entry[a], (unsigned)stars[entry[a]], (unsigned)distance[a]);
    printf(" (%u buckets, %u tested)\n", (unsigned)opened, (unsigned)tested);
}

/* asks the verdict on a shot, and how far the nearest field is, whatever the verdict */
static void ask(const char *what, const double *x, const double *y, size_t n) {
    uint64_t code;
    uint32_t place, verdict, star, other, distance, farther, opened, tested, table, bucket, answers, entry[1], nearest[1];
    uint32_t refusal = tirnavoy_sky_degrees(x, n, y, n, &code, &place);
    if (refusal != TIRNAVOY_NONE) {
        printf("%s: refused %u at star %u\n", what, (unsigned)refusal, (unsigned)place);
        return;
    }
    refusal = tirnavoy_verdict(W, M, stars, N, codes, N, starts, STARTS, ids, IDS, &code, 1, REACH, GAP, marks, MARKS, &verdict, &star, &other, &distance, &farther, &opened, &tested, &table,
                               &bucket);
    if (refusal != TIRNAVOY_NONE) {
        printf("%s: refused %u\n", what, (unsigned)refusal);
        return;
    }
    if (verdict == TIRNAVOY_MATCH) printf("%s: field %u at distance %u", what, (unsigned)star, (unsigned)distance);
    if (verdict == TIRNAVOY_UNSURE) printf("%s: unsure, field %u at distance %u or field %u at %u", what, (unsigned)star, (unsigned)distance, (unsigned)other, (unsigned)farther);
    if (verdict == TIRNAVOY_NO_FIELD) {
        /* not refused either: it is asked of the same lists, with room for the one answer */
        tirnavoy_nearest(W, M, stars, N, codes, N, starts, STARTS, ids, IDS, &code, 1, 1, marks, MARKS, entry, 1, nearest, 1, &answers, &opened, &tested, &table, &bucket);
        printf("%s: none, the nearest field is at distance %u", what, (unsigned)nearest[0]);
    }
    printf(" (%u buckets, %u tested)\n", (unsigned)opened, (unsigned)tested);
}

int main(void) {
    double wild = 9;
    draw_fields();
    if (!make_catalogue()) {
        printf("the catalogue was refused\n");
        return 1;
    }
    /* one faint star more than the short exposure shows, and one less than the long one */
    nearest_two("field 1007, nearest two", across[7], up[7], SHORT + 1);
    ask("field 1007, verdict", across[7], up[7], SHORT + 1);
    ask("field 1007, two stars lost", across[7], up[7], SHORT - 2);
    ask("field 1007, across and up exchanged", up[7], across[7], SHORT);
    ask("a star outside the field", &wild, &wild, 1);
    return 0;
}
