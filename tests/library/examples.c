/* Document 01's worked examples and some of 02's requests, asked through the header: every exported function and every out of it. C99 and C++.
 * A wrong value is printed with its place; the last line says how many were right. */
#include <stdio.h>
#include "tirnavoy.h"

enum { W = 1, M = 8, N = 5, ROOM = 6, UNTOUCHED = 77 };
enum { STARTS = TIRNAVOY_STARTS_LENGTH(W, M), IDS = TIRNAVOY_IDS_LENGTH(W, M, N), MARKS = TIRNAVOY_MARK_WORDS(N) };

/* the preprocessor and a constant can ask for a listed shape, and a size of another is a constant too */
#if !TIRNAVOY_LISTED(1, 8) || TIRNAVOY_LISTED(1, 0)
#error "w = 1 and m = 8 are listed, m = 0 is not"
#endif
enum { LISTED = TIRNAVOY_LISTED(W, M), NO_STARTS = TIRNAVOY_STARTS_LENGTH(1, 0), NO_IDS = TIRNAVOY_IDS_LENGTH(3, 8, N) };
static const size_t no_starts = TIRNAVOY_STARTS_LENGTH(1, 64), no_ids = TIRNAVOY_IDS_LENGTH(1, 0, N), no_tables = TIRNAVOY_TABLE_COUNT(1, 0);

/* catalogue A, and the query 3 */
static const uint32_t stars[N] = {10, 10, 20, 30, 40};
static const uint64_t codes[N] = {0, 1, 0xFF, 0xFFFFFFFFFFFFFFFFu, 0x0101010101010101u};
static const uint64_t query[W] = {3};
static uint32_t starts[STARTS], ids[IDS], entries[ROOM], distances[ROOM];
static uint64_t marks[MARKS];
static unsigned passed, failed;

/* the masks of all bits and of none, and that of a telescope that loses the four corner cells: bits 0, 7, 56 and 63 */
static const uint64_t ones[2 * W] = {0xFFFFFFFFFFFFFFFFu, 0xFFFFFFFFFFFFFFFFu}, zeros[W] = {0}, corners_lost[W] = {0x7EFFFFFFFFFFFF7Eu};

/* the mask of a search or a verdict, and its words; none is a plain call */
static const uint64_t *mask = NULL;
static size_t mask_len = 0;

static void expect(int line, uint64_t got, uint64_t expected) {
    if (got == expected) {
        passed++;
        return;
    }
    failed++;
    printf("line %d: %llu, and %llu was expected\n", line, (unsigned long long)got, (unsigned long long)expected);
}

static void lists(int line, const uint32_t *expected_entries, const uint32_t *expected_distances) {
    for (int p = 0; p < ROOM; p++) {
        expect(line, entries[p], expected_entries[p]);
        expect(line, distances[p], expected_distances[p]);
    }
    expect(line, marks[0], 0);
}

/* what a search reports, in the order of its outs */
static const char *const outs[] = {"answers", "opened", "tested", "table", "bucket"};

static void search(int line, int radius, uint32_t number, size_t room, uint32_t refusal, const uint32_t *expected) {
    uint32_t got[5], returned;
    for (int p = 0; p < ROOM; p++) entries[p] = distances[p] = UNTOUCHED;
    marks[0] = UNTOUCHED;
    if (mask)
        returned = (radius ? tirnavoy_within_masked : tirnavoy_nearest_masked)(W, M, stars, N, codes, N, starts, STARTS, ids, IDS, query, W, mask, mask_len, number, marks, MARKS, entries, room,
                                                                               distances, room, &got[0], &got[1], &got[2], &got[3], &got[4]);
    else
        returned = (radius ? tirnavoy_within : tirnavoy_nearest)(W, M, stars, N, codes, N, starts, STARTS, ids, IDS, query, W, number, marks, MARKS, entries, room, distances, room, &got[0],
                                                                 &got[1], &got[2], &got[3], &got[4]);
    expect(line, returned, refusal);
    for (int o = 0; o < 5; o++) {
        if (got[o] != expected[o]) printf("%s: ", outs[o]);
        expect(line, got[o], expected[o]);
    }
}

static void nearest(void) {
    const uint32_t p1[] = {0, 0, 0, 0, 0}, p2[] = {1, 2, 3, 0, 0}, p3[] = {2, 3, 3, 0, 0}, p4[] = {4, 16, 4, 0, 0}, p5[] = {5, 2032, 5, 0, 0};
    const uint32_t none[] = {77, 77, 77, 77, 77, 77}, e4[] = {1, 0, 2, 4, 77, 77}, d4[] = {1, 2, 6, 8, 77, 77}, e5[] = {1, 0, 2, 4, 3, 77}, d5[] = {1, 2, 6, 8, 62, 77};
    search(__LINE__, 0, 0, ROOM, TIRNAVOY_NONE, p1);
    lists(__LINE__, none, none);
    search(__LINE__, 0, 1, ROOM, TIRNAVOY_NONE, p2);
    search(__LINE__, 0, 2, ROOM, TIRNAVOY_NONE, p3);
    search(__LINE__, 0, 4, ROOM, TIRNAVOY_NONE, p4);
    lists(__LINE__, e4, d4);
    search(__LINE__, 0, 9, ROOM, TIRNAVOY_NONE, p5);
    lists(__LINE__, e5, d5);
    search(__LINE__, 0, 9, 4, TIRNAVOY_ROOM, p1);
}

static void within(void) {
    const uint32_t refused[] = {0, 0, 0, 0, 0}, p6[] = {0, 1, 0, 0, 0}, p7[] = {1, 2, 3, 0, 0}, all[] = {5, 2041, 5, 0, 0}, six[] = {1, 0, 0, 0, 0};
    const uint32_t e7[] = {1, 0, 0, 0, 0, 77}, d7[] = {1, 0, 0, 0, 0, 77};
    search(__LINE__, 1, 0, ROOM, TIRNAVOY_NONE, p6);
    search(__LINE__, 1, 1, ROOM, TIRNAVOY_NONE, p7);
    lists(__LINE__, e7, d7);
    search(__LINE__, 1, 64, ROOM, TIRNAVOY_NONE, all);
    search(__LINE__, 1, 65, ROOM, TIRNAVOY_QUERY, refused);
    search(__LINE__, 1, 1, 0, TIRNAVOY_TOO_MANY, six);
}

static void verdict(int line, uint32_t t, uint32_t g, uint32_t refusal, const uint32_t *expected) {
    uint32_t got[9], returned;
    if (mask)
        returned = tirnavoy_verdict_masked(W, M, stars, N, codes, N, starts, STARTS, ids, IDS, query, W, mask, mask_len, t, g, marks, MARKS, &got[0], &got[1], &got[2], &got[3], &got[4],
                                           &got[5], &got[6], &got[7], &got[8]);
    else
        returned = tirnavoy_verdict(W, M, stars, N, codes, N, starts, STARTS, ids, IDS, query, W, t, g, marks, MARKS, &got[0], &got[1], &got[2], &got[3], &got[4], &got[5], &got[6], &got[7],
                                    &got[8]);
    expect(line, returned, refusal);
    for (int o = 0; o < 9; o++) expect(line, got[o], expected[o]);
}

/* the runner-up is entry 2, star 20 at 6: seven steps, of a bucket each */
static void verdicts(void) {
    const uint32_t p10[] = {TIRNAVOY_NO_FIELD, 0, 0, 0, 0, 7, 3, 0, 0}, unsure[] = {TIRNAVOY_UNSURE, 10, 20, 1, 6, 7, 3, 0, 0}, match[] = {TIRNAVOY_MATCH, 10, 0, 1, 0, 7, 3, 0, 0};
    verdict(__LINE__, 0, 0, TIRNAVOY_NONE, p10);
    verdict(__LINE__, 4, 6, TIRNAVOY_NONE, unsure);
    verdict(__LINE__, 4, 5, TIRNAVOY_NONE, match);
    verdict(__LINE__, 4, 3, TIRNAVOY_NONE, match);
}

/* 02, L6: every bit counts, as without a mask */
static void under_ones(void) {
    mask = ones, mask_len = W;
    nearest();
    within();
    verdicts();
    mask = NULL;
}

/* 02, L6: no bit counts. Every distance is 0, and step 0 opens all of table 0. Steps 1 to 7 open the other tables whole, and step 8, the next of table 0, opens nothing more */
static void under_zeros(void) {
    const uint32_t k0[] = {0, 0, 0, 0, 0}, k2[] = {2, 256, 5, 0, 0}, r0[] = {5, 256, 5, 0, 0}, r9[] = {5, 2048, 5, 0, 0};
    const uint32_t unsure[] = {TIRNAVOY_UNSURE, 10, 20, 0, 0, 256, 5, 0, 0}, match[] = {TIRNAVOY_MATCH, 10, 0, 0, 0, 256, 5, 0, 0};
    const uint32_t e2[] = {0, 1, 77, 77, 77, 77}, d2[] = {0, 0, 77, 77, 77, 77}, e5[] = {0, 1, 2, 3, 4, 77}, d5[] = {0, 0, 0, 0, 0, 77};
    mask = zeros, mask_len = W;
    search(__LINE__, 0, 0, ROOM, TIRNAVOY_NONE, k0);
    search(__LINE__, 0, 2, ROOM, TIRNAVOY_NONE, k2);
    lists(__LINE__, e2, d2);
    search(__LINE__, 1, 0, ROOM, TIRNAVOY_NONE, r0);
    lists(__LINE__, e5, d5);
    search(__LINE__, 1, 9, ROOM, TIRNAVOY_NONE, r9);
    search(__LINE__, 1, 64, ROOM, TIRNAVOY_NONE, r9);
    verdict(__LINE__, 0, 1, TIRNAVOY_NONE, unsure);
    verdict(__LINE__, 64, 64, TIRNAVOY_NONE, unsure);
    verdict(__LINE__, 0, 0, TIRNAVOY_NONE, match);
    mask = NULL;
}

/* 02, L6: the corner cells are lost. 6 of the 8 bits of substrings 0 and 7 count, and so each bucket there brings 2 * 2 with it. Exclusive-ors with the query 3, and the distances:
 *   entry 0: bits 0, 1                       1      entry 3: all but bits 0 and 1               62 - 3 = 59
 *   entry 1: bit 1                           1      entry 4: bits 1, 8, 16, 24, .., 56          8 - 1 = 7
 *   entry 2: bits 2 to 7                     5
 * Step 0 opens in table 0 the exclusive-ors 0, 1, 0x80 and 0x81, the buckets 3, 2, 0x83 and 0x82, which are empty. Step 1 opens bucket 0 of table 1, with entries 0, 1 and 2: 4 + 1
 * buckets. After step 5 these are 4 + 5; after step 7, which opens the buckets 0, 1, 0x80 and 0x81 of table 7 with all of these and entry 4, they are 4 + 6 + 4. Step 59 = 8 * 7 + 3:
 * tables 0 to 3 to radius 7, with 4 * 64, 255, 255 and 255 buckets, and tables 4 to 7 to radius 6, with 247, 247, 247 and 4 * 64: 2018. Step 64 = 8 * 8 + 0: 256 of tables 0 and 7,
 * and 255 of the others: 2042. */
static void under_corners_lost(void) {
    const uint32_t k1[] = {1, 5, 3, 0, 0}, k2[] = {2, 5, 3, 0, 0}, k3[] = {3, 9, 3, 0, 0}, k4[] = {4, 14, 4, 0, 0}, k5[] = {5, 2018, 5, 0, 0};
    const uint32_t r0[] = {0, 4, 0, 0, 0}, all[] = {5, 2042, 5, 0, 0}, six[] = {2, 0, 0, 0, 0};
    const uint32_t none[] = {TIRNAVOY_NO_FIELD, 0, 0, 0, 0, 9, 3, 0, 0}, unsure[] = {TIRNAVOY_UNSURE, 10, 20, 1, 5, 9, 3, 0, 0}, match[] = {TIRNAVOY_MATCH, 10, 0, 1, 0, 9, 3, 0, 0};
    const uint32_t e2[] = {0, 1, 77, 77, 77, 77}, d2[] = {1, 1, 77, 77, 77, 77}, e5[] = {0, 1, 2, 4, 3, 77}, d5[] = {1, 1, 5, 7, 59, 77};
    mask = corners_lost, mask_len = W;
    search(__LINE__, 0, 1, ROOM, TIRNAVOY_NONE, k1);
    search(__LINE__, 0, 2, ROOM, TIRNAVOY_NONE, k2);
    lists(__LINE__, e2, d2);
    search(__LINE__, 0, 3, ROOM, TIRNAVOY_NONE, k3);
    search(__LINE__, 0, 4, ROOM, TIRNAVOY_NONE, k4);
    search(__LINE__, 0, 9, ROOM, TIRNAVOY_NONE, k5);
    lists(__LINE__, e5, d5);
    search(__LINE__, 1, 0, ROOM, TIRNAVOY_NONE, r0);
    search(__LINE__, 1, 1, 1, TIRNAVOY_TOO_MANY, six);
    search(__LINE__, 1, 64, ROOM, TIRNAVOY_NONE, all);
    lists(__LINE__, e5, d5);
    verdict(__LINE__, 0, 0, TIRNAVOY_NONE, none);
    verdict(__LINE__, 1, 5, TIRNAVOY_NONE, unsure);
    verdict(__LINE__, 1, 4, TIRNAVOY_NONE, match);
    mask = NULL;
}

/* 02, L6: a mask of no word or of two is refused, and no list changes; r, t and g above 64 are, and not 64 itself, however few bits count */
static void masks_refused(void) {
    const uint32_t refused[9] = {0};
    for (mask_len = 0; mask_len <= 2 * W; mask_len += 2 * W) {
        mask = ones;
        for (int radius = 0; radius <= 1; radius++) {
            search(__LINE__, radius, 2, ROOM, TIRNAVOY_QUERY, refused);
            for (int p = 0; p < ROOM; p++) expect(__LINE__, entries[p] == UNTOUCHED && distances[p] == UNTOUCHED, 1);
            expect(__LINE__, marks[0], UNTOUCHED);
        }
        verdict(__LINE__, 1, 1, TIRNAVOY_QUERY, refused);
        expect(__LINE__, marks[0], UNTOUCHED);
    }
    mask = zeros, mask_len = W;
    search(__LINE__, 1, 65, ROOM, TIRNAVOY_QUERY, refused);
    verdict(__LINE__, 65, 0, TIRNAVOY_QUERY, refused);
    verdict(__LINE__, 0, 65, TIRNAVOY_QUERY, refused);
    mask = NULL;
}

/* 02, L6: bits 0 and 6 are hidden. A step goes by the whole exclusive-or, hidden bits included: step 0 opens in table 0 the exclusive-ors 0, 1, 0x40 and 0x41, the buckets 3, 2, 0x43 and 0x42,
 * and step 8 begins with 0x02, 0x03, 0x04 and comes to 0x42 and 0x43 later. A start that is one too large makes two buckets bad, that which it ends and that which it begins: 0x42 and
 * 0x43, of which step 0 opens 0x43 first; then 0x40 and 0x41, of exclusive-ors 0x43 and 0x42, and 7 and 8, of which step 8 opens 7 first, by 0x04. */
static void first_bad_bucket(void) {
    static const uint64_t two_hidden[W] = {0xFFFFFFFFFFFFFFBEu};
    const uint32_t at_step_0[] = {0, 0, 0, 0, 0x43}, at_step_8[] = {0, 0, 0, 0, 7};
    mask = two_hidden, mask_len = W;
    starts[0x43]++;
    search(__LINE__, 0, 5, ROOM, TIRNAVOY_BAD_BUCKET, at_step_0);
    starts[0x43]--;
    starts[0x41]++, starts[8]++;
    search(__LINE__, 0, 5, ROOM, TIRNAVOY_BAD_BUCKET, at_step_8);
    starts[0x41]--, starts[8]--;
    mask = NULL;
}

enum { ASKED = 3, WANTED = 3, OUTCOMES = TIRNAVOY_OUTCOMES_LENGTH(ASKED), RECORDS = TIRNAVOY_RECORDS_LENGTH(ASKED, WANTED) };
static uint32_t outcomes[OUTCOMES + 1];
static struct tirnavoy_answer records[RECORDS + 1];

/* a batch over catalogue A: its number and every place of its lists, with one place behind each */
static void batch(int line, const uint64_t *queries, size_t count, uint32_t k, size_t outcomes_len, size_t records_len, uint32_t refusal, const uint32_t *told, const uint32_t *answers) {
    for (int p = 0; p <= OUTCOMES; p++) outcomes[p] = UNTOUCHED;
    for (int p = 0; p <= RECORDS; p++) records[p].entry = records[p].star = records[p].distance = UNTOUCHED;
    marks[0] = UNTOUCHED;
    expect(line, tirnavoy_batch(W, M, stars, N, codes, N, starts, STARTS, ids, IDS, queries, count, k, marks, MARKS, outcomes, outcomes_len, records, records_len), refusal);
    for (int p = 0; p <= OUTCOMES; p++) expect(line, outcomes[p], told[p]);
    for (int p = 0; p <= RECORDS; p++) {
        expect(line, records[p].entry, answers[3 * p]);
        expect(line, records[p].star, answers[3 * p + 1]);
        expect(line, records[p].distance, answers[3 * p + 2]);
    }
    expect(line, marks[0], refusal == TIRNAVOY_NONE ? 0 : UNTOUCHED);
}

/* 02, L3: the queries 3 (as P2 and P3), all ones, and 0xFF, each as if it were alone */
static void batches(void) {
    static const uint64_t queries[257] = {3, 0xFFFFFFFFFFFFFFFFu, 0xFF};
    static const uint32_t untouched[] = {77, 77, 77, 77, 77, 77, 77, 77, 77, 77, 77, 77, 77};
    static const uint32_t unwritten[] = {77, 77, 77, 77, 77, 77, 77, 77, 77, 77, 77, 77, 77, 77, 77, 77, 77, 77, 77, 77, 77, 77, 77, 77, 77, 77, 77, 77, 77, 77};
    const uint32_t two[] = {0, 2, 3, 3, 0, 2, 1984, 4, 0, 2, 8, 4, 77};
    const uint32_t pairs[] = {1, 10, 1, 0, 10, 2, 3, 30, 0, 2, 20, 56, 2, 20, 0, 1, 10, 7, 77, 77, 77, 77, 77, 77, 77, 77, 77, 77, 77, 77};
    const uint32_t spoilt[] = {7, 0, 0, 0, 0, 1, 1, 2, 0, 1, 1, 2, 77};
    const uint32_t others[] = {0, 0, 0, 3, 30, 0, 2, 20, 0, 77, 77, 77, 77, 77, 77, 77, 77, 77, 77, 77, 77, 77, 77, 77, 77, 77, 77, 77, 77, 77};
    const uint32_t zeros[] = {0, 0, 0, 0, 0, 0, 0, 0, 0, 0, 0, 0, 77};
    batch(__LINE__, queries, ASKED, 2, OUTCOMES, RECORDS, TIRNAVOY_NONE, two, pairs);
    batch(__LINE__, queries, ASKED, 0, OUTCOMES, 0, TIRNAVOY_NONE, zeros, unwritten);
    batch(__LINE__, queries, 0, 4294967295u, 0, 0, TIRNAVOY_NONE, untouched, unwritten);
    batch(__LINE__, queries, ASKED, 4, OUTCOMES, RECORDS, TIRNAVOY_BATCH, untouched, unwritten);
    batch(__LINE__, queries, ASKED, 2, OUTCOMES - 1, RECORDS, TIRNAVOY_BATCH, untouched, unwritten);
    batch(__LINE__, queries, 1, 4294967295u, OUTCOMES, RECORDS, TIRNAVOY_BATCH, untouched, unwritten);
    batch(__LINE__, queries, 257, 0, OUTCOMES, RECORDS, TIRNAVOY_BATCH, untouched, unwritten);
    expect(__LINE__, tirnavoy_batch(W, M, stars, N, codes, N, starts, STARTS, ids, IDS, queries, 257, 9, marks, 0, outcomes, 0, records, 0), TIRNAVOY_ROOM);
    expect(__LINE__, tirnavoy_batch(2, 16, stars, 0, codes, 0, starts, 0, ids, 0, queries, 3, 1, marks, 0, outcomes, 0, records, 0), TIRNAVOY_TABLES);
    starts[4]++; /* bucket 3 of table 0, which only the first query opens at step 0 */
    batch(__LINE__, queries, ASKED, 1, OUTCOMES, RECORDS, TIRNAVOY_NONE, spoilt, others);
    starts[4]--;
}

/* the verdict on other catalogues, with the query 0 */
static void exposures(int line, const uint32_t *shown, const uint64_t *shots, size_t n, uint32_t t, uint32_t g, const uint32_t *expected) {
    static const uint64_t nothing[W] = {0};
    static uint32_t its_starts[STARTS], its_ids[IDS];
    size_t length = TIRNAVOY_IDS_LENGTH(W, M, n);
    uint32_t got[9];
    expect(line, tirnavoy_build(W, M, shown, n, shots, n, its_starts, STARTS, its_ids, length), TIRNAVOY_NONE);
    expect(line, tirnavoy_verdict(W, M, shown, n, shots, n, its_starts, STARTS, its_ids, length, nothing, W, t, g, marks, MARKS, &got[0], &got[1], &got[2], &got[3], &got[4], &got[5], &got[6],
                                  &got[7], &got[8]),
           TIRNAVOY_NONE);
    for (int o = 0; o < 9; o++) expect(line, got[o], expected[o]);
}

/* 02, L1: two exposures of one field, and two others as far as each other, of which table 0 finds the later first. Distances 0, 2, 4, 4 */
static void two_exposures(void) {
    const uint64_t shots[] = {0, 3, 0xF0, 0xF000}, found_late[] = {0x0700, 0x01};
    const uint32_t field[] = {5, 5, 6, 7}, other[] = {6, 5, 5, 5}, one[] = {5, 5, 5, 5}, two[] = {5, 6};
    const uint32_t unsure[] = {TIRNAVOY_UNSURE, 5, 6, 0, 4, 5, 4, 0, 0}, match[] = {TIRNAVOY_MATCH, 5, 0, 0, 0, 5, 4, 0, 0}, second[] = {TIRNAVOY_UNSURE, 6, 5, 0, 2, 3, 4, 0, 0};
    const uint32_t alone[] = {TIRNAVOY_MATCH, 5, 0, 0, 0, 2041, 4, 0, 0}, single[] = {TIRNAVOY_MATCH, 5, 0, 0, 0, 2041, 1, 0, 0}, none[] = {TIRNAVOY_NO_FIELD, 0, 0, 0, 0, 0, 0, 0, 0};
    const uint32_t exchanged[] = {TIRNAVOY_UNSURE, 6, 5, 1, 3, 4, 2, 0, 0};
    /* the runner-up is entry 2, which has a smaller number than entry 3; it is near after step 4, the fifth */
    exposures(__LINE__, field, shots, 4, 0, 5, unsure);
    exposures(__LINE__, field, shots, 4, 0, 4, match);
    exposures(__LINE__, field, shots, 4, 64, 3, match);
    /* the second entry has another star and is the runner-up, near after step 2 */
    exposures(__LINE__, other, shots, 4, 0, 3, second);
    /* one star: no runner-up, and the walk goes to step 64 = 8 * 8 + 0: 256 buckets of table 0 and 255 of each of the other 7 */
    exposures(__LINE__, one, shots, 4, 0, 64, alone);
    exposures(__LINE__, one, shots, 1, 0, 64, single);
    /* no entries: nothing is opened */
    exposures(__LINE__, one, shots, 0, 64, 64, none);
    /* step 0 tests entry 0, at 3; step 1 tests entry 1, at 1 and of another star: entry 0 is its runner-up */
    exposures(__LINE__, two, found_late, 2, 1, 3, exchanged);
}

enum { TWO = 2, ELEVEN = 11, THREE = 3, THEIR_STARTS = TIRNAVOY_STARTS_LENGTH(TWO, ELEVEN), THEIR_IDS = TIRNAVOY_IDS_LENGTH(TWO, ELEVEN, THREE) };

/* The k nearest of three entries in 11 tables to the query 0, with the call's mask or without one. The entry of number k - 1 is the last of them, and the walk stops at its distance. */
static void eleven(int line, uint32_t k, uint32_t distance, uint32_t opened, uint32_t tested) {
    static const uint64_t shots[THREE * TWO] = {(uint64_t)1 << 63, 1, 0x1001001001001001u, 0x0020040080100100u, 0xFFFFFFFFFFFFFFFFu, 0xFFFFFFFFFFFFFFFFu}, nothing[TWO] = {0, 0};
    static uint32_t their_starts[THEIR_STARTS], their_ids[THEIR_IDS];
    uint32_t got[5], buckets = UNTOUCHED, returned;
    expect(line, tirnavoy_build(TWO, ELEVEN, stars, THREE, shots, THREE * TWO, their_starts, THEIR_STARTS, their_ids, THEIR_IDS), TIRNAVOY_NONE);
    if (mask)
        returned = tirnavoy_nearest_masked(TWO, ELEVEN, stars, THREE, shots, THREE * TWO, their_starts, THEIR_STARTS, their_ids, THEIR_IDS, nothing, TWO, mask, mask_len, k, marks, MARKS,
                                           entries, THREE, distances, THREE, &got[0], &got[1], &got[2], &got[3], &got[4]);
    else
        returned = tirnavoy_nearest(TWO, ELEVEN, stars, THREE, shots, THREE * TWO, their_starts, THEIR_STARTS, their_ids, THEIR_IDS, nothing, TWO, k, marks, MARKS, entries, THREE, distances,
                                    THREE, &got[0], &got[1], &got[2], &got[3], &got[4]);
    expect(line, returned, TIRNAVOY_NONE);
    expect(line, got[0], k);
    expect(line, got[1], opened);
    expect(line, got[2], tested);
    expect(line, entries[k - 1], k - 1);
    expect(line, distances[k - 1], distance);
    expect(line, mask ? tirnavoy_blackboard_masked(TWO, ELEVEN, mask, mask_len, distance, &buckets) : tirnavoy_blackboard(TWO, ELEVEN, distance, &buckets), TIRNAVOY_NONE);
    expect(line, buckets, opened);
}

/* 02, L4: 128 bits in 11 tables, seven of 12 bits and then four of 11. Entry 0 has two bits in substring 5, which is bits 60 to 71, of both words; entry 1 has one bit in each
 * substring; entry 2 has all. Distances from the query 0: 2, 11, 128 */
static void eleven_tables(void) {
    static const uint64_t substring_5_hidden[TWO] = {0x0FFFFFFFFFFFFFFFu, 0xFFFFFFFFFFFFFF00u};
    expect(__LINE__, THEIR_STARTS, 7 * (4096 + 1) + 4 * (2048 + 1));
    /* step 2 is the third bucket; step 11 = 11 * 1 + 0 the 12 of table 0 at distance 1; after step 128 = 11 * 11 + 7 the tables of 12 bits lack one bucket each, and three of 11 bits */
    eleven(__LINE__, 1, 2, 3, 1);
    eleven(__LINE__, 2, 11, 23, 2);
    eleven(__LINE__, 3, 128, 36854, 3);
    /* substring 5 hidden: distances 0, 10, 116. Step 5 opens all 4096 buckets of table 5 and finds every entry; step 116 = 11 * 10 + 6 leaves 1 + 12 buckets closed in each other table of
     * 12 bits, and 1 + 11 in each of 11 bits */
    mask = substring_5_hidden, mask_len = TWO;
    eleven(__LINE__, 1, 0, 1, 1);
    eleven(__LINE__, 2, 10, 4106, 3);
    eleven(__LINE__, 3, 116, 36738, 3);
    mask = NULL;
}

static void sky(int line, int radians, double across, double up, uint32_t refusal, uint64_t expected) {
    uint64_t code = UNTOUCHED;
    uint32_t place = UNTOUCHED;
    expect(line, (radians ? tirnavoy_sky_radians : tirnavoy_sky_degrees)(&across, 1, &up, 1, &code, &place), refusal);
    expect(line, code, expected);
    expect(line, place, 0);
}

static void skies(void) {
    const double none = 0;
    uint64_t code;
    uint32_t place;
    sky(__LINE__, 0, -4, -0.0, TIRNAVOY_NONE, (uint64_t)1 << (8 * 4 + 0));
    sky(__LINE__, 0, -0.0, -4, TIRNAVOY_NONE, (uint64_t)1 << (8 * 0 + 4));
    sky(__LINE__, 0, 4, 0, TIRNAVOY_OUTSIDE, 0);
    sky(__LINE__, 0, 0.06, 0, TIRNAVOY_NONE, (uint64_t)1 << (8 * 4 + 4));
    sky(__LINE__, 1, 0.06, 0, TIRNAVOY_NONE, (uint64_t)1 << (8 * 4 + 7));
    sky(__LINE__, 1, 0.07, 0, TIRNAVOY_OUTSIDE, 0);
    expect(__LINE__, tirnavoy_sky_degrees(&none, 1, &none, 0, &code, &place), TIRNAVOY_OFFSETS);
}

static void tables(void) {
    const uint32_t unsound[] = {0, 0, 0, 0, 3};
    uint32_t sound = UNTOUCHED;
    expect(__LINE__, tirnavoy_build(W, M, stars, N, codes, N, starts, STARTS - 1, ids, IDS), TIRNAVOY_TABLES);
    expect(__LINE__, tirnavoy_build(W, M, stars, N, codes, N, starts, STARTS, ids, IDS), TIRNAVOY_NONE);
    expect(__LINE__, tirnavoy_check(W, M, stars, N, codes, N, starts, STARTS, ids, IDS, &sound), TIRNAVOY_NONE);
    expect(__LINE__, sound, 1);
    starts[4]++; /* the end of table 0's bucket 3, the first that query 3 opens: it now lists an entry of another bucket */
    expect(__LINE__, tirnavoy_check(W, M, stars, N, codes, N, starts, STARTS, ids, IDS, &sound), TIRNAVOY_NONE);
    expect(__LINE__, sound, 0);
    search(__LINE__, 0, 1, ROOM, TIRNAVOY_BAD_BUCKET, unsound);
    starts[4]--;
}

/* for each w and m the size macros agree with the library: listed are those that it does not refuse 1, and it takes lists of those sizes and none that is one shorter */
static void sizes(void) {
    enum { TOP = 70 };
    static const uint32_t one_star[1] = {0};
    static const uint64_t its_code[TOP] = {0};
    static uint32_t all_starts[TIRNAVOY_STARTS_LENGTH(4, 16)], all_ids[TIRNAVOY_IDS_LENGTH(4, 64, 1)];
    expect(__LINE__, LISTED, 1);
    expect(__LINE__, NO_STARTS + NO_IDS + no_starts + no_ids + no_tables, 0);
    for (uint32_t w = 0; w <= TOP; w++) {
        for (uint32_t m = 0; m <= TOP; m++) {
            const size_t p = TIRNAVOY_STARTS_LENGTH(w, m), i = TIRNAVOY_IDS_LENGTH(w, m, 1);
            const uint32_t returned = tirnavoy_build(w, m, one_star, 1, its_code, w, all_starts, p, all_ids, i);
            expect(__LINE__, returned, TIRNAVOY_LISTED(w, m) ? TIRNAVOY_NONE : TIRNAVOY_SHAPE);
            if (returned != TIRNAVOY_NONE) continue;
            expect(__LINE__, tirnavoy_build(w, m, one_star, 1, its_code, w, all_starts, p - 1, all_ids, i), TIRNAVOY_TABLES);
            expect(__LINE__, tirnavoy_build(w, m, one_star, 1, its_code, w, all_starts, p, all_ids, i - 1), TIRNAVOY_TABLES);
        }
    }
}

static void count(int line, const uint64_t *under, size_t under_len, uint32_t step, uint32_t refusal, uint32_t expected) {
    uint32_t buckets = UNTOUCHED;
    expect(line, under ? tirnavoy_blackboard_masked(W, M, under, under_len, step, &buckets) : tirnavoy_blackboard(W, M, step, &buckets), refusal);
    expect(line, buckets, expected);
}

/* the counts of the searches above, for each of the masks too */
static void blackboard(void) {
    uint32_t buckets = UNTOUCHED;
    count(__LINE__, NULL, 0, 62, TIRNAVOY_NONE, 2032);
    count(__LINE__, NULL, 0, 65, TIRNAVOY_QUERY, 0);
    for (uint32_t step = 0; step <= 64; step++) {
        expect(__LINE__, tirnavoy_blackboard(W, M, step, &buckets), TIRNAVOY_NONE);
        count(__LINE__, ones, W, step, TIRNAVOY_NONE, buckets);
    }
    count(__LINE__, zeros, W, 0, TIRNAVOY_NONE, 256);
    count(__LINE__, zeros, W, 7, TIRNAVOY_NONE, 2048);
    count(__LINE__, zeros, W, 64, TIRNAVOY_NONE, 2048);
    count(__LINE__, corners_lost, W, 1, TIRNAVOY_NONE, 5);
    count(__LINE__, corners_lost, W, 7, TIRNAVOY_NONE, 14);
    count(__LINE__, corners_lost, W, 59, TIRNAVOY_NONE, 2018);
    count(__LINE__, corners_lost, W, 64, TIRNAVOY_NONE, 2042);
    count(__LINE__, zeros, W, 65, TIRNAVOY_QUERY, 0);
    count(__LINE__, ones, 0, 0, TIRNAVOY_QUERY, 0);
    count(__LINE__, ones, 2 * W, 0, TIRNAVOY_QUERY, 0);
    expect(__LINE__, tirnavoy_blackboard_masked(W, 64, ones, 0, 65, &buckets), TIRNAVOY_SHAPE);
    expect(__LINE__, buckets, 0);
}

int main(void) {
    sizes();
    tables();
    nearest();
    within();
    verdicts();
    under_ones();
    under_zeros();
    under_corners_lost();
    masks_refused();
    first_bad_bucket();
    batches();
    two_exposures();
    eleven_tables();
    blackboard();
    skies();
    printf("%u passed, %u failed\n", passed, failed);
    return failed != 0;
}
