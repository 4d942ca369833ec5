/* Tirnavoy: exact search in Hamming distance over binary codes of star fields.
 *
 * Every function ends on every input, touches only the lists it is lent, and returns the number of the first refusal that fits (0: none). A list is a pointer and its number
 * of elements; the pointer is not null, also where that number is 0, and a list that a call writes overlaps no other. An out is a pointer to one number, which the call always
 * writes: it is not null, and the outs of a call are distinct and lie in none of its lists. No call keeps a pointer.
 *
 * A catalogue is two lists: n star numbers, and n codes of w words each, bit j of a code being bit j % 64 of its word j / 64. Entries are numbered from 0. A code is cut into m
 * substrings, and each has a table. The tables are two lists that tirnavoy_build fills. The macros below give the sizes of all lists.
 */
#ifndef TIRNAVOY_H
#define TIRNAVOY_H

#include <stddef.h>
#include <stdint.h>

#ifdef __cplusplus
extern "C" {
#endif

/* What a function returns. Refusals 1 to 5 and 8 to 11 change no list. */
enum tirnavoy_refusal {
    TIRNAVOY_NONE = 0,
    TIRNAVOY_SHAPE = 1,      /* w is not 1, 2 or 4, or m is not from 4 * w to 16 * w */
    TIRNAVOY_CATALOGUE = 2,  /* more than 65,536 stars, or the code list is not n * w long */
    TIRNAVOY_TABLES = 3,     /* starts or ids too short */
    TIRNAVOY_QUERY = 4,      /* the query or the mask is not w words long, or the queries no whole number of codes; r, t, g or the step is above q = 64 * w */
    TIRNAVOY_ROOM = 5,       /* too few mark words; nearest: an answer list shorter than the smaller of k and n */
    TIRNAVOY_TOO_MANY = 6,   /* within: more answers than the shorter answer list holds */
    TIRNAVOY_BAD_BUCKET = 7, /* the search met a bucket that the builder cannot have written */
    TIRNAVOY_OFFSETS = 8,    /* across and up lists of unequal length, or longer than 4,096 */
    TIRNAVOY_NOT_FINITE = 9, /* an angle is infinite or not a number */
    TIRNAVOY_OUTSIDE = 10,   /* an angle lies outside the field, -4 <= angle < 4 degrees */
    TIRNAVOY_BATCH = 11      /* more than 256 queries, or outcomes or records too short */
};

enum tirnavoy_verdict_kind { TIRNAVOY_NO_FIELD = 0, TIRNAVOY_UNSURE = 1, TIRNAVOY_MATCH = 2 };

/* One answer of a batch. */
struct tirnavoy_answer {
    uint32_t entry, star, distance;
};

/* The numbers of one query's outcome in a batch: query j's opened count is outcomes[j * TIRNAVOY_OUTCOME_NUMBERS + TIRNAVOY_OUTCOME_OPENED]. */
enum tirnavoy_outcome { TIRNAVOY_OUTCOME_REFUSAL, TIRNAVOY_OUTCOME_ANSWERS, TIRNAVOY_OUTCOME_OPENED, TIRNAVOY_OUTCOME_TESTED, TIRNAVOY_OUTCOME_NUMBERS };

/* ---- sizes: constant expressions where their arguments are; an argument is read more than once */

/* 1 where w and m are listed: w is 1, 2 or 4, and m from 4 * w to 16 * w. Otherwise 0, and calls with them return TIRNAVOY_SHAPE. #if can ask it. */
#define TIRNAVOY_LISTED(w, m) (((w) == 1 && (m) >= 4 && (m) <= 16) || ((w) == 2 && (m) >= 8 && (m) <= 32) || ((w) == 4 && (m) >= 16 && (m) <= 64))

/* how many tables there are: m, or 0 where w and m are not listed, also for the two lengths below */
#define TIRNAVOY_TABLE_COUNT(w, m) (TIRNAVOY_LISTED(w, m) ? (size_t)(m) : 0)

/* how many numbers the starts hold, and the ids of n entries. A table has one start more than buckets: the first 64 * w % m tables have 64 * w / m + 1 bits, and so twice the
 * buckets of the others, which have 64 * w / m. */
#define TIRNAVOY_STARTS_LENGTH(w, m) \
    (TIRNAVOY_LISTED(w, m) ? (size_t)(m) + (((size_t)(m) + (size_t)64 * (w) % ((m) + ((m) == 0))) << ((size_t)64 * (w) / ((m) + ((m) == 0)) & 31)) : 0)
#define TIRNAVOY_IDS_LENGTH(w, m, n) (TIRNAVOY_TABLE_COUNT(w, m) * (n))

/* how many mark words a search over n entries is lent */
#define TIRNAVOY_MARK_WORDS(n) (((size_t)(n) + 63) / 64)

/* how many numbers the outcomes of a batch hold, and how many records its answers */
#define TIRNAVOY_OUTCOMES_LENGTH(queries) ((size_t)TIRNAVOY_OUTCOME_NUMBERS * (queries))
#define TIRNAVOY_RECORDS_LENGTH(queries, k) ((size_t)(queries) * (k))

/* ---- tables */

/* Fills starts and ids for the catalogue; places past the needed ones are unchanged. Refusals 1, 2, 3. */
uint32_t tirnavoy_build(uint32_t w, uint32_t m, const uint32_t *stars, size_t stars_len, const uint64_t *codes, size_t codes_len, uint32_t *starts, size_t starts_len, uint32_t *ids,
                        size_t ids_len);

/* *sound becomes 1 where starts and ids hold what tirnavoy_build would write, and 0 where not or refused. Reads the lists only. Refusals 1, 2, 3. */
uint32_t tirnavoy_check(uint32_t w, uint32_t m, const uint32_t *stars, size_t stars_len, const uint64_t *codes, size_t codes_len, const uint32_t *starts, size_t starts_len,
                        const uint32_t *ids, size_t ids_len, uint32_t *sound);

/* ---- searches
 *
 * A call whose name ends in _masked also takes a mask of w words with a 1 for each bit that counts; a hidden bit, with a 0, adds nothing to a distance. A step opens its buckets for
 * every value of the hidden bits: where b bits of a substring are hidden, up to 2^b times as many. A mask of all ones gives the plain call's results.
 * Marks are the caller's scratch: they may come in with any contents, and the first TIRNAVOY_MARK_WORDS(n) end as 0. Answers come as entry numbers and distances: smaller
 * distance first, then smaller entry number. *opened becomes the number of buckets opened, *tested that of entries tested. After refusal 7 *table and *bucket say where the bad
 * bucket is. Each of these is 0 where it has no meaning. */

/* The k nearest entries, or all n where k is larger. With K = min(k, n), the first K places of the answer lists hold the answers, then zeros (zeros alone after refusal 7); later
 * places are unchanged. *answers becomes the number of answers. Refusals 1, 2, 3, 4, 5, 7. */
uint32_t tirnavoy_nearest(uint32_t w, uint32_t m, const uint32_t *stars, size_t stars_len, const uint64_t *codes, size_t codes_len, const uint32_t *starts, size_t starts_len,
                          const uint32_t *ids, size_t ids_len, const uint64_t *query, size_t query_len, uint32_t k, uint64_t *marks, size_t marks_len, uint32_t *entries,
                          size_t entries_len, uint32_t *distances, size_t distances_len, uint32_t *answers, uint32_t *opened, uint32_t *tested, uint32_t *table, uint32_t *bucket);

/* The same under a mask. Where no bit counts, all distances are 0, and over tables that tirnavoy_build wrote the call opens every bucket of table 0 and stops, if K
 * is not 0. Refusals 1, 2, 3, 4, 5, 7. */
uint32_t tirnavoy_nearest_masked(uint32_t w, uint32_t m, const uint32_t *stars, size_t stars_len, const uint64_t *codes, size_t codes_len, const uint32_t *starts, size_t starts_len,
                                 const uint32_t *ids, size_t ids_len, const uint64_t *query, size_t query_len, const uint64_t *mask, size_t mask_len, uint32_t k, uint64_t *marks,
                                 size_t marks_len, uint32_t *entries, size_t entries_len, uint32_t *distances, size_t distances_len, uint32_t *answers, uint32_t *opened,
                                 uint32_t *tested, uint32_t *table, uint32_t *bucket);

/* All entries at distance r or less. With P the smallest of n and the two answer lists' lengths, the first P places hold the answers, then zeros (after refusal 6 the first P
 * answers, after 7 zeros); later places are unchanged. *answers becomes the number of answers; after refusal 6, how many there would be. Refusals 1, 2, 3, 4, 5, 7, then 6. */
uint32_t tirnavoy_within(uint32_t w, uint32_t m, const uint32_t *stars, size_t stars_len, const uint64_t *codes, size_t codes_len, const uint32_t *starts, size_t starts_len,
                         const uint32_t *ids, size_t ids_len, const uint64_t *query, size_t query_len, uint32_t r, uint64_t *marks, size_t marks_len, uint32_t *entries,
                         size_t entries_len, uint32_t *distances, size_t distances_len, uint32_t *answers, uint32_t *opened, uint32_t *tested, uint32_t *table, uint32_t *bucket);

/* The same under a mask; r may be up to q, however few bits count. Refusals 1, 2, 3, 4, 5, 7, then 6. */
uint32_t tirnavoy_within_masked(uint32_t w, uint32_t m, const uint32_t *stars, size_t stars_len, const uint64_t *codes, size_t codes_len, const uint32_t *starts, size_t starts_len,
                                const uint32_t *ids, size_t ids_len, const uint64_t *query, size_t query_len, const uint64_t *mask, size_t mask_len, uint32_t r, uint64_t *marks,
                                size_t marks_len, uint32_t *entries, size_t entries_len, uint32_t *distances, size_t distances_len, uint32_t *answers, uint32_t *opened,
                                uint32_t *tested, uint32_t *table, uint32_t *bucket);

/* Which field is it? Searches the nearest entry and its runner-up, the nearest with another star number; entries of one star are exposures of one field. *verdict becomes
 * TIRNAVOY_NO_FIELD where there is no entry or the first is farther than the reach t; TIRNAVOY_UNSURE where the runner-up is less than the gap g farther than the first, with *star,
 * *other, *distance, *farther of the two; otherwise TIRNAVOY_MATCH with *star and *distance. Where all entries have one star there is no runner-up, and the search takes every step
 * to q. Refusals 1, 2, 3, 4, 5, 7. */
uint32_t tirnavoy_verdict(uint32_t w, uint32_t m, const uint32_t *stars, size_t stars_len, const uint64_t *codes, size_t codes_len, const uint32_t *starts, size_t starts_len,
                          const uint32_t *ids, size_t ids_len, const uint64_t *query, size_t query_len, uint32_t t, uint32_t g, uint64_t *marks, size_t marks_len, uint32_t *verdict,
                          uint32_t *star, uint32_t *other, uint32_t *distance, uint32_t *farther, uint32_t *opened, uint32_t *tested, uint32_t *table, uint32_t *bucket);

/* The same under a mask, with t and g for distances under it; both may be up to q. Refusals 1, 2, 3, 4, 5, 7. */
uint32_t tirnavoy_verdict_masked(uint32_t w, uint32_t m, const uint32_t *stars, size_t stars_len, const uint64_t *codes, size_t codes_len, const uint32_t *starts, size_t starts_len,
                                 const uint32_t *ids, size_t ids_len, const uint64_t *query, size_t query_len, const uint64_t *mask, size_t mask_len, uint32_t t, uint32_t g,
                                 uint64_t *marks, size_t marks_len, uint32_t *verdict, uint32_t *star, uint32_t *other, uint32_t *distance, uint32_t *farther, uint32_t *opened,
                                 uint32_t *tested, uint32_t *table, uint32_t *bucket);

/* The k nearest entries for each of up to 256 queries, codes of w words one after the other. Query j's part is what tirnavoy_nearest finds for it alone: in records[j * k] to
 * records[j * k + k - 1] its answers and then records of zeros, in the outcomes its refusal (0, or 7), its number of answers and its two counts. A query refused 7 has zeros but the
 * 7, in its own part only. Later places of both lists are unchanged. Refusals 1, 2, 3, 4, 5 (marks), 11. The call takes some 11 KiB of stack, and some 520 KiB where k exceeds 1,024. */
uint32_t tirnavoy_batch(uint32_t w, uint32_t m, const uint32_t *stars, size_t stars_len, const uint64_t *codes, size_t codes_len, const uint32_t *starts, size_t starts_len,
                        const uint32_t *ids, size_t ids_len, const uint64_t *queries, size_t queries_len, uint32_t k, uint64_t *marks, size_t marks_len, uint32_t *outcomes,
                        size_t outcomes_len, struct tirnavoy_answer *records, size_t records_len);

/* The blackboard's number: *buckets becomes how many buckets are open after the step, 0 to q; 0 where refused. Refusals 1, 4. */
uint32_t tirnavoy_blackboard(uint32_t w, uint32_t m, uint32_t step, uint32_t *buckets);

/* The same for a search under a mask. Refusals 1, 4. */
uint32_t tirnavoy_blackboard_masked(uint32_t w, uint32_t m, const uint64_t *mask, size_t mask_len, uint32_t step, uint32_t *buckets);

/* ---- from sky to code
 *
 * The 64-bit code (w = 1) of stars at the given offsets: a star sets bit 8 * row + column, across giving the column and up the row. *code becomes the code, *place the star's place
 * after refusals 9 and 10; each is 0 where it has no meaning. Refusals 8, 9, 10. */
uint32_t tirnavoy_sky_degrees(const double *across, size_t across_len, const double *up, size_t up_len, uint64_t *code, uint32_t *place);
uint32_t tirnavoy_sky_radians(const double *across, size_t across_len, const double *up, size_t up_len, uint64_t *code, uint32_t *place);

#ifdef __cplusplus
}
#endif

#endif
