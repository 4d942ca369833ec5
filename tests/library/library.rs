//! The library's exported functions, as include/tirnavoy.h declares them. Nothing checks this file against the library: it is what `compare` tests.
#![allow(dead_code)]

extern "C" {
    pub fn tirnavoy_build(w: u32, m: u32, stars: *const u32, stars_len: usize, codes: *const u64, codes_len: usize, starts: *mut u32, starts_len: usize, ids: *mut u32, ids_len: usize) -> u32;
    pub fn tirnavoy_check(w: u32, m: u32, stars: *const u32, stars_len: usize, codes: *const u64, codes_len: usize, starts: *const u32, starts_len: usize, ids: *const u32, ids_len: usize, sound: *mut u32) -> u32;
    pub fn tirnavoy_nearest(
        w: u32, m: u32, stars: *const u32, stars_len: usize, codes: *const u64, codes_len: usize, starts: *const u32, starts_len: usize, ids: *const u32, ids_len: usize,
        query: *const u64, query_len: usize, k: u32, marks: *mut u64, marks_len: usize, entries: *mut u32, entries_len: usize, distances: *mut u32, distances_len: usize,
        answers: *mut u32, opened: *mut u32, tested: *mut u32, table: *mut u32, bucket: *mut u32,
    ) -> u32;
    pub fn tirnavoy_within(
        w: u32, m: u32, stars: *const u32, stars_len: usize, codes: *const u64, codes_len: usize, starts: *const u32, starts_len: usize, ids: *const u32, ids_len: usize,
        query: *const u64, query_len: usize, r: u32, marks: *mut u64, marks_len: usize, entries: *mut u32, entries_len: usize, distances: *mut u32, distances_len: usize,
        answers: *mut u32, opened: *mut u32, tested: *mut u32, table: *mut u32, bucket: *mut u32,
    ) -> u32;
    pub fn tirnavoy_verdict(
        w: u32, m: u32, stars: *const u32, stars_len: usize, codes: *const u64, codes_len: usize, starts: *const u32, starts_len: usize, ids: *const u32, ids_len: usize,
        query: *const u64, query_len: usize, t: u32, g: u32, marks: *mut u64, marks_len: usize,
        verdict: *mut u32, star: *mut u32, other: *mut u32, distance: *mut u32, farther: *mut u32, opened: *mut u32, tested: *mut u32, table: *mut u32, bucket: *mut u32,
    ) -> u32;
    pub fn tirnavoy_nearest_masked(
        w: u32, m: u32, stars: *const u32, stars_len: usize, codes: *const u64, codes_len: usize, starts: *const u32, starts_len: usize, ids: *const u32, ids_len: usize,
        query: *const u64, query_len: usize, mask: *const u64, mask_len: usize, k: u32, marks: *mut u64, marks_len: usize, entries: *mut u32, entries_len: usize, distances: *mut u32, distances_len: usize,
        answers: *mut u32, opened: *mut u32, tested: *mut u32, table: *mut u32, bucket: *mut u32,
    ) -> u32;
    pub fn tirnavoy_within_masked(
        w: u32, m: u32, stars: *const u32, stars_len: usize, codes: *const u64, codes_len: usize, starts: *const u32, starts_len: usize, ids: *const u32, ids_len: usize,
        query: *const u64, query_len: usize, mask: *const u64, mask_len: usize, r: u32, marks: *mut u64, marks_len: usize, entries: *mut u32, entries_len: usize, distances: *mut u32, distances_len: usize,
        answers: *mut u32, opened: *mut u32, tested: *mut u32, table: *mut u32, bucket: *mut u32,
    ) -> u32;
    pub fn tirnavoy_verdict_masked(
        w: u32, m: u32, stars: *const u32, stars_len: usize, codes: *const u64, codes_len: usize, starts: *const u32, starts_len: usize, ids: *const u32, ids_len: usize,
        query: *const u64, query_len: usize, mask: *const u64, mask_len: usize, t: u32, g: u32, marks: *mut u64, marks_len: usize,
        verdict: *mut u32, star: *mut u32, other: *mut u32, distance: *mut u32, farther: *mut u32, opened: *mut u32, tested: *mut u32, table: *mut u32, bucket: *mut u32,
    ) -> u32;
    /// A record is an entry, its star and its distance.
    pub fn tirnavoy_batch(
        w: u32, m: u32, stars: *const u32, stars_len: usize, codes: *const u64, codes_len: usize, starts: *const u32, starts_len: usize, ids: *const u32, ids_len: usize,
        queries: *const u64, queries_len: usize, k: u32, marks: *mut u64, marks_len: usize, outcomes: *mut u32, outcomes_len: usize, records: *mut [u32; 3], records_len: usize,
    ) -> u32;
    pub fn tirnavoy_blackboard(w: u32, m: u32, step: u32, buckets: *mut u32) -> u32;
    pub fn tirnavoy_blackboard_masked(w: u32, m: u32, mask: *const u64, mask_len: usize, step: u32, buckets: *mut u32) -> u32;
    pub fn tirnavoy_sky_degrees(across: *const f64, across_len: usize, up: *const f64, up_len: usize, code: *mut u64, place: *mut u32) -> u32;
    pub fn tirnavoy_sky_radians(across: *const f64, across_len: usize, up: *const f64, up_len: usize, code: *mut u64, place: *mut u32) -> u32;
}
