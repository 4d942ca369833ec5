//! Calls to compare: drawn over all shapes with every refusal in reach; of any numbers and lengths at all; at the border of the scope; or by a fuzzer's bytes.
#![allow(dead_code)]
use crate::calls::{run_batch, run_blackboard, run_blackboard_masked, run_build, run_check, run_search, run_sky, run_verdict, Call};
use crate::random::Random;
use crate::reference::{self, Lists, Results};

/// How many calls ended with each number 0 to 11.
pub type Refusals = [u64; 12];

const PER_RADIAN: f64 = 57.29577951308232;

/// What a list holds before a call that should fill it.
const STALE: u32 = 0xCCCC_CCCC;

fn words(count: usize, rng: &mut Random) -> Vec<u64> {
    (0..count).map(|_| rng.next()).collect()
}

fn flipped(code: &[u64], flips: u64, rng: &mut Random) -> Vec<u64> {
    let mut out = code.to_vec();
    for _ in 0..flips {
        if !out.is_empty() {
            let j = rng.below(64 * out.len() as u64) as usize;
            out[j / 64] ^= 1 << (j % 64);
        }
    }
    out
}

/// Every listed w and m; now and then the m next to the least or to the most, or odd numbers.
fn random_shape(rng: &mut Random) -> (u32, u32) {
    if rng.one_in(40) {
        let odd = [0, 1, 2, 3, 4, 5, 8, 16, 17, 64, 256, u32::MAX, 1 << 16, 8 + (1 << 31)];
        return (rng.pick(&odd), rng.pick(&odd));
    }
    let w = rng.pick(&[1, 1, 2, 4]);
    if rng.one_in(20) {
        return (w, rng.pick(&[4 * w - 1, 16 * w + 1]));
    }
    (w, 4 * w + rng.below(12 * w as u64 + 1) as u32)
}

/// Codes near a centre, equal to the first one, or anywhere.
fn random_codes(n: usize, width: usize, centre: &[u64], rng: &mut Random) -> Vec<u64> {
    let mut codes: Vec<u64> = Vec::new();
    for i in 0..n {
        let code = match rng.below(4) {
            0 if i > 0 => codes[..width].to_vec(),
            1 => flipped(centre, 3, rng),
            2 => flipped(centre, 20, rng),
            _ => words(width, rng),
        };
        codes.extend(code);
    }
    if rng.one_in(50) {
        codes.pop();
    } else if rng.one_in(50) {
        codes.push(rng.next());
    }
    codes
}

/// Few stars, so that many entries have the same one: one star, all but the last entry of one star, two to four, or as many as there are entries.
fn random_stars(n: usize, rng: &mut Random) -> Vec<u32> {
    let few = rng.pick(&[1, 1, 2, 2, 3, 4, n as u64]);
    let mut stars: Vec<u32> = (0..n).map(|_| 7 * rng.below(few) as u32).collect();
    match stars.last_mut() {
        Some(last) if few == 1 && rng.one_in(2) => *last = 1,
        _ => (),
    }
    stars
}

/// A query at some distance from the first entry; now and then a word too long.
fn random_query(codes: &[u64], centre: &[u64], rng: &mut Random) -> Vec<u64> {
    let first = codes.get(..centre.len()).unwrap_or(centre);
    let mut query = flipped(first, rng.pick(&[0, 0, 1, 3, 9, 40]), rng);
    if rng.one_in(50) {
        query.push(0);
    }
    query
}

/// Ones or zeros alone, one bit or a few, all but a few, the corners of the grid hidden, words hidden whole, or any bits; now and then of no word, or a word too short or too long.
fn random_mask(width: usize, rng: &mut Random) -> Vec<u64> {
    let (ones, zeros) = (vec![u64::MAX; width], vec![0; width]);
    let mut mask = match rng.below(9) {
        0 => ones,
        1 => zeros,
        2 => flipped(&zeros, rng.pick(&[1, 2, 6, 30]), rng),
        3 | 4 => flipped(&ones, rng.pick(&[1, 2, 6, 30]), rng),
        5 => vec![0x7eff_ffff_ffff_ff7e; width],
        6 => ones.into_iter().map(|word| if rng.one_in(2) { word } else { 0 }).collect(),
        _ => words(width, rng),
    };
    match rng.below(60) {
        0 => mask.clear(),
        1 => drop(mask.pop()),
        2 => mask.push(u64::MAX),
        _ => (),
    }
    mask
}

/// Damage of every kind: a start or an id one off, out of range, repeated, exchanged, or any number at all.
fn damage(list: &mut [u32], n: u32, rng: &mut Random) {
    if list.is_empty() {
        return;
    }
    let p = rng.below(list.len() as u64) as usize;
    let o = rng.below(list.len() as u64) as usize;
    match rng.below(6) {
        0 => list[p] = list[p].wrapping_add(1),
        1 => list[p] = list[p].wrapping_sub(1),
        2 => list[p] = n,
        3 => list[p] = list[o],
        4 => list.swap(p, o),
        _ => list[p] = rng.next() as u32,
    }
}

/// A length at, just below or above what is needed.
fn about(needed: usize, rng: &mut Random) -> usize {
    match rng.below(40) {
        0 => needed.saturating_sub(1),
        1 => rng.below(needed as u64 + 1) as usize,
        2..=12 => needed + rng.below(9) as usize,
        _ => needed,
    }
}

/// A distance from 0 to q, and on both sides of q.
fn random_limit(q: u32, rng: &mut Random) -> u32 {
    let any = rng.below(q as u64 + 1) as u32;
    rng.pick(&[0, 1, 2, 3, 8, any, any, q, q + 1, u32::MAX])
}

/// How many answers are asked for: few, all, or more than there are.
fn random_count(n: usize, rng: &mut Random) -> u32 {
    let any = rng.below(n as u64 + 1) as u32;
    rng.pick(&[0, 1, 2, 3, n as u32, n as u32 + 1, u32::MAX, any])
}

fn random_lists(n: usize, number: u32, rng: &mut Random) -> Lists {
    let room = (number as usize).min(n);
    let marks = about((n + 63) / 64, rng);
    Lists { marks: words(marks, rng), entries: vec![0x1111_1111; about(room, rng)], distances: vec![0x2222_2222; about(room, rng)] }
}

/// A catalogue with planted near neighbours, equal codes and equal stars, and what a search of it is lent; the tables are still empty.
fn random_call(w: u32, m: u32, rng: &mut Random) -> Call {
    let listed = reference::listed(w, m);
    let width = if listed { w as usize } else { 1 };
    let tables = if listed { m as usize } else { 0 };
    let n = rng.pick(&[0, 1, 2, 3, 5, 17, 63, 64, 65, 130, 300]) as usize;
    let centre = words(width, rng);
    let codes = random_codes(n, width, &centre, rng);
    let stars = random_stars(n, rng);
    let starts = vec![STALE; about(reference::all_starts(w, m), rng)];
    let ids = vec![STALE; about(tables * n, rng)];
    let query = random_query(&codes, &centre, rng);
    let mask = random_mask(width, rng);
    let q = 64 * width as u32;
    let number = if rng.one_in(2) { random_count(n, rng) } else { random_limit(q, rng) };
    let gap = random_limit(q, rng);
    let lists = random_lists(n, number, rng);
    Call { w, m, stars, codes, starts, ids, query, mask, number, gap, lists }
}

/// Some bad buckets that one step under the call's mask opens: the search has to name the first in its order.
fn damage_step(call: &mut Call, rng: &mut Random) {
    let tables = reference::tables(call.w, call.m);
    let table = &tables[rng.below(tables.len() as u64) as usize];
    let by_ones = table.by_ones(&call.mask);
    let changes = &by_ones[rng.pick(&[0, 1, 1, 2]).min(by_ones.len() - 1)];
    if changes.is_empty() {
        return;
    }
    for _ in 0..rng.pick(&[2, 3, 5]) {
        let bucket = table.key(&call.query) ^ rng.pick(changes);
        call.starts[table.part + bucket + 1] += 1;
    }
}

/// The tables of a call as the builder writes them; in one call of three with damage, anywhere or in the buckets of one step.
fn with_tables(mut call: Call, rng: &mut Random) -> Call {
    let (refused, starts, ids) = reference::build(&call.index());
    (call.starts, call.ids) = (starts, ids);
    if !rng.one_in(3) {
        return call;
    }
    let width = call.w as usize;
    if refused == 0 && call.query.len() == width && call.mask.len() == width && rng.one_in(3) {
        damage_step(&mut call, rng);
        return call;
    }
    let n = call.stars.len() as u32;
    for _ in 0..rng.pick(&[1, 1, 2, 5, 40]) {
        let list = if rng.one_in(2) { &mut call.starts } else { &mut call.ids };
        damage(list, n, rng);
    }
    call
}

fn random_angle(rng: &mut Random) -> f64 {
    let unit = rng.below(1 << 53) as f64 / (1u64 << 53) as f64;
    match rng.below(6) {
        0 => unit * 8.0 - 4.0,
        1 => (unit * 8.0 - 4.0) / PER_RADIAN,
        2 => rng.below(11) as f64 - 5.0,
        3 => (rng.below(11) as f64 - 5.0) / PER_RADIAN,
        4 => f64::from_bits(rng.next()),
        _ => rng.pick(&[-4.0, 4.0, -0.0, 0.0, f64::NAN, f64::INFINITY, f64::NEG_INFINITY, 1e308, -1e308, 0.06, 0.07]),
    }
}

fn any_sky(rng: &mut Random) -> Result<u32, String> {
    let n = if rng.one_in(400) { 4090 + rng.below(12) as usize } else { rng.below(6) as usize };
    let offsets = |rng: &mut Random, n: usize| (0..n).map(|_| if n > 10 { 0.01 } else { random_angle(rng) }).collect::<Vec<f64>>();
    let across = offsets(rng, n);
    let longer = rng.one_in(30) as usize;
    let up = offsets(rng, n + longer);
    run_sky(rng.one_in(2), &across, &up)
}

/// The count with a mask and without one.
fn any_blackboard(rng: &mut Random) -> Result<u32, String> {
    let (w, m) = random_shape(rng);
    let step = rng.below(64 * w as u64 + 3) as u32;
    let step = if rng.one_in(20) { rng.next() as u32 } else { step };
    run_blackboard(w, m, step)?;
    run_blackboard_masked(w, m, &random_mask(w.min(4) as usize, rng), step)
}

/// How many queries a batch has: a table of students, none, or on both sides of 256 where that is quick.
fn random_queries(call: &Call, rng: &mut Random) -> Vec<u64> {
    let most = call.stars.len() < 20 && call.m > call.w.saturating_mul(5) && rng.one_in(8);
    let count = if most { 254 + rng.below(5) } else { rng.pick(&[0, 1, 2, 3, 5, 9]) };
    let entries = call.codes.chunks_exact(call.query.len().max(1));
    let mut queries = Vec::new();
    for _ in 0..count {
        let at = rng.below(entries.len() as u64) as usize;
        let near = entries.clone().nth(at).unwrap_or(&call.query);
        queries.extend(flipped(near, rng.pick(&[0, 1, 3, 9]), rng));
    }
    if rng.one_in(40) {
        queries.push(rng.next());
    }
    queries
}

/// The result lists of a batch, at, just below or above what is needed, but for a k that no list is long enough for.
fn random_results(call: &Call, words_of_queries: usize, rng: &mut Random) -> Results {
    let count = words_of_queries / call.query.len().max(1);
    let records = about(count.saturating_mul(call.number as usize).min(3000), rng);
    let outcomes = about(4 * count, rng);
    Results { marks: call.lists.marks.clone(), outcomes: vec![STALE; outcomes], records: vec![[1, 2, 3]; records] }
}

fn any_batch(w: u32, m: u32, rng: &mut Random) -> Result<u32, String> {
    let mut call = random_call(w, m, rng);
    call.number = random_count(call.stars.len().min(12), rng);
    let call = with_tables(call, rng);
    let queries = random_queries(&call, rng);
    let results = random_results(&call, queries.len(), rng);
    run_batch(&call, &queries, &results).map_err(|error| format!("{error}\n{call:?}\n{queries:?}\n{results:?}"))
}

/// How many kinds of calls `run_call` makes: the builder, the check, and each search several times, every second time with a mask.
const KINDS: u64 = 14;

fn run_call(which: u64, call: &Call) -> Result<u32, String> {
    let masked = which % 2 == 1;
    let outcome = match which % KINDS {
        0 => run_build(call),
        1 => run_check(call),
        2..=5 => run_search(call, false, masked),
        6..=9 => run_search(call, true, masked),
        _ => run_verdict(call, masked),
    };
    outcome.map_err(|error| format!("{error}\n{call:?}"))
}

/// A random call of any exported function; gives the number that it ended with.
pub fn any_call(rng: &mut Random) -> Result<u32, String> {
    let which = rng.below(KINDS + 4);
    if which == KINDS {
        return any_sky(rng);
    }
    if which == KINDS + 1 {
        return any_blackboard(rng);
    }
    let (w, m) = random_shape(rng);
    if which > KINDS {
        return any_batch(w, m, rng);
    }
    let call = random_call(w, m, rng);
    run_call(which, &with_tables(call, rng))
}

/// Every listed w and m, and the m on both sides of them, through every function that takes a shape.
pub fn shapes(rng: &mut Random, refusals: &mut Refusals) -> Result<(), String> {
    let mut met = |number: u32| refusals[number as usize] += 1;
    for w in [1, 2, 4] {
        for m in 4 * w - 1..=16 * w + 1 {
            for step in [0, 1, m - 1, m, m + 1, 64 * w - 1, 64 * w, 64 * w + 1] {
                met(run_blackboard(w, m, step)?);
                met(run_blackboard_masked(w, m, &random_mask(w as usize, rng), step)?);
            }
            for which in 0..KINDS {
                let call = random_call(w, m, rng);
                met(run_call(which, &with_tables(call, rng))?);
            }
            met(any_batch(w, m, rng)?);
        }
    }
    Ok(())
}

/// Searches under masks of a large catalogue, with some hidden bits, with few bits that count, and with all and none of them.
fn large_masked(call: &mut Call, rng: &mut Random, met: &mut impl FnMut(u32)) -> Result<(), String> {
    let (ones, zeros) = (vec![u64::MAX; call.w as usize], vec![0; call.w as usize]);
    for mask in [flipped(&ones, 12, rng), flipped(&zeros, 9, rng), ones, zeros] {
        call.mask = mask;
        for number in [1, 10] {
            call.number = number;
            met(run_search(call, false, true)?);
            met(run_search(call, true, true)?);
            met(run_verdict(call, true)?);
        }
    }
    Ok(())
}

/// Calls at the border of the scope: 65,536 and 65,537 entries.
pub fn large(rng: &mut Random, refusals: &mut Refusals) -> Result<(), String> {
    for (w, m, n) in [(1u32, 4u32, 65536usize), (2, 8, 65536), (2, 11, 65536), (4, 32, 65536), (2, 8, 65537)] {
        let width = w as usize;
        let codes = words(n * width, rng);
        let (places, tables) = (reference::all_starts(w, m), m as usize);
        let query = flipped(&codes[40 * width..41 * width], 5, rng);
        let lists = |places: usize, rng: &mut Random| Lists { marks: words(1026, rng), entries: vec![1; places + 1], distances: vec![2; places] };
        let mut call = Call { w, m, stars: (0..n as u32).collect(), codes, starts: vec![9; places + 3], ids: vec![9; tables * n + 3], query, mask: vec![u64::MAX; width], number: 1, gap: 8, lists: lists(10, rng) };
        let mut met = |number: u32| refusals[number as usize] += 1;
        met(run_build(&call)?);
        let (_, starts, ids) = reference::build(&call.index());
        (call.starts, call.ids) = (starts, ids);
        met(run_check(&call)?);
        for (k, places) in [(1, 10), (10, 10), (10, 9), (65536, 65536)] {
            call.number = k;
            call.lists = lists(places, rng);
            met(run_search(&call, false, false)?);
        }
        for r in [0, 5, 20] {
            call.number = r;
            met(run_search(&call, true, false)?);
        }
        call.lists = lists(10, rng);
        large_masked(&mut call, rng, &mut met)?;
        for (count, k, places) in [(256, 1, 256), (257, 1, 257), (2, 1024, 2048), (2, 1025, 2050), (1, 65536, 65536), (1, 65537, 65537), (1, u32::MAX, 10)] {
            call.number = k;
            let queries: Vec<u64> = (0..count).flat_map(|_| flipped(&call.query, 2, rng)).collect();
            let results = Results { marks: words(1026, rng), outcomes: vec![9; 4 * count + 1], records: vec![[9; 3]; places] };
            met(run_batch(&call, &queries, &results)?);
        }
        call.number = 20;
        met(run_verdict(&call, false)?);
        call.stars.fill(7);
        met(run_verdict(&call, false)?);
        call.ids[tables * n - 1] ^= 1;
        met(run_check(&call)?);
    }
    Ok(())
}

/// Any number, small ones as likely as large ones.
fn any_number(rng: &mut Random) -> u32 {
    let shift = rng.below(32);
    (rng.next() as u32) >> shift
}

fn numbers(below: u64, rng: &mut Random) -> Vec<u32> {
    (0..rng.below(below)).map(|_| any_number(rng)).collect()
}

fn some_words(below: u64, rng: &mut Random) -> Vec<u64> {
    let count = rng.below(below) as usize;
    words(count, rng)
}

/// A call whose lengths and numbers are anything.
fn wild(rng: &mut Random) -> Result<u32, String> {
    if rng.one_in(10) {
        let (w, m, step) = (any_number(rng), any_number(rng), any_number(rng));
        run_blackboard(w, m, step)?;
        return run_blackboard_masked(w, m, &some_words(6, rng), step);
    }
    if rng.one_in(10) {
        let offsets = |rng: &mut Random| some_words(9, rng).into_iter().map(f64::from_bits).collect::<Vec<f64>>();
        let (across, up) = (offsets(rng), offsets(rng));
        return run_sky(rng.one_in(2), &across, &up);
    }
    let (w, m) = if rng.one_in(3) { (any_number(rng), any_number(rng)) } else { random_shape(rng) };
    let stars = numbers(70, rng);
    let width = w as usize % 5;
    let codes = if rng.one_in(4) { some_words(300, rng) } else { words(stars.len() * width, rng) };
    let query = if rng.one_in(4) { some_words(6, rng) } else { words(width, rng) };
    let mask = if rng.one_in(4) { some_words(6, rng) } else { random_mask(width, rng) };
    let lists = Lists { marks: some_words(6, rng), entries: numbers(80, rng), distances: numbers(80, rng) };
    let (number, gap, which) = (any_number(rng), any_number(rng), rng.below(KINDS + 3));
    let small = |len: u64, rng: &mut Random| (0..len).map(|_| if rng.one_in(50) { rng.next() as u32 } else { rng.below(8) as u32 }).collect::<Vec<u32>>();
    let needed = if rng.one_in(4) { 0 } else { reference::all_starts(w, m) as u64 };
    let (starts_len, ids_len) = (needed + rng.below(900), rng.below(4600));
    let (starts, ids) = (small(starts_len, rng), small(ids_len, rng));
    let call = Call { w, m, stars, codes, starts, ids, query, mask, number, gap, lists };
    if which < KINDS {
        return run_call(which, &call);
    }
    let queries = if rng.one_in(2) { some_words(600, rng) } else { words(width * 3, rng) };
    let records = numbers(90, rng).into_iter().map(|x| [x, 1, 2]).collect();
    let results = Results { marks: call.lists.marks.clone(), outcomes: numbers(40, rng), records };
    run_batch(&call, &queries, &results).map_err(|error| format!("{error}\n{call:?}\n{queries:?}\n{results:?}"))
}

/// The call that a fuzzer's bytes make: a drawn one or a wild one.
pub fn from_bytes(bytes: &[u8]) -> Result<u32, String> {
    let mut rng = Random::from_bytes(bytes);
    if rng.one_in(2) {
        any_call(&mut rng)
    } else {
        wild(&mut rng)
    }
}
