//! One call to the library and the same call to `reference.rs`: every result, count and list compared, with guard values around every list.
use crate::library;
use crate::reference::{self, Index, Lists, Query, Report, Results};
use std::fmt::Debug;

/// Everything that a call may be handed.
#[derive(Clone, Debug)]
pub struct Call {
    pub w: u32,
    pub m: u32,
    pub stars: Vec<u32>,
    pub codes: Vec<u64>,
    pub starts: Vec<u32>,
    pub ids: Vec<u32>,
    pub query: Vec<u64>,
    pub mask: Vec<u64>,
    pub number: u32,
    pub gap: u32,
    pub lists: Lists,
}

impl Call {
    pub fn index(&self) -> Index<'_> {
        Index { w: self.w, m: self.m, stars: &self.stars, codes: &self.codes, starts: &self.starts, ids: &self.ids }
    }
    /// What is asked: the query with the call's mask, or without one.
    fn asked(&self, masked: bool) -> Query<'_> {
        if masked {
            Query { code: &self.query, mask: &self.mask }
        } else {
            Query::plain(&self.query)
        }
    }
}

/// A list as the library gets it, between guard values that no call may change.
struct Guarded<T> {
    all: Vec<T>,
    len: usize,
    guard: T,
}

const GUARDS: usize = 16;
const GUARD: u32 = 0xDEAD_BEEF;
const GUARD_WORD: u64 = 0xA5A5_A5A5_A5A5_A5A5;

impl<T: Copy + PartialEq + Debug> Guarded<T> {
    fn new(list: &[T], guard: T) -> Self {
        let mut all = vec![guard; GUARDS];
        all.extend_from_slice(list);
        all.extend(vec![guard; GUARDS]);
        Guarded { all, len: list.len(), guard }
    }
    fn at(&mut self) -> *mut T {
        self.all[GUARDS..].as_mut_ptr()
    }
    /// Whether the list holds what it should after the call, and the guard values stand.
    fn holds(&self, name: &str, expected: &[T]) -> Result<(), String> {
        let (before, rest) = self.all.split_at(GUARDS);
        let (list, after) = rest.split_at(self.len);
        if before.iter().chain(after).any(|&x| x != self.guard) {
            return Err(format!("{name}: a guard value beside the list was changed"));
        }
        match list.iter().zip(expected).position(|(a, b)| a != b) {
            None => Ok(()),
            Some(p) => Err(format!("{name}: place {p} holds {:?}, and should hold {:?}", list[p], expected[p])),
        }
    }
}

/// The lists of a catalogue, its tables, a query and a mask.
struct Lent {
    stars: Guarded<u32>,
    codes: Guarded<u64>,
    starts: Guarded<u32>,
    ids: Guarded<u32>,
    query: Guarded<u64>,
    mask: Guarded<u64>,
}

impl Lent {
    fn new(c: &Call) -> Self {
        Lent {
            stars: Guarded::new(&c.stars, GUARD),
            codes: Guarded::new(&c.codes, GUARD_WORD),
            starts: Guarded::new(&c.starts, GUARD),
            ids: Guarded::new(&c.ids, GUARD),
            query: Guarded::new(&c.query, GUARD_WORD),
            mask: Guarded::new(&c.mask, GUARD_WORD),
        }
    }
    fn catalogue_unchanged(&self, c: &Call) -> Result<(), String> {
        self.stars.holds("stars", &c.stars)?;
        self.codes.holds("codes", &c.codes)
    }
    fn unchanged(&self, c: &Call) -> Result<(), String> {
        self.catalogue_unchanged(c)?;
        self.starts.holds("starts", &c.starts)?;
        self.ids.holds("ids", &c.ids)?;
        self.query.holds("query", &c.query)?;
        self.mask.holds("mask", &c.mask)
    }
}

fn compare<T: PartialEq + Debug>(what: &str, ours: T, theirs: T) -> Result<(), String> {
    if ours == theirs {
        return Ok(());
    }
    Err(format!("{what}: the library gives {ours:?}, the reference {theirs:?}"))
}

pub fn run_build(c: &Call) -> Result<u32, String> {
    let (number, starts, ids) = reference::build(&c.index());
    let mut l = Lent::new(c);
    let got = unsafe { library::tirnavoy_build(c.w, c.m, l.stars.at(), c.stars.len(), l.codes.at(), c.codes.len(), l.starts.at(), c.starts.len(), l.ids.at(), c.ids.len()) };
    compare("build", got, number)?;
    l.starts.holds("build: starts", &starts)?;
    l.ids.holds("build: ids", &ids)?;
    l.catalogue_unchanged(c)?;
    Ok(number)
}

pub fn run_check(c: &Call) -> Result<u32, String> {
    let theirs = reference::check(&c.index());
    let mut l = Lent::new(c);
    let mut sound = 77;
    let got = unsafe { library::tirnavoy_check(c.w, c.m, l.stars.at(), c.stars.len(), l.codes.at(), c.codes.len(), l.starts.at(), c.starts.len(), l.ids.at(), c.ids.len(), &mut sound) };
    compare("check: number and answer", (got, sound), theirs)?;
    l.unchanged(c)?;
    Ok(theirs.0)
}

/// A search's report as it comes through the outs: answers, opened, tested, table, bucket. T of refusal 6 is in `answers`, the place of refusal 7 in `table` and `bucket`.
fn outs(report: Report) -> [u32; 5] {
    let Report { refusal, answers, opened, tested } = report;
    if refusal.number == 6 {
        return [refusal.first, opened, tested, 0, 0];
    }
    [answers, opened, tested, refusal.first, refusal.second]
}

/// The lists that a search writes and its outs.
struct Written {
    marks: Guarded<u64>,
    entries: Guarded<u32>,
    distances: Guarded<u32>,
    outs: [u32; 5],
}

impl Written {
    fn new(lists: &Lists) -> Self {
        Written { marks: Guarded::new(&lists.marks, GUARD_WORD), entries: Guarded::new(&lists.entries, GUARD), distances: Guarded::new(&lists.distances, GUARD), outs: [71; 5] }
    }
    fn holds(&self, name: &str, lists: &Lists) -> Result<(), String> {
        self.marks.holds(&format!("{name}: marks"), &lists.marks)?;
        self.entries.holds(&format!("{name}: entries"), &lists.entries)?;
        self.distances.holds(&format!("{name}: distances"), &lists.distances)
    }
}

/// Asks the library, for the entries within a radius or for the nearest, with the call's mask or without one.
fn search(c: &Call, radius: bool, masked: bool, l: &mut Lent, to: &mut Written) -> u32 {
    let (marks, entries, distances) = (&c.lists.marks, &c.lists.entries, &c.lists.distances);
    let [answers, opened, tested, table, bucket] = &mut to.outs;
    let under = if radius { library::tirnavoy_within_masked } else { library::tirnavoy_nearest_masked };
    let plain = if radius { library::tirnavoy_within } else { library::tirnavoy_nearest };
    unsafe {
        if masked {
            under(
                c.w, c.m, l.stars.at(), c.stars.len(), l.codes.at(), c.codes.len(), l.starts.at(), c.starts.len(), l.ids.at(), c.ids.len(), l.query.at(), c.query.len(),
                l.mask.at(), c.mask.len(), c.number, to.marks.at(), marks.len(), to.entries.at(), entries.len(), to.distances.at(), distances.len(), answers, opened, tested, table, bucket,
            )
        } else {
            plain(
                c.w, c.m, l.stars.at(), c.stars.len(), l.codes.at(), c.codes.len(), l.starts.at(), c.starts.len(), l.ids.at(), c.ids.len(), l.query.at(), c.query.len(),
                c.number, to.marks.at(), marks.len(), to.entries.at(), entries.len(), to.distances.at(), distances.len(), answers, opened, tested, table, bucket,
            )
        }
    }
}

/// A search for the nearest or within a radius, with the call's mask or without one. Under a mask of all ones the plain search has to give the same.
pub fn run_search(c: &Call, radius: bool, masked: bool) -> Result<u32, String> {
    let name = format!("{}{}", if radius { "within" } else { "nearest" }, if masked { " masked" } else { "" });
    let theirs_by = if radius { reference::within } else { reference::nearest };
    let mut lists = c.lists.clone();
    let theirs = theirs_by(&c.index(), c.asked(masked), c.number, &mut lists);
    let (mut l, mut written) = (Lent::new(c), Written::new(&c.lists));
    let number = search(c, radius, masked, &mut l, &mut written);
    compare(&format!("{name}: number and outs"), (number, written.outs), (theirs.refusal.number, outs(theirs)))?;
    written.holds(&name, &lists)?;
    l.unchanged(c)?;
    if masked && c.asked(true).counts_all() {
        return run_search(c, radius, false);
    }
    Ok(number)
}

/// A verdict, likewise.
pub fn run_verdict(c: &Call, masked: bool) -> Result<u32, String> {
    let name = if masked { "verdict masked" } else { "verdict" };
    let mut marks_then = c.lists.marks.clone();
    let theirs = reference::verdict(&c.index(), c.asked(masked), c.number, c.gap, &mut marks_then);
    let mut l = Lent::new(c);
    let mut marks = Guarded::new(&c.lists.marks, GUARD_WORD);
    let mut got = [71u32; 9];
    let [verdict, star, other, distance, farther, opened, tested, table, bucket] = &mut got;
    let number = unsafe {
        if masked {
            library::tirnavoy_verdict_masked(
                c.w, c.m, l.stars.at(), c.stars.len(), l.codes.at(), c.codes.len(), l.starts.at(), c.starts.len(), l.ids.at(), c.ids.len(), l.query.at(), c.query.len(),
                l.mask.at(), c.mask.len(), c.number, c.gap, marks.at(), c.lists.marks.len(), verdict, star, other, distance, farther, opened, tested, table, bucket,
            )
        } else {
            library::tirnavoy_verdict(
                c.w, c.m, l.stars.at(), c.stars.len(), l.codes.at(), c.codes.len(), l.starts.at(), c.starts.len(), l.ids.at(), c.ids.len(), l.query.at(), c.query.len(),
                c.number, c.gap, marks.at(), c.lists.marks.len(), verdict, star, other, distance, farther, opened, tested, table, bucket,
            )
        }
    };
    let ([star, other], [distance, farther], [_, opened, tested, table, bucket]) = (theirs.stars, theirs.distances, outs(theirs.report));
    let expected = [theirs.verdict, star, other, distance, farther, opened, tested, table, bucket];
    compare(&format!("{name}: number and outs"), (number, got), (theirs.report.refusal.number, expected))?;
    marks.holds(&format!("{name}: marks"), &marks_then)?;
    l.unchanged(c)?;
    if masked && c.asked(true).counts_all() {
        return run_verdict(c, false);
    }
    Ok(number)
}

/// A batch of the call's catalogue, with its number as k.
pub fn run_batch(c: &Call, queries: &[u64], results: &Results) -> Result<u32, String> {
    let mut then = results.clone();
    let number = reference::batch(&c.index(), queries, c.number, &mut then);
    let mut l = Lent::new(c);
    let (mut lent, mut marks) = (Guarded::new(queries, GUARD_WORD), Guarded::new(&results.marks, GUARD_WORD));
    let (mut outcomes, mut records) = (Guarded::new(&results.outcomes, GUARD), Guarded::new(&results.records, [GUARD; 3]));
    let got = unsafe {
        library::tirnavoy_batch(
            c.w, c.m, l.stars.at(), c.stars.len(), l.codes.at(), c.codes.len(), l.starts.at(), c.starts.len(), l.ids.at(), c.ids.len(),
            lent.at(), queries.len(), c.number, marks.at(), results.marks.len(), outcomes.at(), results.outcomes.len(), records.at(), results.records.len(),
        )
    };
    compare("batch", got, number)?;
    marks.holds("batch: marks", &then.marks)?;
    outcomes.holds("batch: outcomes", &then.outcomes)?;
    records.holds("batch: records", &then.records)?;
    lent.holds("batch: queries", queries)?;
    l.unchanged(c)?;
    Ok(number)
}

pub fn run_blackboard(w: u32, m: u32, step: u32) -> Result<u32, String> {
    let mut buckets = 77;
    let number = unsafe { library::tirnavoy_blackboard(w, m, step, &mut buckets) };
    let ones = [u64::MAX; 4];
    compare(&format!("blackboard w {w} m {m} step {step}"), (number, buckets), reference::blackboard(w, m, &ones[..w.min(4) as usize], step))?;
    Ok(number)
}

pub fn run_blackboard_masked(w: u32, m: u32, mask: &[u64], step: u32) -> Result<u32, String> {
    let (mut lent, mut buckets) = (Guarded::new(mask, GUARD_WORD), 77);
    let number = unsafe { library::tirnavoy_blackboard_masked(w, m, lent.at(), mask.len(), step, &mut buckets) };
    compare(&format!("blackboard w {w} m {m} mask {mask:x?} step {step}"), (number, buckets), reference::blackboard(w, m, mask, step))?;
    lent.holds("blackboard: mask", mask)?;
    Ok(number)
}

pub fn run_sky(radians: bool, across: &[f64], up: &[f64]) -> Result<u32, String> {
    let bits = |list: &[f64]| list.iter().map(|x| x.to_bits()).collect::<Vec<u64>>();
    let (mut x, mut y) = (Guarded::new(&bits(across), GUARD_WORD), Guarded::new(&bits(up), GUARD_WORD));
    let (mut code, mut place) = (77, 78);
    let call = if radians { library::tirnavoy_sky_radians } else { library::tirnavoy_sky_degrees };
    let number = unsafe { call(x.at().cast(), across.len(), y.at().cast(), up.len(), &mut code, &mut place) };
    compare(&format!("sky radians {radians} across {across:?} up {up:?}"), (number, place, code), reference::sky(radians, across, up))?;
    x.holds("across", &bits(across))?;
    y.holds("up", &bits(up))?;
    Ok(number)
}
