//! The stream's own rule against the definition: what the stream hands out is the full disjunction, or the part of it that holds one row.
use crate::brute::Relations;
use crate::make::{self, Tables};
use crate::random::Random;
use crate::refusal::Refusal;
use crate::rule::{self, set_of, Answer, Asked, Counts, Key, Outcome, Record, Set, Stop, Store};
use crate::tally::Tally;

/// A store of its own, for the peer's drains.
/// It starts as zeros.
struct OwnStore {
    low: Vec<u64>,
    high: Vec<u64>,
    left: Vec<u16>,
    right: Vec<u16>,
}

impl OwnStore {
    /// A store with so many records.
    /// All four slices have one length.
    fn of(records: usize) -> OwnStore {
        OwnStore { low: vec![0; records], high: vec![0; records], left: vec![0; records], right: vec![0; records] }
    }

    /// The store as it is lent.
    /// The links are lent for writing too.
    fn lend(&mut self) -> Store<'_> {
        Store { low: &mut self.low, high: &mut self.high, left: &mut self.left, right: &mut self.right }
    }

    /// The keys of the first records.
    /// There are as many.
    fn keys(&self, records: u64) -> Vec<Key> {
        self.low.iter().zip(&self.high).take(records as usize).map(|(&low, &high)| Key::of(low, high)).collect()
    }
}

/// The set that the trial of a row on a set comes to, and its row tests, by the stream of every set in a store of its own.
/// The row is named by its place in row order. A set that is not new is the one that was tried on.
fn tried(tables: &Tables, key: Key, place: u64) -> Result<(Set, u64), String> {
    let mut store = OwnStore::of(2);
    (store.low[0], store.high[0]) = (key.low, key.high);
    let mut record = Record { found: 1, taken: 1, next_row: place };
    let (outcome, counts) = rule::next(&tables.catalogue, &tables.cells, &mut store.lend(), &mut record, 1, &mut [0; 63]);
    hold!(counts.trials == 1, "a trial on {key:x?} gives {outcome:?}");
    Ok((set_of(store.lend().key(record.found as usize - 1)), counts.row_tests))
}

/// Tests the looks of a call with budget 1: at most as many as bits and records allow, and none exactly when no trial was made or its set is not asked for.
/// `before` is the record before the call, and the key that of the set tried on.
fn bounded_looks(tables: &Tables, asked: Asked, before: Record, key: Key, counts: Counts) -> Result<(), String> {
    if counts.trials == 0 {
        hold!(counts.looks == 0, "{counts:?} without a trial");
        return Ok(());
    }
    let (set, row_tests) = tried(tables, key, before.next_row)?;
    hold!(counts.row_tests == row_tests, "{counts:?}, by the stream of every set {row_tests} row tests");
    hold!(counts.looks <= (12 * tables.catalogue.n + 1).min(before.found), "{counts:?} looks");
    hold!((counts.looks > 0) == asked.wants(&set), "{counts:?} looks for {set:?} where {asked:?}");
    Ok(())
}

/// Drains a stream one trial at a time and tests every bound on the way.
/// The maximal sets asked for come from the definition; the store has exactly one record for each of them.
fn bounded_drain(tables: &Tables, relations: &Relations, asked: Asked, maximal: &[Key]) -> Result<(), String> {
    let total: u64 = tables.catalogue.rows.iter().map(|&rows| u64::from(rows)).sum();
    let n = tables.catalogue.n;
    let mut store = OwnStore::of(maximal.len());
    let (mut record, row_tests) = rule::open_for(asked, &tables.catalogue, &tables.cells, &mut store.lend()).map_err(|r| format!("open: {r:?}"))?;
    hold!(row_tests <= n * total && (total == 0 || row_tests >= total), "open made {row_tests} row tests");
    hold!(record == Record { found: u64::from(total > 0), taken: 0, next_row: total }, "open gave {record:?}");
    let mut padded = vec![u64::MAX; tables.catalogue.m as usize];
    let mut handed = Vec::new();
    let mut trials = if total == 0 { 0 } else { total };
    loop {
        let before = record;
        let key = store.keys(record.taken).last().copied().unwrap_or_default();
        let (outcome, counts) = rule::next_for(asked, &tables.catalogue, &tables.cells, &mut store.lend(), &mut record, 1, &mut padded);
        trials += counts.trials;
        hold!(counts.trials <= 1, "more trials than the budget");
        hold!(record.found - before.found <= counts.trials, "a trial found more than one set");
        hold!(counts.row_tests <= counts.trials * n * total && counts.row_tests >= counts.trials * total, "{counts:?} row tests");
        bounded_looks(tables, asked, before, key, counts)?;
        let mut used = store.keys(record.found);
        used.sort_unstable();
        used.dedup();
        hold!(used.len() as u64 == record.found, "a set stands in the store twice");
        hold!(used.iter().all(|key| maximal.binary_search(key).is_ok()), "a set in the store is not maximal");
        match outcome {
            Outcome::Answered(Answer::Set(key)) => {
                hold!(trials == total, "{trials} trials before a set");
                hold!(padded == relations.embed(key), "the padded row of {key:x?} is {padded:?}");
                trials = 0;
                handed.push(key);
            }
            Outcome::Answered(Answer::Working) => {
                hold!(counts.trials == 1, "working without a trial");
            }
            Outcome::Answered(Answer::Finished) => {
                hold!(trials == total, "{trials} trials before the end");
                break;
            }
            other => return Err(format!("{other:?} with a record for each set")),
        }
    }
    handed.sort_unstable();
    hold!(handed == maximal, "handed out {handed:x?}, maximal are {maximal:x?}");
    Ok(())
}

/// A store with a record too few ends in 12, and a longer one goes on to the same sets.
/// The counts of the two parts sum up to those of one drain.
fn full_drain(random: &mut Random, tables: &Tables, asked: Asked, maximal: &[Key]) -> Result<(), String> {
    if maximal.is_empty() {
        return Ok(());
    }
    let total: u64 = tables.catalogue.rows.iter().map(|&rows| u64::from(rows)).sum();
    let mut padded = vec![0; 63];
    let mut sums = Vec::new();
    for records in [maximal.len(), maximal.len() - 1] {
        let mut store = OwnStore::of(records);
        if records == 0 {
            let refused = rule::open_for(asked, &tables.catalogue, &tables.cells, &mut store.lend());
            hold!(refused == Err(Refusal::Full), "a store without records opened");
            return Ok(());
        }
        let (mut record, _) = rule::open_for(asked, &tables.catalogue, &tables.cells, &mut store.lend()).map_err(|r| format!("open: {r:?}"))?;
        let mut sum = [0; 3];
        let mut full = false;
        loop {
            let budget = random.pick(&[0, 1, 2, total, u64::MAX]);
            let (outcome, counts) = rule::next_for(asked, &tables.catalogue, &tables.cells, &mut store.lend(), &mut record, budget, &mut padded);
            sum[0] += counts.trials;
            sum[1] += counts.row_tests;
            sum[2] += counts.looks;
            match outcome {
                Outcome::Answered(Answer::Finished) => break,
                Outcome::Answered(_) => {}
                Outcome::Stopped(Stop::Full) => {
                    full = true;
                    store.low.push(7);
                    store.high.push(7);
                    store.left.push(7);
                    store.right.push(7);
                }
                other => return Err(format!("{other:?} in a drain")),
            }
        }
        hold!(full == (records < maximal.len()), "{records} records for {} sets", maximal.len());
        sums.push(sum);
    }
    hold!(sums[0] == sums[1], "the counts change with the store: {sums:?}");
    Ok(())
}

/// Compares one stream with the definition's sets, with a record for each of them and with one too few.
/// It gives their number.
fn one_stream(random: &mut Random, tables: &Tables, relations: &Relations, asked: Asked, maximal: &[Key]) -> Result<usize, String> {
    let sets: Vec<Key> = maximal.iter().copied().filter(|&key| asked.wants(&set_of(key))).collect();
    bounded_drain(tables, relations, asked, &sets)?;
    full_drain(random, tables, asked, &sets)?;
    Ok(sets.len())
}

/// Compares the stream of each row with the sets that hold it, and that of every set with all of them.
/// It gives the number of sets that the rows' streams handed out. A row behind the last, a row 0 and a table from n on are refused with 19.
fn all_streams(random: &mut Random, tables: &Tables, relations: &Relations, maximal: &[Key]) -> Result<usize, String> {
    one_stream(random, tables, relations, Asked::EverySet, maximal)?;
    let (mut sets, n) = (0, tables.catalogue.n);
    for table in 0..n {
        let count = u64::from(tables.catalogue.rows[table as usize]);
        for row in 1..=count {
            sets += one_stream(random, tables, relations, Asked::Holding { table, row }, maximal)?;
        }
        for (table, row) in [(table, 0), (table, count + 1), (n, 1), (n + table, count)] {
            let refused = rule::open_for(Asked::Holding { table, row }, &tables.catalogue, &tables.cells, &mut OwnStore::of(0).lend());
            hold!(refused == Err(Refusal::NoRow), "row {row} of table {table} gives {refused:?}");
        }
    }
    Ok(sets)
}

/// Compares the stream of every set, and that of a row of 256, with the definition on tables of more than 255 rows.
/// Row numbers above 255 stand in the first word, then in the second.
fn long_streams(random: &mut Random, (first, second): (u16, u16)) -> Result<(), String> {
    let tables = make::long_pair(first, second);
    let relations = Relations::of(&tables);
    let maximal = relations.maximal();
    one_stream(random, &tables, &relations, Asked::EverySet, &maximal)?;
    let held = one_stream(random, &tables, &relations, Asked::Holding { table: if first > second { 4 } else { 5 }, row: 256 }, &maximal)?;
    hold!(held == 1 && maximal.len() == usize::from(first.max(second)), "{held} and {} sets of long tables", maximal.len());
    Ok(())
}

/// Compares the streams with the definition on so many small table sets, and on two with long tables.
/// Each counts as one comparison.
pub fn run(cases: u64, seed: u64) -> bool {
    let mut random = Random::new(seed);
    let mut tally = Tally::default();
    let (mut all, mut most, mut held) = (0, 0, 0);
    for counts in [(256, 2), (2, 257)] {
        tally.compare(long_streams(&mut random, counts));
    }
    for case in 0..cases {
        let tables = make::stream_tables(&mut random, 1000);
        let relations = Relations::of(&tables);
        let maximal = relations.maximal();
        all += maximal.len();
        most = most.max(maximal.len());
        let result = all_streams(&mut random, &tables, &relations, &maximal).map(|sets| held += sets);
        tally.compare(result.map_err(|words| format!("case {case}: {words}; {:?} {:?}", tables.catalogue, tables.cells)));
    }
    println!("{all} maximal sets, at most {most} of one table set; {held} sets by the streams of all rows");
    tally.end()
}
