//! The check of the hub's list, from the request's words: which entries are maximal sets is known from elsewhere (by brute force, or by a drained
//! stream), and the trials are run only where a set is missing. And the comparison with the library's check.
use crate::brute::Relations;
use crate::image::Catalogue;
use crate::lent::Lent;
use crate::make::{self, Tables as Made};
use crate::random::Random;
use crate::rule::{self, Answer, Key, Outcome, Store, Tables};
use crate::stored;
use crate::tally::Tally;
use crate::words::{self, CATALOGUE, SHORT_SLICE};
use crate::library;
use std::collections::HashSet;

/// The words of a result: the place of an entry and 0, or the two words of a missing set's key.
pub const NAMED: usize = 2;

/// All maximal sets of a good catalogue, as its drained stream hands them out; none of another.
/// The store is as long as a store ever is.
pub fn drained(catalogue: &Catalogue, cells: &[u64]) -> HashSet<Key> {
    let [mut low, mut high] = [(); 2].map(|_| vec![0; rule::RECORDS]);
    let [mut left, mut right] = [(); 2].map(|_| vec![0; rule::RECORDS]);
    let mut store = Store { low: &mut low, high: &mut high, left: &mut left, right: &mut right };
    let mut sets = HashSet::new();
    let Ok((mut record, _)) = rule::open(catalogue, cells, &mut store) else {
        return sets;
    };
    loop {
        match rule::next(catalogue, cells, &mut store, &mut record, u64::MAX, &mut [0; 63]).0 {
            Outcome::Answered(Answer::Set(key)) => sets.insert(key),
            Outcome::Answered(Answer::Finished) => return sets,
            other => panic!("{other:?} in a drain"),
        };
    }
}

/// The check: 32 and zeros for a right list, 64 and the place of an entry, 96 and the key of a missing set, or a refusal and zeros.
/// A right list holds every maximal set once and nothing else; the first bad entry comes before any missing set.
fn judged(catalogue: &Catalogue, cells: &[u64], listed: &[Key], maximal: &HashSet<Key>) -> (u64, [u64; NAMED]) {
    let tables = match Tables::checked(catalogue, cells) {
        Ok(tables) => tables,
        Err(refusal) => return (refusal.number(), [0; NAMED]),
    };
    let mut seen = HashSet::new();
    for (place, &key) in listed.iter().enumerate() {
        if !maximal.contains(&key) || !seen.insert(key) {
            return (64, [place as u64, 0]);
        }
    }
    if seen.len() == maximal.len() {
        return (32, [0; NAMED]);
    }
    let trials = listed.iter().flat_map(|&key| (0..tables.total() as usize).map(move |place| (key, place)));
    let missing = if listed.is_empty() {
        tables.first_extended()
    } else {
        trials.map(|(key, place)| tables.reached(key, place)).find(|key| !seen.contains(key))
    };
    let missing = missing.expect("no trial leads out of a list that lacks a set");
    (96, [missing.low, missing.high])
}

/// The check in the form of the C call, for tables whose maximal sets are known. The list is two slices, the first and the second words of its keys.
/// It is as long as the shorter of them. A short slice of words changes nothing.
pub fn check_list(catalogue: &[u64], cells: &[u64], listed: (&[u64], &[u64]), maximal: &HashSet<Key>, result: &mut [u64]) -> u64 {
    if catalogue.len() < CATALOGUE || result.len() < NAMED {
        return SHORT_SLICE;
    }
    let listed: Vec<Key> = listed.0.iter().zip(listed.1).map(|(&low, &high)| Key::of(low, high)).collect();
    let (answer, named) = judged(&words::catalogue_of(catalogue), cells, &listed, maximal);
    result[..NAMED].copy_from_slice(&named);
    answer
}

/// Puts a list in any order, and changes it in one of the ways that a hub's software may go wrong, or not at all.
/// One is dropped, some are, one is repeated, changed or added; or all is words alone, or empty.
fn changed(random: &mut Random, list: &mut Vec<Key>, tables: &Made) {
    for place in (1..list.len()).rev() {
        list.swap(place, random.below(place as u64 + 1) as usize);
    }
    let way = random.pick(&[0, 0, 0, 1, 1, 2, 2, 3, 3, 4, 4, 5, 5, 6, 7]);
    let place = random.below(list.len().max(1) as u64) as usize;
    match way {
        1 if !list.is_empty() => drop(list.remove(place)),
        2 => {
            let kept = random.below(100);
            list.retain(|_| random.percent(kept));
        }
        3 if !list.is_empty() => {
            let key = list[place];
            list.insert(random.below(list.len() as u64 + 1) as usize, key);
        }
        4 if !list.is_empty() => list[place] = other(random, list[place], tables),
        5 => {
            let near = list.get(place).copied().unwrap_or(Key::of(1, 0));
            let word = other(random, near, tables);
            list.insert(random.below(list.len() as u64 + 1) as usize, word);
        }
        6 => {
            let word = |random: &mut Random| if random.percent(50) { random.word() } else { random.below(1 << 20) * random.below(2) };
            *list = (0..random.below(6)).map(|_| Key::of(word(random), word(random))).collect();
        }
        7 => list.clear(),
        _ => {}
    }
}

/// A key near another: without one of its rows, with another row, with a row that is missing or of a table from n on, with a spare bit, with its words
/// the other way round, 0, or anything.
fn other(random: &mut Random, key: Key, tables: &Made) -> Key {
    let table = random.below(tables.catalogue.n.clamp(1, 8)) as usize;
    let count = tables.catalogue.rows[table];
    match random.below(10) {
        0..=2 => key.with_row(table, 0),
        3 | 4 => key.with_row(table, random.below(u64::from(count) + 1) as u16),
        5 => key.with_row(table, random.pick(&[count + 1, key.row(table) | 256, 4095]) & 4095),
        6 => key.with_row(random.range(0, 7), random.range(1, 4095) as u16),
        7 | 8 => make::spare_bit(random, key),
        _ => random.pick(&[Key::of(0, 0), Key::of(key.low ^ 1, key.high), Key::of(key.high, key.low), Key::of(u64::MAX, u64::MAX)]),
    }
}

/// What is lent to a check beside the words for its answer, of which there is room for so many.
/// The two slices of the list may differ in length.
struct Case<'a> {
    catalogue: &'a [u64],
    cells: &'a [u64],
    low: Vec<u64>,
    high: Vec<u64>,
    room: usize,
}

impl<'a> Case<'a> {
    /// The check of a list on tables, with room for the answer and no more.
    /// Both slices are as long as the list.
    fn of(catalogue: &'a [u64], cells: &'a [u64], list: &[Key]) -> Case<'a> {
        let (low, high) = list.iter().map(|key| (key.low, key.high)).unzip();
        Case { catalogue, cells, low, high, room: NAMED }
    }
}

/// Compares one call, with guards around all that is lent, and counts its answer.
/// What is lent for reading stays.
fn compare_one(random: &mut Random, tally: &mut Tally, case: &Case, maximal: &HashSet<Key>) -> Result<u64, String> {
    let Case { catalogue, cells, low, high, room } = case;
    let mut ours = Lent::pattern(*room, random);
    let mut theirs = ours.clone();
    let lent = [catalogue, cells, &low[..], &high[..]].map(|words| Lent::holding(words, random));
    let before = lent.clone();
    let our_answer = check_list(catalogue, cells, (low, high), maximal, ours.slice_mut());
    let their_answer = library::check_list(lent[0].slice(), lent[1].slice(), (lent[2].slice(), lent[3].slice()), theirs.slice_mut());
    let first = |words: &[u64]| format!("{} words {:x?}", words.len(), &words[..words.len().min(40)]);
    let words = || format!("catalogue {catalogue:?}, cells {cells:?}, list {} {}", first(low), first(high));
    hold!(our_answer == their_answer, "check_list gives {their_answer} ({:?}), the peer {our_answer} ({:?}): {}", theirs.slice(), ours.slice(), words());
    hold!(ours == theirs, "check_list names {:?}, the peer {:?}: {}", theirs.slice(), ours.slice(), words());
    hold!(lent == before, "check_list changes what it reads: {}", words());
    tally.meet("list", our_answer);
    note_list(tally, case, ours.slice(), our_answer);
    stored::note(tally, "list", our_answer % 32, catalogue, |words| check_list(words, cells, (low, high), maximal, &mut [0; NAMED]));
    Ok(our_answer)
}

/// Counts what an answer tells of two-word keys: an entry with a spare bit, a missing set with tables in its second word, and slices of unequal length.
fn note_list(tally: &mut Tally, case: &Case, named: &[u64], answer: u64) {
    match answer {
        64 if Key::of(case.low[named[0] as usize], case.high[named[0] as usize]).spare() => tally.note("list keys", "64 spare bit"),
        96 if named[1] != 0 => tally.note("list keys", "96 second word"),
        _ => {}
    }
    if answer >= 32 && case.low.len() != case.high.len() {
        tally.note("list keys", if case.low.len() < case.high.len() { "fewer first words" } else { "fewer second words" });
    }
}

/// The calls on one table set: right lists in any order, changed ones, bad catalogues, and slices that are too short.
fn compare_tables(random: &mut Random, tally: &mut Tally, tables: &Made, maximal: &HashSet<Key>) -> Result<(), String> {
    let mut sorted: Vec<Key> = maximal.iter().copied().collect();
    sorted.sort_unstable();
    for _ in 0..12 {
        let mut list = sorted.clone();
        changed(random, &mut list, tables);
        let mut catalogue = words::words_of(&tables.catalogue).to_vec();
        let (mut cells, mut room) = (tables.cells.clone(), NAMED + random.below(3) as usize);
        if random.percent(20) {
            stored::scatter_behind(random, &mut catalogue);
        }
        if random.percent(30) {
            stored::spoil(random, &mut catalogue);
        }
        match random.below(12) {
            0 => {
                let refusal = random.pick(&[4, 4, 5, 6]);
                make::spoil(random, &mut catalogue, refusal);
            }
            1 => cells.truncate(random.below(cells.len() as u64 + 1) as usize),
            2 if random.percent(50) => catalogue.truncate(random.below(CATALOGUE as u64) as usize),
            2 => room = random.below(NAMED as u64) as usize,
            _ => {}
        }
        let mut case = Case { room, ..Case::of(&catalogue, &cells, &list) };
        match random.below(8) {
            0 => case.low.resize_with(list.len() + random.range(1, 3), || random.word()),
            1 => case.high.resize_with(list.len() + random.range(1, 3), || random.word()),
            _ => {}
        }
        compare_one(random, tally, &case, maximal)?;
    }
    Ok(())
}

/// A list longer than a tree has records: a star of 69,632 sets, right, with one dropped, with one repeated, and one changed behind the last record.
fn compare_long(random: &mut Random, tally: &mut Tally) -> Result<(), String> {
    let counts = [16, 16, 16, 17];
    let tables = make::star(&counts);
    let catalogue = words::words_of(&tables.catalogue);
    let mut list: Vec<Key> = Vec::new();
    for number in 0..16 * 16 * 16 * 17 {
        let rows = [number % 16, number / 16 % 16, number / 256 % 16, number / 4096];
        list.push(Key::of(rows.iter().rev().fold(0, |key, row| key * 4096 + row + 1), 0));
    }
    let maximal: HashSet<Key> = list.iter().copied().collect();
    let last = list.len() - 1;
    let mut check = |list: &[Key]| compare_one(random, tally, &Case::of(&catalogue, &tables.cells, list), &maximal);
    check(&list)?;
    let mut repeated = list.clone();
    repeated[last] = repeated[last - 1];
    check(&repeated)?;
    repeated[last] = repeated[7];
    check(&repeated)?;
    list.pop();
    check(&list)?;
    list[last - 1].low ^= 1 << 28;
    check(&list).map(|_| ())
}

/// A right list of long tables, whose row numbers of 256 and 4,095 stand in both words: right, and changed in one bit of either word, spare bits too.
/// Each change is met at its entry.
fn compare_bits(random: &mut Random, tally: &mut Tally) -> Result<(), String> {
    let tables = make::long_pair(300, 256);
    let catalogue = words::words_of(&tables.catalogue);
    let list: Vec<Key> = (1..=300).map(|row| Key::of(row << 48, if row <= 256 { row } else { 0 })).collect();
    let maximal: HashSet<Key> = list.iter().copied().collect();
    let right = compare_one(random, tally, &Case::of(&catalogue, &tables.cells, &list), &maximal)?;
    hold!(right == 32, "the list of long tables gives {right}");
    for bit in 0..if library::MOCK { 2 } else { 128 } {
        let mut changed = list.clone();
        let key = &mut changed[random.pick(&[0, 255, 256, 299])];
        *key = Key::of(key.low ^ if bit < 64 { 1 << bit } else { 0 }, key.high ^ if bit < 64 { 0 } else { 1 << (bit - 64) });
        let answer = compare_one(random, tally, &Case::of(&catalogue, &tables.cells, &changed), &maximal)?;
        hold!(answer == 64, "the list of long tables with bit {bit} changed gives {answer}");
    }
    Ok(())
}

/// Compares the check on so many table sets, twelve lists each: small ones by brute force, some larger by the peer's own stream.
pub fn compare(cases: u64, seed: u64, least: u64) -> bool {
    let mut random = Random::new(seed);
    let mut tally = Tally::default();
    if library::MOCK {
        println!("no library: the peer is compared with itself");
    }
    let long = if library::MOCK { Ok(()) } else { compare_long(&mut random, &mut tally) };
    tally.compare(long);
    let bits = compare_bits(&mut random, &mut tally);
    tally.compare(bits);
    for case in 0..cases {
        let large = case % 40 == 39;
        let mut tables = match random.below(30) {
            _ if large => make::stream_tables(&mut random, 20_000),
            0 => make::star(&[random.range(1, 4) as u16, random.range(1, 4) as u16, random.range(1, 4) as u16]),
            _ => make::stream_tables(&mut random, 600),
        };
        if random.percent(2) {
            tables = tables.without_rows();
        }
        let maximal = if large { drained(&tables.catalogue, &tables.cells) } else { Relations::of(&tables).maximal().into_iter().collect() };
        let result = compare_tables(&mut random, &mut tally, &tables, &maximal);
        tally.compare(result.map_err(|words| format!("case {case}: {words}")));
    }
    tally.table("list", &["32", "64", "96", "4", "5", "6", "8", "16", "31"], least);
    tally.table("list keys", &["64 spare bit", "96 second word", "fewer first words", "fewer second words"], least);
    stored::tables_of(&mut tally, "list", &[], least);
    tally.calls();
    tally.end()
}
