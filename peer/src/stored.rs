//! The places and masks of a catalogue in words: filled, damaged in every way, and how they are damaged, for counting.
use crate::random::Random;
use crate::tally::Tally;
use crate::words::{catalogue_of, words_of, CATALOGUE, MASKS, PLACES, ROWS, SCHEMES, SHORT_SLICE};

/// n as an index.
/// Words with another n are refused with 4.
fn tables(words: &[u64]) -> usize {
    words[1].min(8) as usize
}

/// Fills places and masks with what is worked out from the other words; entries from n on stay.
/// Words with n above 8 stay as they are.
pub fn fill(words: &mut [u64]) {
    if words[1] > 8 {
        return;
    }
    let right = words_of(&catalogue_of(words).filled());
    for table in 0..tables(words) {
        words[PLACES + table] = right[PLACES + table];
        words[MASKS + table] = right[MASKS + table];
    }
}

/// Gives every entry from n on any word: schemes, row counts, places and masks.
/// They are ignored when a catalogue is read.
pub fn scatter_behind(random: &mut Random, words: &mut [u64]) {
    for table in tables(words)..8 {
        for eight in [SCHEMES, ROWS, PLACES, MASKS] {
            words[eight + table] = random.word() >> random.below(64);
        }
    }
}

/// Another word for a place: near, another table's, 0, or one that differs above 16 bits alone.
/// It may be the one that stands there.
fn other_place(random: &mut Random, words: &[u64], table: usize) -> u64 {
    let place = words[PLACES + table];
    let neighbour = words[PLACES + random.range(0, tables(words).max(1) - 1)];
    let width = u64::from(words[SCHEMES + table].count_ones());
    random.pick(&[
        0, 1, place.wrapping_add(1), place.wrapping_sub(1), place.wrapping_add(width), place.wrapping_sub(width), neighbour, neighbour, 8192,
        65_535, place | 1 << 16, place | 1 << 32, place | 1 << 63, u64::MAX,
    ])
}

/// Another word for a mask: with the table itself, a bit too many or too few, a table from n on, a bit above eight, or one above 16 bits alone.
/// It may be the one that stands there.
fn other_mask(random: &mut Random, words: &[u64], table: usize) -> u64 {
    let (mask, n) = (words[MASKS + table], tables(words).max(1));
    let bit_of = |random: &mut Random, touching: u64| {
        let others: Vec<usize> = (0..n).filter(|&other| other != table && mask >> other & 1 == touching).collect();
        1 << if others.is_empty() { table } else { random.pick(&others) }
    };
    match random.below(18) {
        0..=2 => mask | 1 << table,
        3..=5 => mask ^ bit_of(random, 1),
        6..=11 => mask ^ bit_of(random, 0),
        12 | 13 => mask | 1 << random.range(n.min(7), 7),
        14 => words[MASKS + random.range(0, n - 1)],
        15 => mask | 1 << random.range(8, 15),
        16 => random.pick(&[mask | 1 << 16, mask | 1 << 32, mask | 1 << 63]),
        _ => random.pick(&[0, !mask & 0xff, 0xff, 65_535, u64::MAX]),
    }
}

/// Spoils places and masks below n: one place, one mask, or several entries.
/// Now and then nothing changes.
pub fn spoil(random: &mut Random, words: &mut [u64]) {
    let n = tables(words).max(1);
    for _ in 0..random.pick(&[1, 1, 1, 1, 2, 3]) {
        let table = random.range(0, n - 1);
        if random.percent(40) {
            words[PLACES + table] = other_place(random, words, table);
        } else {
            words[MASKS + table] = other_mask(random, words, table);
        }
    }
}

/// Are there words in places or masks from n on that are not 0?
/// A call that takes the catalogue has ignored them.
pub fn behind(words: &[u64]) -> bool {
    words.len() >= CATALOGUE && (tables(words)..8).any(|table| words[PLACES + table] != 0 || words[MASKS + table] != 0)
}

/// How a run names what is wrong with places and masks.
/// A run has to meet each of them.
pub const WRONG: [&str; 8] =
    ["one place", "a word above 16 bits", "own bit", "a bit from n on", "a bit too few", "a bit too many", "another mask", "several"];

/// How places and masks below n are wrong, if they are.
/// There are words for a catalogue, with n from 1 to 8.
pub fn wrong(words: &[u64]) -> Option<&'static str> {
    let mut right = words.to_vec();
    fill(&mut right);
    let entries: Vec<usize> = (PLACES..CATALOGUE).filter(|&word| words[word] != right[word]).collect();
    let word = match entries[..] {
        [] => return None,
        [word] => word,
        _ => return Some("several"),
    };
    if words[word] & 0xffff == right[word] {
        return Some("a word above 16 bits");
    }
    if word < MASKS {
        return Some("one place");
    }
    let (table, changed) = (word - MASKS, words[word] ^ right[word]);
    Some(match changed {
        _ if changed == 1 << table => "own bit",
        _ if changed.count_ones() > 1 => "another mask",
        _ if changed >> tables(words) != 0 => "a bit from n on",
        _ if words[word] & changed == 0 => "a bit too few",
        _ => "a bit too many",
    })
}

/// Counts how a call that was lent these words met places and masks: how they were wrong where it gave 16, and what it gives once they are right;
/// which refusals came before 16; and where words from n on were ignored. `again` is the call with other words for the catalogue.
pub fn note(tally: &mut Tally, call: &str, refusal: u64, words: &[u64], again: impl FnOnce(&[u64]) -> u64) {
    match refusal {
        SHORT_SLICE => {}
        16 => {
            let mut right = words.to_vec();
            fill(&mut right);
            tally.note(&format!("{call} 16"), wrong(words).expect("16 where places and masks are right"));
            let then = again(&right) % 32;
            tally.note(&format!("{call} 16 before"), if then == 0 { "an answer".to_string() } else { then.to_string() });
        }
        4 | 5 | 6 | 8 if wrong(words).is_none() => {}
        4 | 5 | 6 | 8 => tally.note(&format!("{call} before 16"), refusal),
        _ if behind(words) => tally.note(&format!("{call} from n on"), "ignored"),
        _ => {}
    }
}

/// Prints these counts of a call, and fails those that were met too rarely.
/// `later` are the refusals that the call gives behind 16.
pub fn tables_of(tally: &mut Tally, call: &str, later: &[&str], least: u64) {
    let later: Vec<&str> = ["an answer"].iter().chain(later).copied().collect();
    tally.table(&format!("{call} 16"), &WRONG, least);
    tally.table(&format!("{call} 16 before"), &later, least);
    tally.table(&format!("{call} before 16"), &["4", "5", "6", "8"], least);
    tally.table(&format!("{call} from n on"), &["ignored"], least);
}
