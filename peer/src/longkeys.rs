//! Edges of keys of two words, each with its answer written down by hand: row numbers about 255 and up to 4,095 in either word, spare bits, and searches
//! that end at every depth.
use crate::lending::{Lending, Pair};
use crate::lent::Lent;
use crate::make;
use crate::random::Random;
use crate::rule::{Asked, Key};
use crate::tally::Tally;
use crate::words::RECORD;

/// The depth of the last look with eight tables: 12 bits of each lie above it.
const LAST: usize = 96;

/// The stream of a row of long tables: one set, with row numbers of either word up to the most.
/// The set comes first, then what is tried on it: a few trials, each with row tests and a look.
fn long_row(random: &mut Random, tally: &mut Tally, counts: (u16, u16), asked: (u64, u64), key: [u64; 2]) -> Result<(), String> {
    let tables = make::long_pair(counts.0, counts.1);
    let mut pair = Pair::of(Lending::of(random, &tables, Asked::Holding { table: asked.0, row: asked.1 }, 3));
    let total = u64::from(counts.0) + u64::from(counts.1);
    let joined = asked.1 <= u64::from(counts.0.min(counts.1));
    let opened = pair.open(tally)?;
    let reached = if asked.0 == 4 { u64::from(counts.0) + asked.1 } else { asked.1 };
    let tests = if joined { total + reached } else { total };
    hold!(opened == tests * 32, "the row {asked:?} of {counts:?} rows opens with {opened} instead of {tests} row tests");
    hold!(pair.next(0, tally)? == 32, "the row {asked:?} of {counts:?} rows has no set");
    let got = &pair.lent().result.slice()[..5];
    hold!(got == [key[0], key[1], 0, 0, 0], "the row {asked:?} of {counts:?} rows gives {got:x?} instead of {key:x?}");
    hold!(pair.lent().padded.slice()[0] == asked.1 + 1, "the row {asked:?} of {counts:?} rows has another padded row");
    hold!(pair.next(2, tally)? == 96, "the row {asked:?} of {counts:?} rows is not at work");
    Ok(())
}

/// Which words a search of long keys takes its bits from, and what it compares: a record is filed where the bit says, behind records that differ in
/// one word or in a spare bit alone, which a look passes. Table 5 has one row, which joins the first of table 4 alone.
fn long_search(random: &mut Random, tally: &mut Tally, passed: Key) -> Result<(), String> {
    let tables = make::long_pair(300, 1);
    let mut lending = Lending::of(random, &tables, Asked::EverySet, 4);
    lending.set_key(0, Key::of(1 << 48, 1));
    lending.set_key(1, passed);
    for record in 0..2 {
        let next = if record == 0 { 2 } else { 0 };
        lending.left.slice_mut()[record] = next;
        lending.right.slice_mut()[record] = next;
    }
    lending.record.slice_mut()[..RECORD].copy_from_slice(&[2, 1, 255]);
    let mut pair = Pair::of(lending);
    hold!(pair.next(1, tally)? == 96, "a search past {passed:x?} does not go on");
    let lent = pair.lent();
    let (record, looks) = (lent.stream_record().expect("a record"), lent.result.slice()[4]);
    let there = passed == Key::of(256 << 48, 0);
    hold!(looks == 2 && record.found == if there { 2 } else { 3 } && record.next_row == 256, "a search past {passed:x?} gives {record:?}, {looks} looks");
    hold!(there || lent.key(2) == Key::of(256 << 48, 0), "a search past {passed:x?} files {:x?}", lent.key(2));
    hold!(there || lent.left.slice()[1] == 3 && lent.right.slice()[1] == 0, "a search past {passed:x?} files on the other side");
    Ok(())
}

/// A search that ends at a depth: a chain of records with other keys, one for each look, on both sides alike. The key is filed on the side of its bit.
/// At depth d that is bit d mod 12 of table d / 12's row; look 12n + 1 is the last, and finds the key or none.
fn deep_search(random: &mut Random, tally: &mut Tally, row: u16, depth: usize, there: bool) -> Result<(), String> {
    let tables = make::long_pair(4095, 4095);
    let mut lending = Lending::of(random, &tables, Asked::EverySet, depth + 2);
    let first = if row == 1 { 2 } else { 1 };
    let sought = Key::of(u64::from(row) << 48, u64::from(row));
    for record in 0..=depth {
        let link = if record < depth { record as u16 + 2 } else { 0 };
        lending.set_key(record, if record == depth && there { sought } else { Key::of(first << 48, first) });
        (lending.left.slice_mut()[record], lending.right.slice_mut()[record]) = (link, link);
    }
    lending.record.slice_mut()[..RECORD].copy_from_slice(&[depth as u64 + 1, 1, u64::from(row) - 1]);
    let mut pair = Pair::of(lending);
    let answer = pair.next(1, tally)?;
    let lent = pair.lent();
    let right = (depth / 12 == 4 || depth / 12 == 5) && row >> (depth % 12) & 1 == 1;
    let wanted = match there {
        true => (96, depth as u64 + 1, 0, 0),
        false if depth == LAST => (14, 0, 0, 0),
        false => (96, depth as u64 + 1, u16::from(!right), u16::from(right)),
    };
    let side = |links: &Lent<u16>| if links.slice()[depth] == 0 { 0 } else { 1 };
    let got = (answer, lent.result.slice()[4], side(&lent.left), side(&lent.right));
    hold!(got == wanted, "a search for row {row} that ends at depth {depth} gives {got:?} instead of {wanted:?}");
    Ok(())
}

/// A record's key with one bit more, in a store that is otherwise good: handed out, and tried on.
/// A spare bit names a missing row in both.
fn spare_edge(random: &mut Random, tally: &mut Tally, key: Key, answers: [u64; 2]) -> Result<(), String> {
    let tables = make::long_pair(300, 256);
    for (record, answer) in [([1, 0, 556], answers[0]), ([1, 1, 0], answers[1])] {
        let mut lending = Lending::of(random, &tables, Asked::EverySet, 2);
        lending.set_key(0, key);
        (lending.left.slice_mut()[0], lending.right.slice_mut()[0]) = (0, 0);
        lending.record.slice_mut()[..RECORD].copy_from_slice(&record);
        let mut pair = Pair::of(lending);
        let got = pair.next(1, tally)?;
        hold!(got == answer, "a record of key {key:x?} with {record:?} gives {got} instead of {answer}");
    }
    Ok(())
}

/// The edges of long tables: row numbers of 255, 256 and 4,095 in both words, spare bits in records, and searches.
/// Table 4 is the last of the first word, table 5 the first of the second.
pub fn edges(random: &mut Random, tally: &mut Tally) {
    let both = (4095, 4095);
    let rows: [((u16, u16), (u64, u64), [u64; 2]); 9] = [
        (both, (4, 1), [1 << 48, 1]),
        (both, (4, 255), [255 << 48, 255]),
        (both, (4, 256), [256 << 48, 256]),
        (both, (4, 4095), [0x0fff_0000_0000_0000, 0xfff]),
        (both, (5, 4095), [0x0fff_0000_0000_0000, 0xfff]),
        ((4095, 256), (5, 256), [0x0100_0000_0000_0000, 0x100]),
        ((4095, 256), (4, 4095), [0x0fff_0000_0000_0000, 0]),
        ((256, 4095), (5, 4095), [0, 0xfff]),
        ((256, 4095), (5, 257), [0, 0x101]),
    ];
    for (counts, asked, key) in rows {
        let result = long_row(random, tally, counts, asked, key);
        tally.compare(result);
    }
    let near = Key::of(256 << 48, 0);
    let others = [near, Key::of(256 << 48, 1), Key::of(0, 0), Key::of(256 << 48 | 1 << 60, 0), Key::of(256 << 48 | 1 << 63, 0), Key::of(256 << 48, 1 << 36)];
    for passed in others.into_iter().chain([Key::of(256 << 48, 1 << 63), Key::of(257 << 48, 0), Key::of(0, 256 << 48)]) {
        let result = long_search(random, tally, passed);
        tally.compare(result);
    }
    for depth in 0..=LAST {
        for row in [0b1010_0110_1101, 4095] {
            let result = deep_search(random, tally, row, depth, false).and_then(|_| deep_search(random, tally, row, depth, true));
            tally.compare(result);
        }
    }
    let good = Key::of(256 << 48, 256);
    let result = spare_edge(random, tally, good, [32, 96]);
    tally.compare(result);
    let spare = (60..64).map(|bit| Key::of(good.low | 1 << bit, good.high)).chain((36..64).map(|bit| Key::of(good.low, good.high | 1 << bit)));
    let swapped = Key::of(good.high, good.low);
    let missing = [Key::of(301 << 48, 0), Key::of(0, 257), Key::of(4095 << 48, 256), Key::of(1 << 36, 0), Key::of(good.low, 1 << 12), swapped];
    for key in spare.chain(missing).collect::<Vec<_>>() {
        let result = spare_edge(random, tally, key, [14, 14]);
        tally.compare(result);
    }
}
