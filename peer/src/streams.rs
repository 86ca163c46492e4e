//! Random calls of open, next (of every set, and of those that hold one row) and covers on both sides.
use crate::lending::{Lending, Pair, KEYS, MISFITS, NO_SUCH_ROW};
use crate::lent::Lent;
use crate::library;
use crate::longkeys;
use crate::make::{self, Tables};
use crate::random::Random;
use crate::refusal::Refusal;
use crate::rule::{Asked, Key, ROW_BITS};
use crate::stored;
use crate::tally::Tally;
use crate::words::{self, CATALOGUE, HOLDING, RECORD, RESULT};

/// The answers that a run has to meet, call by call.
/// A key that is tried on is tested at a call's first trial, so that way to 14 never comes after trials.
const OPEN: [&str; 9] = ["0", "0 without rows", "4", "5", "6", "8", "12", "16", "31"];
const NEXT: [&str; 22] = [
    "set", "set after trials", "finished", "finished after trials", "working", "working after trials", "4", "5", "6", "8", "11", "12", "16",
    "12 after trials", "14 key handed out", "14 key handed out after trials", "14 key tried on", "14 link", "14 link after trials", "14 looks",
    "14 looks after trials", "31",
];
const OPEN_HOLDING: [&str; 12] = ["0", "4", "5", "6", "8", "12", "16", "19 no table", "19 row 0", "19 row passes count", "19 before 12", "31"];
const UNSEARCHED: [&str; 4] = [
    "set after trials without a look", "finished after trials without a look", "working after trials without a look", "12 after trials without a look",
];
const COVERS: [&str; 3] = ["0", "1", "0 unequal length"];

/// The most rows with which a call may be told to make N trials.
/// Each makes N row tests or more.
const FEW_ROWS: u64 = 600;

/// A budget for a call: none, a few, enough, or as many as can be said.
/// Total is N; where there are many rows, mostly a few.
fn budget(random: &mut Random, total: u64) -> u64 {
    if total > FEW_ROWS || total > 255 && random.percent(97) {
        return random.below(4);
    }
    match random.below(8) {
        0 => 0,
        1 => 1,
        2 => 2,
        3 | 4 => random.below(total + 2),
        5 | 6 => total,
        _ => random.pick(&[total + 1, 1 << 32, u64::MAX]),
    }
}

/// Tables for a stream: small ones that join, some without rows, some as images have them.
/// Now and then a cell is 2^63 or more, or rows repeat: stream calls take any cells.
fn some_tables(random: &mut Random) -> Tables {
    if random.percent(4) {
        return make::long_tables(random);
    }
    let most = random.pick(&[100, 400, 400, 3000]);
    let mut tables = make::stream_tables(random, most);
    match random.below(40) {
        0 | 1 => tables = tables.without_rows(),
        2 => {
            let other = make::any_tables(random);
            if other.cells.len() < 600 {
                tables = other;
            }
        }
        3 if !tables.cells.is_empty() => {
            let place = random.range(0, tables.cells.len() - 1);
            tables.cells[place] = random.pick(&[1 << 63, u64::MAX, 2]);
        }
        _ => {}
    }
    tables
}

/// A row to ask for: mostly one that is there, else a table from n on, row 0, or a row above the table's count.
/// Numbers that are there but for a high part are among them. The catalogue's words tell which rows are there.
fn some_row(random: &mut Random, words: &[u64]) -> (u64, u64) {
    let n = words[1].clamp(1, 8);
    let full: Vec<u64> = (0..n).filter(|&table| words[10 + table as usize] > 0).collect();
    let table = if full.is_empty() { random.below(n) } else { random.pick(&full) };
    let count = words[10 + table as usize].min(1 << 32);
    let row = 1 + random.below(count.max(1));
    match random.below(16) {
        0 => (random.pick(&[n, n, n + 1, 8, table + 8, table + 256, table + (1 << 32), u64::MAX]), row),
        1 => (table, 0),
        2 => (table, random.pick(&[count + 1, count + 1, count + 2, row + 256, row + 65_536, row + (1 << 32), u64::MAX])),
        _ => (table, row),
    }
}

/// A key that may be damaged: 0, anything, rows that are there, one row too high, a table from n on, a spare bit, or words the other way round.
/// The catalogue's words tell which rows are there.
fn some_key(random: &mut Random, words: &[u64], key: Key) -> Key {
    let n = words[1].clamp(1, 8) as usize;
    let table = random.range(0, n - 1);
    match random.below(8) {
        0 => Key::default(),
        1 => Key::of(random.word() >> random.below(64), random.word() * random.below(2)),
        2 | 3 => (0..n).fold(Key::default(), |key, table| key.with_row(table, random.below(words[10 + table].min(4095) + 1) as u16)),
        4 => key.with_row(table, words[10 + table].saturating_add(1).min(4095) as u16),
        5 if n < 8 => key.with_row(random.range(n, 7), 1 << random.below(12)),
        5 => Key::of(key.high, key.low),
        _ => make::spare_bit(random, key),
    }
}

/// Damages the store: a key, a link, or links that lead in a circle.
/// Nothing happens to a store without records.
fn damage_store(random: &mut Random, lending: &mut Lending) {
    let found = lending.record.slice().first().copied().unwrap_or(0).min(70_000);
    let used = (found as usize).clamp(1, lending.records().max(1)).min(lending.records());
    if used == 0 {
        return;
    }
    let place = random.range(0, used - 1);
    match random.below(4) {
        0 | 1 => {
            let key = some_key(random, lending.catalogue.slice(), lending.key(place));
            let taken = lending.record.slice().get(1).copied().unwrap_or(0);
            let due = (taken as usize).min(used - 1);
            let aimed = random.pick(&[place, due, due, (taken as usize).clamp(1, used) - 1]);
            lending.set_key(aimed, key);
        }
        2 => {
            let near = random.pick(&[0, 1, found, found + 1, 65_535]) as u16;
            let link = if random.percent(50) { near } else { random.below(found + 1) as u16 };
            let links = if random.percent(50) { &mut lending.left } else { &mut lending.right };
            links.slice_mut()[place] = link;
        }
        _ => {
            let goal = random.range(0, used - 1) as u16 + 1;
            for record in 0..used {
                lending.left.slice_mut()[record] = goal;
                lending.right.slice_mut()[record] = goal;
            }
        }
    }
}

/// Makes the store one long chain that every search follows, about as long as a search may be.
/// The last record alone has another key, which some trial may seek.
fn chain_store(random: &mut Random, lending: &mut Lending) {
    let (words, total) = (lending.catalogue.slice(), lending.total().min(5000));
    let deepest = ROW_BITS * words[1].min(8) as usize;
    let length = if random.percent(60) { deepest + random.range(0, 2) } else { random.range(1, deepest.max(1)) }.min(lending.records());
    let Some(record) = lending.stream_record() else {
        return;
    };
    if length < 2 || record.found < 2 || record.found as usize > lending.records() {
        return;
    }
    let (first, mut other) = (lending.key(0), lending.key(random.range(1, record.found as usize - 1)));
    if random.percent(10) {
        let spare = make::spare_bit(random, other);
        other = random.pick(&[Key::of(other.low, first.high), Key::of(first.low, other.high), spare]);
    }
    for place in 0..length {
        let link = if place + 1 < length { place as u16 + 2 } else { 0 };
        lending.set_key(place, if place + 1 < length { first } else { other });
        lending.left.slice_mut()[place] = link;
        lending.right.slice_mut()[place] = link;
    }
    lending.record.slice_mut()[..RECORD].copy_from_slice(&[length as u64, 1, random.below(total + 1)]);
}

/// Damages the stream record, aimed at one of the six reasons for 13, or at random; a record that names a row may name another.
/// A random record may still fit.
fn damage_record(random: &mut Random, lending: &mut Lending) {
    let (records, total) = (lending.records() as u64, lending.total().min(5000));
    let Some(record) = lending.stream_record() else {
        return;
    };
    if lending.record_words() == HOLDING && random.percent(30) {
        let (table, row) = some_row(random, lending.catalogue.slice());
        return lending.record.slice_mut()[RECORD..HOLDING].copy_from_slice(&[table, row]);
    }
    let words = &mut lending.record.slice_mut()[..RECORD];
    match random.below(7) {
        0 => words[0] = random.pick(&[records + 1, records + 2, 65_536, 1 << 32, u64::MAX]),
        1 => words[1] = random.pick(&[record.found.saturating_add(1), record.found.saturating_add(2), 65_536, u64::MAX]),
        2 => words[2] = random.pick(&[total + 1, 65_536, u64::MAX]),
        3 => words.copy_from_slice(&[record.found.max(1), 0, random.below(total + 1)]),
        4 => words.copy_from_slice(&[0, 0, total]),
        5 => words.copy_from_slice(&[records.min(1), 0, total]),
        _ => {
            let found = random.below(records + 1);
            words.copy_from_slice(&[found, random.below(found + 1), random.below(total + 1)]);
        }
    }
}

/// Spoils the catalogue so that this refusal is met: 4, 5, 6, 16, or 8 by fewer cells.
/// A few cells may lie behind the last table, so that 8 is not always met.
fn spoil_tables(random: &mut Random, lending: &mut Lending, refusal: u64) {
    if refusal == 8 {
        let length = lending.cells.length();
        let shorter = length - random.range(0, length.min(5));
        let values = lending.cells.slice()[..shorter].to_vec();
        lending.cells = Lent::holding(&values, random);
    } else {
        make::spoil(random, lending.catalogue.slice_mut(), refusal);
    }
}

/// Damages what is lent in one way.
/// Some ways leave it good, which is compared as well.
fn damage(random: &mut Random, lending: &mut Lending) {
    let words = lending.catalogue.length();
    if words < CATALOGUE {
        return;
    }
    let cut = |random: &mut Random, lent: &Lent<u64>, needed: usize| {
        let length = random.range(0, needed - 1);
        let values = lent.slice()[..length.min(lent.length())].to_vec();
        Lent::holding(&values, random)
    };
    match random.below(21) {
        0..=4 | 20 => damage_store(random, lending),
        16 | 17 => chain_store(random, lending),
        18 | 19 => spoil_tables(random, lending, 16),
        5..=7 => damage_record(random, lending),
        8 => {
            let refusal = random.pick(&[4, 5, 6]);
            spoil_tables(random, lending, refusal);
        }
        9 => spoil_tables(random, lending, 8),
        10 => {
            let m = (lending.catalogue.slice()[0] as usize).clamp(1, 63);
            lending.padded = cut(random, &lending.padded, m);
        }
        11 => match random.below(3) {
            0 => lending.catalogue = cut(random, &lending.catalogue, CATALOGUE),
            1 => lending.record = cut(random, &lending.record, lending.record_words()),
            _ => lending.result = cut(random, &lending.result, RESULT),
        },
        12 => {
            let table = random.below(8) as usize;
            let count = &mut lending.catalogue.slice_mut()[10 + table];
            *count = if random.percent(80) { count.saturating_sub(1) } else { count.saturating_add(1) };
            if random.percent(90) {
                stored::fill(lending.catalogue.slice_mut());
            }
        }
        13 => stored::scatter_behind(random, lending.catalogue.slice_mut()),
        14 if lending.cells.length() > 0 => {
            let place = random.range(0, lending.cells.length() - 1);
            lending.cells.slice_mut()[place] = random.pick(&[0, 2, 3]);
        }
        _ => {
            let records = random.range(0, lending.records());
            let words = if random.percent(50) { &mut lending.low } else { &mut lending.high };
            let kept = words.slice()[..records].to_vec();
            *words = Lent::holding(&kept, random);
        }
    }
}

/// Copies the records to a store that is longer, as a caller may after 12.
/// The new records hold a pattern.
fn lengthen(random: &mut Random, lending: &mut Lending) {
    let records = lending.records();
    let longer = records + random.pick(&[1, 1, 2, 30]);
    for words in [&mut lending.low, &mut lending.high] {
        let kept = std::mem::replace(words, Lent::pattern(longer, random));
        words.slice_mut()[..records].copy_from_slice(&kept.slice()[..records]);
    }
    for links in [&mut lending.left, &mut lending.right] {
        let kept = std::mem::replace(links, Lent::pattern(longer, random));
        links.slice_mut()[..records].copy_from_slice(&kept.slice()[..records]);
    }
}

/// A whole stream from open to finished, or until a full store is not made longer.
/// The last call is made twice.
fn drain(random: &mut Random, pair: &mut Pair, tally: &mut Tally) -> Result<(), String> {
    if pair.open(tally)? % 32 != 0 {
        return Ok(());
    }
    let total = pair.lent().total();
    let patient = random.percent(70);
    loop {
        let budget = if patient { random.pick(&[total, u64::MAX, 1 + total / 2]) } else { budget(random, total) };
        match pair.next(budget, tally)? {
            32 | 96 => {}
            64 => return pair.next(budget, tally).map(|_| ()),
            answer if answer == Refusal::Full.number() && random.percent(80) => pair.change(|lending| lengthen(random, lending)),
            _ => return Ok(()),
        }
    }
}

/// A stream that is moved on a little, damaged, and called a few times.
/// Sometimes open itself is damaged.
fn damaged_calls(random: &mut Random, pair: &mut Pair, tally: &mut Tally) -> Result<(), String> {
    match random.below(12) {
        0 | 3 => pair.change(|lending| damage(random, lending)),
        1 => {
            let refusal = random.pick(&[4, 5, 6, 8]);
            pair.change(|lending| spoil_tables(random, lending, refusal));
            if random.percent(40) {
                pair.change(|lending| spoil_tables(random, lending, 16));
            }
        }
        2 => pair.change(|lending| spoil_tables(random, lending, 16)),
        _ => {}
    }
    pair.open(tally)?;
    let total = if pair.lent().catalogue.length() < CATALOGUE { 0 } else { pair.lent().total().min(5000) };
    for _ in 0..random.pick(&[0, 1, 1, 2, 3, 6]) {
        pair.next(budget(random, total), tally)?;
    }
    for _ in 0..random.pick(&[1, 1, 1, 2, 3]) {
        pair.change(|lending| damage(random, lending));
    }
    for _ in 0..random.range(1, 4) {
        pair.next(budget(random, total), tally)?;
    }
    Ok(())
}

/// Two padded rows, mostly of one length, with few values so that all answers are met.
/// Now and then a code is anything.
fn compare_covers(random: &mut Random, tally: &mut Tally) -> Result<(), String> {
    let length = random.range(0, 5);
    let other = if random.percent(85) { length } else { random.range(0, 5) };
    let highest = random.pick(&[2, 2, 3]);
    let row = |random: &mut Random, length: usize| (0..length).map(|_| random.below(highest)).collect::<Vec<u64>>();
    let (mut first, mut second) = (row(random, length), row(random, other));
    if random.percent(20) && length > 0 && other > 0 {
        first[0] = random.pick(&[1, 1 << 32 | 1, 1 << 63, u64::MAX]);
        second[0] = random.pick(&[1, 1 << 32 | 1, 1 << 63, u64::MAX]);
    }
    let (ours, theirs) = (words::covers(&first, &second), library::covers(&first, &second));
    tally.meet("covers", if length == other { ours.to_string() } else { format!("{ours} unequal length") });
    hold!(ours == theirs, "covers gives {theirs}, the peer {ours}: {first:?} {second:?}");
    Ok(())
}

/// One comparison: three pairs of padded rows, a stream of every set, and two of the sets that hold a row.
/// One of these is of the same tables, the other of a star, in which a row is in many sets.
fn compare_one(random: &mut Random, tally: &mut Tally) -> Result<(), String> {
    for _ in 0..3 {
        compare_covers(random, tally)?;
    }
    let tables = some_tables(random);
    compare_stream(random, &tables, Asked::EverySet, tally)?;
    let counts: Vec<u16> = (0..random.range(2, 4)).map(|_| random.range(1, 4) as u16).collect();
    for tables in [tables, make::star(&counts)] {
        let (table, row) = some_row(random, &words::words_of(&tables.catalogue));
        compare_stream(random, &tables, Asked::Holding { table, row }, tally)?;
    }
    Ok(())
}

/// One stream: a drain or damaged calls.
/// The store is small, so that it is often full.
fn compare_stream(random: &mut Random, tables: &Tables, asked: Asked, tally: &mut Tally) -> Result<(), String> {
    let records = random.pick(&[0, 1, 2, 3, 5, 9, 30, 100, 100]);
    let mut pair = Pair::of(Lending::of(random, tables, asked, records));
    if random.percent(35) && tables.cells.len() < 300 {
        drain(random, &mut pair, tally)
    } else {
        damaged_calls(random, &mut pair, tally)
    }
}

/// The edges of the longest store: it never has more than 65,535 records, whatever is lent.
/// Two rows of one table; the first set is handed out, and the trial of row 2 looks for key 2. Record 1 can be handed out.
fn longest_store(random: &mut Random, tally: &mut Tally, asked: Asked) -> Result<(), String> {
    let mut tables = make::star(&[2]);
    tables.cells = vec![2, 2, 3, 3];
    let edges = [(65_534, 65_535, 32), (65_534, 65_534, 12), (65_535, 65_535, 12), (65_535, 65_536, 12), (65_535, 70_000, 12), (65_536, 70_000, 13)];
    for (found, lent, answer) in edges {
        let mut lending = Lending::of(random, &tables, asked, 0);
        lending.low = Lent::pattern(lent, random);
        lending.high = Lent::pattern(lent + 2, random);
        lending.left = Lent::pattern(lent, random);
        lending.right = Lent::pattern(lent + 1, random);
        lending.set_key(0, Key::of(1, 0));
        lending.set_key(1, Key::of(1, 0));
        lending.left.slice_mut()[0] = 0;
        let words = lending.record_words();
        lending.record.slice_mut()[..words].copy_from_slice(&[found, 1, 1, 0, 2][..words]);
        let mut pair = Pair::of(lending);
        let got = pair.next(1, tally)?;
        hold!(got == answer, "a store of {lent} with {found} found gives {got} instead of {answer}");
        let link = if answer == 32 { 65_535 } else { 0 };
        hold!(pair.lent().left.slice()[0] == link, "a store of {lent} with {found} found leaves another link");
    }
    Ok(())
}

/// Which of the four slices of a store is the shortest does not matter: it counts. Two rows of one table are two sets.
/// Without a record open is refused; with one the second set finds no room; with two there are both.
fn shortest_slice(random: &mut Random, tally: &mut Tally, asked: Asked, slice: usize) -> Result<(), String> {
    for (shortest, answers) in [(0, &[12][..]), (1, &[32, 12]), (2, &[32, 32, 64])] {
        let counts = if asked == Asked::EverySet { &[2][..] } else { &[1, 2] };
        let mut lending = Lending::of(random, &make::star(counts), asked, 3);
        match slice {
            0 => lending.low = Lent::pattern(shortest, random),
            1 => lending.high = Lent::pattern(shortest, random),
            2 => lending.left = Lent::pattern(shortest, random),
            _ => lending.right = Lent::pattern(shortest, random),
        }
        let mut pair = Pair::of(lending);
        let opened = pair.open(tally)? % 32;
        for &answer in answers {
            let got = if shortest == 0 { opened } else { pair.next(u64::MAX, tally)? };
            hold!(got == answer, "a store whose slice {slice} has {shortest} elements gives {got} instead of {answer}");
        }
    }
    Ok(())
}

/// Sets written down by hand: each is its row numbers, lowest table first, and its padded row.
/// They stand in the order of handing out.
type Sets = &'static [(&'static [u16], &'static [u64])];

/// The words of a key by its row numbers, lowest table first, as the request writes them: five in the first word, the rest in the second.
fn key_words(rows: &[u16]) -> [u64; 2] {
    let word = |rows: &[u16]| rows.iter().rev().fold(0, |word, &row| word * 4096 + u64::from(row));
    let (first, second) = rows.split_at(rows.len().min(5));
    [word(first), word(second)]
}

/// Drains one stream on both sides and compares it with sets written down by hand.
/// Behind the last of them the stream is finished.
fn written_down(random: &mut Random, tally: &mut Tally, name: &str, image: &str, asked: Asked, sets: Sets) -> Result<(), String> {
    let (catalogue, cells) = crate::image::read(&crate::edges::hex(image), 8192).map_err(|fault| format!("{name}: {fault:?}"))?;
    let tables = Tables { catalogue, cells };
    let mut pair = Pair::of(Lending::of(random, &tables, asked, 20));
    pair.open(tally)?;
    for (rows, padded) in sets {
        hold!(pair.next(u64::MAX, tally)? == 32, "edge {name}: no set");
        let lent = pair.lent();
        let key = key_words(rows);
        hold!(lent.result.slice()[..2] == key, "edge {name}: key {:x?} instead of {key:x?}", &lent.result.slice()[..2]);
        hold!(lent.padded.slice().starts_with(padded), "edge {name}: another padded row");
    }
    hold!(pair.next(u64::MAX, tally)? == 64, "edge {name}: not finished");
    Ok(())
}

/// The stream's edges, each with its sets written by hand.
/// Codes are values plus 1.
fn edges(random: &mut Random, tally: &mut Tally) {
    let two = "01 01 02 01 01";
    let cases: [(&str, String, Sets); 9] = [
        ("P no rows", "01 01 01 01 00".to_string(), &[]),
        ("P one null row", "01 01 01 01 01 00".to_string(), &[(&[1], &[0])]),
        ("P values 10 and 4,294,967,306", format!("{two} 0B 01 01 8B 80 80 80 10"), &[(&[1], &[11]), (&[0, 1], &[4_294_967_307])]),
        ("values 10 and 10", format!("{two} 0B 01 01 0B"), &[(&[1, 1], &[11])]),
        ("P null and null", format!("{two} 00 01 01 00"), &[(&[1], &[0]), (&[0, 1], &[0])]),
        ("nothing shared", "01 02 02 01 01 02 02 01 02".to_string(), &[(&[1], &[2, 0]), (&[0, 1], &[0, 2])]),
        ("two sets with one padded row", "01 02 02 03 01 02 00 03 01 02 00".to_string(), &[(&[1], &[2, 0]), (&[0, 1], &[2, 0])]),
        ("connected later", "01 03 03 03 01 02 02 04 01 02 06 01 02 02".to_string(), &[(&[1, 1, 1], &[2, 2, 2])]),
        ("an early null does not block", "01 03 03 03 01 02 00 05 01 02 03 06 01 05 03".to_string(), &[(&[1, 1], &[2, 0, 3]), (&[0, 1, 1], &[2, 5, 3])]),
    ];
    for (name, image, sets) in cases {
        let result = written_down(random, tally, name, &image, Asked::EverySet, sets);
        tally.compare(result);
    }
    for asked in [Asked::EverySet, Asked::Holding { table: 0, row: 2 }] {
        let result = longest_store(random, tally, asked);
        tally.compare(result);
    }
    for asked in [Asked::EverySet, Asked::Holding { table: 0, row: 1 }] {
        for slice in 0..4 {
            let result = shortest_slice(random, tally, asked, slice);
            tally.compare(result);
        }
    }
}

/// The edges of the stream of one row, on the rules' sample and on three tables of which two sets share a row.
/// Each is a table, a row and the sets that hold it.
fn row_edges(random: &mut Random, tally: &mut Tally) {
    let sample = "01 03 03 03 02 02 0B 03 15 06 02 0B 08 8B 80 80 80 10 0A 05 02 02 08 03 00";
    let shared = "01 03 03 03 01 02 00 05 01 02 03 06 01 05 03";
    let cases: [(&str, &str, u64, u64, Sets); 9] = [
        ("sample, first row", sample, 0, 1, &[(&[1, 1, 1], &[2, 11, 8])]),
        ("sample, row 2 of table 0", sample, 0, 2, &[(&[2, 0, 2], &[3, 21, 0])]),
        ("sample, row 1 of table 1", sample, 1, 1, &[(&[1, 1, 1], &[2, 11, 8])]),
        ("sample, row 2 of table 1", sample, 1, 2, &[(&[0, 2], &[0, 4_294_967_307, 10])]),
        ("sample, last row", sample, 2, 2, &[(&[2, 0, 2], &[3, 21, 0])]),
        ("shared, row of one set", shared, 0, 1, &[(&[1, 1], &[2, 0, 3])]),
        ("shared, row of two sets", shared, 1, 1, &[(&[1, 1], &[2, 0, 3]), (&[0, 1, 1], &[2, 5, 3])]),
        ("shared, row of the other set", shared, 2, 1, &[(&[0, 1, 1], &[2, 5, 3])]),
        ("a null row", "01 01 02 01 01 00 01 01 00", 1, 1, &[(&[0, 1], &[0])]),
    ];
    for (name, image, table, row, sets) in cases {
        let result = written_down(random, tally, name, image, Asked::Holding { table, row }, sets);
        tally.compare(result);
    }
}

/// Compares the edges and so many random cases on both sides.
/// `least` is how often each answer has to be met.
pub fn compare(cases: u64, seed: u64, least: u64) -> bool {
    let mut random = Random::new(seed);
    let mut tally = Tally::default();
    if library::MOCK {
        println!("MOCK: the peer is compared with itself");
    }
    edges(&mut random, &mut tally);
    row_edges(&mut random, &mut tally);
    longkeys::edges(&mut random, &mut tally);
    for case in 0..cases {
        let result = compare_one(&mut random, &mut tally).map_err(|words| format!("case {case}: {words}"));
        tally.compare(result);
    }
    let next: Vec<&str> = NEXT.iter().chain(&MISFITS).copied().collect();
    tally.table("open", &OPEN, least);
    tally.table("next", &next, least);
    let next: Vec<&str> = NEXT.iter().chain(&UNSEARCHED).chain(&MISFITS).copied().chain([NO_SUCH_ROW]).collect();
    tally.table("open_holding", &OPEN_HOLDING, least);
    tally.table("next_holding", &next, least);
    tally.table("covers", &COVERS, least);
    tally.table("next keys", &KEYS, least);
    tally.table("next_holding keys", &KEYS, least);
    let at_work = ["11", "12", "13", "14"];
    let later: [(&str, &[&str]); 4] = [("open", &["12"]), ("next", &at_work), ("open_holding", &["12", "19"]), ("next_holding", &at_work)];
    for (call, later) in later {
        stored::tables_of(&mut tally, call, later, least);
    }
    tally.calls();
    tally.end()
}
