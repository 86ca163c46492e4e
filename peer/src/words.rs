//! The peer's functions in the form of the C calls: over slices of words, with one number as the answer.
use crate::image::{self, Catalogue};
use crate::rule::{self, Answer, Asked, Counts, Key, Outcome, Record, Store};

/// The words of a catalogue, of what is said of tables made by hand, of a record, a record that names a row, and a result.
/// Longer slices are lent too; the words behind stay.
pub const CATALOGUE: usize = 34;
pub const GIVEN: usize = 18;
pub const RECORD: usize = 3;
pub const HOLDING: usize = 5;
pub const RESULT: usize = 5;

/// The answer when a word slice is too short.
/// Nothing is then changed.
pub const SHORT_SLICE: u64 = 31;

/// Where each eight of a catalogue's words begin.
/// m and n stand before them.
pub const SCHEMES: usize = 2;
pub const ROWS: usize = 10;
pub const PLACES: usize = 18;
pub const MASKS: usize = 26;

/// Eight words as numbers of 16 bits.
/// One above 65,535 counts as 65,535.
fn shorts(words: &[u64], from: usize) -> [u16; 8] {
    std::array::from_fn(|table| words[from + table].min(65_535) as u16)
}

/// What is said of tables made by hand: m, n, eight schemes, eight row counts.
/// Places and masks are still zeros.
pub fn given_of(words: &[u64]) -> Catalogue {
    let schemes = std::array::from_fn(|table| words[SCHEMES + table]);
    Catalogue { m: words[0], n: words[1], schemes, rows: shorts(words, ROWS), ..Catalogue::default() }
}

/// A catalogue from its words: the same, then eight places and eight masks.
/// Nothing is checked here.
pub fn catalogue_of(words: &[u64]) -> Catalogue {
    Catalogue { places: shorts(words, PLACES), touching: shorts(words, MASKS), ..given_of(words) }
}

/// The words of a catalogue.
/// The order is the same.
pub fn words_of(catalogue: &Catalogue) -> [u64; CATALOGUE] {
    let mut words = [0; CATALOGUE];
    words[0] = catalogue.m;
    words[1] = catalogue.n;
    for table in 0..8 {
        words[SCHEMES + table] = catalogue.schemes[table];
        words[ROWS + table] = u64::from(catalogue.rows[table]);
        words[PLACES + table] = u64::from(catalogue.places[table]);
        words[MASKS + table] = u64::from(catalogue.touching[table]);
    }
    words
}

/// The C door: place x 32 + refusal, and 0 for good.
/// There is room for 8,192 cells.
pub fn check(image: &[u8]) -> u64 {
    match image::read(image, image::CELLS) {
        Ok(_) => 0,
        Err(fault) => fault.place as u64 * 32 + fault.refusal.number(),
    }
}

/// Load: place x 32 + refusal, and 0 for good.
/// A refusal gives a catalogue of zeros; the bytes looked at go into the first word of `looked`, where there is one.
pub fn load(image: &[u8], cells: &mut [u64], catalogue: &mut [u64], looked: &mut [u64]) -> u64 {
    if catalogue.len() < CATALOGUE {
        return SHORT_SLICE;
    }
    let (answer, loaded, count) = match image::load(image, cells) {
        Ok(loaded) => (0, loaded, 0),
        Err(fault) => (fault.place as u64 * 32 + fault.refusal.number(), Catalogue::default(), fault.looked as u64),
    };
    if let Some(word) = looked.first_mut() {
        *word = count;
    }
    catalogue[..CATALOGUE].copy_from_slice(&words_of(&loaded));
    answer
}

/// Makes the catalogue of tables made by hand: 0, or the refusal with a catalogue of zeros.
/// Words behind the catalogue stay.
pub fn make_catalogue(given: &[u64], catalogue: &mut [u64]) -> u64 {
    if given.len() < GIVEN || catalogue.len() < CATALOGUE {
        return SHORT_SLICE;
    }
    let (answer, made) = match image::made(&given_of(given)) {
        Ok(made) => (0, made),
        Err(refusal) => (refusal.number(), Catalogue::default()),
    };
    catalogue[..CATALOGUE].copy_from_slice(&words_of(&made));
    answer
}

/// Write: length x 32 + refusal.
/// The length is 0 with a refusal.
pub fn write(catalogue: &[u64], cells: &[u64], out: &mut [u8]) -> u64 {
    if catalogue.len() < CATALOGUE {
        return SHORT_SLICE;
    }
    match image::write(&catalogue_of(catalogue), cells, out) {
        Ok(length) => length as u64 * 32,
        Err(refusal) => refusal.number(),
    }
}

/// Open: row tests x 32 + refusal, with the record in its words.
/// A refusal gives a record of zeros and no row tests.
pub fn open(asked: Asked, catalogue: &[u64], cells: &[u64], store: &mut Store, record: &mut [u64]) -> u64 {
    let needed = if asked == Asked::EverySet { RECORD } else { HOLDING };
    if catalogue.len() < CATALOGUE || record.len() < needed {
        return SHORT_SLICE;
    }
    match rule::open_for(asked, &catalogue_of(catalogue), cells, store) {
        Ok((opened, row_tests)) => {
            put_record(&opened, record);
            if let Asked::Holding { table, row } = asked {
                record[RECORD..HOLDING].copy_from_slice(&[table, row]);
            }
            row_tests * 32
        }
        Err(refusal) => {
            record[..needed].fill(0);
            refusal.number()
        }
    }
}

/// Writes a record's three words.
/// Words behind them stay: those that name a row too.
fn put_record(moved: &Record, record: &mut [u64]) {
    record[..RECORD].copy_from_slice(&[moved.found, moved.taken, moved.next_row]);
}

/// A stream call's answer as a number: answer x 32 + refusal.
/// 0 refused, 1 set, 2 finished, 3 working.
fn answer_of(outcome: &Outcome) -> u64 {
    match outcome {
        Outcome::Refused(refusal) => refusal.number(),
        Outcome::Stopped(stop) => stop.refusal().number(),
        Outcome::Answered(Answer::Set(_)) => 32,
        Outcome::Answered(Answer::Finished) => 2 * 32,
        Outcome::Answered(Answer::Working) => 3 * 32,
    }
}

/// What a call lends beside the tables and the store.
/// One record, so that the two sides' lists of arguments stay short.
pub struct Call<'a> {
    pub record: &'a mut [u64],
    pub budget: u64,
    pub padded: &'a mut [u64],
    pub result: &'a mut [u64],
}

/// Stream call: the answer, the moved record, and the key's two words, trials, row tests and looks in the result.
/// The record has so many words, RECORD or HOLDING. The outcome beside the answer is for counting only; a short slice has none.
pub fn next(needed: usize, catalogue: &[u64], cells: &[u64], store: &mut Store, call: Call) -> (u64, Option<Outcome>) {
    if catalogue.len() < CATALOGUE || call.record.len() < needed || call.result.len() < RESULT {
        return (SHORT_SLICE, None);
    }
    let asked = if needed == RECORD { Asked::EverySet } else { Asked::Holding { table: call.record[3], row: call.record[4] } };
    let mut record = Record { found: call.record[0], taken: call.record[1], next_row: call.record[2] };
    let (outcome, counts) = rule::next_for(asked, &catalogue_of(catalogue), cells, store, &mut record, call.budget, call.padded);
    put_record(&record, call.record);
    let key = if let Outcome::Answered(Answer::Set(key)) = outcome { key } else { Key::default() };
    let Counts { trials, row_tests, looks } = counts;
    call.result[..RESULT].copy_from_slice(&[key.low, key.high, trials, row_tests, looks]);
    (answer_of(&outcome), Some(outcome))
}

/// Covers: 1 for yes, 0 for no.
/// The slices are padded rows of any length.
pub fn covers(first: &[u64], second: &[u64]) -> u64 {
    u64::from(rule::covers(first, second))
}
