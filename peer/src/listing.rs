//! The listing program's output for an image, as text.
use crate::image::{self, Catalogue};
use crate::refusal::Refusal;
use crate::rule::{self, set_of, Answer, Counts, Outcome, Record, Store};
use std::fmt::Write;

/// The most bytes that the listing program reads.
/// Longer input is not an image for it.
pub const INPUT: usize = 65_536;

/// The records of the listing program's store.
/// It starts as zeros.
const RECORDS: usize = 4096;

/// Opens a stream, as `rule::open` does.
pub type Open = fn(&Catalogue, &[u64], &mut Store) -> Result<(Record, u64), Refusal>;

/// Moves a stream on, as `rule::next` does.
pub type Next = fn(&Catalogue, &[u64], &mut Store, &mut Record, u64, &mut [u64]) -> (Outcome, Counts);

/// The listing of one input, by the rule as worded.
/// Every line ends in LF.
pub fn list(input: &[u8]) -> String {
    list_by(input, rule::open, rule::next)
}

/// The same by any form of the rule.
pub fn list_by(input: &[u8], open: Open, next: Next) -> String {
    let mut text = String::new();
    if input.len() > INPUT {
        text.push_str("input too long\n");
        return text;
    }
    let mut cells = vec![0; image::CELLS];
    let catalogue = match image::load(input, &mut cells) {
        Ok(catalogue) => catalogue,
        Err(fault) => {
            writeln!(text, "refused {} {}", fault.refusal.number(), fault.place).unwrap();
            return text;
        }
    };
    let (mut low, mut high, mut left, mut right) = (vec![0; RECORDS], vec![0; RECORDS], vec![0; RECORDS], vec![0; RECORDS]);
    let mut store = Store { low: &mut low, high: &mut high, left: &mut left, right: &mut right };
    let (mut record, row_tests) = open(&catalogue, &cells, &mut store).expect("a loaded image opens");
    let total: u64 = catalogue.rows.iter().map(|&rows| u64::from(rows)).sum();
    writeln!(text, "tables {} {} {} {}", catalogue.m, catalogue.n, total, row_tests).unwrap();
    let mut padded = vec![0; image::ATTRIBUTES as usize];
    let mut sum = Counts::default();
    let mut sets = 0;
    loop {
        let (outcome, counts) = next(&catalogue, &cells, &mut store, &mut record, total, &mut padded);
        sum.trials += counts.trials;
        sum.row_tests += counts.row_tests;
        sum.looks += counts.looks;
        match outcome {
            Outcome::Answered(Answer::Set(key)) => {
                sets += 1;
                text.push_str("set");
                for row in &set_of(key)[..catalogue.n as usize] {
                    write!(text, " {row}").unwrap();
                }
                text.push_str(" |");
                for &code in &padded[..catalogue.m as usize] {
                    match code {
                        0 => text.push_str(" -"),
                        code => write!(text, " {}", code - 1).unwrap(),
                    }
                }
                text.push('\n');
            }
            Outcome::Answered(Answer::Working) => {}
            Outcome::Answered(Answer::Finished) => {
                writeln!(text, "end {} {} {} {}", sets, sum.trials, sum.row_tests, sum.looks).unwrap();
                return text;
            }
            Outcome::Stopped(stop) if stop.refusal() == Refusal::Full => {
                writeln!(text, "refused 12 {sets}").unwrap();
                return text;
            }
            other => panic!("a loaded image's stream gave {other:?}"),
        }
    }
}
