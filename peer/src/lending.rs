//! All that a stream call is lent, once for each side, and the calls made on both.
use crate::lent::Lent;
use crate::library;
use crate::make::Tables;
use crate::random::Random;
use crate::rule::{self, Answer, Asked, Key, Outcome, Record, Store, Stop};
use crate::stored;
use crate::tally::Tally;
use crate::words::{self, Call, CATALOGUE, HOLDING, RECORD, RESULT};

/// The slices lent to open and to a stream call, and what open is asked for.
/// Each slice stands between guard words.
#[derive(Clone, PartialEq, Eq)]
pub struct Lending {
    pub asked: Asked,
    pub catalogue: Lent<u64>,
    pub cells: Lent<u64>,
    pub low: Lent<u64>,
    pub high: Lent<u64>,
    pub left: Lent<u16>,
    pub right: Lent<u16>,
    pub record: Lent<u64>,
    pub padded: Lent<u64>,
    pub result: Lent<u64>,
}

impl Lending {
    /// What a caller lends for these tables and a store of so many records.
    /// All but the tables starts as a random pattern; here and there a slice is longer than needed.
    pub fn of(random: &mut Random, tables: &Tables, asked: Asked, records: usize) -> Lending {
        let mut more = |needed: usize| needed + [0, 0, 0, 1, 3][random.range(0, 4)];
        let (low, high, left, right) = (more(records), more(records), more(records), more(records));
        let (record, padded, result) = (more(record_words(asked)), more(tables.catalogue.m as usize), more(RESULT));
        let mut words = words::words_of(&tables.catalogue).to_vec();
        words.resize(more(CATALOGUE), 7);
        let mut cells = tables.cells.clone();
        cells.resize(more(cells.len()), 7);
        Lending {
            asked,
            catalogue: Lent::holding(&words, random),
            cells: Lent::holding(&cells, random),
            low: Lent::pattern(low, random),
            high: Lent::pattern(high, random),
            left: Lent::pattern(left, random),
            right: Lent::pattern(right, random),
            record: Lent::pattern(record, random),
            padded: Lent::pattern(padded, random),
            result: Lent::pattern(result, random),
        }
    }

    /// Opens on these slices by the peer.
    /// It gives the answer.
    fn open(&mut self) -> u64 {
        let (low, high) = (self.low.slice_mut(), self.high.slice_mut());
        let mut store = Store { low, high, left: self.left.slice_mut(), right: self.right.slice_mut() };
        words::open(self.asked, self.catalogue.slice(), self.cells.slice(), &mut store, self.record.slice_mut())
    }

    /// Makes one stream call on these slices by the peer.
    /// It gives the answer and the outcome.
    fn next(&mut self, budget: u64) -> (u64, Option<Outcome>) {
        let needed = self.record_words();
        let (low, high) = (self.low.slice_mut(), self.high.slice_mut());
        let mut store = Store { low, high, left: self.left.slice_mut(), right: self.right.slice_mut() };
        let call = Call { record: self.record.slice_mut(), budget, padded: self.padded.slice_mut(), result: self.result.slice_mut() };
        words::next(needed, self.catalogue.slice(), self.cells.slice(), &mut store, call)
    }

    /// The same slices with other words for the catalogue.
    /// They are as many.
    fn with_catalogue(&self, words: &[u64]) -> Lending {
        let mut other = self.clone();
        other.catalogue.slice_mut().copy_from_slice(words);
        other
    }

    /// How many records the store has.
    /// The shortest slice counts.
    pub fn records(&self) -> usize {
        self.low.length().min(self.high.length()).min(self.left.length()).min(self.right.length()).min(rule::RECORDS)
    }

    /// The key of a record.
    /// There is such a record.
    pub fn key(&self, record: usize) -> Key {
        Key::of(self.low.slice()[record], self.high.slice()[record])
    }

    /// Gives a record another key.
    /// There is such a record.
    pub fn set_key(&mut self, record: usize, key: Key) {
        self.low.slice_mut()[record] = key.low;
        self.high.slice_mut()[record] = key.high;
    }

    /// The stream record, if its slice holds one.
    /// For choosing damage and for counting.
    pub fn stream_record(&self) -> Option<Record> {
        let words = self.record.slice();
        (words.len() >= self.record_words()).then(|| Record { found: words[0], taken: words[1], next_row: words[2] })
    }

    /// The words of the stream record.
    /// They are more where it names a row.
    pub fn record_words(&self) -> usize {
        record_words(self.asked)
    }

    /// N as the catalogue has it.
    /// The catalogue's slice holds one.
    pub fn total(&self) -> u64 {
        let words = self.catalogue.slice();
        words[10..10 + words[1].min(8) as usize].iter().fold(0, |sum: u64, &rows| sum.saturating_add(rows))
    }

    /// The name of the first slice in which two lendings differ.
    /// Guard words count.
    fn difference(&self, other: &Lending) -> Option<&'static str> {
        let differs = [
            ("catalogue", self.catalogue != other.catalogue),
            ("cells", self.cells != other.cells),
            ("first words", self.low != other.low),
            ("second words", self.high != other.high),
            ("left links", self.left != other.left),
            ("right links", self.right != other.right),
            ("record", self.record != other.record),
            ("padded row", self.padded != other.padded),
            ("result", self.result != other.result),
        ];
        differs.iter().find(|(_, differs)| *differs).map(|(name, _)| *name)
    }

    /// The lent words in print, long slices cut.
    /// For the report of a difference.
    fn print(&self) -> String {
        let first = |words: &[u64]| words.iter().take(40).map(u64::to_string).collect::<Vec<_>>().join(" ");
        let links = |words: &[u16]| words.iter().take(40).map(u16::to_string).collect::<Vec<_>>().join(" ");
        format!(
            "\n  catalogue {}\n  cells ({}) {}\n  low ({}) {}\n  high ({}) {}\n  left ({}) {}\n  right ({}) {}\n  record {}\n  padded ({}) {}\n  result {}",
            first(self.catalogue.slice()), self.cells.length(), first(self.cells.slice()), self.low.length(), first(self.low.slice()),
            self.high.length(), first(self.high.slice()),
            self.left.length(), links(self.left.slice()), self.right.length(), links(self.right.slice()), first(self.record.slice()),
            self.padded.length(), first(self.padded.slice()), first(self.result.slice())
        )
    }
}

/// The words of a record, by what its stream is asked for.
/// Calls lend as many or more, and fewer to be refused.
fn record_words(asked: Asked) -> usize {
    if asked == Asked::EverySet {
        RECORD
    } else {
        HOLDING
    }
}

/// The same lending on both sides.
/// Damage is done to both alike, by `change`.
pub struct Pair {
    ours: Lending,
    theirs: Lending,
}

/// Names of the six reasons for 13, in the rules' order, and of the one that is left in a record that names a row.
/// They are rows of the printed table.
pub const MISFITS: [&str; 6] = ["13 found passes store", "13 taken passes found", "13 row passes N", "13 taken is 0", "13 found is 0", "13 N is 0"];
pub const NO_SUCH_ROW: &str = "13 no such row";

impl Pair {
    /// Lends the same to both sides.
    /// The copies are apart in memory.
    pub fn of(lending: Lending) -> Pair {
        Pair { theirs: lending.clone(), ours: lending }
    }

    /// What is lent now, equal on both sides.
    /// For reading.
    pub fn lent(&self) -> &Lending {
        &self.ours
    }

    /// Changes what is lent, on both sides alike.
    /// For damage, longer stores and slices cut short.
    pub fn change(&mut self, change: impl FnOnce(&mut Lending)) {
        change(&mut self.ours);
        self.theirs = self.ours.clone();
    }

    /// Fails if the sides' answers or any lent word differ.
    /// `before` is what was lent to the call.
    fn same(&self, call: &str, ours: u64, theirs: u64, before: &Lending) -> Result<(), String> {
        hold!(ours == theirs, "{call} gives {theirs}, the peer {ours}; lent was{}", before.print());
        if let Some(name) = self.ours.difference(&self.theirs) {
            return Err(format!("{call} leaves another {name}:{}\nthe peer:{}\nlent was{}", self.theirs.print(), self.ours.print(), before.print()));
        }
        Ok(())
    }

    /// Opens on both sides and compares.
    /// It gives the answer.
    pub fn open(&mut self, tally: &mut Tally) -> Result<u64, String> {
        let before = self.ours.clone();
        let ours = self.ours.open();
        let lent = &mut self.theirs;
        let (low, high) = (lent.low.slice_mut(), lent.high.slice_mut());
        let mut store = Store { low, high, left: lent.left.slice_mut(), right: lent.right.slice_mut() };
        let (catalogue, cells, record) = (lent.catalogue.slice(), lent.cells.slice(), lent.record.slice_mut());
        let (call, theirs) = match lent.asked {
            Asked::EverySet => ("open", library::open(catalogue, cells, &mut store, record)),
            Asked::Holding { table, row } => ("open_holding", library::open_holding(catalogue, cells, &mut store, table, row, record)),
        };
        tally.meet(call, opened_name(ours, &before));
        stored::note(tally, call, ours % 32, before.catalogue.slice(), |words| before.with_catalogue(words).open());
        self.same(call, ours, theirs, &before)?;
        Ok(ours)
    }

    /// Makes one stream call on both sides and compares.
    /// It gives the answer.
    pub fn next(&mut self, budget: u64, tally: &mut Tally) -> Result<u64, String> {
        let before = self.ours.clone();
        let (ours, outcome) = self.ours.next(budget);
        let lent = &mut self.theirs;
        let (low, high) = (lent.low.slice_mut(), lent.high.slice_mut());
        let mut store = Store { low, high, left: lent.left.slice_mut(), right: lent.right.slice_mut() };
        let call = Call { record: lent.record.slice_mut(), budget, padded: lent.padded.slice_mut(), result: lent.result.slice_mut() };
        let (name, theirs) = match lent.asked {
            Asked::EverySet => ("next", library::next(lent.catalogue.slice(), lent.cells.slice(), &mut store, call)),
            Asked::Holding { .. } => ("next_holding", library::next_holding(lent.catalogue.slice(), lent.cells.slice(), &mut store, call)),
        };
        let count = |place: usize| self.ours.result.slice().get(place).copied().unwrap_or(0);
        tally.meet(name, name_of(outcome, &before, count(2), count(4)));
        note_keys(tally, name, outcome, &before);
        stored::note(tally, name, ours % 32, before.catalogue.slice(), |words| before.with_catalogue(words).next(budget).0);
        self.same(&format!("{name} with budget {budget}"), ours, theirs, &before)?;
        Ok(ours)
    }
}

/// Counts what an outcome tells of two-word keys: row numbers above 255 in either word, and the spare bits of a key that is found damaged.
/// `before` is what was lent to the call; a key that is tried on stands in it.
fn note_keys(tally: &mut Tally, call: &str, outcome: Option<Outcome>, before: &Lending) {
    let words = format!("{call} keys");
    if let Some(Outcome::Answered(Answer::Set(key))) = outcome {
        if (0..5).any(|table| key.row(table) > 255) {
            tally.note(&words, "set above 255");
        }
        if (5..8).any(|table| key.row(table) > 255) {
            tally.note(&words, "set above 255 in the second word");
        }
        if key.high != 0 {
            tally.note(&words, "set with a second word");
        }
    }
    let taken = before.stream_record().map_or(0, |record| record.taken as usize);
    let damaged = match outcome {
        Some(Outcome::Stopped(Stop::KeyHandedOut)) => Some((before.key(taken), "14 spare bit handed out")),
        Some(Outcome::Stopped(Stop::KeyTriedOn)) => Some((before.key(taken - 1), "14 spare bit tried on")),
        _ => None,
    };
    if let Some((key, name)) = damaged {
        if key.spare() && key.unspared() != Key::default() {
            tally.note(&words, name);
        }
    }
}

/// How a run names what it met of two-word keys.
/// A run has to meet each of them.
pub const KEYS: [&str; 5] =
    ["set above 255", "set above 255 in the second word", "set with a second word", "14 spare bit handed out", "14 spare bit tried on"];

/// The name of open's answer in the printed table.
/// 19 is told apart by what is not there, and by whether 12 would be met too.
fn opened_name(answer: u64, before: &Lending) -> String {
    match before.asked {
        Asked::EverySet if answer == 0 => "0 without rows".to_string(),
        Asked::Holding { .. } if answer == 19 && before.records() == 0 && before.total() > 0 => "19 before 12".to_string(),
        Asked::Holding { table, .. } if answer == 19 && table >= before.catalogue.slice()[1] => "19 no table".to_string(),
        Asked::Holding { row: 0, .. } if answer == 19 => "19 row 0".to_string(),
        Asked::Holding { .. } if answer == 19 => "19 row passes count".to_string(),
        _ => (answer % 32).to_string(),
    }
}

/// The name of an outcome in the printed table.
/// 12 and 14 are told apart by whether trials had been done before, and whether one of them made a look; 13 by its reason.
fn name_of(outcome: Option<Outcome>, before: &Lending, trials: u64, looks: u64) -> String {
    let work = match (trials, looks) {
        (0, _) => "",
        (_, 0) => " after trials without a look",
        _ => " after trials",
    };
    let at_work = |name: &str| format!("{name}{work}");
    match outcome {
        None => "31".to_string(),
        Some(Outcome::Answered(Answer::Set(_))) => at_work("set"),
        Some(Outcome::Answered(Answer::Finished)) => at_work("finished"),
        Some(Outcome::Answered(Answer::Working)) => at_work("working"),
        Some(Outcome::Stopped(Stop::Full)) => at_work("12"),
        Some(Outcome::Stopped(Stop::KeyHandedOut)) => at_work("14 key handed out"),
        Some(Outcome::Stopped(Stop::KeyTriedOn)) => at_work("14 key tried on"),
        Some(Outcome::Stopped(Stop::BadLink)) => at_work("14 link"),
        Some(Outcome::Stopped(Stop::TooDeep)) => at_work("14 looks"),
        Some(Outcome::Refused(refusal)) if refusal.number() == 13 => {
            let reason = before.stream_record().and_then(|record| rule::misfit(&record, before.records(), before.total()));
            reason.map_or(NO_SUCH_ROW, |reason| MISFITS[reason]).to_string()
        }
        Some(Outcome::Refused(refusal)) => refusal.number().to_string(),
    }
}
