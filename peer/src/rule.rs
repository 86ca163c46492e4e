//! The stream's own rule, step by step as the rules word it.
use crate::image::{check_catalogue, Catalogue};
use crate::refusal::Refusal;

/// The most records that a store ever has.
/// A link is a 16-bit place plus 1.
pub const RECORDS: usize = 65_535;

/// A row set: for each table its row number, or 0.
/// Entries from n on are 0.
pub type Set = [u16; 8];

/// The bits of a row number in a key.
/// Row numbers are at most 4,095 (request #110).
pub const ROW_BITS: usize = 12;

/// The key of a set: two words of row numbers, tables 0 to 4 in `low` from its lowest bit on, 5 to 7 in `high`.
/// `high` stands first, since it counts first where keys are put in order.
#[derive(Clone, Copy, Debug, Default, PartialEq, Eq, PartialOrd, Ord, Hash)]
pub struct Key {
    pub high: u64,
    pub low: u64,
}

impl Key {
    /// A key from its words, the first one first.
    /// Any words may be given.
    pub fn of(low: u64, high: u64) -> Key {
        Key { high, low }
    }

    /// The row number that the key holds for a table.
    /// It may be one that is not there.
    pub fn row(self, table: usize) -> u16 {
        let word = if table < 5 { self.low >> (ROW_BITS * table) } else { self.high >> (ROW_BITS * (table - 5)) };
        (word & 0xfff) as u16
    }

    /// The key with another row number for a table.
    /// All other bits stay.
    pub fn with_row(self, table: usize, row: u16) -> Key {
        let mut key = self;
        let (word, place) = if table < 5 { (&mut key.low, ROW_BITS * table) } else { (&mut key.high, ROW_BITS * (table - 5)) };
        *word = *word & !(0xfff << place) | u64::from(row) << place;
        key
    }

    /// The key without its spare bits.
    /// Only row numbers are left.
    pub fn unspared(self) -> Key {
        Key::of(self.low & (1 << 60) - 1, self.high & (1 << 36) - 1)
    }

    /// Is a spare bit set: 60 to 63 of the first word, or 36 to 63 of the second?
    /// Such a bit names a missing row.
    pub fn spare(self) -> bool {
        self.low >> 60 != 0 || self.high >> 36 != 0
    }
}

/// The key of a set.
/// Row numbers are at most 4,095.
pub fn key_of(set: &Set) -> Key {
    set.iter().enumerate().fold(Key::default(), |key, (table, &row)| key.with_row(table, row))
}

/// The set of a key, spare bits aside.
/// It may name rows that are not there.
pub fn set_of(key: Key) -> Set {
    std::array::from_fn(|table| key.row(table))
}

/// The tables under a stream: a checked catalogue and the lent cells.
/// Cells behind the last table are never looked at.
pub struct Tables<'a> {
    catalogue: Catalogue,
    cells: &'a [u64],
    starts: [usize; 8],
    order: Vec<(usize, u16)>,
}

impl<'a> Tables<'a> {
    /// Checks the catalogue as open does and works out where each table begins; the places and masks that are stored are only checked.
    /// `order` lists all rows in row order: table by table, then by row number.
    pub fn checked(catalogue: &Catalogue, cells: &'a [u64]) -> Result<Tables<'a>, Refusal> {
        check_catalogue(catalogue, cells.len())?;
        let mut starts = [0; 8];
        let mut order = Vec::new();
        let mut place = 0;
        for table in 0..catalogue.n as usize {
            starts[table] = place;
            place += catalogue.size(table);
            order.extend((1..=catalogue.rows[table]).map(|row| (table, row)));
        }
        Ok(Tables { catalogue: *catalogue, cells, starts, order })
    }

    /// N, the number of all rows.
    /// At most 8,192.
    pub fn total(&self) -> u64 {
        self.order.len() as u64
    }

    /// n, the number of tables.
    /// As an index.
    fn tables(&self) -> usize {
        self.catalogue.n as usize
    }

    /// A row by the numbers of its table and itself, if it is there.
    /// Tables count from 0, rows from 1.
    fn row(&self, table: u64, row: u64) -> Option<(usize, u16)> {
        self.order.iter().copied().find(|&(t, r)| t as u64 == table && u64::from(r) == row)
    }

    /// The row that open extends alone: the first one, or the one that is asked for. Without rows there is no first one.
    /// A row that is asked for and not there is refused.
    fn first(&self, asked: Asked) -> Result<Option<(usize, u16)>, Refusal> {
        match asked {
            Asked::EverySet => Ok(self.order.first().copied()),
            Asked::Holding { table, row } => self.row(table, row).map(Some).ok_or(Refusal::NoRow),
        }
    }

    /// The code of a row at an attribute of its table's scheme.
    /// A row's cells stand by rising attribute.
    fn code(&self, table: usize, row: u16, attribute: u32) -> u64 {
        let scheme = self.catalogue.schemes[table];
        let rank = (scheme & ((1 << attribute) - 1)).count_ones() as usize;
        self.cells[self.starts[table] + usize::from(row - 1) * self.catalogue.width(table) + rank]
    }

    /// Do two tables touch?
    /// They do if their schemes share an attribute.
    fn touch(&self, one: usize, other: usize) -> bool {
        self.catalogue.schemes[one] & self.catalogue.schemes[other] != 0
    }

    /// Are two rows of different tables consistent?
    /// Every attribute in both schemes has a value in both rows, the same one.
    fn consistent(&self, one: (usize, u16), other: (usize, u16)) -> bool {
        let mut shared = self.catalogue.schemes[one.0] & self.catalogue.schemes[other.0];
        while shared != 0 {
            let attribute = shared.trailing_zeros();
            shared &= shared - 1;
            let code = self.code(one.0, one.1, attribute);
            if code == 0 || code != self.code(other.0, other.1, attribute) {
                return false;
            }
        }
        true
    }

    /// Row test: may this row be added to the set?
    /// Yes if its table is absent, it touches a member's table, and it is consistent with every member.
    fn row_test(&self, set: &Set, row: (usize, u16)) -> bool {
        let members = || (0..self.tables()).filter(|&table| set[table] != 0);
        set[row.0] == 0
            && members().any(|table| self.touch(table, row.0))
            && members().all(|table| self.consistent((table, set[table]), row))
    }

    /// Extension: rounds of row tests from the first row on; the first yes is added and a new round begins.
    /// A round without yes ends it. It gives the number of row tests.
    fn extend(&self, set: &mut Set) -> u64 {
        let mut tests = 0;
        'rounds: loop {
            for &row in &self.order {
                tests += 1;
                if self.row_test(set, row) {
                    set[row.0] = row.1;
                    continue 'rounds;
                }
            }
            return tests;
        }
    }

    /// The piece of a set that holds the table: what is reached from it by tables that touch.
    /// All other members are dropped.
    fn piece(&self, set: &Set, table: usize) -> Set {
        let mut piece = [0; 8];
        piece[table] = set[table];
        loop {
            let reached = (0..self.tables()).find(|&next| {
                set[next] != 0 && piece[next] == 0 && (0..self.tables()).any(|member| piece[member] != 0 && self.touch(member, next))
            });
            match reached {
                Some(next) => piece[next] = set[next],
                None => return piece,
            }
        }
    }

    /// What a trial of a row makes of a set, before it is extended.
    /// Other rows of the row's table and rows not consistent with it are dropped, it is added, and its piece is kept.
    fn turned(&self, set: &Set, row: (usize, u16)) -> Set {
        let mut turned = *set;
        for table in 0..self.tables() {
            if turned[table] != 0 && (table == row.0 || !self.consistent((table, turned[table]), row)) {
                turned[table] = 0;
            }
        }
        turned[row.0] = row.1;
        self.piece(&turned, row.0)
    }

    /// The key of the set that the first row alone extends to.
    /// None without rows.
    pub fn first_extended(&self) -> Option<Key> {
        let &first = self.order.first()?;
        let mut set = [0; 8];
        set[first.0] = first.1;
        self.extend(&mut set);
        Some(key_of(&set))
    }

    /// The key of the set that a trial of the row at a place in row order comes to.
    /// The key on which it is tried names rows that are there.
    pub fn reached(&self, key: Key, place: usize) -> Key {
        let mut set = self.turned(&set_of(key), self.order[place]);
        self.extend(&mut set);
        key_of(&set)
    }

    /// Does a key name a set of rows that are there?
    /// It is not 0, names no missing row and no table from n on, and has no spare bit set.
    pub fn names(&self, key: Key) -> bool {
        let set = set_of(key);
        key != Key::default() && !key.spare() && (0..8).all(|table| set[table] <= if table < self.tables() { self.catalogue.rows[table] } else { 0 })
    }

    /// Writes the padded row of a set to the first m of the lent words.
    /// Each attribute has the code from the lowest-numbered member table with it, or 0.
    fn pad(&self, set: &Set, padded: &mut [u64]) {
        for attribute in 0..self.catalogue.m as u32 {
            let holder = (0..self.tables()).find(|&table| set[table] != 0 && self.catalogue.schemes[table] >> attribute & 1 == 1);
            padded[attribute as usize] = holder.map_or(0, |table| self.code(table, set[table], attribute));
        }
    }
}

/// What a stream is asked for: every maximal set, or those that hold one row (request #109).
/// The row may be one that is not there.
#[derive(Clone, Copy, Debug, PartialEq, Eq)]
pub enum Asked {
    EverySet,
    Holding { table: u64, row: u64 },
}

impl Asked {
    /// Is a set one of those that are asked for?
    /// The row that is asked for is there.
    pub fn wants(self, set: &Set) -> bool {
        match self {
            Asked::EverySet => true,
            Asked::Holding { table, row } => u64::from(set[table as usize]) == row,
        }
    }
}

/// The lent store: four slices.
/// A record is a key, whose words lie in two of them, with its left and right link.
pub struct Store<'a> {
    pub low: &'a mut [u64],
    pub high: &'a mut [u64],
    pub left: &'a mut [u16],
    pub right: &'a mut [u16],
}

impl Store<'_> {
    /// How many records the store has.
    /// The shortest slice counts, and never more than 65,535.
    pub fn records(&self) -> usize {
        self.low.len().min(self.high.len()).min(self.left.len()).min(self.right.len()).min(RECORDS)
    }

    /// The key of a record.
    /// Any words may stand there.
    pub fn key(&self, record: usize) -> Key {
        Key::of(self.low[record], self.high[record])
    }

    /// The link that a record has for a bit.
    /// 0 is left, 1 is right.
    fn link(&self, record: usize, bit: u64) -> u16 {
        if bit == 0 {
            self.left[record]
        } else {
            self.right[record]
        }
    }

    /// Fills a record that was free.
    /// Both its links are 0.
    pub fn fill(&mut self, record: usize, key: Key) {
        self.low[record] = key.low;
        self.high[record] = key.high;
        self.left[record] = 0;
        self.right[record] = 0;
    }
}

/// The stream record that the caller keeps.
/// Next row runs from 0 to N.
#[derive(Clone, Copy, Debug, Default, PartialEq, Eq)]
pub struct Record {
    pub found: u64,
    pub taken: u64,
    pub next_row: u64,
}

/// What a call has done.
/// A failing trial is not counted, nor are its row tests and looks.
#[derive(Clone, Copy, Debug, Default, PartialEq, Eq)]
pub struct Counts {
    pub trials: u64,
    pub row_tests: u64,
    pub looks: u64,
}

/// What a call answers when it is not refused.
/// A set comes with its key.
#[derive(Clone, Copy, Debug, PartialEq, Eq)]
pub enum Answer {
    Set(Key),
    Finished,
    Working,
}

/// Why a call stops at work: 12, or one of the four ways to 14.
/// The ways are told apart only to count them.
#[derive(Clone, Copy, Debug, PartialEq, Eq)]
pub enum Stop {
    Full,
    KeyHandedOut,
    KeyTriedOn,
    BadLink,
    TooDeep,
}

impl Stop {
    /// The refusal that the call gives.
    /// 12 for a full store, 14 for a damaged one.
    pub fn refusal(self) -> Refusal {
        match self {
            Stop::Full => Refusal::Full,
            Stop::KeyHandedOut | Stop::KeyTriedOn | Stop::BadLink | Stop::TooDeep => Refusal::Damaged,
        }
    }
}

/// How a search ended: the key was there, or an empty link ended it.
/// The link is named by its record and the bit that chose it.
pub enum Ending {
    There,
    Empty { record: usize, bit: u64 },
}

/// Searches the first `found` records for a key, with the number of looks.
/// At depth d it takes bit d mod 12 of the row of table d / 12; look 12n + 1 must find the sought key: no bit is then taken.
pub fn search(store: &Store, found: u64, tables: usize, key: Key) -> Result<(Ending, u64), Stop> {
    let mut record = 0;
    let mut depth = 0;
    loop {
        if store.key(record) == key {
            return Ok((Ending::There, depth as u64 + 1));
        }
        if depth == ROW_BITS * tables {
            return Err(Stop::TooDeep);
        }
        let bit = u64::from(key.row(depth / ROW_BITS) >> (depth % ROW_BITS) & 1);
        let link = store.link(record, bit);
        if link == 0 {
            return Ok((Ending::Empty { record, bit }, depth as u64 + 1));
        }
        if u64::from(link) > found {
            return Err(Stop::BadLink);
        }
        record = usize::from(link) - 1;
        depth += 1;
    }
}

/// Opens the stream of every set.
/// See `open_for`.
pub fn open(catalogue: &Catalogue, cells: &[u64], store: &mut Store) -> Result<(Record, u64), Refusal> {
    open_for(Asked::EverySet, catalogue, cells, store)
}

/// Opens a stream: the first row, or the row that is asked for, alone is extended and stored as record 0.
/// It gives the stream record and the row tests; refused, it writes nothing. 19 comes before 12.
pub fn open_for(asked: Asked, catalogue: &Catalogue, cells: &[u64], store: &mut Store) -> Result<(Record, u64), Refusal> {
    let tables = Tables::checked(catalogue, cells)?;
    let Some(first) = tables.first(asked)? else {
        return Ok((Record::default(), 0));
    };
    if store.records() == 0 {
        return Err(Refusal::Full);
    }
    let mut set = [0; 8];
    set[first.0] = first.1;
    let row_tests = tables.extend(&mut set);
    store.fill(0, key_of(&set));
    Ok((Record { found: 1, taken: 0, next_row: tables.total() }, row_tests))
}

/// The first of the six reasons why a record does not fit, by its place in the rules' list.
/// None of them means that it fits.
pub fn misfit(record: &Record, records: usize, total: u64) -> Option<usize> {
    let reasons = [
        record.found > records as u64,
        record.taken > record.found,
        record.next_row > total,
        record.taken == 0 && record.next_row != total,
        record.found == 0 && total > 0,
        record.found > 0 && total == 0,
    ];
    reasons.iter().position(|&met| met)
}

/// A search for the key of a set; if it is absent, it becomes the next record.
/// It gives the looks.
fn placed(tables: &Tables, store: &mut Store, record: &mut Record, sought: Key) -> Result<u64, Stop> {
    let (ending, looks) = search(store, record.found, tables.tables(), sought)?;
    if let Ending::Empty { record: last, bit } = ending {
        let place = record.found as usize;
        if place >= store.records() {
            return Err(Stop::Full);
        }
        store.fill(place, sought);
        let link = if bit == 0 { &mut store.left[last] } else { &mut store.right[last] };
        *link = place as u16 + 1;
        record.found += 1;
    }
    Ok(looks)
}

/// A trial: the row at place next row on the set in record taken - 1, extended and searched for.
/// A set that is not asked for is not searched for: no look is made. Only a trial that succeeds leaves a mark.
fn trial(asked: Asked, tables: &Tables, store: &mut Store, record: &mut Record, counts: &mut Counts) -> Result<(), Stop> {
    let key = store.key(record.taken as usize - 1);
    if !tables.names(key) {
        return Err(Stop::KeyTriedOn);
    }
    let row = tables.order[record.next_row as usize];
    let mut set = tables.turned(&set_of(key), row);
    let row_tests = tables.extend(&mut set);
    let looks = if asked.wants(&set) { placed(tables, store, record, key_of(&set))? } else { 0 };
    record.next_row += 1;
    counts.trials += 1;
    counts.row_tests += row_tests;
    counts.looks += looks;
    Ok(())
}

/// How a stream call ended.
/// A refusal before work carries no counts.
#[derive(Clone, Copy, Debug, PartialEq, Eq)]
pub enum Outcome {
    Refused(Refusal),
    Stopped(Stop),
    Answered(Answer),
}

/// A call of the stream of every set.
/// See `next_for`.
pub fn next(catalogue: &Catalogue, cells: &[u64], store: &mut Store, record: &mut Record, budget: u64, padded: &mut [u64]) -> (Outcome, Counts) {
    next_for(Asked::EverySet, catalogue, cells, store, record, budget, padded)
}

/// A stream call with its budget of trials.
/// Checks come first, and change nothing: the catalogue's, then 13 (also for a row that is not there), then 11.
pub fn next_for(
    asked: Asked, catalogue: &Catalogue, cells: &[u64], store: &mut Store, record: &mut Record, budget: u64, padded: &mut [u64],
) -> (Outcome, Counts) {
    let mut counts = Counts::default();
    let tables = match Tables::checked(catalogue, cells) {
        Ok(tables) => tables,
        Err(refusal) => return (Outcome::Refused(refusal), counts),
    };
    if misfit(record, store.records(), tables.total()).is_some() || tables.first(asked).is_err() {
        return (Outcome::Refused(Refusal::Record), counts);
    }
    if (padded.len() as u64) < catalogue.m {
        return (Outcome::Refused(Refusal::Short), counts);
    }
    loop {
        if record.next_row == tables.total() {
            if record.taken == record.found {
                return (Outcome::Answered(Answer::Finished), counts);
            }
            let key = store.key(record.taken as usize);
            if !tables.names(key) {
                return (Outcome::Stopped(Stop::KeyHandedOut), counts);
            }
            tables.pad(&set_of(key), padded);
            record.taken += 1;
            record.next_row = 0;
            return (Outcome::Answered(Answer::Set(key)), counts);
        }
        if counts.trials == budget {
            return (Outcome::Answered(Answer::Working), counts);
        }
        if let Err(stop) = trial(asked, &tables, store, record, &mut counts) {
            return (Outcome::Stopped(stop), counts);
        }
    }
}

/// Does the first padded row cover the second?
/// Same length, and the first has every value of the second, attribute by attribute (request #104).
pub fn covers(first: &[u64], second: &[u64]) -> bool {
    first.len() == second.len() && first.iter().zip(second).all(|(&one, &other)| other == 0 || one == other)
}
