//! The stream's rule with every shortcut we know, for the benchmark: what a hurried Rust programmer would run in its stead.
//! The answers and the counts are those of `rule`; the benchmark compares them before it times anything.
use crate::image::{check_shape, Catalogue};
use crate::refusal::Refusal;
use crate::rule::{misfit, set_of, Answer, Counts, Ending, Key, Outcome, Record, Stop, Store, ROW_BITS};

/// What is known once in a call: where tables begin and which tables touch, as the catalogue stores it, and what is worked out: how wide tables are, how
/// many rows lie before each and up to its end, and which have a first column that does not fall. The row walk reads nothing else of the catalogue.
struct Plan<'a> {
    cells: &'a [u64],
    n: usize,
    m: usize,
    total: u64,
    schemes: [u64; 8],
    rows: [usize; 8],
    starts: [u16; 8],
    widths: [usize; 8],
    touching: [u16; 8],
    before: [u64; 9],
    rising: u8,
}

/// A set under way: its row numbers, its tables as a mask, those that touch one of them as another, and its merged row.
/// An attribute on which members disagree, or one is null, has 0 there.
struct Merged {
    words: [u64; 2],
    present: u16,
    touched: u16,
    attributes: u64,
    codes: [u64; 64],
}

impl Merged {
    /// The set's key.
    fn key(&self) -> Key {
        Key::of(self.words[0], self.words[1])
    }
}

impl<'a> Plan<'a> {
    /// Checks the catalogue as open does, each pair of tables once, and works the rest out, for at most so many trials.
    /// Columns are looked at only where there are trials enough to pay for it.
    fn checked(catalogue: &Catalogue, cells: &'a [u64], trials: u64) -> Result<Plan<'a>, Refusal> {
        check_shape(catalogue, cells.len())?;
        let n = catalogue.n as usize;
        let mut plan = Plan {
            cells, n, m: catalogue.m as usize, total: 0, schemes: catalogue.schemes, rows: [0; 8], starts: catalogue.places, widths: [0; 8],
            touching: catalogue.touching, before: [0; 9], rising: 0,
        };
        let (mut place, mut touching, mut right) = (0, [0; 8], true);
        for table in 0..n {
            plan.rows[table] = usize::from(catalogue.rows[table]);
            plan.widths[table] = catalogue.width(table);
            right &= usize::from(plan.starts[table]) == place;
            place += plan.widths[table] * plan.rows[table];
            plan.total += plan.rows[table] as u64;
            plan.before[table + 1] = plan.total;
            for other in 0..table {
                let touch = u16::from(plan.schemes[table] & plan.schemes[other] != 0);
                touching[table] |= touch << other;
                touching[other] |= touch << table;
            }
        }
        if !right || plan.touching[..n] != touching[..n] {
            return Err(Refusal::Stored);
        }
        if trials >= 16 && trials >= plan.total / 16 {
            plan.rising = (0..n).filter(|&table| plan.rises(table)).fold(0, |mask, table| mask | 1 << table);
        }
        Ok(plan)
    }

    /// A table's cells.
    fn table(&self, table: usize) -> &[u64] {
        let start = usize::from(self.starts[table]);
        &self.cells[start..start + self.widths[table] * self.rows[table]]
    }

    /// Does a table's first column not fall?
    fn rises(&self, table: usize) -> bool {
        let mut last = 0;
        self.table(table).iter().step_by(self.widths[table]).all(|&code| {
            let higher = last <= code;
            last = code;
            higher
        })
    }

    /// The first row of a table, from 0, whose code in a first column that does not fall is not below this one. `near` is looked at before it is halved.
    fn first_row(&self, table: usize, code: u64, near: usize) -> usize {
        let (width, cells) = (self.widths[table], self.table(table));
        let below = |row: usize| cells[row * width] < code;
        if near < self.rows[table] && !below(near) && (near == 0 || below(near - 1)) {
            return near;
        }
        let (mut from, mut left) = (0, self.rows[table]);
        while left != 0 {
            let half = left - left / 2;
            if below(from + half - 1) {
                from += half;
            }
            left /= 2;
        }
        from
    }

    /// The cells of a row, numbered from 1.
    fn row(&self, table: usize, row: usize) -> &[u64] {
        let start = usize::from(self.starts[table]) + (row - 1) * self.widths[table];
        &self.cells[start..start + self.widths[table]]
    }

    /// Adds a row to a set, its codes to the merged row.
    fn add(&self, set: &mut Merged, table: usize, row: usize) {
        let mut rest = self.schemes[table];
        for &code in self.row(table, row) {
            let attribute = rest.trailing_zeros() as usize;
            let seen = set.attributes >> attribute & 1 == 1;
            set.codes[attribute] = if !seen || set.codes[attribute] == code { code } else { 0 };
            rest &= rest - 1;
        }
        set.words[table / 5] |= (row as u64) << (ROW_BITS * (table % 5));
        set.present |= 1 << table;
        set.touched |= self.touching[table];
        set.attributes |= self.schemes[table];
    }

    /// The first row of a table, from 0, with a code at the attribute that lies at this place of a row. Where it lies first and does not fall, by halving.
    fn first_coded(&self, table: usize, place: usize, code: u64, near: usize) -> Option<usize> {
        let (width, cells) = (self.widths[table], self.table(table));
        if place == 0 && self.rising >> table & 1 == 1 {
            let row = self.first_row(table, code, near);
            return (row < self.rows[table] && cells[row * width] == code).then_some(row);
        }
        cells.chunks_exact(width).position(|row| row[place] == code)
    }

    /// The first row of a table, from 0, that has the merged codes at the shared attributes.
    /// What is compared is worked out once for the whole table. Rows with one code lie together where the first column does not fall.
    fn first_fit(&self, set: &Merged, table: usize, near: usize) -> Option<usize> {
        let scheme = self.schemes[table];
        let mut shared = scheme & set.attributes;
        let place_of = |attribute: u32| (scheme & ((1 << attribute) - 1)).count_ones() as usize;
        if shared & (shared - 1) == 0 {
            let attribute = shared.trailing_zeros();
            let code = set.codes[attribute as usize];
            return if code == 0 { None } else { self.first_coded(table, place_of(attribute), code, near) };
        }
        let mut wanted = [(0, 0); 64];
        let mut number = 0;
        while shared != 0 {
            let attribute = shared.trailing_zeros();
            let code = set.codes[attribute as usize];
            if code == 0 {
                return None;
            }
            wanted[number] = (place_of(attribute), code);
            number += 1;
            shared &= shared - 1;
        }
        let (width, cells) = (self.widths[table], self.table(table));
        let (first, code) = wanted[0];
        let others = &wanted[1..number];
        let fits = |row: &[u64]| others.iter().all(|&(place, code)| row[place] == code);
        if first == 0 && self.rising >> table & 1 == 1 {
            let from = self.first_row(table, code, near);
            let rows = cells[from * width..].chunks_exact(width);
            return rows.take_while(|row| row[0] == code).position(fits).map(|row| from + row);
        }
        cells.chunks_exact(width).position(|row| row[first] == code && fits(row))
    }

    /// Extension. A table that was walked without a fit has none later either, so it is walked once; one that touches no member is not met.
    /// Rows that are not looked at are counted all the same, by how many lie before the table. `near` is the row to look at first in each.
    fn extend(&self, set: &mut Merged, near: usize) -> u64 {
        let mut tests = 0;
        let mut walked = set.present;
        loop {
            let rest = set.touched & !walked;
            if rest == 0 {
                return tests + self.total;
            }
            let table = rest.trailing_zeros() as usize;
            walked |= 1 << table;
            if let Some(row) = self.first_fit(set, table, near) {
                tests += self.before[table] + row as u64 + 1;
                self.add(set, table, row + 1);
            }
        }
    }

    /// A set of one row.
    fn alone(&self, table: usize, row: usize) -> Merged {
        let mut set = Merged { words: [0; 2], present: 0, touched: 0, attributes: 0, codes: [0; 64] };
        self.add(&mut set, table, row);
        set
    }

    /// Does a row have the codes of a set that it shares attributes with?
    fn fits(&self, set: &Merged, table: usize, row: usize) -> bool {
        let scheme = self.schemes[table];
        let mut shared = scheme & set.attributes;
        let cells = self.row(table, row);
        while shared != 0 {
            let attribute = shared.trailing_zeros();
            let code = cells[(scheme & ((1 << attribute) - 1)).count_ones() as usize];
            if code == 0 || code != set.codes[attribute as usize] {
                return false;
            }
            shared &= shared - 1;
        }
        true
    }

    /// What a trial of a row makes of a set, before it is extended: who stays is a mask of tables, and so is the piece.
    fn turned(&self, rows: &[u16; 8], table: usize, row: usize) -> Merged {
        let mut set = self.alone(table, row);
        let mut staying = 0u16;
        for other in 0..self.n {
            if other != table && rows[other] != 0 && self.fits(&set, other, usize::from(rows[other])) {
                staying |= 1 << other;
            }
        }
        while set.touched & staying != 0 {
            let next = (set.touched & staying).trailing_zeros() as usize;
            staying &= !(1 << next);
            self.add(&mut set, next, usize::from(rows[next]));
        }
        set
    }

    /// Does a key name a set of rows that are there?
    fn names(&self, key: Key) -> bool {
        let rows = set_of(key);
        key != Key::default() && key.low >> 60 | key.high >> 36 == 0 && (0..8).all(|table| usize::from(rows[table]) <= self.rows[table])
    }

    /// Writes the padded row of a set, the highest table first, so that the lowest has the last word.
    fn pad(&self, key: Key, padded: &mut [u64]) {
        padded[..self.m].fill(0);
        let rows = set_of(key);
        for table in (0..self.n).rev().filter(|&table| rows[table] != 0) {
            let mut rest = self.schemes[table];
            for &code in self.row(table, usize::from(rows[table])) {
                padded[rest.trailing_zeros() as usize] = code;
                rest &= rest - 1;
            }
        }
    }
}

/// Opens a stream, as `rule::open`.
pub fn open(catalogue: &Catalogue, cells: &[u64], store: &mut Store) -> Result<(Record, u64), Refusal> {
    let plan = Plan::checked(catalogue, cells, 1)?;
    let Some(table) = (0..plan.n).find(|&table| plan.rows[table] > 0) else {
        return Ok((Record::default(), 0));
    };
    if store.records() == 0 {
        return Err(Refusal::Full);
    }
    let mut set = plan.alone(table, 1);
    let row_tests = plan.extend(&mut set, 0);
    store.fill(0, set.key());
    Ok((Record { found: 1, taken: 0, next_row: plan.total }, row_tests))
}

/// A stream call, as `rule::next`. The row to try is carried along, and the set's key is decoded once.
pub fn next(catalogue: &Catalogue, cells: &[u64], store: &mut Store, record: &mut Record, budget: u64, padded: &mut [u64]) -> (Outcome, Counts) {
    let mut counts = Counts::default();
    let plan = match Plan::checked(catalogue, cells, budget) {
        Ok(plan) => plan,
        Err(refusal) => return (Outcome::Refused(refusal), counts),
    };
    if misfit(record, store.records(), plan.total).is_some() {
        return (Outcome::Refused(Refusal::Record), counts);
    }
    if padded.len() < plan.m {
        return (Outcome::Refused(Refusal::Short), counts);
    }
    if record.next_row < plan.total {
        if let Some(outcome) = trials(&plan, store, record, budget, &mut counts) {
            return (outcome, counts);
        }
    }
    if record.taken == record.found {
        return (Outcome::Answered(Answer::Finished), counts);
    }
    let key = store.key(record.taken as usize);
    if !plan.names(key) {
        return (Outcome::Stopped(Stop::KeyHandedOut), counts);
    }
    plan.pad(key, padded);
    record.taken += 1;
    record.next_row = 0;
    (Outcome::Answered(Answer::Set(key)), counts)
}

/// The trials of one call, all on the same set; none once next row is N.
fn trials(plan: &Plan, store: &mut Store, record: &mut Record, budget: u64, counts: &mut Counts) -> Option<Outcome> {
    if budget == 0 {
        return Some(Outcome::Answered(Answer::Working));
    }
    let key = store.key(record.taken as usize - 1);
    if !plan.names(key) {
        return Some(Outcome::Stopped(Stop::KeyTriedOn));
    }
    let rows = set_of(key);
    let (mut table, mut row) = (0, record.next_row as usize);
    while row >= plan.rows[table] {
        row -= plan.rows[table];
        table += 1;
    }
    while record.next_row < plan.total {
        if counts.trials == budget {
            return Some(Outcome::Answered(Answer::Working));
        }
        let mut set = plan.turned(&rows, table, row + 1);
        let row_tests = plan.extend(&mut set, row);
        match file(plan, store, record, set.key()) {
            Err(stop) => return Some(Outcome::Stopped(stop)),
            Ok(looks) => counts.looks += looks,
        }
        counts.trials += 1;
        counts.row_tests += row_tests;
        record.next_row += 1;
        row += 1;
        while table < plan.n && row == plan.rows[table] {
            (table, row) = (table + 1, 0);
        }
    }
    None
}

/// Searches as `rule::search`, with the key as one number whose lowest bit is taken at each look and then dropped.
fn search(store: &Store, found: u64, tables: usize, sought: Key) -> Result<(Ending, u64), Stop> {
    let mut bits = u128::from(sought.high) << 60 | u128::from(sought.low);
    let (last, mut record) = ((ROW_BITS * tables) as u64 + 1, 0);
    for look in 1..=last {
        if store.low[record] == sought.low && store.high[record] == sought.high {
            return Ok((Ending::There, look));
        }
        if look == last {
            break;
        }
        let bit = bits as u64 & 1;
        bits >>= 1;
        let link = if bit == 0 { store.left[record] } else { store.right[record] };
        if link == 0 {
            return Ok((Ending::Empty { record, bit }, look));
        }
        if u64::from(link) > found {
            return Err(Stop::BadLink);
        }
        record = usize::from(link) - 1;
    }
    Err(Stop::TooDeep)
}

/// Searches for a key and files it where it is absent; the looks.
fn file(plan: &Plan, store: &mut Store, record: &mut Record, sought: Key) -> Result<u64, Stop> {
    let (ending, looks) = search(store, record.found, plan.n, sought)?;
    if let Ending::Empty { record: last, bit } = ending {
        let place = record.found as usize;
        if place >= store.records() {
            return Err(Stop::Full);
        }
        store.fill(place, sought);
        let links = if bit == 0 { &mut store.left } else { &mut store.right };
        links[last] = place as u16 + 1;
        record.found += 1;
    }
    Ok(looks)
}
