//! The catalogue, and the image that holds up to eight tables.
use crate::numbers;
use crate::refusal::{Fault, Refusal};

/// The most attributes, tables, rows in a table, and cells of all tables together.
/// The lent cell slice may set a lower bound on the cells.
pub const ATTRIBUTES: u64 = 63;
pub const TABLES: u64 = 8;
pub const ROWS: u64 = 4095;
pub const CELLS: usize = 8192;

/// The most rows in a table of a version 1 image.
/// Where a table has more, the image's version is 2 (request #110).
pub const FIRST_ROWS: u64 = 255;

/// What the tables look like, without their cells; where the cells of each begin, and the mask of the tables that touch it (request #106).
/// Bit u of table t's mask stands for table u. Entries from n on are ignored when read and are 0 after a load.
#[derive(Clone, Copy, Debug, Default, PartialEq, Eq)]
pub struct Catalogue {
    pub m: u64,
    pub n: u64,
    pub schemes: [u64; 8],
    pub rows: [u16; 8],
    pub places: [u16; 8],
    pub touching: [u16; 8],
}

impl Catalogue {
    /// How many cells a row of the table has: one for each attribute of its scheme.
    /// The table's number is below 8.
    pub fn width(&self, table: usize) -> usize {
        self.schemes[table].count_ones() as usize
    }

    /// How many cells the table has.
    /// Tables lie one after the other, so a sum of these is a place.
    pub fn size(&self, table: usize) -> usize {
        self.width(table) * usize::from(self.rows[table])
    }

    /// The cells of all tables together.
    /// n is in range.
    pub fn cells(&self) -> usize {
        self.first_cell(self.n as usize)
    }

    /// Where a table's first cell lies, or would lie if it had rows.
    /// It is worked out from the tables before it; nothing that is stored is looked at.
    pub fn first_cell(&self, table: usize) -> usize {
        (0..table).map(|before| self.size(before)).sum()
    }

    /// The mask of the tables below n that share an attribute with a table.
    /// A table never touches itself.
    pub fn neighbours(&self, table: usize) -> u16 {
        let touch = |&other: &usize| other != table && self.schemes[other] & self.schemes[table] != 0;
        (0..self.n as usize).filter(touch).map(|other| 1 << other).sum()
    }

    /// Is what is stored of a table what is worked out?
    /// n is in range, and the table below it.
    pub fn stored_right(&self, table: usize) -> bool {
        usize::from(self.places[table]) == self.first_cell(table) && self.touching[table] == self.neighbours(table)
    }

    /// The version of the tables' image: 2 exactly when some table has more rows than version 1 allows.
    /// n is at most 8.
    pub fn version(&self) -> u64 {
        let long = self.rows[..self.n as usize].iter().any(|&rows| u64::from(rows) > FIRST_ROWS);
        if long { 2 } else { 1 }
    }

    /// The same catalogue with places and masks worked out below n, and zeros from n on.
    /// n is at most 8. A place above 65,535 is none of a catalogue that passes the check.
    pub fn filled(&self) -> Catalogue {
        let mut filled = Catalogue { places: [0; 8], touching: [0; 8], ..*self };
        for table in 0..self.n as usize {
            filled.places[table] = self.first_cell(table).min(65_535) as u16;
            filled.touching[table] = self.neighbours(table);
        }
        filled
    }
}

/// Is m, the number of attributes, in range?
/// From 1 to 63.
fn attributes_fit(m: u64) -> bool {
    (1..=ATTRIBUTES).contains(&m)
}

/// Is n, the number of tables, in range?
/// From 1 to 8.
fn tables_fit(n: u64) -> bool {
    (1..=TABLES).contains(&n)
}

/// Is the scheme right for m attributes?
/// It has an attribute, and none from m on; m is in range.
fn scheme_fits(scheme: u64, m: u64) -> bool {
    scheme != 0 && scheme < 1 << m
}

/// Checks m, then n.
/// Both give 4.
fn check_range(catalogue: &Catalogue) -> Result<(), Refusal> {
    if !attributes_fit(catalogue.m) || !tables_fit(catalogue.n) {
        return Err(Refusal::Range);
    }
    Ok(())
}

/// Checks one table's entries: 5, then 6, then 8.
/// `before` counts the cells of the tables before it; `lent` is the cell slice's length.
fn check_table(catalogue: &Catalogue, table: usize, before: usize, lent: usize) -> Result<(), Refusal> {
    if !scheme_fits(catalogue.schemes[table], catalogue.m) {
        return Err(Refusal::Scheme);
    }
    if u64::from(catalogue.rows[table]) > ROWS {
        return Err(Refusal::Rows);
    }
    if before + catalogue.size(table) > lent.min(CELLS) {
        return Err(Refusal::Cells);
    }
    Ok(())
}

/// Checks what a catalogue says of its tables: 4, then table by table 5, 6, 8.
/// No cell is looked at, and nothing that is stored of places and masks.
pub fn check_shape(catalogue: &Catalogue, lent: usize) -> Result<(), Refusal> {
    check_range(catalogue)?;
    let mut before = 0;
    for table in 0..catalogue.n as usize {
        check_table(catalogue, table, before, lent)?;
        before += catalogue.size(table);
    }
    Ok(())
}

/// Checks a whole catalogue, wherever one is lent: 4; table by table 5, 6, 8; then 16 if a stored place or mask below n is not the one worked out.
/// No cell is looked at.
pub fn check_catalogue(catalogue: &Catalogue, lent: usize) -> Result<(), Refusal> {
    check_shape(catalogue, lent)?;
    if (0..catalogue.n as usize).all(|table| catalogue.stored_right(table)) {
        Ok(())
    } else {
        Err(Refusal::Stored)
    }
}

/// The catalogue of tables made by hand, places and masks filled, or the first of 4, 5, 6, 8 with room for 8,192 cells.
/// Schemes and row counts from n on stay as they are given.
pub fn made(given: &Catalogue) -> Result<Catalogue, Refusal> {
    check_shape(given, CELLS)?;
    Ok(given.filled())
}

/// A reader that walks over an image number by number.
/// `place` is the next byte to be read.
struct Reader<'a> {
    image: &'a [u8],
    place: usize,
}

impl Reader<'_> {
    /// Reads the next number and moves behind it.
    /// Its own faults (1, 2, 17) carry the place of its first byte and the bytes looked at.
    fn number(&mut self) -> Result<u64, Fault> {
        let (value, length) = numbers::decode(&self.image[self.place..])
            .map_err(|(refusal, looked)| Fault { refusal, place: self.place, looked })?;
        self.place += length;
        Ok(value)
    }

    /// Reads the next number and refuses it if it has no good meaning.
    /// The refusal carries the place of the number's first byte.
    fn meant(&mut self, refusal: Refusal, good: impl Fn(u64) -> bool) -> Result<u64, Fault> {
        let place = self.place;
        let value = self.number()?;
        if good(value) {
            Ok(value)
        } else {
            Err(Fault::at(place, refusal))
        }
    }
}

/// The most rows of a table that a version allows.
/// The version is 1 or 2.
fn most_rows(version: u64) -> u64 {
    if version == 1 { FIRST_ROWS } else { ROWS }
}

/// Is a row refused where version 2 is read or would be written?
/// It is if all its cells are null (request #111).
fn all_null(row: &[u64]) -> bool {
    row.iter().all(|&code| code == 0)
}

/// Reads an image with room for so many cells: the catalogue and the cells, or the first fault in reading order.
/// Nothing lent is touched here. 20 comes after all else: the version was 2 and need not have been.
pub fn read(image: &[u8], lent: usize) -> Result<(Catalogue, Vec<u64>), Fault> {
    let mut reader = Reader { image, place: 0 };
    let mut catalogue = Catalogue::default();
    let mut cells = Vec::new();
    let version = reader.meant(Refusal::Version, |version| version == 1 || version == 2)?;
    let m = reader.meant(Refusal::Range, attributes_fit)?;
    let n = reader.meant(Refusal::Range, tables_fit)?;
    catalogue.m = m;
    catalogue.n = n;
    for table in 0..n as usize {
        catalogue.schemes[table] = reader.meant(Refusal::Scheme, |scheme| scheme_fits(scheme, m))?;
        let place = reader.place;
        catalogue.rows[table] = reader.meant(Refusal::Rows, |rows| rows <= most_rows(version))? as u16;
        if cells.len() + catalogue.size(table) > lent.min(CELLS) {
            return Err(Fault::at(place, Refusal::Cells));
        }
        let mut previous: Option<Vec<u64>> = None;
        for _ in 0..catalogue.rows[table] {
            let place = reader.place;
            let mut row = Vec::new();
            for _ in 0..catalogue.width(table) {
                row.push(reader.number()?);
            }
            if version == 2 && all_null(&row) {
                return Err(Fault::at(place, Refusal::NullRow));
            }
            if previous.is_some_and(|previous| previous >= row) {
                return Err(Fault::at(place, Refusal::Order));
            }
            cells.extend_from_slice(&row);
            previous = Some(row);
        }
    }
    if reader.place < image.len() {
        return Err(Fault::at(reader.place, Refusal::Surplus));
    }
    if version != catalogue.version() {
        return Err(Fault::at(0, Refusal::NeedlessVersion));
    }
    Ok((catalogue.filled(), cells))
}

/// Loads an image into the lent cells.
/// A refusal leaves them untouched; success writes the cells and leaves those behind them.
pub fn load(image: &[u8], lent: &mut [u64]) -> Result<Catalogue, Fault> {
    let (catalogue, cells) = read(image, lent.len())?;
    lent[..cells.len()].copy_from_slice(&cells);
    Ok(catalogue)
}

/// The image of the tables, or the first fault: 4; table by table 5, 6, 8; 16; then the rows of all tables, each 10, then 21 in version 2, then 7.
/// A later table's entries are checked before an earlier table's rows (request #106).
pub fn form(catalogue: &Catalogue, cells: &[u64]) -> Result<Vec<u8>, Refusal> {
    let mut image = Vec::new();
    check_catalogue(catalogue, cells.len())?;
    let version = catalogue.version();
    for number in [version, catalogue.m, catalogue.n] {
        numbers::encode(number, &mut image);
    }
    let mut place = 0;
    for table in 0..catalogue.n as usize {
        numbers::encode(catalogue.schemes[table], &mut image);
        numbers::encode(u64::from(catalogue.rows[table]), &mut image);
        let mut previous: Option<&[u64]> = None;
        for _ in 0..catalogue.rows[table] {
            let row = &cells[place..place + catalogue.width(table)];
            if row.iter().any(|&code| code >= 1 << 63) {
                return Err(Refusal::Code);
            }
            if version == 2 && all_null(row) {
                return Err(Refusal::NullRow);
            }
            if previous.is_some_and(|previous| previous >= row) {
                return Err(Refusal::Order);
            }
            for &code in row {
                numbers::encode(code, &mut image);
            }
            previous = Some(row);
            place += row.len();
        }
    }
    Ok(image)
}

/// Writes the tables' image to the front of the lent bytes and gives its length.
/// 11 comes last; a refusal writes nothing, and bytes behind the length stay.
pub fn write(catalogue: &Catalogue, cells: &[u64], out: &mut [u8]) -> Result<usize, Refusal> {
    let image = form(catalogue, cells)?;
    if out.len() < image.len() {
        return Err(Refusal::Short);
    }
    out[..image.len()].copy_from_slice(&image);
    Ok(image.len())
}
