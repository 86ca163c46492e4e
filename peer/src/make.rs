//! Makes tables, images and writer's cases, good and damaged, from a source of random numbers.
use crate::image::{self, Catalogue};
use crate::numbers;
use crate::random::Random;
use crate::rule::Key;
use crate::stored;
use crate::words::{words_of, CATALOGUE, GIVEN, ROWS, SCHEMES};
use std::collections::BTreeSet;

/// A catalogue with its cells.
/// As made here it is good, unless it passes 8,192 cells.
#[derive(Clone)]
pub struct Tables {
    pub catalogue: Catalogue,
    pub cells: Vec<u64>,
}

impl Tables {
    /// Tables whose catalogue has its places and masks filled.
    /// Whatever they were is forgotten.
    pub fn of(catalogue: Catalogue, cells: Vec<u64>) -> Tables {
        Tables { catalogue: catalogue.filled(), cells }
    }

    /// The same tables without their rows.
    /// No cells are left either.
    pub fn without_rows(&self) -> Tables {
        Tables::of(Catalogue { rows: [0; 8], ..self.catalogue }, Vec::new())
    }
}

/// Which codes a table's cells take.
/// Small ones make rows join and repeat, the others stand at the edges of numbers.
#[derive(Clone, Copy)]
enum Codes {
    Small,
    Nulls,
    Near32,
    Near63,
    Edges,
    Any,
}

const ALL_CODES: [Codes; 7] = [Codes::Small, Codes::Small, Codes::Nulls, Codes::Near32, Codes::Near63, Codes::Edges, Codes::Any];

/// One code below 2^63.
/// 0 is null.
fn code(random: &mut Random, codes: Codes) -> u64 {
    match codes {
        Codes::Small => random.below(4),
        Codes::Nulls => random.below(2) * random.below(4),
        Codes::Near32 => (random.below(3) << 32) + random.pick(&[0, 1, 11, 0xffff_fffe, 0xffff_ffff]),
        Codes::Near63 => (1 << 63) - 1 - random.below(8),
        Codes::Edges => (1u64 << (7 * random.range(1, 9))) - 1 - random.below(3) * random.below(2) + random.below(2) * random.below(2),
        Codes::Any => random.word() >> random.range(1, 63),
    }
    .min((1 << 63) - 1)
}

/// So many different rows in rising order, if the codes allow it, among them one of nulls only where it may be.
/// If they do not, rows with other codes fill up.
fn rows(random: &mut Random, width: usize, wanted: usize, codes: Codes, nulls: bool) -> BTreeSet<Vec<u64>> {
    let mut rows = BTreeSet::new();
    let mut tries = 0;
    while rows.len() < wanted {
        tries += 1;
        let mut row: Vec<u64> = (0..width).map(|_| code(random, codes)).collect();
        if tries > 2 * wanted {
            row[0] = random.word() >> 1;
        }
        if nulls || row.iter().any(|&code| code != 0) {
            rows.insert(row);
        }
    }
    rows
}

/// A scheme over m attributes with so many of them.
/// The width is from 1 to m.
fn scheme(random: &mut Random, m: usize, width: usize) -> u64 {
    let mut attributes: Vec<usize> = (0..m).collect();
    let mut scheme = 0;
    for place in 0..width {
        let other = random.range(place, m - 1);
        attributes.swap(place, other);
        scheme |= 1 << attributes[place];
    }
    scheme
}

/// Tables of the given widths and row counts over m attributes.
/// The codes change from table to table. Where version 2 is needed no row is all null.
fn tables(random: &mut Random, m: usize, shapes: &[(usize, usize)]) -> Tables {
    let mut catalogue = Catalogue { m: m as u64, n: shapes.len() as u64, ..Catalogue::default() };
    let mut cells = Vec::new();
    let nulls = shapes.iter().all(|&(_, count)| count as u64 <= image::FIRST_ROWS);
    for (table, &(width, count)) in shapes.iter().enumerate() {
        let codes = random.pick(&ALL_CODES);
        catalogue.schemes[table] = scheme(random, m, width);
        catalogue.rows[table] = count as u16;
        for row in rows(random, width, count, codes, nulls) {
            cells.extend(row);
        }
    }
    Tables::of(catalogue, cells)
}

/// Shapes of one to eight tables whose cells sum up to a total, or come as near as they can.
/// The first tables are wide or long, the last ones make up the rest.
fn shapes_of(random: &mut Random, m: usize, total: usize) -> Vec<(usize, usize)> {
    let mut shapes = Vec::new();
    let mut rest = total;
    while rest > 0 && shapes.len() < 8 {
        let left = 8 - shapes.len();
        let width = if rest <= 255 { 1 } else { random.range((rest / (255 * left) + 1).min(m), m) };
        let count = (rest / width).min(255);
        shapes.push((width, count));
        rest -= width * count;
    }
    shapes
}

/// Shapes that need version 2: one table or more of just above 255 rows, with short ones beside it.
/// All are narrow.
fn long_shapes(random: &mut Random, m: usize) -> Vec<(usize, usize)> {
    let mut shapes: Vec<(usize, usize)> = (0..random.range(1, 4)).map(|_| (random.range(1, m), random.range(0, 5))).collect();
    for _ in 0..random.pick(&[1, 1, 2]) {
        let table = random.range(0, shapes.len() - 1);
        shapes[table].1 = random.pick(&[255, 256, 256, 256, 257, 258, 300]);
    }
    shapes
}

/// Shapes about the most rows of a table, and about 8,192 rows of all tables together.
/// Some pass them.
fn longest_shapes(random: &mut Random) -> Vec<(usize, usize)> {
    match random.below(8) {
        0 => vec![(1, 4095)],
        1 => vec![(1, 4096)],
        2 => vec![(2, random.range(4094, 4096))],
        3 => vec![(1, 4095), (1, 4095), (1, 2)],
        4 => vec![(1, 4095), (1, 4095), (1, 3)],
        5 => vec![(1, random.range(1023, 1025)); 8],
        6 => vec![(1, random.range(4094, 4096)), (1, random.range(0, 300)), (1, random.range(0, 2))],
        _ => vec![(1, random.range(256, 4096)), (2, random.range(0, 3))],
    }
}

/// Good tables of many shapes; now and then above 8,192 cells or 4,095 rows.
/// Most are small, so that a run holds many of them.
pub fn any_tables(random: &mut Random) -> Tables {
    let style = random.below(1000);
    let m = match style {
        0..=499 => random.range(1, 6),
        500..=699 => random.range(1, 63),
        _ => random.pick(&[1, 7, 8, 9, 14, 40, 61, 62, 63]),
    };
    let mut shapes = Vec::new();
    match style {
        0..=499 => {
            for _ in 0..random.range(1, 4) {
                shapes.push((random.range(1, m), random.range(0, 4)));
            }
        }
        500..=899 => {
            for _ in 0..random.range(1, 8) {
                shapes.push((random.range(1, m.min(9)), random.range(0, 7)));
            }
        }
        900..=923 => shapes.push((m, random.range(0, 8))),
        924..=940 => {
            for _ in 0..random.range(1, 2) {
                shapes.push((1, random.pick(&[127, 128, 200, 254, 255])));
            }
        }
        941..=970 => {
            let m = random.range(1, 4);
            let shapes = long_shapes(random, m);
            return tables(random, m, &shapes);
        }
        971..=974 => {
            let shapes = longest_shapes(random);
            return tables(random, 2, &shapes);
        }
        975..=985 => return tables(random, 63, &[(63, 128 + style as usize % 4)]),
        _ => {
            let total = random.pick(&[8100, 8189, 8190, 8191, 8192, 8193, 8194, 8300]);
            let m = random.range(40, 63);
            let shapes = shapes_of(random, m, total);
            return tables(random, m, &shapes);
        }
    }
    tables(random, m, &shapes)
}

/// What a number of an image stands for.
/// Damage aims at one of these.
#[derive(Clone, Copy, PartialEq, Eq)]
enum Kind {
    Version,
    M,
    N,
    Scheme,
    Rows,
    Cell,
}

/// How a number is written: shortest, with so many needless groups, or without end.
/// Only the first form is good.
#[derive(Clone, Copy)]
enum Form {
    Shortest,
    Longer(usize),
    Endless(usize),
}

/// One number of an image, with its form.
/// A list of these is an image that can still be damaged with aim.
struct Field {
    kind: Kind,
    value: u64,
    form: Form,
}

/// The numbers of an image in order.
/// The tables may have any fault.
fn fields(tables: &Tables) -> Vec<Field> {
    let mut fields = Vec::new();
    let mut push = |kind, value| fields.push(Field { kind, value, form: Form::Shortest });
    push(Kind::Version, tables.catalogue.version());
    push(Kind::M, tables.catalogue.m);
    push(Kind::N, tables.catalogue.n);
    let mut place = 0;
    for table in 0..tables.catalogue.n as usize {
        push(Kind::Scheme, tables.catalogue.schemes[table]);
        push(Kind::Rows, u64::from(tables.catalogue.rows[table]));
        for &code in &tables.cells[place..place + tables.catalogue.size(table)] {
            push(Kind::Cell, code);
        }
        place += tables.catalogue.size(table);
    }
    fields
}

/// The bytes of an image.
/// Every number takes its own form.
fn bytes(fields: &[Field]) -> Vec<u8> {
    let mut image = Vec::new();
    for field in fields {
        let start = image.len();
        numbers::encode(field.value, &mut image);
        match field.form {
            Form::Shortest => {}
            Form::Longer(groups) => {
                let last = image.len() - 1;
                image[last] |= 0x80;
                image.extend(vec![0x80; groups - 1]);
                image.push(0);
            }
            Form::Endless(length) => {
                image.resize(start + length, 0x81);
                image[start..].iter_mut().for_each(|byte| *byte |= 0x80);
            }
        }
    }
    image
}

/// Puts two rows of a table out of order, or makes one the repeat of the row before.
/// It tells whether there was a table with two rows.
fn disorder(random: &mut Random, tables: &mut Tables) -> bool {
    let long: Vec<usize> = (0..tables.catalogue.n as usize).filter(|&table| tables.catalogue.rows[table] > 1).collect();
    if long.is_empty() {
        return false;
    }
    let table = random.pick(&long);
    let width = tables.catalogue.width(table);
    let start: usize = (0..table).map(|before| tables.catalogue.size(before)).sum();
    let row = start + width * random.range(1, usize::from(tables.catalogue.rows[table]) - 1);
    for cell in row..row + width {
        tables.cells.swap(cell, cell - width);
    }
    if random.percent(50) {
        tables.cells.copy_within(row..row + width, row - width);
    }
    true
}

/// Makes a row all null, mostly the first of a table, which leaves the rows in order.
/// Tables without rows stay.
fn nullify(random: &mut Random, tables: &mut Tables) {
    let filled: Vec<usize> = (0..tables.catalogue.n as usize).filter(|&table| tables.catalogue.rows[table] > 0).collect();
    if filled.is_empty() {
        return;
    }
    let table = random.pick(&filled);
    let width = tables.catalogue.width(table);
    let row = if random.percent(60) { 0 } else { random.range(0, usize::from(tables.catalogue.rows[table]) - 1) };
    let start = tables.catalogue.first_cell(table) + row * width;
    tables.cells[start..start + width].fill(0);
}

/// Gives one number of a kind another value.
/// Which one is chosen by chance.
fn strike(random: &mut Random, fields: &mut [Field], kind: Kind, value: u64) {
    let places: Vec<usize> = (0..fields.len()).filter(|&place| fields[place].kind == kind).collect();
    if !places.is_empty() {
        fields[random.pick(&places)].value = value;
    }
}

/// Changes, inserts, cuts or appends a few bytes.
/// The result may still be good.
fn scratch(random: &mut Random, image: &mut Vec<u8>) {
    match random.below(6) {
        0 if !image.is_empty() => {
            let place = random.range(0, image.len() - 1);
            image[place] = random.word() as u8;
        }
        1 if !image.is_empty() => {
            let place = random.range(0, image.len() - 1);
            image[place] ^= 1 << random.below(8);
        }
        2 => {
            let place = random.range(0, image.len());
            image.insert(place, random.pick(&[0x00, 0x01, 0x7f, 0x80, 0xff]));
        }
        3 if !image.is_empty() => {
            image.remove(random.range(0, image.len() - 1));
        }
        4 => image.truncate(random.range(0, image.len())),
        _ => image.extend((0..random.range(1, 3)).map(|_| random.word() as u8)),
    }
}

/// An image with some damage.
/// Aimed damage makes each refusal; scratches are added now and then.
pub fn damaged(random: &mut Random, mut tables: Tables) -> Vec<u8> {
    let m = tables.catalogue.m;
    let mut kind = random.below(14);
    if kind == 0 && !disorder(random, &mut tables) {
        kind = 9;
    }
    if kind == 13 || kind == 0 && random.percent(30) {
        nullify(random, &mut tables);
    }
    let mut fields = fields(&tables);
    if kind >= 12 || random.percent(25) {
        fields[0].value = random.pick(&[1, 2, 2]);
    }
    let any = random.range(0, fields.len() - 1);
    match kind {
        1 => fields[0].value = other_version(random.word()),
        2 => {
            let (kind, value) = random.pick(&[(Kind::M, 0), (Kind::M, 64), (Kind::M, 1 << 62), (Kind::N, 0), (Kind::N, 9), (Kind::N, 264)]);
            strike(random, &mut fields, kind, value);
        }
        3 | 4 => {
            let value = random.pick(&[0, 1 << m.min(62), (1 << m) - 1, (1 << 63) - 1]);
            strike(random, &mut fields, Kind::Scheme, value);
        }
        5 | 6 => {
            let value = random.pick(&[256, 255, 257, 3000, 4095, 4095, 4096, 4096, 4097, 65_535, 65_536, 65_537, 1 << 32, (1 << 63) - 1]);
            strike(random, &mut fields, Kind::Rows, value);
        }
        7 => {
            let mut shortest = Vec::new();
            numbers::encode(fields[any].value, &mut shortest);
            fields[any].form = Form::Longer(random.range(1, 10 - shortest.len()));
        }
        8 => fields[any].form = Form::Endless(random.range(8, 10)),
        _ => {}
    }
    let mut image = bytes(&fields);
    if (9..12).contains(&kind) || random.percent(10) {
        for _ in 0..random.range(1, 3) {
            scratch(random, &mut image);
        }
    }
    image
}

/// A version other than 1 and 2, below 2^63.
/// Versions near them are frequent.
fn other_version(bits: u64) -> u64 {
    match bits % 4 {
        0 => 0,
        1 => 3,
        2 => 129 + (bits >> 2 & 1),
        _ => bits >> 1 | 4,
    }
}

/// A good image of the tables, unless they pass 8,192 cells.
/// Rows stand in order and all numbers in shortest form.
pub fn good(tables: &Tables) -> Vec<u8> {
    bytes(&fields(tables))
}

/// A length for the lent cells, given how many are needed.
/// Mostly enough; sometimes a little short, sometimes at or above 8,192.
pub fn lent_cells(random: &mut Random, needed: usize) -> usize {
    match random.below(100) {
        0..=39 => needed,
        40..=74 => needed + random.range(1, 20),
        75..=92 => needed - random.range(0, needed.min(9)),
        93..=95 => random.range(0, needed),
        96 => image::CELLS,
        97 => image::CELLS - 1,
        _ => image::CELLS + random.range(1, 300),
    }
}

/// A length for a lent word slice that needs so many words.
/// Sometimes longer, rarely short.
pub fn lent_words(random: &mut Random, needed: usize) -> usize {
    match random.below(100) {
        0..=84 => needed,
        85..=97 => needed + random.range(1, 4),
        _ => random.range(0, needed - 1),
    }
}

/// What the writer is lent.
/// The length is that of the lent output.
pub struct WriterCase {
    pub catalogue: Vec<u64>,
    pub cells: Vec<u64>,
    pub out: usize,
}

/// A table of the catalogue, by chance.
/// n may already be out of range.
fn some_table(random: &mut Random, words: &[u64]) -> usize {
    random.below(words[1].clamp(1, 8)) as usize
}

/// Spoils a catalogue in words so that 4, 5, 6 or 16 is met, or leaves it.
/// All calls that take a catalogue share this. With 16 what is stored is wrong for the words as they then are.
pub fn spoil(random: &mut Random, words: &mut [u64], refusal: u64) {
    let table = some_table(random, words);
    match refusal {
        4 if random.percent(50) => words[0] = random.pick(&[0, 64, 65, 1 << 32, 1 << 63, u64::MAX]),
        4 => words[1] = random.pick(&[0, 9, 10, 264, 1 << 32, 1 << 63, u64::MAX]),
        5 => {
            let above = 1u64 << words[0].min(63);
            words[SCHEMES + table] = random.pick(&[0, above, words[SCHEMES + table] | above, 1 << 63, u64::MAX]);
        }
        6 => words[ROWS + table] = random.pick(&[4096, 4097, 8191, 8192, 65_535, 65_536, 65_537, 1 << 32, 1 << 63, u64::MAX]),
        16 => stored::spoil(random, words),
        _ => {}
    }
}

/// What is said of tables made by hand, in words: good, with one fault, or with several at once.
/// Entries from n on hold anything half of the time. Fewer words are lent now and then, or more.
pub fn given_case(random: &mut Random, tables: &Tables) -> Vec<u64> {
    let mut words = words_of(&tables.catalogue).to_vec();
    if random.percent(50) {
        stored::scatter_behind(random, &mut words);
    }
    for _ in 0..random.pick(&[0, 0, 0, 0, 1, 1, 1, 2]) {
        let fault = random.pick(&[4, 5, 6, 8, 8]);
        if fault == 8 {
            let table = some_table(random, &words);
            words[0] = random.range(33, 63) as u64;
            words[SCHEMES + table] = (1 << words[0]) - 1;
            words[ROWS + table] = random.pick(&[8191 / words[0], 8192 / words[0], 8192 / words[0] + 1, 255]);
        } else {
            spoil(random, &mut words, fault);
        }
    }
    words.truncate(GIVEN);
    let length = lent_words(random, GIVEN);
    words.resize_with(length, || random.word());
    words
}

/// A case for the writer: good, with one fault, or with several at once.
/// Cells behind the last table, and entries from n on, hold anything.
pub fn writer_case(random: &mut Random, mut tables: Tables) -> WriterCase {
    let mut faults = Vec::new();
    for _ in 0..random.pick(&[0, 0, 0, 1, 1, 1, 1, 2, 3]) {
        faults.push(random.pick(&[4, 5, 6, 7, 8, 10, 11, 16, 16, 16, 21]));
    }
    if random.percent(5) {
        faults = vec![random.pick(&[5, 6, 8]), random.pick(&[7, 10]), 10];
    }
    if faults.contains(&7) {
        disorder(random, &mut tables);
    }
    if faults.contains(&21) || tables.catalogue.version() == 2 && random.percent(40) {
        nullify(random, &mut tables);
    }
    let length = good(&tables).len();
    let needed = tables.cells.len();
    let mut words = words_of(&tables.catalogue).to_vec();
    if random.percent(50) {
        stored::scatter_behind(random, &mut words);
    }
    for &fault in &faults {
        spoil(random, &mut words, fault);
        if fault == 10 && needed > 0 {
            let place = random.range(0, needed - 1);
            tables.cells[place] = random.pick(&[1 << 63, 1 << 63 | 1, u64::MAX]);
        }
    }
    let mut cells = tables.cells;
    if faults.contains(&8) {
        cells.truncate(random.range(needed - needed.min(5), needed));
    } else {
        cells.extend((0..random.pick(&[0, 0, 0, 1, 5])).map(|_| random.word()));
    }
    let out = match random.below(6) {
        _ if faults.contains(&11) => random.pick(&[length - 1, length - 1, length / 2, 0]),
        0..=2 => length,
        3 | 4 => length + random.range(1, 20),
        _ => length + 1,
    };
    let catalogue_length = lent_words(random, CATALOGUE);
    words.resize_with(catalogue_length, || random.word());
    WriterCase { catalogue: words, cells, out }
}

/// Schemes for a stream's tables: which attributes n tables have.
/// Chains, stars, cycles, tables that share nothing, two pieces, one scheme for all, or by chance.
fn stream_schemes(random: &mut Random, n: usize) -> (usize, Vec<u64>) {
    let style = random.below(8);
    let mut schemes: Vec<u64> = (0..n)
        .map(|table| match style {
            0 => 3 << table,
            1 => 1 | 2 << table,
            2 => 1 << table | 1 << ((table + 1) % n),
            3 => 1 << table,
            4 => 3 << (table + table / 2),
            5 => 3,
            _ => random.range(1, 31) as u64 & random.range(1, 31) as u64,
        })
        .collect();
    for scheme in &mut schemes {
        if *scheme == 0 {
            *scheme = 1 << random.below(5);
        }
    }
    if random.percent(15) {
        schemes[0] |= 1 << random.below(9);
    }
    if random.percent(50) {
        let other = random.range(0, n - 1);
        schemes.swap(0, other);
    }
    let high = 64 - schemes.iter().fold(0, |all, scheme| all | scheme).leading_zeros() as usize;
    (high.max(1) + random.pick(&[0, 0, 1]), schemes)
}

/// Tables for a stream, with few codes so that rows join; the product of all choices stays below the bound.
/// Rows rise strictly, so that the tables also make a good image.
pub fn stream_tables(random: &mut Random, most: usize) -> Tables {
    let n = random.pick(&[1, 2, 2, 3, 3, 3, 4, 4, 5, 6, 7, 8]);
    let (m, schemes) = stream_schemes(random, n);
    let nulls = random.pick(&[0, 5, 15, 30]);
    let values: &[u64] = random.pick(&[&[2][..], &[2, 3], &[2, 3], &[2, 3, 4], &[11, 4_294_967_307, 12]]);
    let mut catalogue = Catalogue { m: m as u64, n: n as u64, ..Catalogue::default() };
    let mut cells = Vec::new();
    let mut choices = 1;
    for (table, &scheme) in schemes.iter().enumerate() {
        let wanted = random.range(0, 5).min(most / choices - 1);
        let mut rows = BTreeSet::new();
        for _ in 0..wanted {
            let row: Vec<u64> = (0..scheme.count_ones()).map(|_| if random.percent(nulls) { 0 } else { random.pick(values) }).collect();
            rows.insert(row);
        }
        catalogue.schemes[table] = scheme;
        catalogue.rows[table] = rows.len() as u16;
        choices *= rows.len() + 1;
        cells.extend(rows.into_iter().flatten());
    }
    Tables::of(catalogue, cells)
}

/// Long tables for a stream: one of above 255 rows among up to eight, most of them short, that share an attribute; the first often joins a late row of it.
/// Codes of short tables are those of rows about 256 and at the ends of the long one.
pub fn long_tables(random: &mut Random) -> Tables {
    let n = random.pick(&[1, 2, 3, 4, 5, 6, 6, 7, 7, 8, 8]);
    let least = if n > 5 && random.percent(70) { 5 } else { 0 };
    let long = random.range(least, n - 1);
    let count = random.pick(&[256, 256, 257, 300, 511, 512, 4095]);
    let mut catalogue = Catalogue { m: 2, n: n as u64, ..Catalogue::default() };
    let mut cells = Vec::new();
    for table in 0..n {
        catalogue.schemes[table] = random.pick(&[1, 1, 3]);
        let codes: BTreeSet<u64> = if table == long {
            (2..count + 2).collect()
        } else {
            (0..random.range(0, 2)).map(|_| random.pick(&[2, 256, 257, 258, count + 1, count + 1, count + 2])).collect()
        };
        catalogue.rows[table] = codes.len() as u16;
        for code in codes {
            cells.push(code);
            if catalogue.schemes[table] == 3 {
                cells.push(random.below(3));
            }
        }
    }
    Tables::of(catalogue, cells)
}

/// Eight tables of one attribute of which two have rows: the last of a key's first word and the first of its second. Row r of each has code r + 1.
/// Rows of one number join, and nothing else does.
pub fn long_pair(first: u16, second: u16) -> Tables {
    let mut catalogue = Catalogue { m: 1, n: 8, schemes: [1; 8], ..Catalogue::default() };
    (catalogue.rows[4], catalogue.rows[5]) = (first, second);
    let codes = |count: u16| 2..u64::from(count) + 2;
    Tables::of(catalogue, codes(first).chain(codes(second)).collect())
}

/// A key with one of its spare bits changed: of four in the first word and 28 in the second.
/// Those of the first word come as often.
pub fn spare_bit(random: &mut Random, key: Key) -> Key {
    if random.percent(50) {
        Key::of(key.low ^ 1 << random.range(60, 63), key.high)
    } else {
        Key::of(key.low, key.high ^ 1 << random.range(36, 63))
    }
}

/// A star of tables whose rows all join: the number of sets is the product of the row counts.
/// For lists that fill a store.
pub fn star(counts: &[u16]) -> Tables {
    let mut catalogue = Catalogue { m: counts.len() as u64 + 1, n: counts.len() as u64, ..Catalogue::default() };
    let mut cells = Vec::new();
    for (table, &count) in counts.iter().enumerate() {
        catalogue.schemes[table] = 1 | 2 << table;
        catalogue.rows[table] = count;
        for row in 1..=u64::from(count) {
            cells.extend([2, row]);
        }
    }
    Tables::of(catalogue, cells)
}
