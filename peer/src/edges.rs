//! The edges that the rules name, each with the answer written down by hand.
use crate::words::{CATALOGUE, GIVEN, MASKS, PLACES, ROWS, SCHEMES};

/// An image edge: the image and the answer to it, with 8,192 cells lent.
/// The answer is the refusal and the place; (0, 0) is good. `looked` is the count that a load gives with it.
pub struct ImageEdge {
    pub name: &'static str,
    pub image: Vec<u8>,
    pub answer: (u64, u64),
    pub looked: u64,
}

/// A writer's edge: the tables, the lent output's length and the answer.
/// The answer is the refusal and the length; the bytes are those of a success.
pub struct WriterEdge {
    pub name: &'static str,
    pub catalogue: [u64; CATALOGUE],
    pub cells: Vec<u64>,
    pub out: usize,
    pub answer: (u64, u64),
    pub bytes: Vec<u8>,
}

/// An edge of the making of a catalogue: what is given, the answer, and the eight places and eight masks of a success.
pub struct MadeEdge {
    pub name: &'static str,
    pub given: [u64; GIVEN],
    pub answer: u64,
    pub stored: [u64; CATALOGUE - GIVEN],
}

/// Bytes from their written form: two hexadecimal digits each, blanks between them.
/// A form that is not so is a fault in this file.
pub fn hex(text: &str) -> Vec<u8> {
    text.split_whitespace().map(|byte| u8::from_str_radix(byte, 16).expect("not a byte")).collect()
}

/// The image of one table with all 63 attributes and so many rows: version, m, n, scheme, row count, cells.
/// The first cell of a row is its number, the others are 0.
pub fn full_width(rows: u8) -> Vec<u8> {
    let mut image = hex("01 3F 01 FF FF FF FF FF FF FF FF 7F");
    image.extend(if rows < 128 { vec![rows] } else { vec![rows, 1] });
    for row in 1..=rows {
        image.extend(if row < 128 { vec![row] } else { vec![row, 1] });
        image.extend(vec![0; 62]);
    }
    image
}

/// The image of one table with one attribute, whose rows have so many codes from one on, of either version.
/// Its cells lie from place 5 on, or 6 where there are more than 127 rows. Codes stay below 16,384.
pub fn column(version: u8, first: u16, rows: u16) -> Vec<u8> {
    let mut image = vec![version, 1, 1];
    table_of_codes(&mut image, first, rows);
    image
}

/// Appends the bytes of such a table.
/// Its scheme is attribute 0.
fn table_of_codes(image: &mut Vec<u8>, first: u16, rows: u16) {
    image.push(1);
    for number in [rows].into_iter().chain(first..first + rows) {
        image.extend(if number < 128 { vec![number as u8] } else { vec![(number % 128 + 128) as u8, (number / 128) as u8] });
    }
}

/// The image of several such tables.
/// Each is its first code and its row count.
fn columns(version: u8, tables: &[(u16, u16)]) -> Vec<u8> {
    let mut image = vec![version, 1, tables.len() as u8];
    for &(first, rows) in tables {
        table_of_codes(&mut image, first, rows);
    }
    image
}

/// The number edges as images: the number is the only cell of a good image, at place 5.
/// The code is that of the cell when the image is good.
pub fn numbers() -> Vec<(ImageEdge, u64)> {
    let good = |name, form: &str, code| (ImageEdge { name, image: hex(&format!("01 01 01 01 01 {form}")), answer: (0, 0), looked: 0 }, code);
    let bad = |name, form: &str, refusal, looked| (ImageEdge { name, image: hex(&format!("01 01 01 01 01 {form}")), answer: (refusal, 5), looked }, 0);
    vec![
        good("P 0 is 00", "00", 0),
        good("1 is 01", "01", 1),
        good("P 127 is 7F", "7F", 127),
        good("P 128 is 80 01", "80 01", 128),
        good("16,383 is FF 7F", "FF 7F", 16_383),
        good("16,384 is 80 80 01", "80 80 01", 16_384),
        good("4,294,967,307 is 8B 80 80 80 10", "8B 80 80 80 10", 4_294_967_307),
        good("P 2^63 - 1 is FF eight times, then 7F", "FF FF FF FF FF FF FF FF 7F", (1 << 63) - 1),
        good("2^56 is 80 eight times, then 01", "80 80 80 80 80 80 80 80 01", 1 << 56),
        bad("P 80 00 gives 2", "80 00", 2, 2),
        bad("FF 00 gives 2", "FF 00", 2, 2),
        bad("nine bytes with a last group of zero give 2", "80 80 80 80 80 80 80 80 00", 2, 9),
        bad("nine bytes 80 give 17", "80 80 80 80 80 80 80 80 80", 17, 9),
        bad("nine bytes FF give 17", "FF FF FF FF FF FF FF FF FF", 17, 9),
        bad("ten bytes give 17", "80 80 80 80 80 80 80 80 80 01", 17, 9),
        bad("eight bytes 80 give 1", "80 80 80 80 80 80 80 80", 1, 8),
        bad("one byte 80 gives 1", "80", 1, 1),
        bad("no byte gives 1", "", 1, 0),
    ]
}

/// The image edges, those of the rules first and then the other sides of them.
/// Places count bytes from 0. No number here is cut short, and each that is padded has two bytes: the counts are 0 and 2.
pub fn images() -> Vec<ImageEdge> {
    let edge = |name, form: &str, refusal, place| ImageEdge { name, image: hex(form), answer: (refusal, place), looked: if refusal == 2 { 2 } else { 0 } };
    let mut edges = vec![
        edge("empty", "", 1, 0),
        edge("version 2 alone", "02", 1, 1),
        edge("P no rows", "01 01 01 01 00", 0, 0),
        edge("P one null row", "01 01 01 01 01 00", 0, 0),
        edge("64 attributes", "01 40", 4, 1),
        edge("nine tables", "01 01 09", 4, 2),
        edge("P attribute 1 of 1", "01 01 01 02", 5, 3),
        edge("256 rows", "01 01 01 01 80 02", 6, 4),
        edge("255 rows and no cells", "01 01 01 01 FF 01", 1, 6),
        edge("P the same row twice", "01 01 01 01 02 05 05", 7, 6),
        edge("P one byte behind", "01 01 01 01 00 00", 9, 5),
        edge("the sample", "01 03 03 03 02 02 0B 03 15 06 02 0B 08 8B 80 80 80 10 0A 05 02 02 08 03 00", 0, 0),
        edge("version 0", "00", 3, 0),
        edge("version 3", "03", 3, 0),
        edge("version 129", "81 01", 3, 0),
        edge("version 130", "82 01", 3, 0),
        edge("version in two bytes", "81 00", 2, 0),
        edge("the version alone", "01", 1, 1),
        edge("no attributes", "01 00", 4, 1),
        edge("63 attributes", "01 3F", 1, 2),
        edge("no tables", "01 01 00", 4, 2),
        edge("eight tables", "01 01 08", 1, 3),
        edge("scheme 0", "01 01 01 00", 5, 3),
        edge("attribute 62 of 63", "01 3F 01 80 80 80 80 80 80 80 80 40 00", 0, 0),
        edge("attribute 62 of 62", "01 3E 01 80 80 80 80 80 80 80 80 40 00", 5, 3),
        edge("no row count", "01 01 01 01", 1, 4),
        edge("the most rows a number can say", "01 01 01 01 FF FF FF FF FF FF FF FF 7F", 6, 4),
        edge("the row before again, one lower", "01 01 01 01 02 05 04", 7, 6),
        edge("the row before, one higher", "01 01 01 01 02 05 06", 0, 0),
        edge("a null row after a row", "01 01 01 01 02 01 00", 7, 6),
        edge("rows rise at the second cell", "01 02 01 03 02 05 05 05 06", 0, 0),
        edge("rows fall at the second cell", "01 02 01 03 02 05 06 05 05", 7, 7),
        edge("the second cell falls and the first rises", "01 02 01 03 02 05 06 06 05", 0, 0),
        edge("the row's place is that of its first cell", "01 02 01 03 02 80 01 05 80 01 04", 7, 8),
        edge("a cell's fault comes before its row's", "01 02 01 03 02 05 06 05 80 00", 2, 8),
        edge("a table without rows, then one", "01 01 02 01 00 01 01 07", 0, 0),
        edge("rows of two tables are not compared", "01 01 02 01 01 07 01 01 07", 0, 0),
        edge("the second table's scheme", "01 01 02 01 01 07 02", 5, 6),
        edge("the second table is missing", "01 01 02 01 01 07", 1, 6),
        edge("4,095 rows in version 1", "01 01 01 01 FF 1F", 6, 4),
        edge("256 rows in version 2 and no cells", "02 01 01 01 80 02", 1, 6),
        edge("4,095 rows in version 2 and no cells", "02 01 01 01 FF 1F", 1, 6),
        edge("4,096 rows in version 2", "02 01 01 01 80 20", 6, 4),
        edge("4,096 rows of two attributes in version 2", "02 02 01 03 80 20", 6, 4),
        edge("4,095 rows of three attributes in version 2", "02 03 01 07 FF 1F", 8, 4),
        edge("no rows in version 2", "02 01 01 01 00", 20, 0),
        edge("9 before 20", "02 01 01 01 00 00", 9, 5),
        edge("one row in version 2", "02 01 01 01 01 05", 20, 0),
        edge("one null row in version 2", "02 01 01 01 01 00", 21, 5),
        edge("a null row after a row in version 2", "02 01 01 01 02 01 00", 21, 6),
        edge("a null row twice in version 2", "02 01 01 01 02 00 00", 21, 5),
        edge("a row falls in version 2", "02 01 01 01 02 05 04", 7, 6),
        edge("the same row twice in version 2", "02 01 01 01 02 05 05", 7, 6),
        edge("one value in a row of two in version 2", "02 02 01 03 01 00 05", 20, 0),
        edge("two nulls in version 2", "02 02 01 03 01 00 00", 21, 5),
        edge("a cell's fault comes before 21", "02 02 01 03 01 00 80 00", 2, 6),
        edge("a null row of the second table in version 2", "02 01 02 01 01 05 01 01 00", 21, 8),
        edge("7 of the first table before 21 of the second", "02 01 02 01 02 05 05 01 01 00", 7, 6),
        edge("21 before 9", "02 01 01 01 01 00 00", 21, 5),
    ];
    let long = |name, image, refusal, place| ImageEdge { name, image, answer: (refusal, place), looked: 0 };
    let with = |mut image: Vec<u8>, bytes: &[u8]| {
        image.extend(bytes);
        image
    };
    edges.extend([
        long("255 rows in version 1", column(1, 1, 255), 0, 0),
        long("255 rows in version 1, one of them null", column(1, 0, 255), 0, 0),
        long("256 rows in version 1, with cells", column(1, 1, 256), 6, 4),
        long("4,096 rows in version 1, with cells", column(1, 1, 4096), 6, 4),
        long("255 rows in version 2", column(2, 1, 255), 20, 0),
        long("255 rows in version 2, one of them null", column(2, 0, 255), 21, 6),
        long("256 rows in version 2", column(2, 1, 256), 0, 0),
        long("256 rows in version 2, one of them null", column(2, 0, 256), 21, 6),
        long("256 rows in version 2, and one byte", with(column(2, 1, 256), &[0]), 9, 391),
        long("4,095 rows in version 2", column(2, 1, 4095), 0, 0),
        long("4,096 rows in version 2, with cells", column(2, 1, 4096), 6, 4),
        long("256 rows in version 3", column(3, 1, 256), 3, 0),
        long("255 rows in two tables in version 2", columns(2, &[(1, 255), (1, 255)]), 20, 0),
        long("255, then 256 rows in version 2", columns(2, &[(1, 255), (1, 256)]), 0, 0),
        long("256, then 255 rows in version 2", columns(2, &[(1, 256), (1, 255)]), 0, 0),
        long("255, then 256 rows in version 1", columns(1, &[(1, 255), (1, 256)]), 6, 390),
        long("a null row in a short table before a long one", columns(2, &[(0, 1), (1, 256)]), 21, 5),
        long("a null row in a short table behind a long one", columns(2, &[(1, 256), (0, 1)]), 21, 393),
        long("8,192 rows", columns(2, &[(1, 4095), (1, 4095), (1, 2)]), 0, 0),
        long("8,193 rows", columns(2, &[(1, 4095), (1, 4095), (1, 3)]), 8, 16_136),
        long("8,192 rows in eight tables", columns(2, &[(1, 1024); 8]), 0, 0),
        long("8,193 rows in eight tables", columns(2, &[(1, 1024), (1, 1024), (1, 1024), (1, 1024), (1, 1024), (1, 1024), (1, 1024), (1, 1025)]), 8, 13_472),
    ]);
    edges.push(ImageEdge { name: "63 attributes, 130 rows", image: full_width(130), answer: (0, 0), looked: 0 });
    edges.push(ImageEdge { name: "63 attributes, 131 rows", image: full_width(131), answer: (8, 12), looked: 0 });
    let mut more = hex("01 3F 02 FF FF FF FF FF FF FF FF 7F");
    more.extend(&full_width(130)[12..]);
    let place = more.len() as u64 + 1;
    for (name, rows, answer) in [("8,192 cells", "01 02 01 02", (0, 0)), ("8,193 cells", "01 03 01 02 03", (8, place))] {
        let mut image = more.clone();
        image.extend(hex(rows));
        edges.push(ImageEdge { name, image, answer, looked: 0 });
    }
    edges
}

/// A catalogue in words with some tables, each as its scheme, row count, place and mask.
/// The entries from n on hold numbers that would be refused.
fn catalogue(m: u64, n: u64, entries: &[(u64, u64, u64, u64)]) -> [u64; CATALOGUE] {
    let mut words = [0; CATALOGUE];
    words[0] = m;
    words[1] = n;
    for table in 0..8 {
        let (scheme, rows, place, mask) = entries.get(table).copied().unwrap_or((0, 65_536, 9, 255));
        words[SCHEMES + table] = scheme;
        words[ROWS + table] = rows;
        words[PLACES + table] = place;
        words[MASKS + table] = mask;
    }
    words
}

/// What is given of tables, each as its scheme and row count, and the places and masks that are made of it.
/// The entries from n on hold numbers that would be refused, and get zeros.
fn made_of(name: &'static str, m: u64, n: u64, entries: &[(u64, u64)], answer: u64, stored: &[(u64, u64)]) -> MadeEdge {
    let mut edge = MadeEdge { name, given: [0; GIVEN], answer, stored: [0; CATALOGUE - GIVEN] };
    edge.given[..2].copy_from_slice(&[m, n]);
    for table in 0..8 {
        let (scheme, rows) = entries.get(table).copied().unwrap_or((1 << 63, 65_535));
        (edge.given[SCHEMES + table], edge.given[ROWS + table]) = (scheme, rows);
        (edge.stored[table], edge.stored[8 + table]) = stored.get(table).copied().unwrap_or((0, 0));
    }
    edge
}

/// The edges of the making of a catalogue.
/// A refusal gives 34 zeros.
pub fn made() -> Vec<MadeEdge> {
    let all = (1 << 63) - 1;
    vec![
        made_of("the sample", 3, 3, &[(3, 2), (6, 2), (5, 2)], 0, &[(0, 6), (4, 5), (8, 3)]),
        made_of("one table", 1, 1, &[(1, 255)], 0, &[(0, 0)]),
        made_of("one attribute in eight tables", 1, 8, &[(1, 1); 8], 0,
            &[(0, 0xfe), (1, 0xfd), (2, 0xfb), (3, 0xf7), (4, 0xef), (5, 0xdf), (6, 0xbf), (7, 0x7f)]),
        made_of("nothing shared", 3, 3, &[(1, 2), (2, 0), (4, 3)], 0, &[(0, 0), (2, 0), (2, 0)]),
        made_of("a table without rows has a place", 2, 3, &[(3, 0), (2, 0), (1, 9)], 0, &[(0, 6), (0, 1), (0, 1)]),
        made_of("a chain", 4, 3, &[(3, 1), (6, 1), (12, 1)], 0, &[(0, 2), (2, 5), (4, 2)]),
        made_of("attribute 62", 63, 2, &[(1 << 62, 1), (all, 1)], 0, &[(0, 2), (1, 1)]),
        made_of("8,192 cells, then no rows", 63, 3, &[(all, 130), (1, 2), (2, 0)], 0, &[(0, 6), (8190, 1), (8192, 1)]),
        made_of("8,193 cells", 63, 2, &[(all, 130), (1, 3)], 8, &[]),
        made_of("63 attributes, 131 rows", 63, 1, &[(all, 131)], 8, &[]),
        made_of("m 0", 0, 1, &[(1, 1)], 4, &[]),
        made_of("m 64", 64, 1, &[(1, 1)], 4, &[]),
        made_of("n 0", 1, 0, &[(1, 1)], 4, &[]),
        made_of("n 9", 1, 9, &[(1, 1); 8], 4, &[]),
        made_of("scheme 0", 1, 2, &[(1, 1), (0, 1)], 5, &[]),
        made_of("scheme 2^m", 1, 1, &[(2, 1)], 5, &[]),
        made_of("256 rows", 1, 1, &[(1, 256)], 0, &[(0, 0)]),
        made_of("4,095 rows", 2, 1, &[(3, 4095)], 0, &[(0, 0)]),
        made_of("4,096 rows", 1, 1, &[(1, 4096)], 6, &[]),
        made_of("4,096 rows of the second table", 2, 2, &[(1, 4095), (2, 4096)], 6, &[]),
        made_of("8,192 rows", 1, 3, &[(1, 4095), (1, 4095), (1, 2)], 0, &[(0, 6), (4095, 5), (8190, 3)]),
        made_of("8,193 rows", 1, 3, &[(1, 4095), (1, 4095), (1, 3)], 8, &[]),
        made_of("65,536 rows", 1, 1, &[(1, 65_536)], 6, &[]),
        made_of("8 of the first table before 5 of the second", 63, 2, &[(all, 131), (0, 0)], 8, &[]),
    ]
}

/// The writer's edges about 255 and 4,095 rows, and about rows of nulls.
/// Tables are of one attribute, each as its first code and its row count; a code is then changed at some places.
pub fn long_writer() -> Vec<WriterEdge> {
    let top = 1 << 63;
    let edge = |name, tables: &[(u16, u16)], changes: &[(usize, u64)], out, answer, bytes: Vec<u8>| {
        let n = tables.len() as u64;
        let (mut entries, mut cells) = (Vec::new(), Vec::new());
        for (table, &(first, rows)) in tables.iter().enumerate() {
            entries.push((1, u64::from(rows), cells.len() as u64, (1 << n) - 1 - (1 << table)));
            cells.extend((first..first + rows).map(u64::from));
        }
        for &(place, code) in changes {
            cells[place] = code;
        }
        WriterEdge { name, catalogue: catalogue(1, n, &entries), cells, out, answer, bytes }
    };
    let good = |name, version, tables: &[(u16, u16)]| {
        let bytes = columns(version, tables);
        edge(name, tables, &[], bytes.len(), (0, bytes.len() as u64), bytes)
    };
    let bad = |name, tables: &[(u16, u16)], changes: &[(usize, u64)], refusal| edge(name, tables, changes, 20_000, (refusal, 0), Vec::new());
    vec![
        good("255 rows are version 1", 1, &[(1, 255)]),
        good("255 rows, one of them null, are version 1", 1, &[(0, 255)]),
        good("256 rows are version 2", 2, &[(1, 256)]),
        good("4,095 rows are version 2", 2, &[(1, 4095)]),
        good("twice 255 rows are version 1", 1, &[(1, 255), (0, 255)]),
        good("a short table, then a long one", 2, &[(1, 1), (1, 256)]),
        good("a long table, then a short one", 2, &[(1, 256), (1, 1)]),
        good("8,192 rows", 2, &[(1, 4095), (1, 4095), (1, 2)]),
        bad("8,193 rows", &[(1, 4095), (1, 4095), (1, 3)], &[], 8),
        bad("256 rows, one of them null", &[(0, 256)], &[], 21),
        bad("a null row of a short table before a long one", &[(0, 1), (1, 256)], &[], 21),
        bad("a null row of a short table behind a long one", &[(1, 256), (0, 1)], &[], 21),
        bad("21 before 7", &[(1, 256)], &[(9, 0)], 21),
        bad("the last row is null", &[(1, 256)], &[(255, 0)], 21),
        bad("7 in an earlier row than 21", &[(1, 256)], &[(8, 1), (9, 0)], 7),
        bad("10 in an earlier row than 21", &[(1, 256)], &[(8, top), (9, 0)], 10),
        bad("21 in an earlier row than 10", &[(0, 256)], &[(1, top)], 21),
        bad("7 in version 2", &[(1, 256)], &[(9, 1)], 7),
        edge("21 before 11", &[(0, 256)], &[], 0, (21, 0), Vec::new()),
        edge("256 rows, one byte short", &[(1, 256)], &[], 390, (11, 0), Vec::new()),
    ]
}

/// The writer's edges.
/// On a refusal the length is 0 and no byte is written.
pub fn writer() -> Vec<WriterEdge> {
    let top = 1 << 63;
    let edge = |name, catalogue, cells: &[u64], out, answer, bytes: &str| WriterEdge {
        name,
        catalogue,
        cells: cells.to_vec(),
        out,
        answer,
        bytes: hex(bytes),
    };
    let one = |rows| catalogue(1, 1, &[(1, rows, 0, 0)]);
    let table = |scheme, rows| [(scheme, rows, 0, 0)];
    let eight: [(u64, u64, u64, u64); 8] = std::array::from_fn(|table| (1, 0, 0, 255 - (1 << table)));
    let pair = |places: [u64; 2], masks: [u64; 2], rows| catalogue(1, 2, &[(1, rows, places[0], masks[0]), (1, 1, places[1], masks[1])]);
    vec![
        edge("no rows", one(0), &[], 5, (0, 5), "01 01 01 01 00"),
        edge("no rows, one byte short", one(0), &[], 4, (11, 0), ""),
        edge("no rows, no output", one(0), &[], 0, (11, 0), ""),
        edge("one null row", one(1), &[0], 6, (0, 6), "01 01 01 01 01 00"),
        edge("one null row, longer output", one(1), &[0, top], 9, (0, 6), "01 01 01 01 01 00"),
        edge("code 127", one(1), &[127], 6, (0, 6), "01 01 01 01 01 7F"),
        edge("code 128, one byte short", one(1), &[128], 6, (11, 0), ""),
        edge("code 128", one(1), &[128], 7, (0, 7), "01 01 01 01 01 80 01"),
        edge("code 2^63 - 1", one(1), &[top - 1], 14, (0, 14), "01 01 01 01 01 FF FF FF FF FF FF FF FF 7F"),
        edge("code 2^63", one(1), &[top], 14, (10, 0), ""),
        edge("m 0", catalogue(0, 1, &table(1, 0)), &[], 9, (4, 0), ""),
        edge("m 64", catalogue(64, 1, &table(1, 0)), &[], 9, (4, 0), ""),
        edge("m 63", catalogue(63, 1, &table(1, 0)), &[], 9, (0, 5), "01 3F 01 01 00"),
        edge("n 0", catalogue(1, 0, &table(1, 0)), &[], 9, (4, 0), ""),
        edge("n 9", catalogue(1, 9, &eight), &[], 99, (4, 0), ""),
        edge("n 8", catalogue(1, 8, &eight), &[], 99, (0, 19), "01 01 08 01 00 01 00 01 00 01 00 01 00 01 00 01 00 01 00"),
        edge("scheme 0", catalogue(1, 1, &table(0, 0)), &[], 9, (5, 0), ""),
        edge("scheme 2^m", catalogue(1, 1, &table(2, 0)), &[], 9, (5, 0), ""),
        edge("scheme 2^63", catalogue(63, 1, &table(top, 0)), &[], 9, (5, 0), ""),
        edge("4,096 rows", one(4096), &[], 9, (6, 0), ""),
        edge("256 rows and no cells", one(256), &[], 9, (8, 0), ""),
        edge("65,536 rows", one(65_536), &[], 9, (6, 0), ""),
        edge("a cell too few", one(1), &[], 9, (8, 0), ""),
        edge("the same row twice", one(2), &[5, 5], 9, (7, 0), ""),
        edge("a lower row", one(2), &[5, 4], 9, (7, 0), ""),
        edge("a higher row", one(2), &[5, 6], 7, (0, 7), "01 01 01 01 02 05 06"),
        edge("10 before 7", catalogue(2, 1, &table(3, 2)), &[5, 5, 4, top], 99, (10, 0), ""),
        edge("7 in an earlier row than 10", one(3), &[5, 4, top], 99, (7, 0), ""),
        edge("the second table's scheme before the first's row", catalogue(1, 2, &[(1, 2, 0, 0), (0, 0, 2, 0)]), &[5, 5], 99, (5, 0), ""),
        edge("the second table's count before the first's code", catalogue(1, 2, &[(1, 1, 0, 2), (1, 4096, 1, 1)]), &[top], 99, (6, 0), ""),
        edge("the second table's cells before the first's code", catalogue(1, 2, &[(1, 1, 0, 2), (1, 1, 1, 1)]), &[top], 99, (8, 0), ""),
        edge("the second table's scheme before its rows", catalogue(1, 2, &[(1, 0, 0, 0), (2, 4096, 0, 0)]), &[], 99, (5, 0), ""),
        edge("two tables", pair([0, 1], [2, 1], 1), &[5, 5], 9, (0, 9), "01 01 02 01 01 05 01 01 05"),
        edge("the first place", pair([1, 1], [2, 1], 1), &[5, 5], 9, (16, 0), ""),
        edge("the second place is the first's", pair([0, 0], [2, 1], 1), &[5, 5], 9, (16, 0), ""),
        edge("the second place behind its table", pair([0, 2], [2, 1], 1), &[5, 5], 9, (16, 0), ""),
        edge("a place that is right but for 2^16", pair([65_536, 1], [2, 1], 1), &[5, 5], 9, (16, 0), ""),
        edge("the first mask has its own table", pair([0, 1], [3, 1], 1), &[5, 5], 9, (16, 0), ""),
        edge("the first mask has no table", pair([0, 1], [0, 1], 1), &[5, 5], 9, (16, 0), ""),
        edge("the second mask has a table from n on", pair([0, 1], [2, 5], 1), &[5, 5], 9, (16, 0), ""),
        edge("the second mask has a ninth table", pair([0, 1], [2, 257], 1), &[5, 5], 9, (16, 0), ""),
        edge("a mask that is right but for 2^16", pair([0, 1], [2, 65_537], 1), &[5, 5], 9, (16, 0), ""),
        edge("masks of each other", pair([0, 1], [1, 2], 1), &[5, 5], 9, (16, 0), ""),
        edge("tables that share nothing do not touch", catalogue(2, 2, &[(1, 1, 0, 0), (2, 1, 1, 0)]), &[5, 5], 9, (0, 9), "01 02 02 01 01 05 02 01 05"),
        edge("tables that share nothing, one touching", catalogue(2, 2, &[(1, 1, 0, 2), (2, 1, 1, 0)]), &[5, 5], 9, (16, 0), ""),
        edge("8 before 16", pair([9, 9], [9, 9], 1), &[5], 9, (8, 0), ""),
        edge("16 before 10", pair([0, 1], [0, 1], 1), &[top, 5], 9, (16, 0), ""),
        edge("16 before 7", pair([0, 9], [2, 1], 2), &[5, 5, 5], 99, (16, 0), ""),
        edge("16 before 11", pair([0, 1], [2, 0], 1), &[5, 5], 0, (16, 0), ""),
        edge("all else before 11", one(2), &[5, 5], 0, (7, 0), ""),
        edge("the sample", catalogue(3, 3, &[(3, 2, 0, 6), (6, 2, 4, 5), (5, 2, 8, 3)]), &[2, 11, 3, 21, 11, 8, 4_294_967_307, 10, 2, 8, 3, 0], 25, (0, 25),
            "01 03 03 03 02 02 0B 03 15 06 02 0B 08 8B 80 80 80 10 0A 05 02 02 08 03 00"),
    ]
}
