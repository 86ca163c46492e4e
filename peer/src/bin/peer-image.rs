//! Compares the library's check, load, making of a catalogue and write with the peer's, over many images and over the named edges.
//! Use: peer-image [images] [seed]
#![forbid(unsafe_code)]
use peer::edges;
use peer::image::{self, Catalogue};
use peer::lent::Lent;
use peer::make::{self, Tables, WriterCase};
use peer::random::Random;
use peer::refusal::Refusal;
use peer::stored;
use peer::tally::Tally;
use peer::words::{self, CATALOGUE, GIVEN, SHORT_SLICE};
use peer::{hold, library};
use std::process::exit;

/// How many images a run makes, unless it is told.
/// The edges come before them.
const IMAGES: u64 = 420_000;

/// How often each refusal has to be met on each call that can give it in such a run.
/// A run that met one too rarely fails; one of fewer images has to meet it as often for its length.
const LEAST: u64 = 2000;

/// An image in hexadecimal digits.
/// For the report of a difference.
fn hex(image: &[u8]) -> String {
    image.iter().map(|byte| format!("{byte:02X} ")).collect()
}

/// Compares check on one image.
/// It gives the peer's answer.
fn compare_check(image: &[u8]) -> Result<u64, String> {
    let (ours, theirs) = (words::check(image), library::check(image));
    hold!(ours == theirs, "check gives {theirs}, the peer {ours}: {}", hex(image));
    Ok(ours)
}

/// What a load gave: the answer, the catalogue, the cells, and the words lent for the count.
struct Load {
    answer: u64,
    catalogue: Lent<u64>,
    cells: Lent<u64>,
    looked: Lent<u64>,
}

/// Compares load on one image with so many cells, catalogue words and words for the count lent.
/// It gives what the peer's came to.
fn compare_load(random: &mut Random, image: &[u8], cells: usize, catalogue: usize, counts: usize) -> Result<Load, String> {
    let mut our_cells = Lent::pattern(cells, random);
    let mut our_catalogue = Lent::pattern(catalogue, random);
    let mut our_looked = Lent::pattern(counts, random);
    let mut their_cells = our_cells.clone();
    let mut their_catalogue = our_catalogue.clone();
    let mut their_looked = our_looked.clone();
    let ours = words::load(image, our_cells.slice_mut(), our_catalogue.slice_mut(), our_looked.slice_mut());
    let theirs = library::load(image, their_cells.slice_mut(), their_catalogue.slice_mut(), their_looked.slice_mut());
    let lent = || format!("{cells} cells, {catalogue} catalogue words, {counts} for the count: {}", hex(image));
    hold!(ours == theirs, "load gives {theirs}, the peer {ours}, {}", lent());
    hold!(our_catalogue == their_catalogue, "load leaves another catalogue, {}", lent());
    hold!(our_cells == their_cells, "load leaves other cells, {}", lent());
    hold!(our_looked == their_looked, "load leaves another count, {}", lent());
    Ok(Load { answer: ours, catalogue: our_catalogue, cells: our_cells, looked: our_looked })
}

/// Compares the making of a catalogue with so many words lent for it, and that what is given stays.
/// It gives the peer's answer and the words.
fn compare_make(random: &mut Random, given: &[u64], room: usize) -> Result<(u64, Lent<u64>), String> {
    let mut our_catalogue = Lent::pattern(room, random);
    let mut their_catalogue = our_catalogue.clone();
    let lent = Lent::holding(given, random);
    let before = lent.clone();
    let ours = words::make_catalogue(given, our_catalogue.slice_mut());
    let theirs = library::make_catalogue(lent.slice(), their_catalogue.slice_mut());
    hold!(ours == theirs, "make_catalogue gives {theirs}, the peer {ours}: {given:?}, {room} words lent");
    let words = || format!("{:?}, the peer {:?}: {given:?}", their_catalogue.slice(), our_catalogue.slice());
    hold!(our_catalogue == their_catalogue, "make_catalogue leaves {}", words());
    hold!(lent == before, "make_catalogue changes what it reads: {given:?}");
    Ok((ours, our_catalogue))
}

/// Compares write on one case, and that what is lent for reading stays.
/// It gives the peer's answer and output.
fn compare_write(random: &mut Random, case: &WriterCase) -> Result<(u64, Lent<u8>), String> {
    let mut our_out = Lent::pattern(case.out, random);
    let mut their_out = our_out.clone();
    let catalogue = Lent::holding(&case.catalogue, random);
    let cells = Lent::holding(&case.cells, random);
    let ours = words::write(&case.catalogue, &case.cells, our_out.slice_mut());
    let theirs = library::write(catalogue.slice(), cells.slice(), their_out.slice_mut());
    let lent = || format!("catalogue {:?}, cells {:?}, {} bytes lent", case.catalogue, case.cells, case.out);
    hold!(ours == theirs, "write gives {theirs}, the peer {ours}: {}", lent());
    hold!(our_out == their_out, "write leaves other bytes: {}", lent());
    hold!(catalogue.slice() == case.catalogue && cells.slice() == case.cells, "write changes what it reads: {}", lent());
    Ok((ours, our_out))
}

/// Does a table before the one that is refused have a row that would be refused, with 10, 21 or 7?
/// The writer looks at it later than at every table's entries, so that it is not met.
fn earlier_row(case: &WriterCase) -> bool {
    let catalogue = words::catalogue_of(&case.catalogue);
    let first = |n| image::form(&Catalogue { n, ..catalogue }.filled(), &case.cells);
    (1..catalogue.n.min(8)).any(|n| matches!(first(n), Err(Refusal::Code | Refusal::NullRow | Refusal::Order)))
}

/// Counts what the writer's answer to a case tells of its order.
/// 5, 6 and 8 come before the rows of all tables, 16 before every row.
fn note_order(tally: &mut Tally, case: &WriterCase, refusal: u64) {
    stored::note(tally, "write", refusal, &case.catalogue, |words| words::write(words, &case.cells, &mut vec![0; case.out]));
    if [5, 6, 8].contains(&refusal) && earlier_row(case) {
        tally.note("write before an earlier row", refusal);
    }
    if [0, 7, 10, 11, 21].contains(&refusal) {
        tally.note(&format!("write version {}", words::catalogue_of(&case.catalogue).version()), refusal);
    }
}

/// The version that an image begins with, if it is one of the two.
/// It is a number of one byte.
fn version_of(image: &[u8]) -> Option<u8> {
    image.first().copied().filter(|version| [1, 2].contains(version))
}

/// Counts an answer of a call by the version of its image.
/// Images of another version have no row of their own.
fn note_version(tally: &mut Tally, call: &str, image: &[u8], refusal: u64) {
    if let (Some(version), true) = (version_of(image), refusal != SHORT_SLICE) {
        tally.note(&format!("{call} version {version}"), refusal);
    }
}

/// Compares all calls on one made image, with both round trips.
/// What the library loads it writes back byte for byte, and what it writes it loads again; what it loads is also what it makes by hand.
fn compare_image(random: &mut Random, tally: &mut Tally) -> Result<(), String> {
    let tables: Tables = make::any_tables(random);
    let needed = tables.cells.len();
    let image = if random.percent(45) { make::good(&tables) } else { make::damaged(random, tables.clone()) };
    let checked = compare_check(&image)?;
    tally.meet("check", checked % 32);
    note_version(tally, "check", &image, checked % 32);
    let lent = make::lent_cells(random, needed);
    let catalogue_words = make::lent_words(random, CATALOGUE);
    let counts = random.pick(&[0, 1, 1, 1, 1, 1, 1, 2]);
    let loaded = compare_load(random, &image, lent, catalogue_words, counts)?;
    tally.meet("load", loaded.answer % 32);
    note_version(tally, "load", &image, loaded.answer % 32);
    if let (Some(count), 1 | 2 | 17) = (loaded.looked.slice().first(), loaded.answer % 32) {
        tally.note("count", format!("{} with {count}", loaded.answer % 32));
        tally.note("counts", loaded.answer % 32);
    }
    if loaded.answer == 0 {
        let back = WriterCase { catalogue: loaded.catalogue.slice().to_vec(), cells: loaded.cells.slice().to_vec(), out: image.len() };
        let (length, out) = compare_write(random, &back)?;
        hold!(length == image.len() as u64 * 32 && out.slice() == image, "writing what was loaded gives another image: {}", hex(&image));
        let (made, catalogue) = compare_make(random, &back.catalogue[..GIVEN], CATALOGUE)?;
        hold!(made == 0 && catalogue.slice() == &back.catalogue[..CATALOGUE], "making what was loaded gives another catalogue: {}", hex(&image));
    }
    let given = make::given_case(random, &tables);
    let room = make::lent_words(random, CATALOGUE);
    let (made, catalogue) = compare_make(random, &given, room)?;
    tally.meet("make", made);
    hold!(made != 0 || stored::wrong(catalogue.slice()).is_none(), "a catalogue is made with another place or mask: {given:?}");
    let case = make::writer_case(random, tables);
    let (written, out) = compare_write(random, &case)?;
    tally.meet("write", written % 32);
    note_order(tally, &case, written % 32);
    if written % 32 == 0 {
        let image = &out.slice()[..written as usize / 32];
        let used = words::catalogue_of(&case.catalogue).cells();
        let Load { answer: again, catalogue, cells, .. } = compare_load(random, image, used, CATALOGUE, 0)?;
        let n = case.catalogue[1] as usize;
        let same = |from: usize| catalogue.slice()[from..from + n] == case.catalogue[from..from + n];
        let whole = again == 0 && catalogue.slice()[..2] == case.catalogue[..2] && same(2) && same(10) && same(18) && same(26);
        hold!(whole && cells.slice() == &case.cells[..used], "loading what was written gives other tables: {}", hex(image));
    }
    Ok(())
}

/// Checks one image edge on both sides: by check, and by load with 8,192 cells.
/// It gives the loaded cells.
fn image_edge(random: &mut Random, edge: &edges::ImageEdge) -> Result<Lent<u64>, String> {
    let expected = edge.answer.1 * 32 + edge.answer.0;
    let checked = compare_check(&edge.image)?;
    let Load { answer, cells, looked, .. } = compare_load(random, &edge.image, 8192, CATALOGUE, 1)?;
    hold!(checked == expected && answer == expected, "edge {}: {checked} and {answer} instead of {expected}", edge.name);
    hold!(looked.slice() == [edge.looked], "edge {}: {:?} bytes looked at instead of {}", edge.name, looked.slice(), edge.looked);
    Ok(cells)
}

/// Checks all edges on both sides.
/// Each counts as one comparison.
fn compare_edges(random: &mut Random, tally: &mut Tally) {
    for (edge, code) in edges::numbers() {
        let result = image_edge(random, &edge).and_then(|cells| {
            hold!(edge.answer.0 != 0 || cells.slice()[0] == code, "edge {}: another code", edge.name);
            Ok(())
        });
        tally.compare(result);
    }
    for edge in edges::images() {
        let result = image_edge(random, &edge);
        tally.compare(result.map(|_| ()));
    }
    for edge in edges::writer().into_iter().chain(edges::long_writer()) {
        let case = WriterCase { catalogue: edge.catalogue.to_vec(), cells: edge.cells, out: edge.out };
        let result = compare_write(random, &case).and_then(|(answer, out)| {
            hold!(answer == edge.answer.1 * 32 + edge.answer.0, "edge {}: {answer}", edge.name);
            hold!(out.slice().starts_with(&edge.bytes), "edge {}: other bytes", edge.name);
            Ok(())
        });
        tally.compare(result);
    }
    for edge in edges::made() {
        let result = compare_make(random, &edge.given, CATALOGUE).and_then(|(answer, catalogue)| {
            hold!(answer == edge.answer, "edge {}: {answer}", edge.name);
            let words: Vec<u64> = if answer == 0 { [&edge.given[..], &edge.stored[..]].concat() } else { vec![0; CATALOGUE] };
            hold!(catalogue.slice() == words, "edge {}: {:?}", edge.name, catalogue.slice());
            Ok(())
        });
        tally.compare(result);
    }
}

/// Runs the edges, then the made images, and prints the table and the last line.
/// The exit code is 1 if anything failed.
fn main() {
    let mut arguments = std::env::args().skip(1).map(|word| word.parse::<u64>().expect("use: peer-image [images] [seed]"));
    let images = arguments.next().unwrap_or(IMAGES);
    let mut random = Random::new(arguments.next().unwrap_or(1));
    let mut tally = Tally::default();
    if library::MOCK {
        println!("MOCK: the peer is compared with itself");
    }
    compare_edges(&mut random, &mut tally);
    for _ in 0..images {
        let result = compare_image(&mut random, &mut tally);
        tally.compare(result);
    }
    let least = LEAST.min(images * LEAST / IMAGES);
    tally.table("check", &["0", "1", "2", "3", "4", "5", "6", "7", "8", "9", "17", "20", "21"], least);
    tally.table("load", &["0", "1", "2", "3", "4", "5", "6", "7", "8", "9", "17", "20", "21", "31"], least);
    for call in ["check", "load"] {
        tally.table(&format!("{call} version 1"), &["0", "1", "2", "4", "5", "6", "7", "8", "9", "17"], least);
        tally.table(&format!("{call} version 2"), &["0", "1", "2", "4", "5", "6", "7", "8", "9", "17", "20", "21"], least / 4);
    }
    tally.table("counts", &["1", "2", "17"], least);
    tally.table("count", &[], least);
    tally.table("make", &["0", "4", "5", "6", "8", "31"], least);
    tally.table("write", &["0", "4", "5", "6", "7", "8", "10", "11", "16", "21", "31"], least);
    tally.table("write version 1", &["0", "7", "10", "11"], least);
    tally.table("write version 2", &["0", "7", "10", "11", "21"], least / 10);
    tally.table("write before an earlier row", &["5", "6", "8"], least);
    stored::tables_of(&mut tally, "write", &["7", "10", "11"], least);
    tally.calls();
    exit(if tally.end() { 0 } else { 1 });
}
