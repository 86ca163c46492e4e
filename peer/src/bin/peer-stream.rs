//! The stream's second program: a listing, a check against the definition, a comparison with the library, and images.
//! Use: peer-stream list | self [cases] [seed] | compare [cases] [seed] | lists [tables] [seed] | images folder [number] [seed]
#![forbid(unsafe_code)]
use peer::edges;
use peer::image;
use peer::listing::{self, INPUT};
use peer::make;
use peer::random::Random;
use peer::{lists, selfcheck, streams};
use std::io::{Read, Write};
use std::path::Path;
use std::process::exit;

/// How often each answer has to be met in a comparison.
/// Runs of fewer cases than the usual number need proportionally fewer.
const LEAST: u64 = 2000;
const CASES: u64 = 1_000_000;

/// How many table sets a comparison of lists takes, with twelve lists each.
const LISTS: u64 = 40_000;

/// The sample of the rules: 25 bytes and the five lines that they print.
/// The self check begins with it.
const SAMPLE: &str = "01 03 03 03 02 02 0B 03 15 06 02 0B 08 8B 80 80 80 10 0A 05 02 02 08 03 00";
const SAMPLE_LINES: &str = "tables 3 3 6 14\nset 1 1 1 | 1 10 7\nset 2 0 2 | 2 20 -\nset 0 2 0 | - 4294967306 9\nend 3 18 160 28\n";

/// Prints the listing of the image on standard input.
/// No more is read than is needed to see that it is too long.
fn list() -> bool {
    let mut input = Vec::new();
    std::io::stdin().take(INPUT as u64 + 1).read_to_end(&mut input).expect("standard input cannot be read");
    std::io::stdout().write_all(listing::list(&input).as_bytes()).expect("standard output cannot be written");
    true
}

/// The most rows of an image that is listed: a listing takes N trials for each set, and each trial N row tests or more.
const LISTED_ROWS: u64 = 300;

/// An image that is listed soon: it is refused, or has few rows. Another one loses its last byte, and is then refused.
fn soon(mut image: Vec<u8>) -> Vec<u8> {
    let rows = |image: &[u8]| image::read(image, image::CELLS).map_or(0, |(catalogue, _)| catalogue.rows.iter().map(|&rows| u64::from(rows)).sum());
    while rows(&image) > LISTED_ROWS {
        image.pop();
    }
    image
}

/// The image with a number in a run of images: named edges first, then made ones.
/// Most are small good ones whose rows join; the rest are damaged, long, or fill the store.
fn numbered(random: &mut Random, number: usize, fixed: &[Vec<u8>]) -> Vec<u8> {
    if number < fixed.len() {
        return fixed[number].clone();
    }
    match random.below(20) {
        0..=13 => {
            let most = random.pick(&[300, 1000, 5000]);
            make::good(&make::stream_tables(random, most))
        }
        14 | 15 => {
            let tables = make::stream_tables(random, 300);
            make::damaged(random, tables)
        }
        16 | 17 => {
            let tables = make::any_tables(random);
            soon(make::damaged(random, tables))
        }
        18 => {
            let tables = make::any_tables(random);
            let rows: u16 = tables.catalogue.rows.iter().sum();
            if rows < 60 { make::good(&tables) } else { soon(make::damaged(random, tables)) }
        }
        _ => {
            let counts: Vec<u16> = (0..random.range(1, 4)).map(|_| random.range(1, 5) as u16).collect();
            make::good(&make::star(&counts))
        }
    }
}

/// The images that every run of images begins with.
/// The sample, all edges, input of just 65,536 bytes and one more, and stars with 4,096 sets and more.
fn fixed_images() -> Vec<Vec<u8>> {
    let mut images = vec![edges::hex(SAMPLE)];
    images.extend(edges::numbers().into_iter().map(|(edge, _)| edge.image));
    images.extend(edges::images().into_iter().map(|edge| edge.image).map(soon).filter(|image| image.len() < 1000));
    images.push(make::good(&make::long_pair(256, 3)));
    images.push(make::good(&make::long_pair(3, 256)));
    images.push(edges::full_width(131));
    images.push(make::good(&make::star(&[6, 6, 6, 6, 6])));
    images.push(make::good(&make::star(&[16, 16, 17])));
    images.push(make::good(&make::star(&[8, 8, 8])));
    for length in [INPUT, INPUT + 1, INPUT + 100] {
        let mut image = edges::hex("01 01 01 01 00");
        image.resize(length, 0);
        images.push(image);
    }
    images
}

/// Writes so many images to a folder, as 000000.image and on.
/// The same seed writes the same images.
fn images(folder: &str, number: u64, seed: u64) -> bool {
    let mut random = Random::new(seed);
    let fixed = fixed_images();
    std::fs::create_dir_all(folder).expect("the folder cannot be made");
    for place in 0..number as usize {
        let image = numbered(&mut random, place, &fixed);
        std::fs::write(Path::new(folder).join(format!("{place:06}.image")), image).expect("an image cannot be written");
    }
    println!("{number} images");
    true
}

/// The sample prints its five lines, and the stream hands out what the definition says.
/// The first is tested before anything else.
fn self_check(cases: u64, seed: u64) -> bool {
    let lines = listing::list(&edges::hex(SAMPLE));
    if lines != SAMPLE_LINES {
        println!("DIFFERS: the sample prints\n{lines}");
        return false;
    }
    selfcheck::run(cases, seed)
}

/// Chooses what to do by the first word.
/// The exit code is 1 if anything failed.
fn main() {
    let words: Vec<String> = std::env::args().skip(1).collect();
    let number = |place: usize, usual: u64| words.get(place).map_or(usual, |word| word.parse().expect("not a number"));
    let good = match words.first().map(String::as_str) {
        Some("list") => list(),
        Some("self") => self_check(number(1, 20_000), number(2, 1)),
        Some("compare") => {
            let cases = number(1, CASES);
            streams::compare(cases, number(2, 1), LEAST.min(cases * LEAST / CASES))
        }
        Some("lists") => {
            let cases = number(1, LISTS);
            lists::compare(cases, number(2, 1), LEAST.min(cases * LEAST / LISTS))
        }
        Some("images") if words.len() > 1 => images(&words[1], number(2, 1000), number(3, 1)),
        _ => {
            println!("use: peer-stream list | self [cases] [seed] | compare [cases] [seed] | lists [tables] [seed] | images folder [number] [seed]");
            false
        }
    };
    exit(if good { 0 } else { 1 });
}
