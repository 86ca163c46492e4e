//! Times the library beside the same rule in Rust, as worded and with shortcuts, in one run: ratios, never seconds alone.
//! Use: peer-bench [repeats]; peer-bench rows, lists or growth for the streams of one row, the checks of lists or the growth with the rows of a table
//! alone; peer-bench once LETTER FORM for one drain of a case by one form (0 the library, 1 as worded, 2 with shortcuts), whose instructions callgrind
//! counts; peer-bench listings PROGRAM [repeats] for the listing program beside a plain listing in Rust, which is peer-bench list of the image on
//! standard input; or peer-bench sql for the chain's tables and their nested full outer joins as SQL.
#![forbid(unsafe_code)]
use peer::image::{self, Catalogue};
use peer::make::{self, Tables};
use peer::random::Random;
use peer::listing::{self, Next, Open};
use peer::rule::{self, Answer, Asked, Key, Outcome, Store};
use peer::words::{self, Call, HOLDING, RESULT};
use peer::{library, swift};
use std::fs::{self, File};
use std::hint::black_box;
use std::io::{self, Read, Write};
use std::path::Path;
use std::process::{Command, Stdio};
use std::time::Instant;

/// The records that a drain is lent.
/// As many as a store ever has.
const RECORDS: usize = rule::RECORDS;

/// What a drain came to: sets, trials, row tests, looks, and all keys and padded rows in one number.
/// The three forms have to agree on it before they are timed.
#[derive(Clone, Copy, Debug, Default, PartialEq, Eq)]
struct Drained {
    sets: u64,
    trials: u64,
    row_tests: u64,
    looks: u64,
    stirred: u64,
}

impl Drained {
    /// Takes in what a call gave.
    fn call(&mut self, counts: [u64; 3]) {
        self.trials += counts[0];
        self.row_tests += counts[1];
        self.looks += counts[2];
    }

    /// Takes in a set.
    fn set(&mut self, key: Key, padded: &[u64]) {
        self.sets += 1;
        for &word in [key.low, key.high].iter().chain(padded) {
            self.stirred = (self.stirred ^ word).wrapping_mul(0x9e37_79b9_7f4a_7c15).rotate_left(23);
        }
    }
}

/// The four slices of a store, made once for all drains.
struct Room {
    low: Vec<u64>,
    high: Vec<u64>,
    left: Vec<u16>,
    right: Vec<u16>,
}

impl Room {
    fn store(&mut self) -> Store<'_> {
        Store { low: &mut self.low, high: &mut self.high, left: &mut self.left, right: &mut self.right }
    }
}

/// Drains the tables by the library's calls for C, each with this budget: of every set, or of those that hold a row of a table.
fn by_library(tables: &Tables, room: &mut Room, asked: Asked, budget: u64) -> Drained {
    let catalogue = words::words_of(&tables.catalogue);
    let (mut store, mut record, mut result, mut padded) = (room.store(), [0; HOLDING], [0; RESULT], [0; 63]);
    let next = if asked == Asked::EverySet { library::next } else { library::next_holding };
    let opened = match asked {
        Asked::EverySet => library::open(&catalogue, &tables.cells, &mut store, &mut record),
        Asked::Holding { table, row } => library::open_holding(&catalogue, &tables.cells, &mut store, table, row, &mut record),
    };
    let mut drained = Drained { row_tests: opened / 32, ..Drained::default() };
    loop {
        let call = Call { record: &mut record, budget, padded: &mut padded, result: &mut result };
        let answer = next(&catalogue, &tables.cells, &mut store, call);
        drained.call([result[2], result[3], result[4]]);
        match answer {
            32 => drained.set(Key::of(result[0], result[1]), &padded[..tables.catalogue.m as usize]),
            64 => return drained,
            96 => (),
            other => panic!("the library answers {other}"),
        }
    }
}

/// Drains the tables by one of the two forms in Rust, each call with this budget.
fn by_rust(tables: &Tables, room: &mut Room, budget: u64, open: Open, next: Next) -> Drained {
    let (mut store, mut padded) = (room.store(), [0; 63]);
    let (mut record, row_tests) = open(&tables.catalogue, &tables.cells, &mut store).expect("open is refused");
    let mut drained = Drained { row_tests, ..Drained::default() };
    loop {
        let (outcome, counts) = next(&tables.catalogue, &tables.cells, &mut store, &mut record, budget, &mut padded);
        drained.call([counts.trials, counts.row_tests, counts.looks]);
        match outcome {
            Outcome::Answered(Answer::Set(key)) => drained.set(key, &padded[..tables.catalogue.m as usize]),
            Outcome::Answered(Answer::Finished) => return drained,
            Outcome::Answered(Answer::Working) => (),
            other => panic!("the rule in Rust answers {other:?}"),
        }
    }
}

/// Tables of these schemes and row counts, with the code of each cell by table, row and attribute.
/// Rows are put in order and repeats dropped, so that they make an image too.
fn tables(m: u64, shapes: &[(u64, u16)], mut code: impl FnMut(usize, u64, u32) -> u64) -> Tables {
    let mut catalogue = Catalogue { m, n: shapes.len() as u64, ..Catalogue::default() };
    let mut cells = Vec::new();
    for (table, &(scheme, count)) in shapes.iter().enumerate() {
        let attributes: Vec<u32> = (0..m as u32).filter(|attribute| scheme >> attribute & 1 == 1).collect();
        let mut rows: Vec<Vec<u64>> = (1..=u64::from(count)).map(|row| attributes.iter().map(|&a| code(table, row, a)).collect()).collect();
        rows.sort();
        rows.dedup();
        catalogue.schemes[table] = scheme;
        catalogue.rows[table] = rows.len() as u16;
        cells.extend(rows.into_iter().flatten());
    }
    Tables::of(catalogue, cells)
}

/// A chain of eight tables: each shares an attribute with the next. Some rows find no other.
fn chain() -> Tables {
    let mut random = Random::new(7);
    let shapes: Vec<(u64, u16)> = (0..8).map(|table| (3 << table, 60)).collect();
    tables(9, &shapes, |_, _, _| 1 + random.below(55))
}

/// The tables of a case as SQL, and the query that joins them; it prints the number of its rows.
/// Nested full outer joins give the row sets where tables touch as a tree and no cell is null.
fn sql(made: &Tables) -> String {
    let mut text = String::new();
    let mut place = 0;
    for table in 0..made.catalogue.n as usize {
        let attributes: Vec<String> = (0..made.catalogue.m).filter(|a| made.catalogue.schemes[table] >> a & 1 == 1).map(|a| format!("a{a}")).collect();
        text += &format!("create table t{table} ({} bigint);\n", attributes.join(" bigint, "));
        for row in made.cells[place..place + made.catalogue.size(table)].chunks(made.catalogue.width(table)) {
            let values: Vec<String> = row.iter().map(|code| if *code == 0 { "null".to_string() } else { (code - 1).to_string() }).collect();
            text += &format!("insert into t{table} values ({});\n", values.join(", "));
        }
        text += &format!("analyze t{table};\n");
        place += made.catalogue.size(table);
    }
    let joins: Vec<String> = (1..made.catalogue.n).map(|table| format!("full outer join t{table} using (a{table})")).collect();
    text + &format!("-- query\nselect * from t0 {}\n", joins.join(" "))
}

/// Eight tables that share a tick, each with an attribute of its own.
fn ticks() -> Tables {
    let shapes: Vec<(u64, u16)> = (0..8).map(|table| (1 | 2 << table, 255)).collect();
    tables(9, &shapes, |_, row, a| if a == 0 { 1 + row } else { row % 100 + 1 })
}

/// Eight tables of one attribute, the tick, with so many rows each: ten-minute notes of a week are 1,008.
fn plain_ticks(rows: u16) -> Tables {
    tables(1, &[(1, rows); 8], |_, row, _| 1 + row)
}

/// Four tables that share a tick, each with an attribute of its own, and the notes of a week.
fn week() -> Tables {
    let shapes: Vec<(u64, u16)> = (0..4).map(|table| (1 | 2 << table, 1008)).collect();
    tables(5, &shapes, |_, row, a| if a == 0 { 1 + row } else { row % 100 + 1 })
}

/// The same tables with the rows of each in falling order. A stream takes them; an image they make not.
fn turned(mut made: Tables) -> Tables {
    let mut place = 0;
    for table in 0..made.catalogue.n as usize {
        let (size, width) = (made.catalogue.size(table), made.catalogue.width(table));
        let rows: Vec<u64> = made.cells[place..place + size].chunks(width).rev().flatten().copied().collect();
        made.cells[place..place + size].copy_from_slice(&rows);
        place += size;
    }
    made
}

/// A case: its letter and name, its tables, the budget of each call of a drain, and whether the rule as worded is timed on it.
/// With thousands of rows it is not: a trial then tests each of them several times, and (f) makes 295 thousand million row tests.
struct Case {
    letter: &'static str,
    name: &'static str,
    tables: Tables,
    budget: u64,
    worded: bool,
}

/// A case that is drained with all the trials that a call can make.
fn case(letter: &'static str, name: &'static str, tables: Tables) -> Case {
    Case { letter, name, tables, budget: u64::MAX, worded: true }
}

/// (a) to (i).
fn cases() -> Vec<Case> {
    let mut random = Random::new(7);
    let wide = [((1 << 63) - 1, 43), ((1 << 63) - 1, 43), ((1 << 63) - 1, 43)];
    let dense: Vec<(u64, u16)> = [0b00111, 0b01110, 0b11100, 0b11001, 0b10011, 0b10101, 0b01010, 0b01101].iter().map(|&scheme| (scheme, 24)).collect();
    vec![
        case("a", "a star of four tables, 4,096 sets", make::star(&[8, 8, 8, 8])),
        case("b", "a chain of eight tables of 60 rows", chain()),
        case("c", "eight tables of 255 rows sharing a tick", ticks()),
        case("d", "three tables of 63 attributes", tables(63, &wide, |table, row, a| if a == 62 && row % 3 == table as u64 { row } else { row % 5 + 2 })),
        case("e", "dense random tables", tables(5, &dense, |_, _, _| random.below(5))),
        Case { worded: false, ..case("f", "eight tables of 1,008 ticks", plain_ticks(1008)) },
        Case { worded: false, ..case("g", "four tables of 1,008 rows sharing a tick", week()) },
        case("h", "(c) with rows in falling order", turned(ticks())),
        Case { budget: 1, ..case("i", "(c) with budget 1", ticks()) },
    ]
}

/// The best of several runs of each form in seconds, the forms taking turns.
/// Short runs are repeated for a second, so that other work on the machine touches few of them.
fn best<const FORMS: usize>(repeats: usize, mut run: impl FnMut(usize)) -> [f64; FORMS] {
    let mut best = [f64::MAX; FORMS];
    let (begin, mut done) = (Instant::now(), 0);
    while done < repeats || begin.elapsed().as_secs_f64() < 1.0 {
        done += 1;
        for (form, best) in best.iter_mut().enumerate() {
            let start = Instant::now();
            run(form);
            *best = best.min(start.elapsed().as_secs_f64());
        }
    }
    best
}

/// Room for the longest drain.
fn room() -> Room {
    Room { low: vec![0; RECORDS], high: vec![0; RECORDS], left: vec![0; RECORDS], right: vec![0; RECORDS] }
}

/// One drain of a case by one of the three forms: 0 the library, 1 the rule as worded, 2 the rule with shortcuts.
fn drained(case: &Case, room: &mut Room, form: usize) -> Drained {
    match form {
        0 => by_library(&case.tables, room, Asked::EverySet, case.budget),
        1 => by_rust(&case.tables, room, case.budget, rule::open, rule::next),
        _ => by_rust(&case.tables, room, case.budget, swift::open, swift::next),
    }
}

/// The best times of the library, of the rule with shortcuts, and of the rule as worded where that is timed, each after its drain was compared.
fn drain_times(case: &Case, ours: Drained, repeats: usize) -> (f64, f64, Option<f64>) {
    let mut room = room();
    assert_eq!(ours, drained(case, &mut room, 2), "{}: the rule with shortcuts differs", case.name);
    if !case.worded {
        let [library, swift] = best(repeats, |number| {
            black_box(drained(case, &mut room, 2 * number));
        });
        return (library, swift, None);
    }
    assert_eq!(ours, drained(case, &mut room, 1), "{}: the rule as worded differs", case.name);
    let [library, worded, swift] = best(repeats, |number| {
        black_box(drained(case, &mut room, number));
    });
    (library, swift, Some(worded))
}

/// Drains one case in its forms, compares them, and prints the ratios.
fn drain(case: &Case, repeats: usize) {
    let ours = drained(case, &mut room(), 0);
    let (library, swift, worded) = drain_times(case, ours, repeats);
    let each = library / ours.trials as f64 * 1e9;
    let worded = worded.map_or("     -".to_string(), |worded| format!("{:>6.3}", library / worded));
    println!(
        "({}) {:<40} {:>6} sets  {library:>9.6} s  {each:>6.0} ns a trial  {worded} of worded  {:>6.3} of shortcuts",
        case.letter, case.name, ours.sets, library / swift
    );
}

/// Drains eight tables of one attribute with more and more rows, and prints how a trial's time grows, beside the rule with shortcuts.
fn growth(repeats: usize) {
    println!("the growth with the rows of a table, the best of {repeats}:");
    let mut first = None;
    for rows in [255, 510, 1020] {
        let case = Case { worded: false, ..case("j", "eight tables of ticks", plain_ticks(rows)) };
        let ours = drained(&case, &mut room(), 0);
        let (library, swift, _) = drain_times(&case, ours, repeats);
        let each = |time: f64| time / ours.trials as f64 * 1e9;
        let first = *first.get_or_insert(each(library));
        println!(
            "eight tables of {rows:>5} rows {:>8} trials  {library:>9.6} s  {:>6.1} ns a trial, {:>6.3} of the first; {:>6.1} ns with shortcuts",
            ours.trials, each(library), each(library) / first, each(swift)
        );
    }
}

/// Rows of the cases of that letter, by table and number: few of a case's sets hold one, of the star an eighth.
const ROWS: [(&str, u64, u64); 4] = [("a", 3, 8), ("b", 4, 30), ("c", 7, 200), ("e", 7, 20)];

/// Drains the stream of one row and that of every set, and prints the first beside the second. A stream's trials are N for each of its sets.
fn row_drain(case: &Case, table: u64, row: u64, repeats: usize) {
    let mut room = room();
    let rows: u64 = case.tables.catalogue.rows.iter().map(|&rows| u64::from(rows)).sum();
    let streams = [Asked::Holding { table, row }, Asked::EverySet];
    let [ours, all] = streams.map(|asked| by_library(&case.tables, &mut room, asked, case.budget));
    assert!(ours.trials == ours.sets * rows && all.trials == all.sets * rows, "{}: {ours:?} of {all:?} in {rows} rows", case.name);
    let [time, whole] = best(repeats, |number| {
        black_box(by_library(&case.tables, &mut room, streams[number], case.budget));
    });
    let trials = ours.trials as f64 / all.trials as f64;
    println!(
        "({}) table {table}, row {row:<3} {:>4} of {:>4} sets  {:>5} of {:>6} trials  {time:>9.6} s  {trials:>6.4} of the trials  {:>6.4} of the time",
        case.letter, ours.sets, all.sets, ours.trials, all.trials, time / whole
    );
}

/// Checks one image in both forms and prints the ratio.
fn check(name: &str, tables: &Tables, repeats: usize) {
    let image = make::good(tables);
    assert!(library::check(&image) == 0 && image::read(&image, image::CELLS).is_ok(), "{name}: the image is refused");
    let rounds = 20_000_000 / image.len();
    let [library, rust] = best(repeats, |form| {
        for _ in 0..rounds {
            match form {
                0 => assert!(library::check(black_box(&image)) == 0),
                _ => assert!(words::check(black_box(&image)) == 0),
            }
        }
    });
    println!("{name:<42} {:>6} bytes {:>9.6} s  {:>6.3} of a Rust reading", image.len(), library / rounds as f64, library / rust);
}

/// Tables of 8,192 cells, as many as an image ever has: eight of eight attributes and 128 rows, every code from `least` on and near it.
fn full(least: u64) -> Tables {
    let shapes = [(0xff, 128); 8];
    tables(8, &shapes, |table, row, a| if a == 0 { least + row - 1 } else { least + (row + table as u64 + u64::from(a)) % 100 })
}

/// Writes one image in both forms and prints the ratio.
fn write(name: &str, tables: &Tables, repeats: usize) {
    let catalogue = words::words_of(&tables.catalogue);
    let mut out = make::good(tables);
    let answer = 32 * out.len() as u64;
    let rounds = 20_000_000 / out.len();
    let [library, rust] = best(repeats, |form| {
        for _ in 0..rounds {
            let lent = black_box(&mut out);
            match form {
                0 => assert!(library::write(&catalogue, &tables.cells, lent) == answer),
                _ => assert!(words::write(&catalogue, &tables.cells, lent) == answer),
            }
        }
    });
    println!("{name:<42} {:>6} bytes {:>9.6} s  {:>6.3} of a Rust writing", out.len(), library / rounds as f64, library / rust);
}

/// The keys of all sets of the tables, as the library hands them out.
fn keys_of(tables: &Tables, room: &mut Room) -> Vec<Key> {
    let drained = by_library(tables, room, Asked::EverySet, u64::MAX);
    let store = room.store();
    (0..drained.sets as usize).map(|record| store.key(record)).collect()
}

/// The same keys in another order.
fn shuffled(keys: &[Key]) -> Vec<Key> {
    let (mut list, mut random) = (keys.to_vec(), Random::new(7));
    for place in (1..list.len()).rev() {
        list.swap(place, random.below(place as u64 + 1) as usize);
    }
    list
}

/// The two slices of a list: the first and the second words of its keys.
fn words_of_keys(list: &[Key]) -> (Vec<u64>, Vec<u64>) {
    list.iter().map(|key| (key.low, key.high)).unzip()
}

/// The check of a right list, which has to find it right.
fn check_list(tables: &Tables, list: &(Vec<u64>, Vec<u64>)) {
    let (low, high) = black_box(list);
    let answer = library::check_list(&words::words_of(&tables.catalogue), &tables.cells, (low, high), &mut [0; 2]);
    assert!(answer == 32, "the check of a right list gives {answer}");
}

/// Checks the star's list in three orders beside the drain of the same tables, and lists of more and more sets at the same N.
fn lists(repeats: usize) {
    let mut room = room();
    let star = make::star(&[8, 8, 8, 8]);
    let handed = keys_of(&star, &mut room);
    let mut sorted = handed.clone();
    sorted.sort_unstable();
    let orders = [("as handed out", handed.clone()), ("sorted", sorted), ("shuffled", shuffled(&handed))];
    for (name, list) in &orders {
        let list = words_of_keys(list);
        let [checked, drained] = best(repeats, |form| match form {
            0 => check_list(&star, &list),
            _ => drop(black_box(by_library(&star, &mut room, Asked::EverySet, u64::MAX))),
        });
        println!("the star's list, {name:<26} {:>6} sets  {checked:>9.6} s  {:>6.3} of the drain", list.0.len(), checked / drained);
    }
    for counts in [[23, 4, 3, 2], [20, 6, 3, 3], [16, 8, 4, 4], [8, 8, 8, 8]] {
        let star = make::star(&counts);
        let list = words_of_keys(&shuffled(&keys_of(&star, &mut room)));
        let [checked] = best(repeats, |_| check_list(&star, &list));
        println!("a star of rows {:<29} {:>6} sets  {checked:>9.6} s  {:>6.3} microseconds a set", format!("{counts:?}, N = 32"), list.0.len(), checked * 1e6 / list.0.len() as f64);
    }
}

/// Lists one image by the listing program and by this one, each a process of its own that is read through a pipe, and prints the ratio.
/// Both have to print the same before they are timed.
fn list(name: &str, tables: &Tables, repeats: usize, program: &Path) {
    let file = std::env::temp_dir().join(format!("harbour-bench-{}", std::process::id()));
    fs::write(&file, make::good(tables)).expect("the image is not written");
    let own = std::env::current_exe().expect("this program has no path");
    let run = |form: usize| {
        let mut command = if form == 0 { Command::new(program) } else { Command::new(&own) };
        let image = File::open(&file).expect("the image is not there");
        if form == 1 {
            command.arg("list");
        }
        command.stdin(Stdio::from(image)).output().expect("a listing does not run").stdout
    };
    let text = run(0);
    assert!(text == run(1), "{name}: the listings differ");
    let [ours, rust] = best(repeats, |form| {
        black_box(run(form));
    });
    fs::remove_file(&file).expect("the image stays");
    println!("{name:<42} {:>6} bytes {:>9.6} s  {:>6.3} of a Rust listing", text.len(), ours, ours / rust);
}

/// The plain listing of the image on standard input, by the rule with shortcuts.
fn listed() {
    let mut input = Vec::new();
    io::stdin().take(listing::INPUT as u64 + 1).read_to_end(&mut input).expect("standard input is not read");
    let text = listing::list_by(&input, swift::open, swift::next);
    io::stdout().write_all(text.as_bytes()).expect("standard output is not written");
}

/// Times the listings of (a) to (e).
fn listings(program: &Path, repeats: usize) {
    println!("listings, the best of {repeats}:");
    for case in cases().iter().filter(|case| "abcde".contains(case.letter)) {
        list(case.name, &case.tables, repeats, program);
    }
}

/// Does what its words say.
fn main() {
    let words: Vec<String> = std::env::args().skip(1).collect();
    let use_ = "use: peer-bench [repeats] | rows | lists | growth | once LETTER FORM | listings PROGRAM [repeats] | list | sql";
    match words.iter().map(String::as_str).collect::<Vec<_>>()[..] {
        ["sql"] => print!("{}", sql(&chain())),
        ["list"] => listed(),
        ["listings", program] => listings(Path::new(program), 5),
        ["listings", program, repeats] => listings(Path::new(program), repeats.parse().expect(use_)),
        ["once", letter, form] => {
            let case = cases().into_iter().find(|case| case.letter == letter).expect(use_);
            println!("{:?}", drained(&case, &mut room(), form.parse().expect(use_)));
        }
        ["rows"] => rows(5),
        ["lists"] => lists(7),
        ["growth"] => growth(3),
        [] => all(5),
        [repeats] => all(repeats.parse().expect(use_)),
        _ => panic!("{use_}"),
    }
}

/// Times the drains of the sets that hold one row.
fn rows(repeats: usize) {
    println!("drains of the sets that hold one row, beside those of every set, the best of {repeats}:");
    for (letter, table, row) in ROWS {
        let case = cases().into_iter().find(|case| case.letter == letter).expect("no such case");
        row_drain(&case, table, row, repeats);
    }
}

/// Times every case, first the drains, then those of one row, the growth with rows, the checks of the images of (a) to (g), the largest images written,
/// and lists checked.
fn all(repeats: usize) {
    assert!(!library::MOCK, "without the library there is nothing to time");
    println!("drains, the best of {repeats}:");
    for case in cases() {
        drain(&case, repeats);
    }
    rows(repeats);
    growth(repeats);
    println!("checks of the same images, the best of {repeats}:");
    for case in cases().iter().filter(|case| "abcdefg".contains(case.letter)) {
        check(case.name, &case.tables, repeats);
    }
    println!("the largest images written, the best of {repeats}:");
    write("8,192 cells, codes below 128", &full(0), repeats);
    write("8,192 cells, codes near 2^63", &full((1 << 63) - 200), repeats);
    println!("checks of lists, the best of {repeats}:");
    lists(repeats);
}
