// The command `bench`: decode and encode timed against the Rust's and qoi.h's, and runs of some thousand steps, the
// strict check and the count of a frame against decode. Each row is timed by programs whose code lies at other places
// (places.rs), in rounds (race.rs); its ratio is the geometric mean over the places, and the largest place is printed
// beside it. Then what a call and a pixel cost, the means over the rows, and whether each bar is met.
use crate::places::{self, Program};
use crate::race::{Table, COUNT, DECODE, ENCODE, SLICE, SMALL, STRICT};
use crate::samples::{self, Sample};
use crate::sizes;
use std::path::Path;
use std::process::ExitCode;

/// Pictures with fewer pixels are in no bar for the largest row.
const LEAST: usize = 4096;

/// Pairs by their numbers: the first one of each table, the others of `DECODE`, and qoi.h's, where it is at hand, of
/// `ENCODE`.
const FIRST: usize = 0;
const RUNS_TO_OURS: usize = 1;
const COPY_TO_OURS: usize = 2;
const DECODE_TO_QOI_H: usize = 3;
const ENCODE_TO_QOI_H: usize = 1;

fn geometric_mean(ratios: impl Iterator<Item = f64>) -> f64 {
    let (sum, count) = ratios.fold((0.0, 0), |(sum, count), r| (sum + r.ln(), count + 1));
    (sum / f64::from(count)).exp()
}

/// A row: what is timed, and the figures of each place.
struct Row<'a> {
    table: &'static Table,
    sample: &'a Sample,
    wanted: u64,
    places: Vec<Vec<f64>>,
}

impl Row<'_> {
    /// In nanoseconds a call.
    fn time(&self, contender: usize) -> f64 {
        geometric_mean(self.places.iter().map(|figures| figures[contender]))
    }

    fn ratios(&self, pair: usize) -> impl Iterator<Item = f64> + '_ {
        let at = self.table.contenders() + pair;
        self.places.iter().map(move |figures| figures[at])
    }

    fn ratio(&self, pair: usize) -> f64 {
        geometric_mean(self.ratios(pair))
    }

    fn name(&self) -> String {
        if self.table.word == "decode" {
            format!("{}, to {}", self.sample.name, self.wanted)
        } else {
            self.sample.name.clone()
        }
    }
}

/// The columns of a table as it is printed: contenders with their times, in so many nanoseconds, and pairs with their
/// ratios.
struct Columns {
    table: &'static Table,
    contenders: Vec<usize>,
    pairs: Vec<usize>,
    unit: f64,
}

impl Columns {
    /// In microseconds; qoi.h, where it is named and not at hand, is left out.
    fn of(table: &'static Table, contenders: &[usize], pairs: &[usize]) -> Self {
        let below = |numbers: &[usize], end| numbers.iter().copied().filter(|n| *n < end).collect();
        Self {
            table,
            contenders: below(contenders, table.contenders()),
            pairs: below(pairs, table.pairs.len()),
            unit: 1e3,
        }
    }

    fn all(table: &'static Table) -> Self {
        let contenders: Vec<usize> = (0..table.contenders()).collect();
        let pairs: Vec<usize> = (0..table.pairs.len()).collect();
        Self::of(table, &contenders, &pairs)
    }

    fn heading(&self) {
        print!("{:24} {:>8} {:>8}", "picture", "pixels", "channels");
        for &contender in &self.contenders {
            print!(" {:>9}", self.table.name(contender));
        }
        for &pair in &self.pairs {
            let (one, other) = self.table.pairs[pair];
            let names = [one, other].map(|contender| self.table.name(contender));
            print!(" {:>13} {:>7}", names.join("/"), "largest");
        }
        println!();
    }

    fn line(&self, row: &Row) {
        let Sample { name, .. } = row.sample;
        print!("{name:24} {:8} {:8}", row.sample.pixels(), row.wanted);
        for &contender in &self.contenders {
            print!(" {:9.1}", row.time(contender) / self.unit);
        }
        for &pair in &self.pairs {
            let largest = row.ratios(pair).fold(0.0, f64::max);
            print!(" {:13.3} {largest:7.3}", row.ratio(pair));
        }
        println!();
    }
}

/// Has each place time each row, and prints the table as it goes on.
fn timed<'a>(
    programs: &mut [Program],
    columns: &Columns,
    samples: &'a [Sample],
    wanted: fn(&Sample) -> Vec<u64>,
) -> Result<Vec<Row<'a>>, String> {
    columns.heading();
    let mut rows = Vec::new();
    for (number, sample) in samples.iter().enumerate() {
        for wanted in wanted(sample) {
            let figures = programs
                .iter_mut()
                .map(|program| program.race(columns.table, number, wanted));
            let row = Row {
                table: columns.table,
                sample,
                wanted,
                places: figures.collect::<Result<_, _>>()?,
            };
            columns.line(&row);
            rows.push(row);
        }
    }
    println!();
    Ok(rows)
}

/// A figure, and whether it keeps to its bar, where it has one.
fn held(figure: f64, bar: Option<f64>) -> String {
    match bar {
        None => format!("{figure:.3}"),
        Some(bar) if figure <= bar => format!("{figure:.3} (the bar, {bar:.2}, is met)"),
        Some(bar) => format!("{figure:.3} (the bar, {bar:.2}, is NOT met)"),
    }
}

/// The most that the mean of a pair's ratios and its largest row may be.
type Bars = [Option<f64>; 2];

/// Says the mean of a pair's ratios over the rows, and the largest row: of all small pictures, else of those with
/// enough pixels.
fn sum_up(what: &str, rows: &[&Row], pair: usize, bars: Bars) {
    if rows.is_empty() {
        return;
    }
    let mean = geometric_mean(rows.iter().map(|row| row.ratio(pair)));
    print!("{what}: geometric mean {}", held(mean, bars[0]));
    let is_large = |row: &&&Row| row.table.word == SMALL.word || row.sample.pixels() >= LEAST;
    let large = rows.iter().filter(is_large);
    if let Some(row) = large.max_by(|a, b| a.ratio(pair).total_cmp(&b.ratio(pair))) {
        let largest = held(row.ratio(pair), bars[1]);
        print!("; largest row {largest}: {}", row.name());
    }
    println!();
}

/// What the rows of all tables come to, and whether each bar is met.
fn sum_up_all(rows: &[Row]) {
    let of = |table: &Table, is_taken: fn(&Row) -> bool| -> Vec<&Row> {
        let is_of = |row: &&Row| row.table.word == table.word && is_taken(row);
        rows.iter().filter(is_of).collect()
    };
    let decodes = of(&DECODE, |_| true);
    let (to_three, to_four) = (
        of(&DECODE, |r| r.wanted == 3),
        of(&DECODE, |r| r.wanted == 4),
    );
    let one_pixel = of(&SMALL, |row| row.sample.pixels() == 1);
    let encodes = of(&ENCODE, |_| true);
    let counts = of(&COUNT, |_| true);
    let bounded = of(&COUNT, |row| {
        row.sample.is_photograph || row.sample.is_rain()
    });
    let (none, mean, largest) = ([None; 2], |bar| [Some(bar), None], |bar| [None, Some(bar)]);
    println!("The largest rows are of pictures with {LEAST} pixels or more.");
    sum_up("decode to crate qoi's, to 3", &to_three, FIRST, none);
    sum_up("decode to crate qoi's, to 4", &to_four, FIRST, none);
    let bars = [Some(0.90), Some(1.08)];
    sum_up("decode to crate qoi's", &decodes, FIRST, bars);
    sum_up("copy to decode", &decodes, COPY_TO_OURS, none);
    sum_up("runs to decode", &decodes, RUNS_TO_OURS, mean(1.05));
    let what = "decode of one pixel to crate qoi's";
    sum_up(what, &one_pixel, FIRST, largest(1.5));
    let bars = [Some(0.92), Some(1.08)];
    sum_up("encode to crate qoi's", &encodes, FIRST, bars);
    if cfg!(feature = "qoi_h") {
        sum_up("decode to qoi.h's", &decodes, DECODE_TO_QOI_H, none);
        sum_up("encode to qoi.h's", &encodes, ENCODE_TO_QOI_H, none);
    }
    let stricts = of(&STRICT, |_| true);
    sum_up("strict to decode", &stricts, FIRST, mean(0.60));
    sum_up("count to decode", &counts, FIRST, none);
    let what = "count to decode, rain and photographs";
    sum_up(what, &bounded, FIRST, largest(1.5));
}

fn say_of_qoi_h() {
    if cfg!(feature = "qoi_h") {
        println!("(qoi.h allocates its output, and its caller frees it: both are in its time)");
    } else {
        println!("(no qoi.h at hand, which is Debian's libqoi-dev: it is not timed)");
    }
}

/// Every table, or only that of encodes, of strict checks or of counts.
fn tables(folder: &Path, only: &str, names: &[&str]) -> Result<(), String> {
    let (samples, small) = (samples::large(folder), samples::small());
    let mut programs = places::start(names, folder)?;
    let is_wanted = |table: &Table| only == "all" || only == table.word;
    let own: fn(&Sample) -> Vec<u64> = |sample| vec![sample.channels()];
    println!(
        "Each row at {} places of the code. Times are medians, in microseconds; ratios are the geometric mean",
        names.len()
    );
    println!("of the places' medians, and the largest of these. A number after a name: the channels it was encoded with.");
    if !samples.iter().any(|sample| sample.is_photograph) {
        println!("no images at hand: no photograph is timed");
    }
    println!();

    let mut rows = Vec::new();
    if is_wanted(&DECODE) {
        println!(
            "decode against the Rust's and qoi.h's; copy: of as many bytes as the decode writes:"
        );
        say_of_qoi_h();
        let pairs = [FIRST, DECODE_TO_QOI_H, COPY_TO_OURS];
        let columns = Columns::of(&DECODE, &[0, 1, 4, 3], &pairs);
        rows = timed(&mut programs, &columns, &samples, |_| vec![3, 4])?;
        println!("runs of {SLICE} steps, each from the record that the one before it left, against decode, in the same rounds:");
        let columns = Columns::of(&DECODE, &[2, 0], &[RUNS_TO_OURS]);
        columns.heading();
        rows.iter().for_each(|row| columns.line(row));
        println!();
        println!("small pictures, in nanoseconds a call; they are in no mean:");
        let mut columns = Columns::all(&SMALL);
        columns.unit = 1.0;
        rows.extend(timed(&mut programs, &columns, &small, own)?);
    }
    if is_wanted(&ENCODE) {
        println!("encode against the Rust's and qoi.h's:");
        say_of_qoi_h();
        rows.extend(timed(&mut programs, &Columns::all(&ENCODE), &samples, own)?);
    }
    if is_wanted(&STRICT) {
        println!("the strict check against decode to the header's own channels:");
        rows.extend(timed(&mut programs, &Columns::all(&STRICT), &samples, own)?);
    }
    if is_wanted(&COUNT) {
        println!("the count of a frame, for an hour that is not marked, against its decode:");
        let of_four = |sample: &Sample| {
            if sample.channels() == 4 {
                vec![4]
            } else {
                vec![]
            }
        };
        rows.extend(timed(
            &mut programs,
            &Columns::all(&COUNT),
            &samples,
            of_four,
        )?);
    }
    if only == "all" {
        println!(
            "rain of any size, in nanoseconds a pixel, at one place, the least of some rounds:"
        );
        sizes::print();
        println!();
    }
    sum_up_all(&rows);
    Ok(())
}

pub fn run(folder: &Path, only: &str, programs: &[&str]) -> ExitCode {
    match tables(folder, only, programs) {
        Ok(()) => ExitCode::SUCCESS,
        Err(words) => {
            eprintln!("bench: {words}");
            ExitCode::from(2)
        }
    }
}
