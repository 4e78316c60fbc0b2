// The command `compare`: runs the kinds of cases and the images, prints how many of each there were, and how often the port differs from the Rust.
use crate::answer::Answer;
use crate::cases::{Cases, KINDS};
use crate::check::{Check, Tally};
use crate::histories::check_history;
use crate::images::{self, Image};
use crate::pictures::Picture;
use crate::random::Random;
use crate::sha256::sha256;
use crate::{messages, months, oracle, port, stricts};
use std::path::Path;
use std::process::ExitCode;

/// A kind that can be run whole is run whole, unless it has more than this many times the cases that were asked for.
const WHOLE: u64 = 8;

/// Cut and damaged copies of an image are this many times fewer: each is as long as thousands of other cases.
const IMAGES: u64 = 100;
/// Strict checks of such copies are so many times fewer again.
const STRICT: u64 = 30;
/// One history more on each image, to three channels and to four, for this many cases of other kinds.
const HISTORIES: u64 = 500_000;
/// Where there are to be fewer, there are not fewer than this.
const FEWEST: u64 = 1000;

/// The i-th of `total`, in an order whose first few come from all over: each comes once, since the factor is a prime that divides no `total`.
fn spread(i: u64, total: u64) -> u64 {
    i * 2_654_435_761 % total
}

fn run_kind(check: &mut Check, random: &mut Random, kind: &Cases, cases: u64) -> String {
    match *kind {
        Cases::All(total, run) => {
            let count = total.min(cases * WHOLE);
            for i in 0..count {
                run(check, spread(i, total));
            }
            if count == total {
                "every one".to_string()
            } else {
                format!("1 in {:.1}", total as f64 / count as f64)
            }
        }
        Cases::Some(run) => run_enough(check, random, run, cases),
        Cases::Fewer(times, run) => run_enough(check, random, run, FEWEST.max(cases / times)),
    }
}

fn run_enough(
    check: &mut Check,
    random: &mut Random,
    run: fn(&mut Check, &mut Random),
    cases: u64,
) -> String {
    while check.tally().cases() < cases {
        run(check, random);
    }
    String::new()
}

/// The images as they are: header, both wanted, and what expected.tsv says of header and pixels.
fn whole_images(check: &mut Check, images: &[Image]) {
    for image in images {
        let message = &image.message[..];
        check.header(message);
        for wanted in [3, 4] {
            check.decode(message, wanted, room(message, wanted));
        }
        for (figures, sum) in &image.expected {
            let wanted = figures[2];
            let mut pixels = vec![0; room(message, wanted)];
            port::decode(message, wanted, &mut pixels);
            check.expect(
                port::header(message) == Answer::accepted(*figures),
                "header of expected.tsv",
                message,
            );
            check.expect(sha256(&pixels) == *sum, "SHA-256 of expected.tsv", message);
        }
    }
}

fn room(message: &[u8], wanted: u64) -> usize {
    oracle::needed(message, wanted).expect("a good header") as usize
}

/// An image, cut anywhere or damaged after its header.
fn damaged_image(random: &mut Random, images: &[Image]) -> Vec<u8> {
    let mut message = random.pick(images).message.clone();
    if random.one_in(2) {
        message.truncate(random.below(message.len()));
    } else {
        messages::damage_some(random, &mut message, 14);
    }
    message
}

fn damaged_images(check: &mut Check, random: &mut Random, images: &[Image], cases: u64) {
    while check.tally().cases() < cases {
        let message = damaged_image(random, images);
        let wanted = 3 + random.below(2) as u64;
        let room = oracle::needed(&message, wanted).unwrap_or(0);
        check.decode(&message, wanted, room as usize);
    }
}

/// The images as they are, with a byte less and a byte more, and what the port makes of their pixels.
fn strict_images(check: &mut Check, images: &[Image]) {
    for image in images {
        let message = &image.message[..];
        check.strict(message);
        check.strict(&message[..message.len() - 1]);
        check.strict(&[message, &[0]].concat());
        for (_, picture) in image.pictures() {
            stricts::check_encoded(check, &picture, 1);
        }
    }
}

fn strict_damaged(check: &mut Check, random: &mut Random, images: &[Image], cases: u64) {
    while check.tally().cases() < cases {
        check.strict(&damaged_image(random, images));
    }
}

/// The images' own pixels, those of three channels with four as well.
fn encoded_images(check: &mut Check, images: &[Image]) {
    for (_, picture) in images.iter().flat_map(Image::pictures) {
        let room = picture.room();
        for colorspace in [0, 1] {
            check.encode(&picture.pixels, picture.size(), colorspace, room);
        }
        check.encode(&picture.pixels, picture.size(), 0, room - 1);
        check.encode(&picture.pixels, picture.size(), 0, room + 1000);
    }
}

/// Parts of the images.
fn encoded_parts(check: &mut Check, random: &mut Random, images: &[Image], cases: u64) {
    let pictures: Vec<Picture> = images
        .iter()
        .flat_map(Image::pictures)
        .map(|(_, picture)| picture)
        .collect();
    while check.tally().cases() < cases {
        let part = random.pick(&pictures).part(random, 40);
        let colorspace = random.below(2) as u64;
        check.encode(&part.pixels, part.size(), colorspace, part.room());
    }
}

fn image_histories(check: &mut Check, random: &mut Random, images: &[Image], times: u64) {
    for image in images {
        for wanted in [3, 4].iter().cycle().take(2 * times as usize) {
            check_history(check, random, &image.message, *wanted, u64::MAX);
        }
    }
}

fn print(kind: &str, tally: &Tally, note: &str) {
    let (cases, differences) = (tally.cases(), tally.differences);
    let [accepted, cut, .., no_marker, bad, past, after, other_message] = tally.answers;
    let others = cases - accepted - cut - no_marker - bad - past - after - other_message;
    println!(
        "{kind:36} {cases:10} {accepted:10} {cut:9} {others:9} {no_marker:9} {bad:9} {past:9} {after:9} {other_message:9} {differences:11}  {note}"
    );
}

/// Months beside the host's ledger, in a table of their own: what was sent is refused or counted call by call.
fn run_months(
    check: &mut Check,
    random: impl Fn(&str) -> Random,
    images: &[Image],
    cases: u64,
) -> Tally {
    println!("months: calls of count on one table, one after another; the columns after the calls: how the host's ledger answers them");
    println!(
        "{:36} {:>10} {:>10} {:>9} {:>9} {:>9} {:>9} {:>9} {:>9} {:>9} {:>9} {:>9} {:>9} {:>11}",
        "kind",
        "months",
        "calls",
        "counted",
        "already",
        "refused 1",
        "2",
        "3 to 5",
        "7",
        "8",
        "19",
        "20",
        "21",
        "differences"
    );
    let mut total = Tally::default();
    for (kind, which) in &months::KINDS {
        let kind = format!("months: {kind}");
        check.begin(&kind);
        let note = run_kind(check, &mut random(&kind), which, cases);
        print_months(&kind, &check.tally(), &note);
        total.add(&check.tally());
    }
    if !images.is_empty() {
        let kind = "months: published images";
        check.begin(kind);
        months::of_images(check, &mut random(kind), images);
        print_months(kind, &check.tally(), "every one");
        total.add(&check.tally());
    }
    print_months("all", &total, "");
    total
}

fn print_months(kind: &str, tally: &Tally, note: &str) {
    let (months, differences) = (tally.months, tally.differences);
    let calls: u64 = tally.counts.iter().sum();
    let [counted, already, cut, channels, header @ .., short, no_marker, hour, cells, large] =
        tally.counts;
    let header: u64 = header.iter().sum();
    println!(
        "{kind:36} {months:10} {calls:10} {counted:9} {already:9} {cut:9} {channels:9} {header:9} {short:9} {no_marker:9} {hour:9} {cells:9} {large:9} \
         {differences:11}  {note}"
    );
}

pub fn run(cases: u64, seed: u64, folder: &Path) -> ExitCode {
    println!("seed {seed}; the columns after the cases: how the Rust answered them, or how the rules answer what it lacks");
    println!(
        "{:36} {:>10} {:>10} {:>9} {:>9} {:>9} {:>9} {:>9} {:>9} {:>9} {:>11}",
        "kind",
        "cases",
        "accepted",
        "refused 1",
        "2 to 7",
        "8",
        "9",
        "10",
        "11",
        "12",
        "differences"
    );
    let mut check = Check::default();
    let mut total = Tally::default();
    // each kind has numbers of its own, so that one kind more or less changes no other
    let random = |kind: &str| {
        let step = |sum: u64, byte: u8| sum.wrapping_mul(257).wrapping_add(byte.into());
        Random::new(kind.bytes().fold(seed, step))
    };
    for (kind, which) in &KINDS {
        check.begin(kind);
        let note = run_kind(&mut check, &mut random(kind), which, cases);
        print(kind, &check.tally(), &note);
        total.add(&check.tally());
    }
    let images = images::read(folder);
    if images.is_empty() {
        println!("no images at hand: nothing was compared on them");
    } else {
        let few = (cases / IMAGES).max(FEWEST);
        let times = 1 + cases / HISTORIES;
        type Run<'a> = &'a dyn Fn(&mut Check, &mut Random);
        let kinds: [(&str, Run, &str); 7] = [
            (
                "published images",
                &|check, _| whole_images(check, &images),
                "every one",
            ),
            (
                "published images, cut or damaged",
                &|check, random| damaged_images(check, random, &images, few),
                "",
            ),
            (
                "published images, histories",
                &|check, random| image_histories(check, random, &images, times),
                "",
            ),
            (
                "published images, encoded",
                &|check, _| encoded_images(check, &images),
                "every one",
            ),
            (
                "published images, parts encoded",
                &|check, random| encoded_parts(check, random, &images, few),
                "",
            ),
            (
                "strict: published images",
                &|check, _| strict_images(check, &images),
                "every one",
            ),
            (
                "strict: images, cut or damaged",
                &|check, random| strict_damaged(check, random, &images, few / STRICT),
                "",
            ),
        ];
        for (kind, run, note) in kinds {
            check.begin(kind);
            run(&mut check, &mut random(kind));
            print(kind, &check.tally(), note);
            total.add(&check.tally());
        }
    }
    print("all", &total, "");
    total.add(&run_months(&mut check, random, &images, cases));
    for difference in check.found() {
        println!("{}", difference.text);
    }
    println!(
        "of these {} encode cases, {} strict cases, {} text cases, {} month cases",
        total.encodes, total.stricts, total.texts, total.months
    );
    println!(
        "in the histories {} records of the previous hour",
        total.previous
    );
    println!("of the damaged records {} refused at a byte", total.offsets);
    println!("{} cases, {} differences", total.cases(), total.differences);
    ExitCode::from(u8::from(total.differences > 0))
}
