// What ./bench times, in one program: the contenders of a table by turns, in rounds. A round has each of them once,
// in an order that is drawn anew, and gives one ratio for each pair; what is answered is the median over the rounds.
//
// All read the same input and write the same output: one buffer of exactly the length needed, lent to each in turn,
// so that length, alignment and what the caches hold are the same for each; but qoi.h writes to memory of its own,
// the strict check writes nothing, and the count writes its table too. Each decode reads the header, tests the
// output's length and decodes; each encode tests pixels and output, writes the header and encodes.
use crate::answer::Answer;
use crate::port::{HOURS, MORE};
#[cfg(feature = "qoi_h")]
use crate::qoi_h;
use crate::random::Random;
use crate::samples::Sample;
use crate::{oracle, port};
use std::time::{Duration, Instant};

/// The steps of a run: what a worker does between two checkpoints.
pub const SLICE: u64 = 4096;

/// The message's number, as long as those of a broker that has been at work for some months.
const NUMBER: u64 = 1 << 20;

/// A row has at least so many rounds, however long they take.
const ROUNDS: usize = 25;

/// What the contenders write to, and what the copy reads.
struct Lent {
    out: Vec<u8>,
    copied: Vec<u8>,
    totals: Vec<u64>,
    marks: [u8; HOURS],
    figures: [u64; 4],
}

type Call = fn(&Sample, u64, &mut Lent) -> Answer;

/// Contenders, and the pairs of them whose ratio is asked for: the first one's time divided by the second one's.
pub struct Table {
    pub word: &'static str,
    contenders: &'static [(&'static str, Call)],
    pub pairs: &'static [(usize, usize)],
    /// How many calls are timed as one: more than one where a call takes no longer than reading the clock.
    calls: u32,
    /// How long the rounds of a row take, in milliseconds.
    time: u64,
    check: fn(&Sample, u64, &mut Lent),
}

impl Table {
    pub fn contenders(&self) -> usize {
        self.contenders.len()
    }

    pub fn name(&self, contender: usize) -> &'static str {
        self.contenders[contender].0
    }
}

const OURS: (&str, Call) = ("ours", |sample, wanted, lent| {
    port::decode(&sample.message, wanted, &mut lent.out)
});
const RUST: (&str, Call) = ("Rust", |sample, wanted, lent| {
    oracle::decode(&sample.message, wanted, &mut lent.out)
});

/// qoi.h is the last one in each table, as it is not always at hand.
pub static DECODE: Table = Table {
    word: "decode",
    contenders: &[
        OURS,
        RUST,
        ("runs", decode_in_slices),
        ("copy", |_, _, lent| {
            lent.out.copy_from_slice(&lent.copied);
            Answer::accepted([0; 4])
        }),
        #[cfg(feature = "qoi_h")]
        ("qoi.h", |sample, wanted, _| {
            qoi_h::decode(&sample.message, wanted)
        }),
    ],
    pairs: &[
        (0, 1),
        (2, 0),
        (3, 0),
        #[cfg(feature = "qoi_h")]
        (0, 4),
    ],
    calls: 1,
    time: 1000,
    check: check_decode,
};

/// Copying the figures out right after they were written would be a large part of so small a decode's time: they are
/// lent, as a caller in C lends them, and stay.
pub static SMALL: Table = Table {
    word: "small",
    contenders: &[
        ("ours", |sample, wanted, lent| {
            let Lent { out, figures, .. } = lent;
            let number = port::decode_lending(&sample.message, wanted, out, figures);
            Answer {
                number,
                figures: [0; 4],
            }
        }),
        RUST,
    ],
    pairs: &[(0, 1)],
    calls: 1000,
    time: 200,
    check: |_, _, _| (),
};

pub static ENCODE: Table = Table {
    word: "encode",
    contenders: &[
        ("ours", |sample, _, lent| {
            let picture = &sample.picture;
            let (width, height) = picture.size();
            port::encode(&picture.pixels, width, height, 0, &mut lent.out)
        }),
        ("Rust", |sample, _, lent| {
            let picture = &sample.picture;
            let (width, height) = picture.size();
            oracle::encode(&picture.pixels, width, height, 0, &mut lent.out)
        }),
        #[cfg(feature = "qoi_h")]
        ("qoi.h", |sample, _, _| qoi_h::encode(&sample.picture)),
    ],
    pairs: &[
        (0, 1),
        #[cfg(feature = "qoi_h")]
        (0, 2),
    ],
    calls: 1,
    time: 1000,
    check: check_encode,
};

pub static STRICT: Table = Table {
    word: "strict",
    contenders: &[
        ("strict", |sample, _, _| port::strict(&sample.message)),
        ("decode", OURS.1),
    ],
    pairs: &[(0, 1)],
    calls: 1,
    time: 500,
    check: |_, _, _| (),
};

/// The count of a frame of four channels, for an hour that is not marked.
pub static COUNT: Table = Table {
    word: "count",
    contenders: &[
        ("count", |sample, _, lent| {
            let Lent {
                out, totals, marks, ..
            } = lent;
            port::count(&sample.message, 0, out, totals, marks)
        }),
        ("decode", OURS.1),
    ],
    pairs: &[(0, 1)],
    calls: 1,
    time: 500,
    check: check_count,
};

pub static TABLES: [&Table; 5] = [&DECODE, &SMALL, &ENCODE, &STRICT, &COUNT];

/// A whole decode as a worker does it: a start, then run after run, each from the record that the one before it left.
fn decode_in_slices(sample: &Sample, wanted: u64, lent: &mut Lent) -> Answer {
    let message = &sample.message[..];
    let (mut record, mut next) = ([0; 300], [0; 300]);
    let mut answer = port::start(message, NUMBER, wanted, &mut record);
    if !answer.is_accepted() {
        return answer;
    }
    loop {
        let length = answer.figures[0] as usize;
        answer = port::run(
            message,
            NUMBER,
            &record[..length],
            &mut lent.out,
            SLICE,
            &mut next,
        );
        if answer.number != MORE {
            return answer;
        }
        std::mem::swap(&mut record, &mut next);
    }
}

/// The decodes to the lent output must leave the same pixels.
fn check_decode(sample: &Sample, wanted: u64, lent: &mut Lent) {
    let mut left: Vec<Vec<u8>> = Vec::new();
    for (_, decode) in &DECODE.contenders[..3] {
        lent.out.fill(0x55);
        assert!(decode(sample, wanted, lent).is_accepted());
        left.push(lent.out.clone());
    }
    let is_same = left.iter().all(|pixels| *pixels == left[0]);
    assert!(is_same, "the pixels differ: run ./compare");
}

/// The port must write the Rust's bytes, and all of them as many.
fn check_encode(sample: &Sample, wanted: u64, lent: &mut Lent) {
    let answer = ENCODE.contenders[0].1(sample, wanted, lent);
    let is_same = lent.out.starts_with(&sample.picture.encoded(0));
    assert!(is_same, "the bytes differ: run ./compare");
    for (name, encode) in ENCODE.contenders {
        let others = encode(sample, wanted, lent);
        assert!(others == answer, "{name} writes another length");
    }
}

/// On a fresh table the totals must be the frame's own numbers.
fn check_count(sample: &Sample, wanted: u64, lent: &mut Lent) {
    assert!(COUNT.contenders[0].1(sample, wanted, lent).is_accepted());
    let is_rain = |(cell, total): (&[u8], &u64)| {
        u64::from(u32::from_be_bytes(cell.try_into().expect("four"))) == *total
    };
    let pixels = sample.picture.pixels.chunks_exact(4);
    let is_same = pixels.zip(&lent.totals).all(is_rain);
    assert!(is_same, "the totals differ: run ./compare");
}

fn lent(table: &Table, sample: &Sample, wanted: u64) -> Lent {
    let length = match table.word {
        "encode" => sample.picture.room(),
        _ => sample.pixels() * wanted as usize,
    };
    let cells = if table.word == "count" {
        sample.pixels()
    } else {
        0
    };
    Lent {
        out: vec![0; length],
        copied: vec![0x55; length],
        totals: vec![0; cells],
        marks: [0; HOURS],
        figures: [0; 4],
    }
}

pub fn median(mut numbers: Vec<f64>) -> f64 {
    numbers.sort_by(f64::total_cmp);
    numbers[numbers.len() / 2]
}

/// The median time of each contender, in nanoseconds a call, then the median ratio of each pair.
pub fn race(table: &Table, sample: &Sample, wanted: u64) -> Vec<f64> {
    let mut lent = lent(table, sample, wanted);
    (table.check)(sample, wanted, &mut lent);
    let mut random = Random::new(1);
    let mut order: Vec<usize> = (0..table.contenders()).collect();
    let mut times = vec![Vec::new(); table.contenders()];
    let end = Instant::now() + Duration::from_millis(table.time);
    while times[0].len() < ROUNDS || Instant::now() < end {
        random.shuffle(&mut order);
        for &which in &order {
            let call = table.contenders[which].1;
            // a fresh table before the others too, so that the caches hold the same
            lent.totals.fill(0);
            lent.marks.fill(0);
            let start = Instant::now();
            for _ in 0..table.calls {
                let answer = call(sample, wanted, &mut lent);
                assert!(answer.is_accepted(), "{answer}");
            }
            let elapsed = start.elapsed().as_nanos() as f64;
            times[which].push(elapsed / f64::from(table.calls));
        }
    }
    let ratios = table.pairs.iter().map(|&(one, other)| {
        let rounds = times[one].iter().zip(&times[other]);
        median(rounds.map(|(one, other)| one / other).collect())
    });
    let ratios: Vec<f64> = ratios.collect();
    times.into_iter().map(median).chain(ratios).collect()
}
