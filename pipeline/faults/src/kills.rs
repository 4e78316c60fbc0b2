//! Part one: the worker itself, killed at any moment, also in the middle of a write, and others that go on from what it left.
use crate::bench::{killed_in_time, Bench, Ended, Order, Pair, Timed};
use crate::pictures::{a_chunk_ends_after, some_bytes, Family};
use crate::random::Random;
use crate::undisturbed::{
    checked_output, checked_pair, first_difference, some_decode, Undisturbed,
};
use std::process::Child;
use std::time::{Duration, Instant};

/// The fewest steps between two records.
const EVERY: usize = 500;
/// Records that one decode saves, at most about.
const SAVES: usize = 20;

/// What was done, and seen.
#[derive(Default)]
pub struct Kills {
    pub kills: usize,
    /// Kills after which the bytes done end where no chunk ends: a run writes whole chunks, so its write was cut off. Where pixels and
    /// pages end together this passes over some.
    pub in_a_write: usize,
    /// Workers that began with a record of more than 0 pixels and not all, and ended or came further.
    pub take_ups: usize,
    pub bytes: usize,
}

/// Histories, until there are so many kills.
pub fn kill(benches: &[Bench], random: &mut Random, wanted: usize) -> Result<Kills, String> {
    let mut counts = Kills::default();
    let decodes = some_decodes(random);
    while counts.kills < wanted {
        let (bench, decode) = (random.pick(benches), random.pick(&decodes));
        History::new(bench, random, &mut counts, decode)?.live()?;
    }
    Ok(counts)
}

/// Families and widths of the messages: most are rain, whose long runs make long writes, and some are small and saved often.
const PICTURES: [(Family, usize); 12] = [
    (Family::Rain, 2400),
    (Family::Rain, 2400),
    (Family::Rain, 2400),
    (Family::Rain, 2400),
    (Family::Rain, 2400),
    (Family::Rain, 150),
    (Family::Photo, 800),
    (Family::Photo, 800),
    (Family::Photo, 150),
    (Family::Noise, 800),
    (Family::Noise, 800),
    (Family::Noise, 150),
];

fn some_decodes(random: &mut Random) -> Vec<Undisturbed> {
    let decodes = PICTURES.iter().map(|&(family, width)| {
        let height = random.between(width / 2, width);
        some_decode(random, family, width, height)
    });
    decodes.collect()
}

/// One message on its way to one output.
struct History<'a> {
    bench: &'a Bench,
    random: &'a mut Random,
    counts: &'a mut Kills,
    decode: &'a Undisturbed,
    order: Order,
    /// What the output held before.
    before: Option<Vec<u8>>,
    /// What it must be at the end.
    right: Vec<u8>,
    /// How long a worker takes that has nothing to do, and one that has all.
    idle: Duration,
    whole: Duration,
    stand: Stand,
}

/// How far the files are.
#[derive(Clone, Copy, Default, PartialEq)]
struct Stand {
    /// Pixels of the record.
    pixels: usize,
    /// Bytes from the first on that are right: at the start they are all wrong.
    extent: usize,
}

impl<'a> History<'a> {
    fn new(
        bench: &'a Bench,
        random: &'a mut Random,
        counts: &'a mut Kills,
        decode: &'a Undisturbed,
    ) -> Result<Self, String> {
        let before = some_output(random, decode);
        let every = decode.some_every(random, SAVES);
        let mut history = Self {
            bench,
            random,
            counts,
            decode,
            order: Order {
                number: decode.number,
                every: every.max(EVERY),
                channels: decode.channels,
                restart: false,
            },
            right: decode.left_on(before.as_deref()),
            before,
            idle: Duration::default(),
            whole: Duration::default(),
            stand: Stand::default(),
        };
        history.measure()?;
        Ok(history)
    }

    /// An undisturbed worker, and one more: how long they take.
    fn measure(&mut self) -> Result<(), String> {
        self.begin()?;
        self.whole = self.end_alone()?;
        self.idle = self.end_alone()?;
        Ok(())
    }

    fn begin(&mut self) -> Result<(), String> {
        self.bench.put(self.decode, self.before.as_deref())?;
        self.look(&self.bench.pair()?)
    }

    fn live(mut self) -> Result<(), String> {
        self.begin()?;
        for _ in 0..self.random.between(2, 12) {
            if self.round()? {
                break;
            }
        }
        self.end()
    }

    /// Workers at once on the same files, until each has ended or is killed; then a look at what is left. Whether one has ended.
    fn round(&mut self) -> Result<bool, String> {
        let restarts = self.random.one_in(12);
        let is_watched = self.random.one_in(2);
        let several = match is_watched {
            // a write that is cut off is seen best where nobody does it again
            true => *self.random.pick(&[1, 1, 1, 1, 2]),
            false => *self.random.pick(&[1, 1, 2, 2, 3]),
        };
        let mut workers = self.start_some(several, restarts)?;
        if is_watched {
            self.kill_at_some_byte(&mut workers[0].worker)?;
        }
        let ended: Vec<_> = killed_in_time(workers).collect::<Result<_, _>>()?;
        let statuses: Vec<i32> = ended
            .iter()
            .filter_map(|(_, worker)| worker.status)
            .collect();
        self.check_statuses(&statuses)?;
        let was = self.stand;
        let pair = self.bench.pair()?;
        self.look(&pair)?;
        if !statuses.is_empty() {
            self.check_output(&pair)?;
        }
        if self.is_begun(was) && !restarts {
            let came_further = statuses.is_empty() && self.stand != was;
            self.counts.take_ups += statuses.len() + usize::from(came_further);
        }
        self.counts.kills += ended.len() - statuses.len();
        self.counts.in_a_write += usize::from(self.is_in_a_write(was));
        Ok(!statuses.is_empty())
    }

    /// Starts workers, each with the time to kill it; one of several may come to its end.
    fn start_some(&mut self, several: usize, restarts: bool) -> Result<Vec<Timed<()>>, String> {
        let started = Instant::now();
        let workers = (0..several).map(|number| {
            let restart = restarts && number == 0;
            let order = Order {
                restart,
                ..self.order
            };
            let is_killed = several == 1 || !self.random.one_in(6);
            let kill_at = is_killed.then_some(started + self.some_time());
            Ok(Timed {
                kill_at,
                worker: self.bench.start(order)?,
                work: (),
            })
        });
        workers.collect()
    }

    /// Whether somebody has begun and not ended.
    fn is_begun(&self, stand: Stand) -> bool {
        (1..self.decode.pixels_at_end()).contains(&stand.pixels)
    }

    /// Kills a worker as soon as it, or another one, has written some byte.
    fn kill_at_some_byte(&mut self, worker: &mut Child) -> Result<(), String> {
        let (extent, written) = (self.stand.extent, &self.decode.written);
        if extent < written.len() {
            // often soon, since the first run brings the most
            let last = *self
                .random
                .pick(&[extent + (written.len() - extent) / 4, written.len() - 1]);
            let place = self.random.between(extent, last);
            self.bench.watch(worker, place, written[place])?;
            // it may have ended
            let _ = worker.kill();
        }
        Ok(())
    }

    /// When to kill a worker: most often while it is at work, and now and then as it starts or after it has ended.
    fn some_time(&mut self) -> Duration {
        let share = self.random.below(1000) as f64 / 1000.0;
        if self.random.one_in(8) {
            return self.whole.mul_f64(1.2 * share);
        }
        let left = 1.0 - self.stand.pixels as f64 / (1 + self.decode.pixels_at_end()) as f64;
        let work = self.whole.saturating_sub(self.idle);
        self.idle.mul_f64(0.7) + work.mul_f64(left * share)
    }

    /// Looks at the pair, and keeps how far it is.
    fn look(&mut self, pair: &Pair) -> Result<(), String> {
        let output = pair.output.as_deref();
        let found = checked_pair(&[self.decode], pair.record.as_deref(), output)?;
        let written = &self.decode.written;
        let output = output.unwrap_or_default();
        let extent =
            first_difference(output, written).unwrap_or_else(|| output.len().min(written.len()));
        self.counts.bytes += extent;
        self.stand = Stand {
            pixels: found.map_or(0, |(_, record)| record.pixels_done()),
            extent,
        };
        Ok(())
    }

    /// Whether the right bytes have become more, and end where no run ends.
    fn is_in_a_write(&self, was: Stand) -> bool {
        let Stand { extent, .. } = self.stand;
        let written = self.decode.written.len();
        let channels = usize::from(self.decode.channels.as_u8());
        let ends_a_pixel = extent % channels == 0;
        (was.extent + 1..written).contains(&extent)
            && !(ends_a_pixel && a_chunk_ends_after(&self.decode.message, extent / channels))
    }

    fn check_statuses(&self, statuses: &[i32]) -> Result<(), String> {
        let right = i32::from(self.decode.status);
        match statuses.iter().find(|&&status| status != right) {
            Some(wrong) => Err(format!("a worker ended with {wrong} and not {right}")),
            None => Ok(()),
        }
    }

    fn check_output(&mut self, pair: &Pair) -> Result<(), String> {
        self.counts.bytes += self.right.len();
        checked_output(pair.output.as_deref(), &self.right)
    }

    /// A worker ends alone: all is as it must be, and nothing is left beside. How long it took.
    fn end_alone(&mut self) -> Result<Duration, String> {
        let started = Instant::now();
        let Ended { status, .. } = self.bench.work(self.order)?;
        let took = started.elapsed();
        self.counts.take_ups += usize::from(self.is_begun(self.stand));
        self.check_statuses(&status.into_iter().collect::<Vec<_>>())?;
        let pair = self.bench.pair()?;
        self.look(&pair)?;
        self.check_output(&pair)?;
        let (stands, all) = (self.stand.pixels, self.decode.pixels_at_end());
        if pair.record.is_none() || stands != all {
            return Err(format!(
                "the record stands at pixel {stands} of {all} at the end"
            ));
        }
        match self.bench.beside()?.first() {
            Some(name) => Err(format!("{name} is left")),
            None => Ok(took),
        }
    }

    /// A last worker ends, and one more changes nothing.
    fn end(&mut self) -> Result<(), String> {
        self.end_alone()?;
        let pair = self.bench.pair()?;
        self.end_alone()?;
        match self.bench.pair()? == pair {
            true => Ok(()),
            false => Err("a worker with nothing to do has changed something".into()),
        }
    }
}

/// The output is not there, or holds bytes that are all wrong: as many as needed, fewer or more.
fn some_output(random: &mut Random, decode: &Undisturbed) -> Option<Vec<u8>> {
    let length = match random.below(5) {
        0 | 1 => return None,
        2 => random.below(decode.needed),
        3 => decode.needed + random.between(1, decode.needed),
        _ => decode.needed,
    };
    let mut bytes = some_bytes(random, length);
    for (byte, right) in bytes.iter_mut().zip(&decode.written) {
        if byte == right {
            *byte = !*byte;
        }
    }
    Some(bytes)
}
