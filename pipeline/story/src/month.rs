//! A month of rain in small. Workers count its hours, which come more than once and in no order, and some of the workers are killed on the way. Their
//! totals are compared with what each hour once gives, and drawn beside it.
use crate::disk::{make_folder, remove, write};
use crate::ledger::Ledger;
use crate::picture::{draw, Grid, Panel, OF_A_MONTH};
use crate::queue::Queue;
use crate::rain::{packed, Map};
use crate::random::Random;
use crate::words::{encoded, grouped, millimetres, say, shown};
use crate::workers::{Counters, Ended, Started};
use pivotshade::{encode_to_vec, Table};
use std::mem::size_of;
use std::path::{Path, PathBuf};
use std::thread::sleep;
use std::time::Duration;

/// The month's hours, and the cells in a row and the rows of each.
const HOURS: usize = Table::HOURS;
const WIDTH: usize = 120;
const HEIGHT: usize = 80;
/// What decides the repeats, the order, and the moments of the kills.
const SEED: u64 = 13;
/// How many workers end from one kill to the next.
const BETWEEN_KILLS: usize = 60;
/// What a worker says where the table had its hour.
const ALREADY: &str = "counted already";

/// What stands over the panels of the picture.
const CAPTIONS: [&str; 3] = [
    "each hour once",
    "what the workers counted",
    "every delivery counted",
];

/// Tells of the month, in a folder; or why it does not end well.
pub fn tell(program: &Path, folder: &Path) -> Result<(), String> {
    let files = &Files::of(folder);
    make_folder(&files.folder)?;
    remove(&files.table)?;
    let mut queue = Queue::new(HOURS, SEED);
    let sums = send(files, &queue)?;
    let table = &files.table;
    let counters = &Counters { program, table };
    deliver(files, counters, &mut queue)?.tell()?;
    let totals = counters.totals()?;
    sums.once.compare(&totals)?;
    sums.tell();
    write(&files.picture, &sums.draw(&totals))?;
    say(format_args!(
        "files: {}: hour-0.qoi to hour-{}.qoi, table",
        shown(&files.folder),
        HOURS - 1
    ));
    say(format_args!(
        "picture: {}: {}",
        shown(&files.picture),
        CAPTIONS.join(", ")
    ));
    Ok(())
}

/// The files of the month.
struct Files {
    folder: PathBuf,
    table: PathBuf,
    picture: PathBuf,
}

impl Files {
    /// Those in a folder.
    fn of(folder: &Path) -> Self {
        let month = folder.join("month");
        Self {
            table: month.join("table"),
            picture: folder.join("month.png"),
            folder: month,
        }
    }

    fn message(&self, hour: usize) -> PathBuf {
        self.folder.join(format!("hour-{hour}.qoi"))
    }
}

/// What the hours give.
struct Sums {
    /// Each of them once.
    once: Ledger,
    /// As often as a worker ends that was given it.
    every: Ledger,
}

/// Draws and encodes each hour.
fn send(files: &Files, queue: &Queue) -> Result<Sums, String> {
    say(format_args!(
        "a month of rain: {HOURS} hours of {WIDTH} x {HEIGHT} cells"
    ));
    let mut sums = Sums {
        once: Ledger::new(WIDTH * HEIGHT),
        every: Ledger::new(WIDTH * HEIGHT),
    };
    let (mut sent, mut pixels) = (0, 0);
    for hour in 0..HOURS {
        let cells = Map::of_month(WIDTH, HEIGHT, hour).cells();
        sums.once.add(&cells, 1);
        sums.every.add(&cells, queue.times(hour));
        let packed = packed(&cells);
        let message = encode_to_vec(&packed, WIDTH as u32, HEIGHT as u32)
            .map_err(|error| format!("hour {hour} is not encoded: {error}"))?;
        write(&files.message(hour), &message)?;
        sent += message.len();
        pixels += packed.len();
    }
    say(encoded(sent, pixels));
    Ok(sums)
}

/// Has workers count what the queue delivers, until it has no more. What a worker was given that is killed comes again.
fn deliver(files: &Files, counters: &Counters, queue: &mut Queue) -> Result<Delivered, String> {
    let mut delivered = Delivered::default();
    let mut random = Random::new(SEED);
    while let Some(hours) = queue.deliver() {
        let start = |&hour: &usize| counters.start(&files.message(hour), hour);
        let mut workers: Vec<Started> = hours.iter().map(start).collect::<Result<_, _>>()?;
        if delivered.killed < delivered.ended() / BETWEEN_KILLS {
            sleep(delivered.lived * random.below(100) as u32 / 100);
            workers[0].kill()?;
        }
        if let [one, other] = hours[..] {
            delivered.at_once += 1;
            delivered.the_same += usize::from(one == other);
        }
        for (hour, worker) in hours.into_iter().zip(workers) {
            let worker = worker.end()?;
            match worker.was_killed() {
                true => {
                    delivered.killed += 1;
                    queue.put(hour);
                }
                false => delivered.take(worker.well(&format!("the worker on hour {hour}"))?),
            }
        }
    }
    Ok(delivered)
}

/// What became of the deliveries.
#[derive(Default)]
struct Delivered {
    /// How often two came at once, and how often with the same hour.
    at_once: usize,
    the_same: usize,
    /// Workers that counted, that had nothing to count, and that were killed.
    counted: usize,
    already: usize,
    killed: usize,
    /// How long the last one lived that counted.
    lived: Duration,
}

impl Delivered {
    fn ended(&self) -> usize {
        self.counted + self.already
    }

    /// Takes the words of a worker that ended well.
    fn take(&mut self, worker: Ended) {
        if worker.words().contains(ALREADY) {
            self.already += 1;
        } else {
            self.counted += 1;
            self.lived = worker.lived;
        }
    }

    fn tell(&self) -> Result<(), String> {
        say(format_args!(
            "delivered {} times, in no order: {} counted, {} counted already, {} workers killed (SIGKILL)",
            grouped(self.ended() + self.killed),
            grouped(self.counted),
            grouped(self.already),
            grouped(self.killed)
        ));
        say(format_args!(
            "two at once {} times, {} of them with the same hour",
            grouped(self.at_once),
            grouped(self.the_same)
        ));
        if self.killed == 0 {
            return Err("every worker had ended before it could be killed".into());
        }
        // an hour that no worker says to have counted is in the table by one that was killed
        let unsaid = HOURS.checked_sub(self.counted);
        match unsaid.filter(|&unsaid| unsaid <= self.killed) {
            Some(0) => {}
            Some(unsaid) => say(format_args!(
                "of the killed, {unsaid} had counted and not said so: such an hour came again, and was counted already"
            )),
            None => {
                return Err(format!(
                    "{} workers say that they counted an hour, and {} were killed: that does not give {HOURS} hours",
                    grouped(self.counted),
                    grouped(self.killed)
                ))
            }
        }
        Ok(())
    }
}

impl Sums {
    fn tell(&self) {
        let (once, every) = (self.once.in_all(), self.every.in_all());
        say(format_args!(
            "every total is what each hour once gives: {} in all",
            millimetres(once)
        ));
        say(format_args!(
            "had each worker that ended counted, it would be {}: {} of rain that never fell",
            millimetres(every),
            millimetres(every - once)
        ));
    }

    /// The picture of the totals that the workers left, between these.
    fn draw(&self, totals: &[u64]) -> Vec<u8> {
        let grid = Grid {
            width: WIDTH,
            height: HEIGHT,
            channels: size_of::<u64>(),
            classes: Some(&OF_A_MONTH),
        };
        let totals = [self.once.totals(), totals, self.every.totals()];
        let bytes = totals.map(packed_totals);
        let panel = |place: usize| Panel {
            note: note(totals[place]),
            ..Panel::whole(&grid, CAPTIONS[place], &bytes[place])
        };
        draw(&grid, &[0, 1, 2].map(panel))
    }
}

/// Totals as pixels: eight bytes each, the highest first.
fn packed_totals(totals: &[u64]) -> Vec<u8> {
    totals
        .iter()
        .flat_map(|total| total.to_be_bytes())
        .collect()
}

/// The mean and the most of totals.
fn note(totals: &[u64]) -> String {
    let mean = totals.iter().sum::<u64>() / totals.len() as u64;
    let most = totals.iter().max().unwrap_or(&0);
    format!("mean {} mm, most {} mm", mean / 100, most / 100)
}

#[cfg(test)]
mod tests {
    use super::*;
    use crate::font;

    #[test]
    fn a_note_has_the_mean_and_the_most() {
        assert_eq!(note(&[0, 100, 1_200, 29_900]), "mean 78 mm, most 299 mm");
    }

    #[test]
    fn every_letter_is_drawn() {
        let texts = CAPTIONS.concat() + &note(&[0]) + "0123456789";
        for letter in texts.split_whitespace().collect::<String>().chars() {
            assert!(!font::dots(&letter.to_string()).is_empty(), "{letter}");
        }
    }

    #[test]
    fn totals_are_packed_with_their_highest_byte_first() {
        let bytes = [0, 0, 0, 0, 0, 0, 0, 1, 1, 2, 3, 4, 5, 6, 7, 8];
        assert_eq!(packed_totals(&[1, 0x0102_0304_0506_0708]), bytes);
    }
}
