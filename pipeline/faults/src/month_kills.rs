//! Part one, months: workers that count, several at once into one table, killed at any moment, also between the write beside and the rename. What a
//! killed one had is delivered again.
use crate::bench::{killed_in_time, wait, Ended, TableBench, Timed};
use crate::ledger::{Answer, Delivery, Ledger, Told};
use crate::month::{Month, Queue};
use crate::random::Random;
use pivotshade::Table;
use std::process::Child;
use std::time::{Duration, Instant};

/// What was done, and seen.
#[derive(Default)]
pub struct MonthKills {
    pub months: usize,
    pub kills: usize,
    /// Kills that left a file beside the table: begun to be written, and not renamed. Where a later worker of the round sweeps it away, it is not seen.
    pub beside: usize,
    pub told: Told,
}

/// Widths, heights and hours of the months: a larger table takes longer to write and to flush.
const FIELDS: [(usize, usize, usize); 5] = [
    (5, 4, 24),
    (700, 500, 6),
    (60, 50, 20),
    (200, 160, 16),
    (13, 11, 24),
];

/// Months, until there are so many kills; the first one has all its hours where that is wanted.
pub fn kill(
    bench: &TableBench,
    random: &mut Random,
    wanted: usize,
    with_all_hours: bool,
) -> Result<MonthKills, String> {
    let mut counts = MonthKills::default();
    for &(width, height, some_hours) in FIELDS.iter().cycle() {
        let hours = match with_all_hours && counts.months == 0 {
            true => Table::HOURS,
            false => some_hours,
        };
        let month = Month::new(random, width, height, hours);
        History::new(bench, random, &mut counts, month)?.live()?;
        counts.months += 1;
        if counts.kills >= wanted {
            break;
        }
    }
    Ok(counts)
}

/// One month on its way to one table.
struct History<'a> {
    bench: &'a TableBench,
    random: &'a mut Random,
    counts: &'a mut MonthKills,
    ledger: Ledger,
    queue: Queue,
    /// How long undisturbed workers take: to count a frame, and to find that it is counted.
    whole: Duration,
    idle: Duration,
}

impl<'a> History<'a> {
    fn new(
        bench: &'a TableBench,
        random: &'a mut Random,
        counts: &'a mut MonthKills,
        month: Month,
    ) -> Result<Self, String> {
        bench.put(month.messages.iter().map(|message| &message.bytes[..]))?;
        // the first message is a frame
        let measured = || {
            let started = Instant::now();
            wait(bench.start(0, month.messages[0].hour)?)?;
            Ok::<_, String>(started.elapsed())
        };
        let (whole, idle) = (measured()?, measured()?);
        bench.remove_table()?;
        Ok(Self {
            bench,
            queue: Queue::new(random, &month),
            random,
            counts,
            ledger: Ledger::new(month),
            whole,
            idle,
        })
    }

    fn live(mut self) -> Result<(), String> {
        while !self.queue.is_empty() {
            self.round()?;
        }
        self.ledger.check_end()?;
        if let Some(name) = self.bench.beside()?.first() {
            return Err(format!("{name} is left"));
        }
        let Ended { printed, .. } = self.bench.totals()?;
        match printed == self.ledger.lines() {
            true => Ok(()),
            false => Err("the totals that are printed at the end are wrong".into()),
        }
    }

    /// Workers at once on one table, until each has ended or is killed. After each kill, and at the end, a look at the table.
    fn round(&mut self) -> Result<(), String> {
        let several = *self.random.pick(&[1, 1, 2, 2, 3, 4]);
        let has_table = self.ledger.has_table();
        let month = &self.ledger.month;
        let delivered = self.queue.take(self.random, month, has_table, several);
        self.ledger.begin_round(&delivered);
        let before = self.bench.beside()?;
        let workers = self.start(&delivered, &before)?;
        let mut deliveries: Vec<Delivery> = Vec::new();
        for ended in killed_in_time(workers) {
            let (message, ended) = ended?;
            let month = &self.ledger.month;
            let answer = said(&ended, month.messages[message].hour, month.cells)?;
            if answer.is_none() {
                self.counts.kills += 1;
                self.queue.put_back(self.random, message);
                self.ledger.look(self.bench.table()?.as_deref(), false)?;
            }
            deliveries.push((message, answer));
        }
        let left = self.bench.beside()?;
        self.counts.beside += left.iter().filter(|name| !before.contains(name)).count();
        let table = self.bench.table()?;
        let told = &mut self.counts.told;
        self.ledger
            .end_round(&deliveries, table.as_deref(), false, told)
    }

    /// Starts workers, each with the time to kill it, if it is killed: at any moment, or soon after one has begun to write beside the table.
    fn start(
        &mut self,
        delivered: &[usize],
        beside: &[String],
    ) -> Result<Vec<Timed<usize>>, String> {
        let started = Instant::now();
        let mut children = Vec::new();
        for &message in delivered {
            let hour = self.ledger.month.messages[message].hour;
            children.push(self.bench.start(message, hour)?);
        }
        let one_counts = delivered.iter().any(|&message| self.ledger.is_new(message));
        let (from, within) = match one_counts && !self.random.one_in(3) {
            true => {
                let shares = [Duration::default(), self.whole / 2];
                (
                    self.watch(&mut children, beside)?,
                    *self.random.pick(&shares),
                )
            }
            // one waits for the other
            false if one_counts => (started, self.whole * delivered.len() as u32),
            false => (started, self.idle * delivered.len() as u32),
        };
        let workers = delivered.iter().zip(children).map(|(&message, worker)| {
            let share = self.random.below(1000) as f64 / 1000.0;
            Timed {
                kill_at: (!self.random.one_in(4)).then(|| from + within.mul_f64(share)),
                worker,
                work: message,
            }
        });
        Ok(workers.collect())
    }

    /// Waits until somebody writes beside the table, or all have ended: when that was.
    fn watch(&self, workers: &mut [Child], before: &[String]) -> Result<Instant, String> {
        let mut one_lives = true;
        while one_lives
            && self
                .bench
                .beside()?
                .iter()
                .all(|name| before.contains(name))
        {
            one_lives = false;
            for worker in workers.iter_mut() {
                let ended = worker.try_wait().map_err(|error| error.to_string())?;
                one_lives |= ended.is_none();
            }
        }
        Ok(Instant::now())
    }
}

/// What a worker said of an hour; nothing where it was killed.
fn said(ended: &Ended, hour: u64, cells: usize) -> Result<Option<Answer>, String> {
    let Ended { printed, words, .. } = ended;
    let counted = format!("hour {hour} counted: {cells} cells\n");
    let already = format!("hour {hour} was counted already\n");
    match ended.status {
        None => Ok(None),
        Some(0) if *printed == counted => Ok(Some(Answer::Counted)),
        Some(0) if *printed == already => Ok(Some(Answer::Already)),
        // from 64 on it is no refusal
        Some(number @ 1..=63) => Ok(Some(Answer::Refused(number as u8))),
        Some(status) => Err(format!("a worker ended with {status}: {printed}{words}")),
    }
}
