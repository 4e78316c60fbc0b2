//! Part two, months: workers that count, on a disk that forgets. What a worker said to be counted must be in every table that comes back.
use crate::forgetful::Forgetful;
use crate::ledger::{Answer, Delivery, Ledger};
use crate::losses::Losses;
use crate::month::{Month, Queue};
use crate::random::Random;
use crate::turns::{at_once, Plan, Turns, Within};
use crate::wrong::{Wrong, WrongDisk};
use std::mem::take;
use std::path::{Path, PathBuf};
use worker::count::{count, Job, Outcome};

/// Calls within which workers are cut off: one does about ten, among them a rename and a flush of the folder.
const WITHIN: Within = Within {
    calls: &[6, 12, 40],
    of_names: &[2, 4],
};

/// A month, from no table to one that has every hour.
pub fn lived(mut random: Random, wrong: Option<Wrong>, counts: &mut Losses) -> Result<(), String> {
    let (width, height) = (random.between(2, 12), random.between(3, 12));
    let hours = random.between(2, 12);
    let month = Month::new(&mut random, width, height, hours);
    let mut history = History {
        disk: Forgetful::default(),
        queue: Queue::new(&mut random, &month),
        random,
        wrong,
        counts,
        ledger: Ledger::new(month),
        table: PathBuf::from("tables/table"),
    };
    for (number, message) in history.ledger.month.messages.iter().enumerate() {
        history.disk.put(&path_of(number), message.bytes.clone());
    }
    history.live()
}

fn path_of(message: usize) -> PathBuf {
    Path::new("in").join(message.to_string())
}

struct History<'a> {
    random: Random,
    wrong: Option<Wrong>,
    counts: &'a mut Losses,
    disk: Forgetful,
    ledger: Ledger,
    queue: Queue,
    table: PathBuf,
}

impl History<'_> {
    fn live(&mut self) -> Result<(), String> {
        while !self.queue.is_empty() {
            self.round()?;
            if self.random.one_in(4) {
                self.cut_power()?;
            }
        }
        self.cut_power()?;
        self.ledger.check_end()?;
        self.counts.months += 1;
        Ok(())
    }

    /// Cuts the power where nobody is at work.
    fn cut_power(&mut self) -> Result<(), String> {
        let lost = self.disk.crash(&mut self.random);
        self.counts.count(&lost, &self.table);
        self.ledger.look(self.disk.shown(&self.table), true)
    }

    /// Workers at once on one table, until each has ended or is cut off; then a look at the table. What was cut off is delivered again.
    fn round(&mut self) -> Result<(), String> {
        let several = *self.random.pick(&[1, 1, 2, 2, 3, 4]);
        let (month, has_table) = (&self.ledger.month, self.ledger.has_table());
        let delivered = self.queue.take(&mut self.random, month, has_table, several);
        let jobs: Vec<Job> = delivered.iter().map(|&message| self.job(message)).collect();
        self.ledger.begin_round(&delivered);
        let one_counts = delivered.iter().any(|&message| self.ledger.is_new(message));
        let plan = match one_counts || self.random.one_in(4) {
            true => Plan::some(&mut self.random, jobs.len(), &WITHIN),
            false => Plan::undisturbed(jobs.len()),
        };
        let random = Random::new(self.random.next());
        let turns = Turns::new(take(&mut self.disk), random, &plan, None);
        let wrong = self.wrong;
        let answers = at_once(&turns, &jobs, |seat, job: &Job| match wrong {
            None => count(seat, job),
            Some(wrong) => count(&WrongDisk::new(seat, wrong, None), job),
        });
        let left = turns.left();
        self.disk = left.disk;
        self.counts.kills += left.kills;
        if let Some(lost) = &left.lost {
            self.counts.count(lost, &self.table);
        }
        let deliveries: Vec<Delivery> = delivered
            .into_iter()
            .zip(answers.into_iter().map(said))
            .collect();
        for &(message, answer) in &deliveries {
            if answer.is_none() {
                self.queue.put_back(&mut self.random, message);
            }
        }
        let table = self.disk.shown(&self.table);
        let has_crashed = left.lost.is_some();
        let told = &mut self.counts.told;
        self.ledger.end_round(&deliveries, table, has_crashed, told)
    }

    fn job(&self, message: usize) -> Job {
        Job {
            message: path_of(message),
            hour: self.ledger.month.messages[message].hour,
            table: self.table.clone(),
        }
    }
}

fn said(answer: Option<Result<Outcome, u8>>) -> Option<Answer> {
    answer.map(|answer| match answer {
        Ok(Outcome::Counted { .. }) => Answer::Counted,
        Ok(Outcome::Already) => Answer::Already,
        Err(status) => Answer::Refused(status),
    })
}
