//! Part two: workers on a disk that forgets. The power is cut under them at any call, or one is killed, and others go on with what is left.
use crate::forgetful::{Forgetful, Lost};
use crate::ledger::Told;
use crate::pictures::{some_bytes, FAMILIES};
use crate::random::Random;
use crate::turns::{at_once, Left, Plan, Turns, Until, Within};
use crate::undisturbed::{
    another_hour, another_number, checked_output, checked_pair, some_decode, Found, Undisturbed,
};
use crate::wrong::{Wrong, WrongDisk};
use std::mem::take;
use std::path::{Path, PathBuf};
use worker::decode::{decode, Job};

/// Records that one decode saves, at most about.
const SAVES: usize = 40;
/// The number of the refusal of another message's record.
const OTHER_MESSAGE: u8 = 12;
/// Calls within which workers are cut off: often few, since a worker that begins has most to do right.
const WITHIN: Within = Within {
    calls: &[10, 20, 40, 80, 160, 320],
    of_names: &[4, 20],
};

/// What was done, and seen.
#[derive(Default)]
pub struct Losses {
    pub crashes: usize,
    /// Crashes that took away a write, in part or whole, or the rename of the record or the table; and those that took away that rename.
    pub losses: usize,
    pub renames: usize,
    pub kills: usize,
    /// Of decodes.
    pub take_ups: usize,
    /// Workers that found another message's record, and refused it.
    pub others: usize,
    pub bytes: usize,
    /// Of counts.
    pub months: usize,
    pub told: Told,
}

impl Losses {
    /// Counts a crash; `renamed` is the path of the record or the table.
    pub fn count(&mut self, lost: &Lost, renamed: &Path) {
        let rename = lost.names.iter().any(|name| name == renamed);
        self.crashes += 1;
        self.losses += usize::from(lost.write || rename);
        self.renames += usize::from(rename);
    }
}

/// A whole history of workers, right ones or wrong ones.
pub type Lived = fn(Random, Option<Wrong>, &mut Losses) -> Result<(), String>;

/// Histories, each of its own seed, until so many crashes took something away.
pub fn lose(lived: Lived, seed: u64, wanted: usize) -> Result<Losses, String> {
    let mut counts = Losses::default();
    let mut history = 0;
    while counts.losses < wanted {
        lived(random_of(seed, history), None, &mut counts)
            .map_err(|words| format!("losses, history {history}: {words}"))?;
        history += 1;
    }
    Ok(counts)
}

/// After how many crashes a wrong worker is caught, if it is within so many; and by what.
pub fn caught(lived: Lived, seed: u64, wrong: Wrong, most: usize) -> Option<(usize, String)> {
    let mut counts = Losses::default();
    let mut history = 0;
    while counts.crashes < most {
        if let Err(words) = lived(random_of(seed, history), Some(wrong), &mut counts) {
            return Some((counts.crashes, words));
        }
        history += 1;
    }
    None
}

fn random_of(seed: u64, history: u64) -> Random {
    Random::new(seed.wrapping_add(history << 32))
}

/// A decode, from files as somebody left them to the output's end.
pub fn lived(random: Random, wrong: Option<Wrong>, counts: &mut Losses) -> Result<(), String> {
    let mut history = History::new(random, wrong, counts);
    if history.random.one_in(2) {
        history.begin_the_other()?;
    }
    history.know_what_is_right();
    for _ in 0..history.random.between(1, 10) {
        history.refuse_the_other()?;
        let workers = *history.random.pick(&[1, 1, 1, 2, 2, 3]);
        let plan = Plan::some(&mut history.random, workers, &WITHIN);
        let has_ended = history.round(THIS, &plan)?;
        // what was done once may be done again
        if has_ended && !history.random.one_in(4) {
            break;
        }
    }
    history.end()
}

/// The decode that is to be done, and one that may have been begun on the same files before: their places in `History::decodes`.
const THIS: usize = 0;
const OTHER: usize = 1;

struct History<'a> {
    random: Random,
    wrong: Option<Wrong>,
    counts: &'a mut Losses,
    disk: Forgetful,
    decodes: [Undisturbed; 2],
    messages: [PathBuf; 2],
    output: PathBuf,
    record: PathBuf,
    /// Whose record stands there.
    found: Found,
    /// What the output must be at the end.
    right: Vec<u8>,
}

impl<'a> History<'a> {
    fn new(mut random: Random, wrong: Option<Wrong>, counts: &'a mut Losses) -> Self {
        let decodes = two_decodes(&mut random);
        let messages = ["in/this", "in/other"].map(PathBuf::from);
        let folders = [("one", "one"), ("one", "two")];
        let (first, second) = random.pick(&folders);
        let (output, record) = (PathBuf::from(first), PathBuf::from(second));
        let mut history = Self {
            disk: Forgetful::default(),
            output: output.join("output"),
            record: record.join("record"),
            random,
            wrong,
            counts,
            decodes,
            messages,
            found: None,
            right: Vec::new(),
        };
        for (path, decode) in history.messages.iter().zip(&history.decodes) {
            history.disk.put(path, decode.message.clone());
        }
        history.put_some_output();
        history
    }

    /// The output is not there, or holds other bytes: as many as needed, fewer or more.
    fn put_some_output(&mut self) {
        let needed = self.decodes[THIS].needed;
        let length = match self.random.below(4) {
            0 => return,
            1 => self.random.below(needed),
            2 => needed + self.random.between(1, needed),
            _ => needed,
        };
        let bytes = some_bytes(&mut self.random, length);
        self.disk.put(&self.output, bytes);
    }

    /// Another decode on the same output and record, which a crash cuts off; all that it left lasts.
    fn begin_the_other(&mut self) -> Result<(), String> {
        let plan = Plan {
            kills: vec![None],
            crash: Some(Until {
                calls: self.random.between(20, 200),
                of_names: false,
            }),
        };
        self.round(OTHER, &plan)?;
        self.cut_power();
        self.check_pair()
    }

    /// A worker that finds the other decode's record, and is not told to begin anew, refuses it and changes nothing.
    fn refuse_the_other(&mut self) -> Result<(), String> {
        if !matches!(self.found, Some((OTHER, _))) {
            return Ok(());
        }
        let all = self.disk.all_shown();
        let job = Job {
            restart: false,
            ..self.some_job(THIS)
        };
        let (answers, left) = self.worked(THIS, &[job], &Plan::undisturbed(1));
        self.take(left);
        if answers != [OTHER_MESSAGE] {
            return Err(format!(
                "a worker that found the record of another message ended with {answers:?} and not {OTHER_MESSAGE}"
            ));
        }
        if self.disk.all_shown() != all {
            return Err("a worker that refuses a record has changed something".into());
        }
        self.counts.others += 1;
        Ok(())
    }

    /// Cuts the power where nobody is at work.
    fn cut_power(&mut self) {
        let lost = self.disk.crash(&mut self.random);
        self.counts.count(&lost, &self.record);
    }

    fn know_what_is_right(&mut self) {
        self.right = self.decodes[THIS].left_on(self.disk.shown(&self.output));
    }

    /// Workers at one of the decodes, until each has ended or is cut off; then a look at what is left. Whether one has ended.
    fn round(&mut self, which: usize, plan: &Plan) -> Result<bool, String> {
        let jobs: Vec<Job> = plan.kills.iter().map(|_| self.some_job(which)).collect();
        let (ended, left) = self.worked(which, &jobs, plan);
        let is_cut = left.lost.is_some();
        self.take(left);
        self.check_pair()?;
        let right = self.decodes[which].status;
        if let Some(wrong) = ended.iter().find(|&&status| status != right) {
            return Err(format!("a worker ended with {wrong} and not {right}"));
        }
        if !ended.is_empty() && which == THIS {
            self.check_output()?;
        }
        if is_cut && ended.is_empty() && self.random.one_in(2) {
            self.spoil_what_is_not_done();
        }
        Ok(!ended.is_empty())
    }

    /// Lets workers do jobs of one of the decodes at once: the statuses of those that ended, and what is left.
    fn worked(&mut self, which: usize, jobs: &[Job], plan: &Plan) -> (Vec<u8>, Left) {
        let random = Random::new(self.random.next());
        let record = Some((&*self.record, self.decodes[which].number));
        let turns = Turns::new(take(&mut self.disk), random, plan, record);
        let wrong = self.wrong;
        let answers = at_once(&turns, jobs, |seat, job: &Job| match wrong {
            None => decode(seat, job, &mut |_| {}),
            Some(wrong) => {
                let disk = WrongDisk::new(seat, wrong, Some(job));
                decode(&disk, job, &mut |_| {})
            }
        });
        let ended = answers.into_iter().flatten();
        let statuses = ended.map(|answer| answer.err().unwrap_or(0)).collect();
        (statuses, turns.left())
    }

    /// A crash may leave anything where no record speaks of it.
    fn spoil_what_is_not_done(&mut self) {
        let done = self
            .found
            .as_ref()
            .map_or(0, |(_, record)| record.bytes_done());
        self.disk.spoil(&self.output, done, &mut self.random);
        self.know_what_is_right();
    }

    /// A worker passes over a record that is there where it must, and now and then where it need not.
    fn some_job(&mut self, which: usize) -> Job {
        let decode = &self.decodes[which];
        let every = decode.some_every(&mut self.random, SAVES);
        let is_anothers = matches!(self.found, Some((found, _)) if found != which);
        Job {
            message: self.messages[which].clone(),
            output: self.output.clone(),
            record: self.record.clone(),
            number: decode.number,
            every: every.max(1) as u64,
            channels: Some(decode.channels),
            restart: is_anothers || self.random.one_in(8),
        }
    }

    /// Takes the disk back, and counts.
    fn take(&mut self, left: Left) {
        self.disk = left.disk;
        self.counts.kills += left.kills;
        self.counts.take_ups += left.take_ups;
        if let Some(lost) = left.lost {
            self.counts.count(&lost, &self.record);
        }
    }

    fn check_pair(&mut self) -> Result<(), String> {
        let [this, other] = &self.decodes;
        let saved = self.disk.shown(&self.record);
        let output = self.disk.shown(&self.output);
        self.found = checked_pair(&[this, other], saved, output)?;
        self.counts.bytes += self
            .found
            .as_ref()
            .map_or(0, |(_, record)| record.bytes_done());
        Ok(())
    }

    fn check_output(&mut self) -> Result<(), String> {
        self.counts.bytes += self.right.len();
        checked_output(self.disk.shown(&self.output), &self.right)
    }

    /// A last worker ends alone, and one more finds nothing to do; and what they left lasts.
    fn end(&mut self) -> Result<(), String> {
        let alone = Plan::undisturbed(1);
        self.round(THIS, &alone)?;
        self.check_output()?;
        self.check_end()?;
        let all = self.disk.all_shown();
        let is_beside = |path: &Path| path.extension() == Some("beside".as_ref());
        if let Some((path, _)) = all.iter().find(|(path, _)| is_beside(path)) {
            return Err(format!("{} is left", path.display()));
        }
        self.round(THIS, &alone)?;
        if self.disk.all_shown() != all {
            return Err("a worker with nothing to do has changed something".into());
        }
        self.cut_power();
        self.check_pair()?;
        self.check_end()?;
        self.check_output()
    }

    /// Whether the record stands at the end.
    fn check_end(&self) -> Result<(), String> {
        let pixels = self.decodes[THIS].pixels_at_end();
        match &self.found {
            Some((THIS, record)) if record.pixels_done() == pixels => Ok(()),
            Some((THIS, record)) => Err(format!(
                "the record stands at pixel {} of {pixels} at the end",
                record.pixels_done()
            )),
            _ => Err("no record of it stands there at the end".into()),
        }
    }
}

/// Two decodes of messages with different numbers: often of one size, as an hour and the previous one are.
fn two_decodes(random: &mut Random) -> [Undisturbed; 2] {
    let this = small_decode(random);
    let other = match random.one_in(2) {
        true => another_hour(random, &this),
        false => {
            let mut other = small_decode(random);
            other.number = another_number(random, this.number);
            other
        }
    };
    [this, other]
}

/// The decode of some small picture.
fn small_decode(random: &mut Random) -> Undisturbed {
    let family = *random.pick(&FAMILIES);
    let (width, height) = (random.between(8, 64), random.between(8, 48));
    some_decode(random, family, width, height)
}
