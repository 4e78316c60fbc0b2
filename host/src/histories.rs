// Histories: workers that stop, die and take up checkpoints in any order on one output, which must end as the Rust's uncut decode would leave it. At
// times one finds a checkpoint of the previous hour, which must be refused.
use crate::answer::Answer;
use crate::check::Check;
use crate::messages::{any_message, any_number, other_number, previous_hour};
use crate::output::{self, Next, Output, Ran, Stand};
use crate::random::Random;
use crate::record::{first_length, LONGEST};
use crate::trace::{Trace, MOST};

/// How many workers there are at once, at most.
const WORKERS: usize = 3;

struct History<'a> {
    /// As the runs are lent it: a step never looks at the header.
    message: &'a [u8],
    number: u64,
    trace: &'a Trace,
    output: Output,
    /// How far a worker comes in one run.
    most: usize,
    /// Every checkpoint so far: the steps done since the start, and the record.
    kept: Vec<(usize, Vec<u8>)>,
    /// Each by the checkpoint that it stands at.
    workers: Vec<usize>,
    /// The bytes from the output's first on that are the uncut decode's.
    valid: usize,
    /// Whether a worker has ended since they were all written.
    is_ended: bool,
    /// The number and a checkpoint of the previous hour, once a worker has found it.
    previous: Option<(u64, Vec<u8>)>,
    /// How often one has.
    found: u64,
}

impl History<'_> {
    fn bytes(&self, kept: usize) -> usize {
        self.trace.bytes(self.kept[kept].0)
    }

    /// Often 1 or 2, otherwise up to `most`, and more of them where the message is long.
    fn some_steps(&self, random: &mut Random) -> u64 {
        let pace = random.between(1, 1 + self.trace.steps() / 100);
        match random.below(128) {
            0 => *random.pick(&[1 << 31, 1 << 32, 1 << 63, u64::MAX]),
            1..=7 => 0,
            8..=50 => 1,
            51..=80 => 2,
            _ => (random.between(1, self.most) * pace) as u64,
        }
    }

    /// A worker goes on from its checkpoint and leaves the next one, or ends; or dies, if it may, before it can leave one.
    fn work(&mut self, random: &mut Random, may_die: bool) -> Result<(), String> {
        if self.workers.is_empty() {
            return Ok(());
        }
        let i = random.below(self.workers.len());
        let worker = self.workers[i];
        let next = match random.below(8) {
            0 if may_die => Next::Short,
            1..=4 => Next::Exact,
            _ => Next::Longer,
        };
        let steps = self.some_steps(random);
        let from = self.bytes(worker);
        let (done, record) = &self.kept[worker];
        let stand = Stand {
            message: self.message,
            number: self.number,
            trace: self.trace,
            done: *done,
            record,
        };
        match self.output.run(random, stand, steps, next)? {
            Ran::More(reached, record) => {
                if from <= self.valid {
                    self.valid = self.valid.max(self.trace.bytes(reached));
                }
                self.workers[i] = self.kept.len();
                self.kept.push((reached, record));
            }
            Ran::Lost => drop(self.workers.swap_remove(i)),
            Ran::Ended => {
                if from <= self.valid {
                    self.valid = self.trace.bytes(self.trace.steps());
                    self.is_ended = true;
                }
                self.workers.swap_remove(i);
            }
        }
        Ok(())
    }

    /// One more worker takes up a checkpoint before which the output is right, old or new.
    fn take_up(&mut self, random: &mut Random, which: impl Fn(&[usize], &mut Random) -> usize) {
        let fit: Vec<usize> = (0..self.kept.len())
            .filter(|&kept| self.bytes(kept) <= self.valid)
            .collect();
        let kept = which(&fit, random);
        self.workers.push(kept);
    }

    /// Workers die, and whatever stands from some checkpoint's pixel on is lost. At times another copy of the output stands in for this one: it
    /// is right before a checkpoint that this one is not right before.
    fn crash(&mut self, random: &mut Random) {
        for _ in 0..random.below(self.workers.len() + 1) {
            self.workers.pop();
        }
        let kept = random.below(self.kept.len());
        let from = self.bytes(kept);
        if random.one_in(4) {
            self.output.restore(self.trace, from);
            self.valid = self.valid.max(from);
        }
        self.output.scribble(random, from);
        self.valid = self.valid.min(from);
        self.is_ended = false;
    }

    /// A worker finds a checkpoint of the previous hour, and is refused whatever the steps.
    fn find_previous(&mut self, random: &mut Random) -> Result<(), String> {
        let previous = match self.previous.take() {
            Some(previous) => previous,
            None => self.decode_previous(random)?,
        };
        let steps = self.some_steps(random);
        self.output
            .refuses(random, self.message, self.number, &previous, steps)?;
        self.found += 1;
        self.previous = Some(previous);
        Ok(())
    }

    /// Some steps of the previous hour's decode, on an output of its own: its message's number and its checkpoint.
    fn decode_previous(&self, random: &mut Random) -> Result<(u64, Vec<u8>), String> {
        let number = other_number(random, self.number);
        let first = self.trace.record(0, number);
        let message = previous_hour(random, &first.header);
        let found = Trace::new(&message, first.wanted, MOST);
        let record = output::start(&message, number, &found, first.wanted, LONGEST, 0)?;
        let trace = found.map_err(|refusal| format!("the previous hour: {refusal}"))?;
        let steps = random.below(trace.steps() + 1) as u64;
        let stand = Stand {
            message: &message,
            number,
            trace: &trace,
            done: 0,
            record: &record,
        };
        let mut output = Output::new(random, trace.written.len());
        match output.run(random, stand, steps, Next::Exact)? {
            Ran::More(_, record) => Ok((number, record)),
            _ => Err("the previous hour leaves no record".to_string()),
        }
    }

    fn play(&mut self, random: &mut Random) -> Result<(), String> {
        for _ in 0..random.between(1, 50) {
            match random.below(16) {
                0 | 1 => self.crash(random),
                2 | 3 if self.workers.len() < WORKERS => {
                    self.take_up(random, |fit, random| *random.pick(fit));
                }
                4 => drop(self.workers.pop()),
                5 => self.find_previous(random)?,
                _ => self.work(random, true)?,
            }
        }
        // the last take-up, and the slow workers that are left
        let whole = self.trace.bytes(self.trace.steps());
        while !self.workers.is_empty() || !self.is_ended || self.valid < whole {
            if self.workers.is_empty() {
                self.take_up(random, |fit, _| fit[fit.len() - 1]);
            }
            self.work(random, false)?;
        }
        Ok(())
    }
}

/// One history, on an output that is so much longer than needed: how often a worker found a checkpoint of the previous hour.
fn history(
    random: &mut Random,
    message: &[u8],
    wanted: u64,
    trace: &Result<Trace, Answer>,
    more: usize,
) -> Result<u64, String> {
    let number = any_number(random);
    let room = first_length(number) + random.pick(&[0, 0, 1, 13, 123]);
    let record = output::start(message, number, trace, wanted, room, random.byte())?;
    let trace = match trace {
        Ok(trace) => trace,
        Err(_) => return Ok(0),
    };
    let mut lent = message.to_vec();
    if random.one_in(4) {
        lent[..14].fill_with(|| random.byte());
    }
    let mut history = History {
        message: &lent,
        number,
        trace,
        output: Output::new(random, trace.written.len() + more),
        most: *random.pick(&[2, 10, 300]),
        kept: vec![(0, record)],
        workers: vec![0],
        valid: 0,
        is_ended: false,
        previous: None,
        found: 0,
    };
    history.play(random)?;
    history.output.is_as_uncut(message, wanted, trace)?;
    Ok(history.found)
}

/// A case of a history, on a message whose picture may take `most` bytes.
pub fn check_history(
    check: &mut Check,
    random: &mut Random,
    message: &[u8],
    wanted: u64,
    most: u64,
) {
    let more = if random.one_in(4) {
        random.between(1, 40)
    } else {
        0
    };
    let trace = Trace::new(message, wanted, most);
    let number = match &trace {
        Ok(trace) => trace.answer.number,
        Err(refusal) => refusal.number,
    };
    let played = history(random, message, wanted, &trace, more);
    let result = played.map(|found| check.found_previous(found));
    let call = format!("to {wanted} channels, output longer by {more}");
    check.case(number, result, &call, "message", message);
}

pub fn histories(check: &mut Check, random: &mut Random) {
    let message = any_message(random);
    let wanted = 3 + random.below(2) as u64;
    check_history(check, random, &message, wanted, MOST);
}
