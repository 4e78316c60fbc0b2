// The bound on steps: from each checkpoint the pixels left and one more end the decode, and n steps, then m, are n + m.
use crate::check::Check;
use crate::messages::{any_message, any_number};
use crate::output::{self, Next, Output, Ran, Stand};
use crate::random::Random;
use crate::record::first_length;
use crate::trace::{Trace, MOST};

/// So many checkpoints of one message are tried; of a short one that is each.
const TRIED: usize = 40;

struct Budget<'a> {
    message: &'a [u8],
    number: u64,
    trace: &'a Trace,
    room: usize,
    done: usize,
    record: Vec<u8>,
}

impl Budget<'_> {
    fn run(&self, random: &mut Random, output: &mut Output, steps: usize) -> Result<Ran, String> {
        let stand = Stand {
            message: self.message,
            number: self.number,
            trace: self.trace,
            done: self.done,
            record: &self.record,
        };
        output.run(random, stand, steps as u64, Next::Exact)
    }

    /// Such a run must end. What stands before the checkpoint's pixel is anything here, and must stay.
    fn ends(&self, random: &mut Random, steps: usize) -> Result<(), String> {
        let mut output = Output::new(random, self.room);
        match self.run(random, &mut output, steps)? {
            Ran::Ended => Ok(()),
            _ => Err(format!("{steps} steps after {} do not end", self.done)),
        }
    }

    /// The bound, then exactly as many steps as there are chunks left, and one more.
    fn is_enough(&self, random: &mut Random) -> Result<(), String> {
        self.ends(random, self.trace.missing(self.done) + 1)?;
        let left = self.trace.steps() - self.done;
        self.ends(random, left + 1)?;
        let mut output = Output::new(random, self.room);
        let last = self.run(random, &mut output, left)?;
        self.goes_on(last)?.ends(random, 1)
    }

    /// The next checkpoint, of a run that must have more to do.
    fn goes_on(&self, ran: Ran) -> Result<Self, String> {
        match ran {
            Ran::More(done, record) => Ok(Self {
                done,
                record,
                ..*self
            }),
            _ => Err(format!("a run after {} steps leaves no record", self.done)),
        }
    }

    fn is_sum(&self, random: &mut Random) -> Result<(), String> {
        let left = self.trace.steps() - self.done;
        let n = random.below(left + 1);
        let m = random.below(left - n + 3);
        let mut once = Output::new(random, self.room);
        let mut twice = once.clone();
        let sum = self.run(random, &mut once, n + m)?;
        let first = self.run(random, &mut twice, n)?;
        let second = self.goes_on(first)?.run(random, &mut twice, m)?;
        if sum != second || once != twice {
            return Err(format!(
                "after {}: {n} steps, then {m}, are not both",
                self.done
            ));
        }
        Ok(())
    }
}

pub fn budgets(check: &mut Check, random: &mut Random) {
    let message = any_message(random);
    let wanted = 3 + random.below(2) as u64;
    let found = Trace::new(&message, wanted, MOST);
    let trace = match &found {
        Ok(trace) if trace.answer.number != 7 => trace,
        _ => return,
    };
    let room = trace.written.len() + *random.pick(&[0, 0, 0, 1, 9]);
    let number = any_number(random);
    let all = trace.steps() + 1;
    for i in 0..all.min(TRIED) {
        let done = if all <= TRIED { i } else { random.below(all) };
        let record = output::start(&message, number, &found, wanted, first_length(number), 0);
        let result = record.and_then(|record| {
            let start = Budget {
                message: &message,
                number,
                trace,
                room,
                done: 0,
                record,
            };
            let mut output = Output::new(random, room);
            let reached = start.run(random, &mut output, done)?;
            let budget = start.goes_on(reached)?;
            budget.is_enough(random)?;
            budget.is_sum(random)
        });
        let call = format!("to {wanted} channels");
        check.case(trace.answer.number, result, &call, "message", &message);
    }
}
