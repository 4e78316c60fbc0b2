//! Workers on one forgetful disk, each in a thread of its own: one at a time has the turn to call the disk, and a seed says who, and when one is
//! killed or the power is cut. So a run is the same for the same seed.
use crate::forgetful::{Forgetful, Lost};
use crate::random::Random;
use pivotshade::Record;
use std::ffi::OsString;
use std::io;
use std::panic::{catch_unwind, AssertUnwindSafe};
use std::path::{Path, PathBuf};
use std::sync::{Condvar, Mutex, MutexGuard};
use std::thread;
use worker::disk::Disk;
use worker::failure::Failure;
use worker::saved;

/// The status of a program that panics.
const PANICKED: u8 = 101;
/// The parts of a call that may be done where its worker is cut off in it.
const WHOLE: usize = 64;

pub struct Turns {
    state: Mutex<State>,
    moved: Condvar,
}

struct State {
    disk: Forgetful,
    random: Random,
    /// Once in so many calls the turn goes to another worker.
    stays: usize,
    turn: usize,
    workers: Vec<Life>,
    /// Files that are locked, and by whom.
    locks: Vec<(usize, usize)>,
    until_crash: Option<Until>,
    lost: Option<Lost>,
    record: Option<(PathBuf, u64)>,
    take_ups: usize,
    kills: usize,
}

/// How a worker is.
#[derive(Clone, Copy, PartialEq)]
enum Life {
    Lives {
        until_kill: Option<Until>,
        /// The file whose lock it waits for.
        waits_for: Option<usize>,
    },
    Ended,
    CutOff,
}

/// What becomes of a call.
#[derive(Clone, Copy, PartialEq)]
enum Call {
    GoesOn,
    IsKilled,
    Crashes,
}

/// How many calls are done before one is cut off.
#[derive(Clone, Copy, PartialEq)]
pub struct Until {
    pub calls: usize,
    /// Whether only renames and flushes of folders count: between those a name may be lost.
    pub of_names: bool,
}

/// When a round's workers are cut off.
pub struct Plan {
    /// For each worker the call of its own in which it is killed, if it is.
    pub kills: Vec<Option<Until>>,
    /// The call of all of them in which the power is cut, if it is.
    pub crash: Option<Until>,
}

impl Plan {
    /// Nobody is cut off.
    pub fn undisturbed(workers: usize) -> Self {
        Self {
            kills: vec![None; workers],
            crash: None,
        }
    }

    /// So many workers, and when they are cut off, if they are.
    pub fn some(random: &mut Random, workers: usize, within: &Within) -> Self {
        let mut plan = Self::undisturbed(workers);
        if !random.one_in(3) {
            plan.crash = Some(Until::some(random, within));
        }
        for worker in 0..workers {
            if random.one_in(2) {
                plan.kills[worker] = Some(Until::some(random, within));
            }
        }
        plan
    }
}

/// The calls within which one is cut off, all of them or only renames and flushes of folders: one of these numbers.
pub struct Within {
    pub calls: &'static [usize],
    pub of_names: &'static [usize],
}

impl Until {
    fn some(random: &mut Random, within: &Within) -> Self {
        let of_names = random.one_in(3);
        let most = match of_names {
            true => *random.pick(within.of_names),
            false => *random.pick(within.calls),
        };
        Self {
            calls: random.below(most),
            of_names,
        }
    }
}

/// What is left of a round.
pub struct Left {
    pub disk: Forgetful,
    /// What was lost, where the power was cut.
    pub lost: Option<Lost>,
    /// Workers that read a record of more than 0 pixels and not all.
    pub take_ups: usize,
    /// Workers that were killed, the power being on.
    pub kills: usize,
}

impl Turns {
    /// Nobody has had a turn yet. `record` is the path of the record, if there is one, whose reading is counted, and its message's number.
    pub fn new(
        disk: Forgetful,
        mut random: Random,
        plan: &Plan,
        record: Option<(&Path, u64)>,
    ) -> Self {
        let lives = |&until_kill: &Option<Until>| Life::Lives {
            until_kill,
            waits_for: None,
        };
        Self {
            state: Mutex::new(State {
                disk,
                stays: *random.pick(&[1, 2, 6, 30]),
                turn: random.below(plan.kills.len()),
                random,
                workers: plan.kills.iter().map(lives).collect(),
                locks: Vec::new(),
                until_crash: plan.crash,
                lost: None,
                record: record.map(|(path, number)| (path.to_owned(), number)),
                take_ups: 0,
                kills: 0,
            }),
            moved: Condvar::new(),
        }
    }

    /// What is left, once every worker has left.
    pub fn left(self) -> Left {
        let state = self.state.into_inner().expect("no thread has panicked");
        Left {
            disk: state.disk,
            lost: state.lost,
            take_ups: state.take_ups,
            kills: state.kills,
        }
    }

    fn locked(&self) -> MutexGuard<'_, State> {
        self.state.lock().expect("no thread has panicked")
    }

    /// Waits for this worker's turn; none where it is cut off.
    fn turn_of(&self, worker: usize) -> Option<MutexGuard<'_, State>> {
        let mut state = self.locked();
        loop {
            if state.lost.is_some() || state.workers[worker] == Life::CutOff {
                return None;
            }
            if state.turn == worker {
                return Some(state);
            }
            state = self.moved.wait(state).expect("no thread has panicked");
        }
    }

    fn hand_on(&self, mut state: MutexGuard<'_, State>) {
        state.hand_on();
        drop(state);
        self.moved.notify_all();
    }
}

impl State {
    /// What becomes of this call of the worker that has the turn.
    fn next_call(&mut self, of_names: bool) -> Call {
        if is_next(&mut self.until_crash, of_names) {
            return Call::Crashes;
        }
        let is_killed = match &mut self.workers[self.turn] {
            Life::Lives { until_kill, .. } => is_next(until_kill, of_names),
            _ => false,
        };
        match is_killed {
            true => Call::IsKilled,
            false => Call::GoesOn,
        }
    }

    /// The worker that has the turn is killed, or the power is cut.
    fn cut_off(&mut self, call: Call) {
        self.workers[self.turn] = Life::CutOff;
        self.let_go(self.turn);
        match call {
            Call::Crashes => self.lost = Some(self.disk.crash(&mut self.random)),
            _ => self.kills += 1,
        }
    }

    /// Lets somebody have the turn who can go on.
    fn hand_on(&mut self) {
        if self.can_go_on(self.turn) && !self.random.one_in(self.stays) {
            return;
        }
        let ready: Vec<usize> = (0..self.workers.len())
            .filter(|&worker| self.can_go_on(worker))
            .collect();
        if !ready.is_empty() {
            self.turn = *self.random.pick(&ready);
        }
    }

    /// Whether a worker lives, and waits for no lock that somebody has.
    fn can_go_on(&self, worker: usize) -> bool {
        match self.workers[worker] {
            Life::Lives { waits_for, .. } => waits_for.map_or(true, |file| self.is_free(file)),
            _ => false,
        }
    }

    fn is_free(&self, file: usize) -> bool {
        self.locks.iter().all(|&(locked, _)| locked != file)
    }

    /// Gives the lock of a file to the worker that has the turn, or lets the worker wait for it: whether the worker has it.
    fn take_lock(&mut self, file: usize) -> bool {
        let is_free = self.is_free(file);
        if is_free {
            self.locks.push((file, self.turn));
        }
        if let Life::Lives { waits_for, .. } = &mut self.workers[self.turn] {
            *waits_for = (!is_free).then_some(file);
        }
        is_free
    }

    /// A worker has no lock any more.
    fn let_go(&mut self, worker: usize) {
        self.locks.retain(|&(_, holder)| holder != worker);
    }
}

/// Whether this call is to be cut off; otherwise it is counted.
fn is_next(until: &mut Option<Until>, of_names: bool) -> bool {
    match until {
        Some(until) if until.of_names && !of_names => false,
        Some(Until { calls: 0, .. }) => true,
        Some(until) => {
            until.calls -= 1;
            false
        }
        None => false,
    }
}

/// One worker's place at the disk.
pub struct Seat<'a> {
    turns: &'a Turns,
    worker: usize,
}

impl<'a> Seat<'a> {
    pub fn new(turns: &'a Turns, worker: usize) -> Self {
        Self { turns, worker }
    }

    /// The worker calls the disk no more: whether it came to its end.
    pub fn leave(self) -> bool {
        let mut state = match self.turns.turn_of(self.worker) {
            Some(state) => state,
            // the power was cut after its last call, or it was itself cut off
            None => return self.turns.locked().workers[self.worker] != Life::CutOff,
        };
        state.workers[self.worker] = Life::Ended;
        state.let_go(self.worker);
        self.turns.hand_on(state);
        true
    }

    /// Does a call, or a part of it where the worker is cut off in it.
    fn partly<T>(
        &self,
        of_names: bool,
        act: impl FnOnce(&mut Forgetful, usize) -> io::Result<T>,
    ) -> io::Result<T> {
        self.in_turn(of_names, |state, part| act(&mut state.disk, part))
    }

    /// The same of a call that asks for more than the disk.
    fn in_turn<T>(
        &self,
        of_names: bool,
        act: impl FnOnce(&mut State, usize) -> io::Result<T>,
    ) -> io::Result<T> {
        let mut guard = match self.turns.turn_of(self.worker) {
            Some(state) => state,
            None => {
                self.turns.locked().workers[self.worker] = Life::CutOff;
                return Err(cut_off());
            }
        };
        let state = &mut *guard;
        let done = match state.next_call(of_names) {
            Call::GoesOn => act(state, WHOLE),
            cut => {
                let part = state.random.below(WHOLE + 1);
                // nobody is there to take the answer
                let _ = act(state, part);
                state.cut_off(cut);
                Err(cut_off())
            }
        };
        self.turns.hand_on(guard);
        done
    }

    /// Does a call as a whole or, where the worker is cut off in it, perhaps not at all.
    fn call<T>(&self, act: impl FnOnce(&mut Forgetful) -> io::Result<T>) -> io::Result<T> {
        self.partly(false, wholly(act))
    }

    /// The same of a rename or a flush of a folder.
    fn call_of_names(&self, act: impl FnOnce(&mut Forgetful) -> io::Result<()>) -> io::Result<()> {
        self.partly(true, wholly(act))
    }
}

/// Of a call that has no parts.
fn wholly<S, T>(
    act: impl FnOnce(&mut S) -> io::Result<T>,
) -> impl FnOnce(&mut S, usize) -> io::Result<T> {
    move |on, part| match part > WHOLE / 2 {
        true => act(on),
        false => Err(cut_off()),
    }
}

fn cut_off() -> io::Error {
    io::Error::new(io::ErrorKind::Other, "the worker is cut off")
}

/// A lock that a worker has until it lets go.
pub struct Held<'a> {
    turns: &'a Turns,
    worker: usize,
}

impl Drop for Held<'_> {
    fn drop(&mut self) {
        // one that is cut off has no lock any more
        if let Some(mut state) = self.turns.turn_of(self.worker) {
            state.let_go(self.worker);
            self.turns.hand_on(state);
        }
    }
}

impl<'a> Disk for Seat<'a> {
    type File = usize;
    type Lock = Held<'a>;

    fn open(&self, path: &Path) -> io::Result<usize> {
        self.call(|disk| disk.open(path))
    }

    fn open_or_make(&self, path: &Path) -> io::Result<usize> {
        self.call(|disk| disk.open_or_make(path))
    }

    fn make(&self, path: &Path) -> io::Result<usize> {
        self.call(|disk| disk.make(path))
    }

    fn length(&self, file: &usize) -> io::Result<u64> {
        self.call(|disk| Ok(disk.length(*file)))
    }

    fn set_length(&self, file: &usize, length: u64) -> io::Result<()> {
        self.call(|disk| {
            disk.set_length(*file, length);
            Ok(())
        })
    }

    fn write_at(&self, file: &usize, bytes: &[u8], place: u64) -> io::Result<()> {
        self.partly(false, |disk, part| {
            let first = &bytes[..bytes.len() * part / WHOLE];
            disk.write_at(*file, first, place as usize);
            Ok(())
        })
    }

    fn flush(&self, file: &usize) -> io::Result<()> {
        self.call(|disk| {
            disk.flush(*file);
            Ok(())
        })
    }

    fn read(&self, path: &Path) -> io::Result<Vec<u8>> {
        let bytes = self.call(|disk| disk.read(path))?;
        let mut state = self.turns.locked();
        let begun = |(record, _): (Record, u64)| {
            (1..record.header().n_pixels()).contains(&record.pixels_done())
        };
        let is_taken_up = match &state.record {
            Some((record, number)) if record == path => {
                saved::from_bytes(&bytes, *number).map_or(false, begun)
            }
            _ => false,
        };
        state.take_ups += usize::from(is_taken_up);
        Ok(bytes)
    }

    fn rename(&self, from: &Path, to: &Path) -> io::Result<()> {
        self.call_of_names(|disk| disk.rename(from, to))
    }

    fn remove(&self, path: &Path) -> io::Result<()> {
        self.call(|disk| disk.remove(path))
    }

    fn names(&self, folder: &Path) -> io::Result<Vec<OsString>> {
        self.call(|disk| Ok(disk.names(folder)))
    }

    fn flush_folder(&self, folder: &Path) -> io::Result<()> {
        self.call_of_names(|disk| {
            disk.flush_folder(folder);
            Ok(())
        })
    }

    fn lock(&self, path: &Path) -> io::Result<Held<'a>> {
        let has_it = || {
            self.in_turn(
                false,
                wholly(|state: &mut State| {
                    let file = state.disk.open_or_make(path)?;
                    Ok(state.take_lock(file))
                }),
            )
        };
        // a worker that waits tries again when it next has the turn
        while !has_it()? {}
        Ok(Held {
            turns: self.turns,
            worker: self.worker,
        })
    }
}

/// Lets workers do these jobs at once: for each that came to its end what it answered, or the status of its failure.
pub fn at_once<J: Sync, T: Send>(
    turns: &Turns,
    jobs: &[J],
    work: impl Fn(&Seat, &J) -> Result<T, Failure> + Sync,
) -> Vec<Option<Result<T, u8>>> {
    let one = |worker: usize| {
        let seat = Seat::new(turns, worker);
        let ended = catch_unwind(AssertUnwindSafe(|| work(&seat, &jobs[worker])));
        let answer = match ended {
            Ok(answer) => answer.map_err(|failure| failure.status()),
            Err(_) => Err(PANICKED),
        };
        seat.leave().then_some(answer)
    };
    if jobs.len() == 1 {
        return vec![one(0)];
    }
    thread::scope(|scope| {
        let one = &one;
        let threads: Vec<_> = (0..jobs.len())
            .map(|worker| scope.spawn(move || one(worker)))
            .collect();
        let ended = threads.into_iter().map(|thread| thread.join());
        ended
            .map(|answer| answer.expect("it catches panics"))
            .collect()
    })
}
