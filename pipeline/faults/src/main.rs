//! The fault test: `./faults` builds and runs it. It kills the worker and cuts the power under it, and looks at what is left.
#![deny(unsafe_code)]

mod bench;
mod damage;
mod forgetful;
mod kills;
mod largest;
mod ledger;
mod losses;
mod month;
mod month_kills;
mod month_losses;
mod pictures;
// the test host's own, of which not all is needed here
#[allow(dead_code)]
#[path = "../../../host/src/random.rs"]
mod random;
mod turns;
mod undisturbed;
mod wrong;

use bench::{Bench, TableBench};
use losses::Lived;
use random::Random;
use std::env;
use std::fs;
use std::path::PathBuf;
use std::process::ExitCode;
use wrong::Wrong;

const USAGE: &str = "usage: faults WORKER FOLDER [--long] [--seed N]";

/// The most crashes within which a wrong worker must be caught.
const CAUGHT_WITHIN: usize = 2000;

struct Given {
    worker: PathBuf,
    folder: PathBuf,
    is_long: bool,
    seed: u64,
}

fn main() -> ExitCode {
    let given = match parse() {
        Some(given) => given,
        None => {
            eprintln!("{USAGE}");
            return ExitCode::from(2);
        }
    };
    match tried(&given) {
        Ok(()) => {
            println!("0 failures");
            ExitCode::SUCCESS
        }
        Err(words) => {
            println!("seed {}: {words}", given.seed);
            println!("1 failure");
            ExitCode::FAILURE
        }
    }
}

fn parse() -> Option<Given> {
    let mut paths = Vec::new();
    let (mut is_long, mut seed) = (false, 1);
    let mut arguments = env::args_os().skip(1);
    while let Some(argument) = arguments.next() {
        match argument.to_str() {
            Some("--long") => is_long = true,
            Some("--seed") => seed = arguments.next()?.to_str()?.parse().ok()?,
            _ => paths.push(PathBuf::from(argument)),
        }
    }
    match <[PathBuf; 2]>::try_from(paths) {
        Ok([worker, folder]) => Some(Given {
            worker,
            folder,
            is_long,
            seed,
        }),
        Err(_) => None,
    }
}

/// Both parts, and that the second would find a fault; what goes wrong first ends it.
fn tried(given: &Given) -> Result<(), String> {
    let (kills, losses, damages) = match given.is_long {
        true => (5000, 60_000, 100),
        false => (1000, 10_000, 12),
    };
    let (month_kills, month_losses) = match given.is_long {
        true => (3000, 10_000),
        false => (300, 1000),
    };
    let bench = |name, is_apart| Bench::new(&given.worker, &given.folder.join(name), is_apart);
    let benches = [bench("together", false)?, bench("apart", true)?];
    let mut random = Random::new(given.seed);
    let kept = |words| format!("{words}; the files are in {}", given.folder.display());
    let kills = kills::kill(&benches, &mut random, kills).map_err(kept)?;
    println!(
        "kills: {}, of these {} in the middle of a write; {} take-ups, {} MB compared",
        kills.kills,
        kills.in_a_write,
        kills.take_ups,
        kills.bytes / 1_000_000
    );
    let damages = damage::damage(&benches[0], &mut random, damages).map_err(kept)?;
    println!(
        "damages: {} records and outputs that no worker left of this message, {} of them records of another one, \
         {} told at which byte they are bad; each refused, left as it was, and begun anew",
        damages.all, damages.other_messages, damages.placed
    );
    let table = TableBench::new(&given.worker, &given.folder.join("month"))?;
    let months =
        month_kills::kill(&table, &mut random, month_kills, given.is_long).map_err(kept)?;
    println!(
        "months: {} kills of counting workers, {} of them between the write beside and the rename, {} after it; \
         {} counted, {} counted already, {} refused; {} months, every total right",
        months.kills,
        months.beside,
        months.told.unsaid,
        months.told.counted,
        months.told.already,
        months.told.refused,
        months.months
    );
    if given.is_long {
        largest::largest(&given.worker, &given.folder, &mut random).map_err(kept)?;
        println!("400000000 pixels: killed on the way, taken over, and each byte right");
    }
    fs::remove_dir_all(&given.folder).map_err(bench::says(&given.folder))?;
    let losses = losses::lose(losses::lived, given.seed, losses)?;
    if losses.others == 0 {
        return Err("no worker has found the record of another message".into());
    }
    println!(
        "losses: {} of {} crashes lost what was not flushed, {} of them a rename; {} kills, {} take-ups, \
         {} records of another message refused, {} MB compared",
        losses.losses,
        losses.crashes,
        losses.renames,
        losses.kills,
        losses.take_ups,
        losses.others,
        losses.bytes / 1_000_000
    );
    let losses = losses::lose(month_losses::lived, given.seed, month_losses)?;
    println!(
        "losses of months: {} of {} crashes lost what was not flushed, {} of them the table's rename; {} kills; \
         {} counted, {} counted already, {} refused; {} months, every total right",
        losses.losses,
        losses.crashes,
        losses.renames,
        losses.kills,
        losses.told.counted,
        losses.told.already,
        losses.told.refused,
        losses.months
    );
    for wrong in Wrong::OF_A_DECODE {
        is_caught("worker", losses::lived, given.seed, wrong)?;
    }
    for wrong in Wrong::OF_A_COUNT {
        is_caught("counting worker", month_losses::lived, given.seed, wrong)?;
    }
    Ok(())
}

fn is_caught(worker: &str, lived: Lived, seed: u64, wrong: Wrong) -> Result<(), String> {
    let words = wrong.words();
    let (crashes, by) = losses::caught(lived, seed, wrong, CAUGHT_WITHIN).ok_or_else(|| {
        format!("a {worker} that {words} is not caught within {CAUGHT_WITHIN} crashes")
    })?;
    println!("a {worker} that {words} is caught at crash {crashes}: {by}");
    Ok(())
}
