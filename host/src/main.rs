// The host of the port's exported functions: `host compare` holds them to crate qoi 0.4.1 on the same inputs, `host states` the program `states` to the
// same on states that are made up, `host peers` the functions to other programs by the files that they write and read, `host bench` times them against
// crate qoi by programs that are `host race`, and `host repeat` does one call many times, for its instructions to be counted.
mod answer;
mod bench;
mod budgets;
mod cases;
mod check;
mod compare;
mod encodes;
mod families;
mod histories;
mod images;
mod ledger;
mod messages;
mod months;
mod oracle;
mod output;
mod peers;
mod pictures;
mod places;
mod port;
#[cfg(feature = "qoi_h")]
mod qoi_h;
mod race;
mod random;
mod record;
mod records;
mod refusal;
mod repeat;
mod samples;
mod sha256;
mod sizes;
mod states;
mod strict;
mod stricts;
mod table;
mod texts;
mod trace;
mod words;

use std::path::PathBuf;
use std::process::ExitCode;

fn usage() -> ExitCode {
    eprintln!(
        "usage: host compare CASES SEED IMAGES | host states COUNT SEED PROGRAM... | host peers FOLDER IMAGES | \
         host bench IMAGES all|encode|strict|count HOST... | host race IMAGES | host repeat ours|rust decode|encode CHANNELS TIMES FILE"
    );
    ExitCode::from(2)
}

fn main() -> ExitCode {
    let words: Vec<String> = std::env::args().skip(1).collect();
    let words: Vec<&str> = words.iter().map(String::as_str).collect();
    match words[..] {
        ["compare", cases, seed, folder] => match (cases.parse(), seed.parse()) {
            (Ok(cases), Ok(seed)) => compare::run(cases, seed, &PathBuf::from(folder)),
            _ => usage(),
        },
        ["states", count, seed, ref program @ ..] => match (count.parse(), seed.parse()) {
            (Ok(count), Ok(seed)) => states::run(count, seed, program),
            _ => usage(),
        },
        ["peers", folder, images] => peers::run(&PathBuf::from(folder), &PathBuf::from(images)),
        ["bench", folder, only @ ("all" | "encode" | "strict" | "count"), ref programs @ ..] => {
            bench::run(&PathBuf::from(folder), only, programs)
        }
        ["race", folder] => places::serve(&PathBuf::from(folder)),
        ["repeat", who, what, channels, times, file] => match (channels.parse(), times.parse()) {
            (Ok(channels), Ok(times)) => {
                repeat::run(who, what, channels, times, &PathBuf::from(file))
            }
            _ => usage(),
        },
        _ => usage(),
    }
}
