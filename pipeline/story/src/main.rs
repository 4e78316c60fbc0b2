//! story WORKER FOLDER [FILE.qoi ...]: the story that `./run` tells. What is sent is encoded; the worker that decodes it is killed on the way; another
//! takes over; what it leaves is compared, byte for byte, and drawn; one with the next message must refuse their record. With no files, a month of rain
//! follows, which workers add up: their totals are compared with what each hour once gives, and drawn. WORKER is the worker's program, and FOLDER is
//! where all files go.
//!
//! Exit status: 0 every byte and every total was right; 1 not, or a file was refused; 64 wrong arguments.
#![forbid(unsafe_code)]

mod deflate;
mod disk;
mod font;
mod ledger;
mod month;
mod picture;
mod png;
mod queue;
mod rain;
// the test host's own, of which not all is needed here
#[allow(dead_code)]
#[path = "../../../host/src/random.rs"]
mod random;
mod sent;
mod telling;
mod words;
mod workers;

use sent::Sent;
use std::env;
use std::path::PathBuf;
use std::process::ExitCode;

fn main() -> ExitCode {
    let arguments: Vec<PathBuf> = env::args_os().skip(1).map(PathBuf::from).collect();
    let all_right = match arguments.as_slice() {
        [worker, folder] => {
            let is_right = ended_well(telling::tell(&Sent::rain(), 1, worker, folder));
            // the month is another story, and is told in any case
            ended_well(month::tell(worker, folder)) && is_right
        }
        [worker, folder, files @ ..] => {
            let mut all_right = true;
            for (number, file) in (1..).zip(files) {
                // files of one name in two folders must not write over each other
                let folder = folder.join(number.to_string());
                let sent = Sent::read(file);
                let told = sent.and_then(|sent| telling::tell(&sent, number, worker, &folder));
                all_right &= ended_well(told);
            }
            all_right
        }
        _ => {
            eprintln!("usage: story WORKER FOLDER [FILE.qoi ...]");
            return ExitCode::from(64);
        }
    };
    match all_right {
        true => ExitCode::SUCCESS,
        false => ExitCode::FAILURE,
    }
}

/// Whether a story ended well. Where it did not, its words go to standard error.
fn ended_well(told: Result<(), String>) -> bool {
    if let Err(words) = &told {
        eprintln!("run: {words}");
    }
    told.is_ok()
}
