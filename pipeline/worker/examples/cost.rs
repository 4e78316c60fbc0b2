//! What the worker costs: `cost WORKER FOLDER` has it decode a field of 20000 x 1000 RGBA pixels, by turns with a program that decodes and writes
//! the output once (this one, called with `plain`), and prints the times and the worker's memory. `./bench worker` runs it.
use pivotshade::{decode_to_vec, encode_to_vec};
use std::env;
use std::error::Error;
use std::fs::{self, File};
use std::path::Path;
use std::process::Command;
use std::thread::sleep;
use std::time::{Duration, Instant};

// the test host's own, of which not all is needed here
#[allow(dead_code)]
#[path = "../../../host/src/random.rs"]
mod random;
use random::Random;

const WIDTH: u32 = 20_000;
const HEIGHT: u32 = 1_000;
const TURNS: usize = 15;

type Answer<T> = Result<T, Box<dyn Error>>;

fn main() -> Answer<()> {
    let arguments: Vec<String> = env::args().skip(1).collect();
    let arguments: Vec<&str> = arguments.iter().map(String::as_str).collect();
    match arguments[..] {
        ["plain", message, output, flush] => plain(message, output, flush == "flush"),
        [worker, folder] => {
            fs::create_dir_all(folder)?;
            let random = &mut Random::new(1);
            for (name, field) in [("rain", rain(random)), ("noise", noise(random))] {
                measure(worker, Path::new(folder), name, field)?;
            }
            Ok(())
        }
        _ => Err("usage: cost WORKER FOLDER".into()),
    }
}

/// Decodes, and writes the output once.
fn plain(message: &str, output: &str, flush: bool) -> Answer<()> {
    let (_, pixels) = decode_to_vec(fs::read(message)?)?;
    fs::write(output, pixels)?;
    if flush {
        File::open(output)?.sync_all()?;
    }
    Ok(())
}

/// Times the worker and the plain program by turns, on fresh files.
fn measure(worker: &str, folder: &Path, name: &str, field: Vec<u8>) -> Answer<()> {
    let path = |name: &str| folder.join(name);
    let [message, output, record] = ["message", "output", "record"].map(path);
    let encoded = encode_to_vec(&field, WIDTH, HEIGHT)?;
    fs::write(&message, &encoded)?;
    let this = env::current_exe()?;
    let mut times = [(); 3].map(|()| Vec::new());
    let mut most = 0;
    for _ in 0..TURNS {
        for (way, times) in times.iter_mut().enumerate() {
            for old in [&output, &record] {
                let _ = fs::remove_file(old);
            }
            let mut command = match way {
                0 => Command::new(worker),
                _ => Command::new(&this),
            };
            match way {
                0 => command
                    .arg("decode")
                    .args([&message, &output])
                    .arg("--record")
                    .arg(&record)
                    .args(["--number", "1"]),
                1 => command.arg("plain").args([&message, &output]).arg("no"),
                _ => command.arg("plain").args([&message, &output]).arg("flush"),
            };
            let (time, resident) = timed(&mut command)?;
            times.push(time);
            if way == 0 {
                most = most.max(resident);
                if fs::read(&output)? != field {
                    return Err("the worker left other pixels".into());
                }
            }
        }
    }
    let [ours, plain, flushed] = times.map(median);
    let shown = |time: Duration| format!("{} ms", time.as_millis());
    let ratio = |time: Duration| ours.as_secs_f64() / time.as_secs_f64();
    println!(
        "{name}: worker {}; decode and one write {}, ratio {:.2}; with a flush {}, ratio {:.2}",
        shown(ours),
        shown(plain),
        ratio(plain),
        shown(flushed),
        ratio(flushed)
    );
    let lent = (encoded.len() + field.len()) / 1024;
    println!(
        "{name}: resident {most} KiB at most, message and output {lent} KiB, {} KiB more",
        most.saturating_sub(lent)
    );
    Ok(())
}

/// Runs a command, which must succeed: how long it took, and the most memory that it was seen to have, in KiB.
fn timed(command: &mut Command) -> Answer<(Duration, usize)> {
    let began = Instant::now();
    let mut child = command.spawn()?;
    let status = format!("/proc/{}/status", child.id());
    let mut most = 0;
    loop {
        if let Some(ended) = child.try_wait()? {
            let time = began.elapsed();
            return match ended.success() {
                true => Ok((time, most)),
                false => Err(format!("{command:?}: {ended}").into()),
            };
        }
        most = most.max(resident(&fs::read_to_string(&status).unwrap_or_default()));
        sleep(Duration::from_micros(500));
    }
}

/// The most memory that a process has had so far, in KiB.
fn resident(status: &str) -> usize {
    let line = status.lines().find_map(|line| line.strip_prefix("VmHWM:"));
    let number = line.and_then(|line| line.split_whitespace().next());
    number.and_then(|number| number.parse().ok()).unwrap_or(0)
}

fn median(mut times: Vec<Duration>) -> Duration {
    times.sort_unstable();
    times[times.len() / 2]
}

/// Showers on dry ground, in hundredths of a millimetre.
fn rain(random: &mut Random) -> Vec<u8> {
    let (width, height) = (WIDTH as i64, HEIGHT as i64);
    let mut cells = vec![0u32; (width * height) as usize];
    for _ in 0..150 {
        let mut below = |n: i64| random.below(n as usize) as i64;
        let (x, y, radius) = (below(width), below(height), 40 + below(300));
        for row in (y - radius).max(0)..(y + radius).min(height) {
            for column in (x - radius).max(0)..(x + radius).min(width) {
                let from = (row - y).pow(2) + (column - x).pow(2);
                let rain = (radius.pow(2) - from).max(0) / 40;
                cells[(row * width + column) as usize] += rain as u32;
            }
        }
    }
    cells.into_iter().flat_map(u32::to_be_bytes).collect()
}

/// Pixels of which none is like another: the longest message.
fn noise(random: &mut Random) -> Vec<u8> {
    let mut bytes = vec![0; WIDTH as usize * HEIGHT as usize * 4];
    random.fill(&mut bytes);
    bytes
}
