//! The largest picture that there is, 400,000,000 pixels: the worker is killed on the way, and another one goes on.
use crate::bench::{says, wait};
use crate::random::Random;
use std::fs::{self, File};
use std::io::{BufReader, Read};
use std::path::{Path, PathBuf};
use std::process::{Child, Command, Stdio};
use std::thread::sleep;
use std::time::Duration;
use worker::saved;

const SIDE: u32 = 20_000;
const PIXELS: usize = 400_000_000;
const CHANNELS: usize = 4;
/// Pixels of one colour: its own chunk, and the longest run.
const STRETCH: usize = 63;
const EVERY: &str = "1000000";
/// The message's number, the largest that there is.
const NUMBER: u64 = u64::MAX;

/// Decodes it with a kill between, and compares each byte.
pub fn largest(worker: &Path, folder: &Path, random: &mut Random) -> Result<(), String> {
    let [message, output, record] = ["message", "output", "record"].map(|name| folder.join(name));
    fs::write(&message, made()).map_err(says(&message))?;
    for old in [&output, &record] {
        let _ = fs::remove_file(old);
    }
    let start = || {
        Command::new(worker)
            .arg("decode")
            .args([&message, &output])
            .arg("--record")
            .arg(&record)
            .args(["--number", &NUMBER.to_string()])
            .args(["--every", EVERY])
            .stderr(Stdio::piped())
            .spawn()
            .map_err(says(worker))
    };
    let share = random.between(PIXELS / 10, PIXELS / 2);
    let mut first = start()?;
    wait_until(&mut first, &record, share).map_err(says(worker))?;
    first.kill().map_err(says(worker))?;
    if wait(first)?.status.is_some() {
        return Err("the worker had ended before it could be killed".into());
    }
    let second = wait(start()?)?;
    if second.status != Some(0) {
        return Err(format!("the second worker ended: {}", second.words));
    }
    compare(&output)
}

/// The message: colours, each with a run.
fn made() -> Vec<u8> {
    let mut message = b"qoif".to_vec();
    for side in [SIDE, SIDE] {
        message.extend(side.to_be_bytes());
    }
    message.extend([CHANNELS as u8, 0]);
    for stretch in 0..PIXELS / STRETCH {
        message.push(0xff);
        message.extend(colour(stretch));
        message.push(0xfd);
    }
    message.push(0xff);
    message.extend(colour(PIXELS / STRETCH));
    message.push(0xc0 | (PIXELS % STRETCH - 2) as u8);
    message.extend([0, 0, 0, 0, 0, 0, 0, 1]);
    message
}

/// No byte of it is 0, so that what is missing in a new output is seen.
fn colour(stretch: usize) -> [u8; CHANNELS] {
    (stretch as u32).to_le_bytes().map(|byte| byte | 1)
}

/// Waits until the record says that as many pixels are done, or the worker has ended.
fn wait_until(worker: &mut Child, record: &PathBuf, pixels: usize) -> std::io::Result<()> {
    let done = || {
        let (record, _) = saved::from_bytes(&fs::read(record).ok()?, NUMBER).ok()?;
        Some(record.pixels_done())
    };
    while worker.try_wait()?.is_none() && done().unwrap_or(0) < pixels {
        sleep(Duration::from_millis(1));
    }
    Ok(())
}

fn compare(output: &Path) -> Result<(), String> {
    let file = File::open(output).map_err(says(output))?;
    let length = file.metadata().map_err(says(output))?.len();
    if length != (PIXELS * CHANNELS) as u64 {
        return Err(format!("the output has {length} bytes"));
    }
    let mut file = BufReader::with_capacity(1 << 20, file);
    for stretch in 0..=PIXELS / STRETCH {
        let pixels = STRETCH.min(PIXELS - stretch * STRETCH);
        let mut bytes = [0; STRETCH * CHANNELS];
        let bytes = &mut bytes[..pixels * CHANNELS];
        file.read_exact(bytes).map_err(says(output))?;
        if bytes.chunks(CHANNELS).any(|pixel| pixel != colour(stretch)) {
            let first = stretch * STRETCH;
            return Err(format!(
                "pixel {first}, or one of the {pixels} from there on, is wrong"
            ));
        }
    }
    Ok(())
}
