// The command `repeat`: one decode or encode of an image, ours or the Rust's, so many times, for tools/instructions,
// which takes the instructions of one process from those of another that does it once more: so it does nothing else
// that could differ from one process to the next.
use crate::answer::Answer;
use crate::{oracle, port};
use std::path::Path;
use std::process::ExitCode;

/// What is repeated, to the output that it is lent.
type Call = fn(&[u8], &Pixels, &mut [u8]) -> Answer;

struct Pixels {
    width: u32,
    height: u32,
    channels: u64,
    bytes: Vec<u8>,
}

fn call(who: &str, what: &str) -> Option<Call> {
    Some(match (who, what) {
        ("ours", "decode") => |message, pixels, out| port::decode(message, pixels.channels, out),
        ("rust", "decode") => |message, pixels, out| oracle::decode(message, pixels.channels, out),
        ("ours", "encode") => {
            |_, pixels, out| port::encode(&pixels.bytes, pixels.width, pixels.height, 0, out)
        }
        ("rust", "encode") => {
            |_, pixels, out| oracle::encode(&pixels.bytes, pixels.width, pixels.height, 0, out)
        }
        _ => return None,
    })
}

/// Its exit status is 2 where it is asked for something else.
pub fn run(who: &str, what: &str, channels: u64, times: u32, file: &Path) -> ExitCode {
    let call = match call(who, what) {
        Some(call) => call,
        None => return ExitCode::from(2),
    };
    let message = std::fs::read(file).unwrap_or_else(|e| panic!("{}: {e}", file.display()));
    let [width, height, ..] = oracle::header(&message).figures;
    let mut pixels = Pixels {
        width: width as u32,
        height: height as u32,
        channels,
        bytes: vec![0; (width * height * channels) as usize],
    };
    let answer = oracle::decode(&message, channels, &mut pixels.bytes);
    assert!(answer.is_accepted(), "{answer}");
    let room = oracle::room_to_encode(pixels.width, pixels.height, channels as usize);
    let mut out = match what {
        "encode" => vec![0; room],
        _ => vec![0; pixels.bytes.len()],
    };
    for _ in 0..times {
        let answer = call(&message, &pixels, &mut out);
        assert!(answer.is_accepted(), "{answer}");
    }
    ExitCode::SUCCESS
}
