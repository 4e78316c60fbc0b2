// SHA-256 of bytes, in hexadecimal, by the system's `sha256sum`: what expected.tsv gives of an image's pixels.
use std::io::Write;
use std::process::{Command, Stdio};

pub fn sha256(bytes: &[u8]) -> String {
    let mut sum = Command::new("sha256sum")
        .stdin(Stdio::piped())
        .stdout(Stdio::piped())
        .spawn()
        .expect("sha256sum is installed");
    sum.stdin
        .take()
        .expect("a pipe")
        .write_all(bytes)
        .expect("sha256sum reads all");
    let printed = sum.wait_with_output().expect("sha256sum ends").stdout;
    String::from_utf8_lossy(&printed[..64]).into_owned()
}
