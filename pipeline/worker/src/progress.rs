//! A progress bar on standard error, where that is a terminal.
use pivotshade::Record;
use std::io::{stderr, Write};
use std::time::{Duration, Instant};

/// Marks of a whole bar.
const MARKS: usize = 40;
/// How long a bar stands before it is drawn again.
const STANDS: Duration = Duration::from_millis(100);

/// The bar; it is wiped where it is dropped.
pub struct Bar {
    on_terminal: bool,
    drawn: Option<Instant>,
}

impl Bar {
    /// A bar that draws nothing yet, and never where standard error is no terminal.
    pub fn new() -> Self {
        Self {
            on_terminal: is_terminal(),
            drawn: None,
        }
    }

    /// Draws how far a decode is, if it is time.
    pub fn show(&mut self, record: &Record) {
        if !self.on_terminal || self.drawn.map_or(false, |drawn| drawn.elapsed() < STANDS) {
            return;
        }
        self.drawn = Some(Instant::now());
        let line = line(record.pixels_done(), record.pixels_left());
        // a terminal that is gone is no reason to stop decoding
        let _ = write!(stderr(), "\r{line}");
    }
}

/// How far a decode is.
fn line(done: usize, left: usize) -> String {
    let all = done + left;
    let marks = "#".repeat(done * MARKS / all);
    let percent = done * 100 / all;
    format!("[{marks:-<MARKS$}] {percent:3}% of {all} pixels")
}

impl Default for Bar {
    fn default() -> Self {
        Self::new()
    }
}

impl Drop for Bar {
    fn drop(&mut self) {
        if self.drawn.is_some() {
            let _ = write!(stderr(), "\r\x1b[K");
        }
    }
}

#[allow(unsafe_code)]
fn is_terminal() -> bool {
    extern "C" {
        fn isatty(descriptor: i32) -> i32;
    }
    // SAFETY: it takes a number, and reads and writes no memory of this program
    unsafe { isatty(2) == 1 }
}

#[cfg(test)]
mod tests {
    use super::line;

    #[test]
    fn a_bar_fills_up() {
        let empty = "[----------------------------------------]   0% of 400000000 pixels";
        let half = "[####################--------------------]  50% of 400000000 pixels";
        let full = "[########################################] 100% of 400000000 pixels";
        assert_eq!(line(0, 400_000_000), empty);
        assert_eq!(line(200_000_000, 200_000_000), half);
        assert_eq!(line(400_000_000, 0), full);
    }
}
