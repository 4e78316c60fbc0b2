//! Lines, and the figures and paths in them.
use std::env;
use std::fmt::Display;
use std::io::{stdout, Write};
use std::path::Path;
use std::time::Duration;

/// Prints a line.
pub fn say(line: impl Display) {
    // a reader that has gone is no reason to stop
    let _ = writeln!(stdout(), "{line}");
}

/// A path, from the current folder on where it lies there.
pub fn shown(path: &Path) -> String {
    let here = env::current_dir().unwrap_or_default();
    let within = path.strip_prefix(here).unwrap_or(path);
    within.display().to_string()
}

/// A whole number with a comma before each three digits.
pub fn grouped(number: impl ToString) -> String {
    let digits = number.to_string();
    let mut grouped = String::new();
    for (place, digit) in digits.chars().enumerate() {
        if place > 0 && (digits.len() - place) % 3 == 0 {
            grouped.push(',');
        }
        grouped.push(digit);
    }
    grouped
}

/// How long a message is, and beside its pixels.
pub fn encoded(message: usize, pixels: usize) -> String {
    let share = message as f64 / pixels as f64;
    format!(
        "encoded: {} bytes ({share:.2} of the pixels)",
        grouped(message)
    )
}

/// Rain in millimetres, of which it has hundredths.
pub fn millimetres(hundredths: u128) -> String {
    format!("{}.{:02} mm", grouped(hundredths / 100), hundredths % 100)
}

/// A time in milliseconds.
pub fn time(time: Duration) -> String {
    match time.as_millis() {
        0..=9 => format!("{:.1} ms", time.as_secs_f64() * 1_000.0),
        whole => format!("{whole} ms"),
    }
}

#[cfg(test)]
mod tests {
    use super::*;

    #[test]
    fn figures_are_grouped() {
        let numbers = [0, 999, 1_000, 12_345, 1_234_567];
        let words = ["0", "999", "1,000", "12,345", "1,234,567"];
        assert_eq!(numbers.map(grouped), words);
    }

    #[test]
    fn a_share_has_two_digits_after_the_point() {
        let words = "encoded: 1,000 bytes (0.33 of the pixels)";
        assert_eq!(encoded(1_000, 3_000), words);
    }

    #[test]
    fn rain_has_two_digits_after_the_point() {
        assert_eq!(millimetres(7), "0.07 mm");
        assert_eq!(millimetres(123_456_789), "1,234,567.89 mm");
    }

    #[test]
    fn times_have_two_figures_at_least() {
        assert_eq!(time(Duration::from_micros(2_340)), "2.3 ms");
        assert_eq!(time(Duration::from_millis(1_234)), "1234 ms");
    }
}
