//! The worker's arguments.
use crate::failure::Failure;
use crate::{count, decode};
use pivotshade::{Channels, ColorSpace};
use std::ffi::OsString;
use std::path::{Path, PathBuf};
use std::str::FromStr;

/// What the worker takes.
pub const USAGE: &str = include_str!("../usage.txt");

/// Steps between two records where none are given: about a tenth of a second's work.
const EVERY: u64 = 1 << 24;

/// What to do.
#[derive(Debug, PartialEq, Eq)]
pub enum Command {
    /// Print the usage.
    Help,
    /// Encode pixels.
    Encode {
        /// Their path.
        pixels: PathBuf,
        /// The path of the message.
        message: PathBuf,
        /// Pixels in a row.
        width: u32,
        /// Rows.
        height: u32,
        /// Their colour space.
        colorspace: ColorSpace,
    },
    /// Decode a message.
    Decode(decode::Job),
    /// Check a message.
    Check {
        /// Its path.
        message: PathBuf,
    },
    /// Count a message.
    Count(count::Job),
    /// Print a table's totals.
    Totals {
        /// Its path.
        table: PathBuf,
    },
}

/// The command of these arguments, the program's name not among them.
pub fn parse(arguments: impl IntoIterator<Item = OsString>) -> Result<Command, Failure> {
    let mut given = Given::of(arguments)?;
    if given.flag("--help") || given.flag("-h") {
        return Ok(Command::Help);
    }
    let name = given.path("the command")?;
    let command = match name.to_str().unwrap_or_default() {
        "encode" => Command::Encode {
            width: given.needed_number("--width")?,
            height: given.needed_number("--height")?,
            colorspace: match given.flag("--linear") {
                true => ColorSpace::Linear,
                false => ColorSpace::Srgb,
            },
            pixels: given.path("PIXELS")?,
            message: given.path("MESSAGE")?,
        },
        "decode" => Command::Decode(decode::Job {
            record: given.file("--record")?,
            number: given.needed_number("--number")?,
            every: match given.number("--every")? {
                Some(0) => return Err(Failure::usage("--every takes a number from 1 on")),
                Some(every) => every,
                None => EVERY,
            },
            channels: match given.number::<u64>("--channels")? {
                None => None,
                Some(3) => Some(Channels::Rgb),
                Some(4) => Some(Channels::Rgba),
                Some(_) => return Err(Failure::usage("--channels takes 3 or 4")),
            },
            restart: given.flag("--restart"),
            message: given.path("MESSAGE")?,
            output: given.path("OUTPUT")?,
        }),
        "check" => Command::Check {
            message: given.path("MESSAGE")?,
        },
        "count" => Command::Count(count::Job {
            hour: given.needed_number("--hour")?,
            table: given.file("--table")?,
            message: given.path("MESSAGE")?,
        }),
        "totals" => Command::Totals {
            table: given.file("--table")?,
        },
        _ => {
            return Err(Failure::usage(format!(
                "there is no command {}",
                name.display()
            )))
        }
    };
    given.nothing_left(&name)?;
    Ok(command)
}

fn missing(what: &str) -> Failure {
    Failure::usage(format!("{what} is missing"))
}

/// Options that take a value, and those that take none.
const WITH_VALUE: [&str; 8] = [
    "--width",
    "--height",
    "--record",
    "--number",
    "--every",
    "--channels",
    "--hour",
    "--table",
];
const ALONE: [&str; 4] = ["--linear", "--restart", "--help", "-h"];

/// The arguments, sorted; each is taken out as it is used.
struct Given {
    /// The command, then its paths.
    paths: Vec<OsString>,
    values: Vec<(String, OsString)>,
    flags: Vec<String>,
}

impl Given {
    fn of(arguments: impl IntoIterator<Item = OsString>) -> Result<Self, Failure> {
        let mut arguments = arguments.into_iter();
        let mut given = Self {
            paths: Vec::new(),
            values: Vec::new(),
            flags: Vec::new(),
        };
        while let Some(argument) = arguments.next() {
            let word = argument.to_string_lossy().into_owned();
            if given.has(&word) {
                return Err(Failure::usage(format!("{word} is given twice")));
            } else if word == "--" {
                given.paths.extend(arguments.by_ref());
            } else if WITH_VALUE.contains(&word.as_str()) {
                let value = arguments.next();
                let value = value.ok_or_else(|| missing(&format!("what {word} takes")))?;
                given.values.push((word, value));
            } else if ALONE.contains(&word.as_str()) {
                given.flags.push(word);
            } else if word.starts_with('-') {
                return Err(Failure::usage(format!("there is no option {word}")));
            } else {
                given.paths.push(argument);
            }
        }
        Ok(given)
    }

    fn has(&self, option: &str) -> bool {
        self.values.iter().any(|(name, _)| name == option)
            || self.flags.iter().any(|name| name == option)
    }

    fn path(&mut self, what: &str) -> Result<PathBuf, Failure> {
        match self.paths.is_empty() {
            true => Err(missing(what)),
            false => Ok(self.paths.remove(0).into()),
        }
    }

    fn value(&mut self, option: &str) -> Option<OsString> {
        let place = self.values.iter().position(|(name, _)| name == option)?;
        Some(self.values.remove(place).1)
    }

    /// The path that an option takes, which must be given.
    fn file(&mut self, option: &str) -> Result<PathBuf, Failure> {
        let value = self.value(option).ok_or_else(|| missing(option))?;
        Ok(value.into())
    }

    fn needed_number<T: FromStr>(&mut self, option: &str) -> Result<T, Failure> {
        self.number(option)?.ok_or_else(|| missing(option))
    }

    fn number<T: FromStr>(&mut self, option: &str) -> Result<Option<T>, Failure> {
        let value = match self.value(option) {
            Some(value) => value,
            None => return Ok(None),
        };
        match value.to_string_lossy().parse() {
            Ok(number) => Ok(Some(number)),
            Err(_) => Err(Failure::usage(format!(
                "{option} does not take {}",
                value.to_string_lossy()
            ))),
        }
    }

    fn flag(&mut self, option: &str) -> bool {
        let place = self.flags.iter().position(|name| name == option);
        place.map(|place| self.flags.remove(place)).is_some()
    }

    fn nothing_left(self, command: &Path) -> Result<(), Failure> {
        let paths = self
            .paths
            .into_iter()
            .map(|path| path.to_string_lossy().into_owned());
        let options = self.values.into_iter().map(|(name, _)| name);
        match paths.chain(options).chain(self.flags).next() {
            Some(left) => Err(Failure::usage(format!(
                "{} does not take {left}",
                command.display()
            ))),
            None => Ok(()),
        }
    }
}

#[cfg(test)]
mod tests {
    use super::*;

    fn parsed(line: &str) -> Result<Command, Failure> {
        parse(line.split_whitespace().map(OsString::from))
    }

    fn words(line: &str) -> String {
        let failure = parsed(line).expect_err(line);
        assert_eq!(failure.status(), 64, "{line}");
        failure.to_string()
    }

    #[test]
    fn options_stand_anywhere() {
        let job = decode::Job {
            message: "m".into(),
            output: "o".into(),
            record: "r".into(),
            number: 17,
            every: 10,
            channels: Some(Channels::Rgb),
            restart: true,
        };
        let line = "decode --every 10 m --record r --restart --number 17 o --channels 3";
        assert_eq!(parsed(line), Ok(Command::Decode(job.clone())));
        for number in [0, 127, 128, 1 << 63, u64::MAX] {
            let plain = decode::Job {
                number,
                every: EVERY,
                channels: None,
                restart: false,
                ..job.clone()
            };
            let line = format!("decode m o --record r --number {number}");
            assert_eq!(parsed(&line), Ok(Command::Decode(plain)));
        }
        assert_eq!(
            parsed("encode p m --width 2 --height 3 --linear"),
            Ok(Command::Encode {
                pixels: "p".into(),
                message: "m".into(),
                width: 2,
                height: 3,
                colorspace: ColorSpace::Linear,
            })
        );
        let dashes = Command::Check {
            message: "--m".into(),
        };
        assert_eq!(parsed("check -- --m"), Ok(dashes));
        let job = count::Job {
            message: "m".into(),
            hour: u64::MAX,
            table: "t".into(),
        };
        let line = "count --table t m --hour 18446744073709551615";
        assert_eq!(parsed(line), Ok(Command::Count(job)));
        let totals = Command::Totals { table: "t".into() };
        assert_eq!(parsed("totals --table t"), Ok(totals));
        assert_eq!(parsed("--help"), Ok(Command::Help));
        assert_eq!(parsed("decode -h"), Ok(Command::Help));
    }

    #[test]
    fn wrong_arguments_are_named() {
        assert_eq!(words(""), "the command is missing");
        assert_eq!(words("recode m"), "there is no command recode");
        assert_eq!(words("decode m o --number 1"), "--record is missing");
        assert_eq!(words("decode m o --record r"), "--number is missing");
        assert_eq!(words("decode m --record r --number 1"), "OUTPUT is missing");
        for number in ["x", "-1", "1.5", "18446744073709551616"] {
            assert_eq!(
                words(&format!("decode m o --record r --number {number}")),
                format!("--number does not take {number}")
            );
        }
        assert_eq!(
            words("decode m o --record"),
            "what --record takes is missing"
        );
        assert_eq!(
            words("decode m o --record r --number 1 --every 0"),
            "--every takes a number from 1 on"
        );
        assert_eq!(
            words("decode m o --record r --number 1 --every x"),
            "--every does not take x"
        );
        assert_eq!(
            words("decode m o --record r --number 1 --channels 5"),
            "--channels takes 3 or 4"
        );
        assert_eq!(
            words("decode m o p --record r --number 1"),
            "decode does not take p"
        );
        assert_eq!(words("check m --restart"), "check does not take --restart");
        assert_eq!(words("check m --number 1"), "check does not take --number");
        assert_eq!(words("check m --wrong"), "there is no option --wrong");
        assert_eq!(
            words("decode m o --record r --record s"),
            "--record is given twice"
        );
        assert_eq!(
            words("encode p m --width 4294967296 --height 1"),
            "--width does not take 4294967296"
        );
        assert_eq!(words("count m --table t"), "--hour is missing");
        assert_eq!(words("count m --hour 1"), "--table is missing");
        assert_eq!(words("count --hour 1 --table t"), "MESSAGE is missing");
        for hour in ["x", "-1", "1.5", "18446744073709551616"] {
            assert_eq!(
                words(&format!("count m --table t --hour {hour}")),
                format!("--hour does not take {hour}")
            );
        }
        assert_eq!(words("totals"), "--table is missing");
        assert_eq!(words("totals m --table t"), "totals does not take m");
        assert_eq!(
            words("totals --table t --hour 1"),
            "totals does not take --hour"
        );
    }
}
