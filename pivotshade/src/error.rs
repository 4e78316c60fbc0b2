// Refusals: the numbers and figures of the proved functions under crate qoi's names, and their words.
use crate::ffi::{self, Answer};
use std::convert::Infallible;
use std::fmt;
use std::num::NonZeroUsize;

/// Why something was refused: crate qoi's variants, then eight that are added.
///
/// Crate qoi's `IoError` is missing, since nothing here reads or writes a stream. So unlike crate qoi's this type can be copied and compared.
///
/// `Display` says crate qoi's words where it has the refusal; a proved function puts them together.
///
/// ```
/// use pivotshade::{decode_header, Error};
///
/// let error = decode_header(b"qoif").unwrap_err();
/// assert_eq!(error, Error::UnexpectedBufferEnd);
/// assert_eq!(error.to_string(), "unexpected input buffer end while decoding");
/// assert_eq!(error.number(), 1);
/// ```
#[derive(Copy, Clone, Debug, PartialEq, Eq)]
pub enum Error {
    /// The message does not begin with `qoif`.
    InvalidMagic {
        /// The four bytes that stand there, the first one highest.
        magic: u32,
    },
    /// A channel count other than 3 and 4.
    InvalidChannels {
        /// The count, or 255 where it is larger.
        channels: u8,
    },
    /// A colour space other than 0 and 1.
    InvalidColorSpace {
        /// Its number.
        colorspace: u8,
    },
    /// No pixels, or more than 400,000,000.
    InvalidImageDimensions {
        /// Pixels in a row.
        width: u32,
        /// Rows.
        height: u32,
    },
    /// A picture to encode whose length is no multiple of its pixels.
    InvalidImageLength {
        /// Its length in bytes.
        size: usize,
        /// Pixels in a row.
        width: u32,
        /// Rows.
        height: u32,
    },
    /// An output shorter than the call asks for.
    OutputBufferTooSmall {
        /// Its length.
        size: usize,
        /// The length asked for.
        required: usize,
    },
    /// The message is cut short; or a record is, within its header, which is at its byte 0.
    UnexpectedBufferEnd,
    /// The end marker does not follow the last pixel.
    InvalidPadding,
    /// A record that is cut short after its header (added).
    CutRecord {
        /// Where in the record the field starts that is cut. By its type never 0, which is `UnexpectedBufferEnd`: number and figures tell the refusal.
        at: NonZeroUsize,
    },
    /// Bytes that are no record (added).
    BadRecord {
        /// Where in them the first faulty field starts, or what follows the record.
        at: usize,
    },
    /// A run that is longer than the pixels left, which the strict check alone refuses (added).
    RunPastImage,
    /// Bytes after the end marker, which the strict check alone refuses (added).
    BytesAfterMarker,
    /// A record of another message than the one that it is read for (added).
    OtherMessage {
        /// The number that the record names.
        number: u64,
    },
    /// An hour above 743, which a count refuses (added).
    InvalidHour {
        /// The hour.
        hour: u64,
    },
    /// A frame that has not a pixel for each of the table's cells (added).
    InvalidCellCount {
        /// The frame's pixels.
        pixels: usize,
        /// The table's cells.
        cells: usize,
    },
    /// A total that would pass 2^64-1, which does not occur from a fresh table on (added).
    TotalTooLarge {
        /// The first cell whose total would.
        cell: usize,
    },
}

/// A result whose error is [`Error`].
pub type Result<T> = std::result::Result<T, Error>;

impl Error {
    /// The refusal's number, from 1 to 12 or from 19 to 21, as the functions of `include/pivotshade.h` return it.
    pub const fn number(&self) -> u64 {
        self.told().0
    }

    /// Its figures, in the order of the variant's fields, then zeros.
    ///
    /// ```
    /// let error = pivotshade::Error::OutputBufferTooSmall { size: 25, required: 26 };
    /// assert_eq!((error.number(), error.figures()), (7, [25, 26, 0, 0]));
    /// ```
    pub const fn figures(&self) -> [u64; 4] {
        self.told().1
    }

    const fn told(&self) -> Answer {
        match *self {
            Self::UnexpectedBufferEnd => (1, [0; 4]),
            Self::CutRecord { at } => (1, [at.get() as u64, 0, 0, 0]),
            Self::InvalidChannels { channels } => (2, [channels as u64, 0, 0, 0]),
            Self::InvalidColorSpace { colorspace } => (3, [colorspace as u64, 0, 0, 0]),
            Self::InvalidMagic { magic } => (4, [magic as u64, 0, 0, 0]),
            Self::InvalidImageDimensions { width, height } => {
                (5, [width as u64, height as u64, 0, 0])
            }
            Self::InvalidImageLength {
                size,
                width,
                height,
            } => (6, [size as u64, width as u64, height as u64, 0]),
            Self::OutputBufferTooSmall { size, required } => {
                (7, [size as u64, required as u64, 0, 0])
            }
            Self::InvalidPadding => (8, [0; 4]),
            Self::BadRecord { at } => (9, [at as u64, 0, 0, 0]),
            Self::RunPastImage => (10, [0; 4]),
            Self::BytesAfterMarker => (11, [0; 4]),
            Self::OtherMessage { number } => (12, [number, 0, 0, 0]),
            Self::InvalidHour { hour } => (19, [hour, 0, 0, 0]),
            Self::InvalidCellCount { pixels, cells } => (20, [pixels as u64, cells as u64, 0, 0]),
            Self::TotalTooLarge { cell } => (21, [cell as u64, 0, 0, 0]),
        }
    }

    /// The refusal that a proved function told. Its figures fit these types by its contract, so no cast cuts anything off.
    fn of((number, [a, b, c, _]): Answer) -> Self {
        match number {
            1 => match NonZeroUsize::new(a as usize) {
                Some(at) => Self::CutRecord { at },
                None => Self::UnexpectedBufferEnd,
            },
            2 => Self::InvalidChannels { channels: a as u8 },
            3 => Self::InvalidColorSpace {
                colorspace: a as u8,
            },
            4 => Self::InvalidMagic { magic: a as u32 },
            5 => Self::InvalidImageDimensions {
                width: a as u32,
                height: b as u32,
            },
            6 => Self::InvalidImageLength {
                size: a as usize,
                width: b as u32,
                height: c as u32,
            },
            7 => Self::OutputBufferTooSmall {
                size: a as usize,
                required: b as usize,
            },
            8 => Self::InvalidPadding,
            9 => Self::BadRecord { at: a as usize },
            10 => Self::RunPastImage,
            11 => Self::BytesAfterMarker,
            12 => Self::OtherMessage { number: a },
            19 => Self::InvalidHour { hour: a },
            20 => Self::InvalidCellCount {
                pixels: a as usize,
                cells: b as usize,
            },
            21 => Self::TotalTooLarge { cell: a as usize },
            _ => unreachable!("no proved function returns {number} here"),
        }
    }
}

/// The figures of an accepted call, or its refusal.
pub(crate) fn accepted(answer: Answer) -> Result<[u64; 4]> {
    match answer {
        (0, figures) => Ok(figures),
        refused => Err(Error::of(refused)),
    }
}

impl fmt::Display for Error {
    fn fmt(&self, f: &mut fmt::Formatter) -> fmt::Result {
        let (number, figures) = self.told();
        let mut words = [0; ffi::TEXT_MAX];
        let (_, [length, ..]) = ffi::text(number, &figures, &mut words);
        let words = &words[..length as usize];
        f.write_str(std::str::from_utf8(words).expect("they are ASCII"))
    }
}

impl std::error::Error for Error {}

impl From<Infallible> for Error {
    fn from(never: Infallible) -> Self {
        match never {}
    }
}
