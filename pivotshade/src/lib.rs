//! A proved QOI codec with the names and shapes of crate qoi 0.4.1, a decode that another worker can take over, and rain totals that count each hour
//! once.
//!
//! A program that uses crate qoi on slices and vectors changes one line, `use qoi::…` to `use pivotshade::…`:
//!
//! ```
//! use pivotshade::{encode_to_vec, decode_to_vec};
//!
//! # fn main() -> pivotshade::Result<()> {
//! # let (width, height) = (16, 4);
//! # let pixels: Vec<u8> = (0..=255).collect();
//! let encoded = encode_to_vec(&pixels, width, height)?;
//! let (header, decoded) = decode_to_vec(&encoded)?;
//!
//! assert_eq!(header.width, width);
//! assert_eq!(header.height, height);
//! assert_eq!(decoded, pixels);
//! # Ok(())
//! # }
//! ```
//!
//! The example is crate qoi's own, used under its licence, whose text is the repository's `NOTICE`.
//!
//! # What is proved
//!
//! Messages are read, written, checked and counted, records are read and run, and refusals are put into words by functions that are written in Rattle
//! and proved to meet their contracts. They stand in the archive `libqoi.a`. This crate lends them slices and gives their answers names. Its own are a
//! few sums ([`encode_max_len`], [`Header::n_pixels`], [`Header::n_bytes`]), the test of [`Header::try_new`], the numbers of [`Channels`] and
//! [`ColorSpace`], and the looks of [`Record`] at its numbers and of [`Table`] at its marks; its tests hold them to the proved functions.
//!
//! # What is added
//!
//! - A decode in steps: [`start`] makes a [`Record`], [`run`] goes on from one. Another worker may go on from any record that was saved, also where
//!   the first one was cut off. A record names its message by the number that the broker gave it, and is refused for any other.
//! - [`strict()`]: whether a message has nothing that a decode would pass over.
//! - Rain totals: a [`Table`] for a month, and [`Table::count`], which adds an hour's frame to it once, however often it comes.
//! - [`rest`] and [`Decoder::data`]: what follows a message.
//! - [`Error::number`] and [`Error::figures`], and eight variants; [`Error::CutRecord`] and [`Error::BadRecord`] say where a record is bad.
//!
//! # What differs from crate qoi
//!
//! - No streams: no `Decoder::from_stream`, `Encoder::encode_to_stream` or `Error::IoError`, and [`Decoder`] has a lifetime where crate qoi's has a reader.
//! - No features, and `std` is needed. The encoder is that of crate qoi without its feature `reference`.
//! - An output that is longer than needed, [`Decoder::data`] after a decode and a second decode: see [`Decoder`].
//! - [`encode_max_len`] and [`Header::n_bytes`] stop at 2^64-1.
//! - [`Error`] has eight variants more, so a `match` over all of it needs them.
//!
//! # Building
//!
//! On Linux, on x86-64 and on Arm, the archive is taken from the repository's `target/`; where it is missing there, the build proves and compiles it,
//! which takes some minutes and wants the Rattle kit's command `rt` on the path. One that is there is taken as it is. The environment variable
//! `PIVOTSHADE_ARCHIVE` names another folder to take `libqoi.a` from.

#![deny(unsafe_op_in_unsafe_fn, missing_docs)]
#![deny(unsafe_code)]

#[cfg(not(target_pointer_width = "64"))]
compile_error!("the proved functions take lengths of 64 bits");

mod decode;
mod encode;
mod error;
#[allow(unsafe_code)]
mod ffi;
mod header;
mod steps;
mod strict;
mod totals;
mod types;

pub use decode::{decode_to_buf, decode_to_vec, rest, Decoder};
pub use encode::{encode_max_len, encode_to_buf, encode_to_vec, Encoder};
pub use error::{Error, Result};
pub use header::{decode_header, Header};
pub use steps::{run, start, Ran, Record};
pub use strict::{strict, Strict};
pub use totals::{Counted, Table};
pub use types::{Channels, ColorSpace};
