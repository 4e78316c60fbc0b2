//! What is sent: an hour of rain, or the picture of a file of the user's.
use crate::picture::{Grid, OF_AN_HOUR};
use crate::rain::{packed, Map};
use pivotshade::{decode_to_vec, ColorSpace};
use std::fs;
use std::path::Path;

/// What a QOI file begins with.
const MAGIC: &[u8] = b"qoif";
const NO_QOI: &str =
    "it is no QOI file, which `ffmpeg -i picture.png picture.qoi` makes of a picture";

/// What is sent.
pub struct Sent {
    /// What it is, in words.
    pub title: String,
    /// What one of its pixels is called.
    pub unit: &'static str,
    /// How its pixels lie, and what they are.
    pub grid: Grid,
    /// Whether its colour space is the linear one.
    pub is_linear: bool,
    /// The pixels.
    pub pixels: Vec<u8>,
}

impl Sent {
    /// An hour of rain.
    pub fn rain() -> Self {
        let map = Map::storm();
        Self {
            title: "an hour of rain".into(),
            unit: "cells",
            grid: Grid {
                width: map.width,
                height: map.height,
                channels: 4,
                classes: Some(&OF_AN_HOUR),
            },
            is_linear: false,
            pixels: packed(&map.cells()),
        }
    }

    /// The picture of a QOI file, by one undisturbed decode; or why there is none.
    pub fn read(path: &Path) -> Result<Self, String> {
        let shown = path.display();
        let file = fs::read(path).map_err(|error| format!("{shown}: cannot read: {error}"))?;
        let (header, pixels) = decode_to_vec(&file).map_err(|error| {
            let refused = format!("{shown}: refused, number {}: {error}", error.number());
            match file.starts_with(MAGIC) {
                true => refused,
                false => format!("{refused}; {NO_QOI}"),
            }
        })?;
        Ok(Self {
            title: shown.to_string(),
            unit: "pixels",
            grid: Grid {
                width: header.width as usize,
                height: header.height as usize,
                channels: header.channels.as_u8().into(),
                classes: None,
            },
            is_linear: header.colorspace == ColorSpace::Linear,
            pixels,
        })
    }

    /// How many pixels it has.
    pub fn size(&self) -> usize {
        self.grid.size()
    }
}
