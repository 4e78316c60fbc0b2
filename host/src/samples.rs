// What ./bench times: the published images and pictures that are made of nothing, each with a message that is decoded
// to it.
use crate::images::{self, Image};
use crate::pictures::{self, Picture};
use std::path::Path;

pub struct Sample {
    pub name: String,
    pub picture: Picture,
    pub message: Vec<u8>,
    pub is_photograph: bool,
}

impl Sample {
    fn made(name: String, picture: Picture) -> Self {
        let message = picture.encoded(0);
        Self {
            name,
            picture,
            message,
            is_photograph: false,
        }
    }

    pub fn pixels(&self) -> usize {
        self.picture.pixels.len() / self.picture.channels
    }

    pub fn channels(&self) -> u64 {
        self.picture.channels as u64
    }

    pub fn is_rain(&self) -> bool {
        self.name.starts_with(pictures::RAIN)
    }
}

/// The published images; those of three channels, which are photographs, also with four; then the large pictures.
pub fn large(folder: &Path) -> Vec<Sample> {
    let images = images::read(folder);
    let published = images.iter().flat_map(|image| image.pictures());
    let mut samples: Vec<Sample> = published
        .chain(pictures::large())
        .map(|(name, picture)| Sample::made(name, picture))
        .collect();
    for sample in &mut samples {
        let is_of = |image: &&Image| sample.name.starts_with(&image.name);
        if let Some(image) = images.iter().find(is_of) {
            sample.is_photograph = image.is_photograph();
            if sample.name == image.name {
                sample.message = image.message.clone();
            }
        }
    }
    samples
}

/// Pictures whose decode is mostly what a call costs.
pub fn small() -> Vec<Sample> {
    let mut samples = Vec::new();
    for side in [1, 4, 8] {
        for channels in [3, 4] {
            let name = format!("{side} x {side}, {channels}");
            samples.push(Sample::made(name, pictures::corner(side, channels)));
        }
    }
    samples
}
