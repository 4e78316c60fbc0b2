// The published images of a folder: its .qoi files, and expected.tsv, which says what three other programs decode them to.
use crate::oracle;
use crate::pictures::Picture;
use std::path::Path;

pub struct Image {
    pub name: String,
    pub message: Vec<u8>,
    /// Width, height, channels and colour space, and the SHA-256 of the pixels, for each program that decoded it.
    pub expected: Vec<([u64; 4], String)>,
}

impl Image {
    /// As the Rust decodes it.
    fn picture(&self, channels: u64) -> Picture {
        let [width, height, ..] = oracle::header(&self.message).figures;
        let mut pixels = vec![0; (width * height * channels) as usize];
        let answer = oracle::decode(&self.message, channels, &mut pixels);
        assert!(answer.is_accepted(), "{}: {answer}", self.name);
        Picture {
            width: width as u32,
            height: height as u32,
            channels: channels as usize,
            pixels,
        }
    }

    fn channels(&self) -> u64 {
        oracle::header(&self.message).figures[2]
    }

    /// Those of three channels are.
    pub fn is_photograph(&self) -> bool {
        self.channels() == 3
    }

    /// The picture with its own channels; a photograph also with four.
    pub fn pictures(&self) -> Vec<(String, Picture)> {
        let mut pictures = vec![(self.name.clone(), self.picture(self.channels()))];
        if self.is_photograph() {
            pictures.push((format!("{}, 4", self.name), self.picture(4)));
        }
        pictures
    }
}

/// One line of expected.tsv: file, width, height, channels, colour space, program, SHA-256.
fn line(text: &str) -> Option<(&str, ([u64; 4], String))> {
    let words: Vec<&str> = text.split('\t').collect();
    match words[..] {
        [name, w, h, c, s, _, sum] => {
            let figures = [
                w.parse().ok()?,
                h.parse().ok()?,
                c.parse().ok()?,
                s.parse().ok()?,
            ];
            Some((name, (figures, sum.trim().to_string())))
        }
        _ => None,
    }
}

/// In the order of expected.tsv; empty where the folder has no such file.
pub fn read(folder: &Path) -> Vec<Image> {
    let text = std::fs::read_to_string(folder.join("expected.tsv")).unwrap_or_default();
    let mut images: Vec<Image> = Vec::new();
    for (name, expected) in text.lines().filter_map(line) {
        if images.last().map_or(true, |last| last.name != name) {
            let message =
                std::fs::read(folder.join(name)).unwrap_or_else(|e| panic!("{name}: {e}"));
            images.push(Image {
                name: name.to_string(),
                message,
                expected: Vec::new(),
            });
        }
        let last = images.last_mut().expect("one was pushed");
        last.expected.push(expected);
    }
    images
}
