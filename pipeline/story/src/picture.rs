//! A picture of panels side by side, each of them a map of rain or a picture.
use crate::font;
use crate::png::png;
use std::ops::Range;

type Colour = [u8; 3];

const PAPER: Colour = [255, 255, 255];
const INK: Colour = [48, 52, 60];
const FRAME: Colour = [176, 180, 186];
/// What was not written yet is hatched.
const MISSING: [Colour; 2] = [[92, 96, 104], [112, 116, 124]];
/// The line where the record stands.
const RECORD: Colour = [232, 76, 36];

/// The most that a panel measures.
const PANEL: (usize, usize) = (400, 400);
const MARGIN: usize = 12;
/// How wide are a caption's dot, the record's line, a stripe of the hatch, and a square behind what is transparent.
const DOT: usize = 2;
const LINE: usize = 2;
const HATCH: usize = 5;
const SQUARE: usize = 8;

/// The colours of rain, from the least on.
const RAIN: [Colour; 11] = [
    [244, 245, 243],
    [218, 233, 246],
    [186, 215, 238],
    [143, 190, 225],
    [98, 160, 208],
    [60, 128, 189],
    [42, 96, 166],
    [46, 66, 142],
    [74, 46, 134],
    [110, 36, 146],
    [158, 28, 142],
];

/// From how many hundredths of a millimetre on rain has each of the colours.
pub type Classes = [u64; RAIN.len()];

/// Those of an hour, and those of a month.
pub const OF_AN_HOUR: Classes = [0, 4, 20, 50, 100, 200, 400, 700, 1_000, 1_500, 2_500];
pub const OF_A_MONTH: Classes = [
    0, 5_000, 10_000, 15_000, 20_000, 25_000, 30_000, 35_000, 40_000, 45_000, 50_000,
];

/// What all panels of a picture have in common.
pub struct Grid {
    /// Pixels in a row.
    pub width: usize,
    /// Rows.
    pub height: usize,
    /// Bytes of a pixel.
    pub channels: usize,
    /// The classes of its rain, where a pixel is rain and no colour.
    pub classes: Option<&'static Classes>,
}

impl Grid {
    /// How many pixels it has.
    pub fn size(&self) -> usize {
        self.width * self.height
    }
}

/// One of the panels.
pub struct Panel<'a> {
    /// What stands over it.
    pub caption: &'a str,
    /// What stands under it, if anything does.
    pub note: String,
    /// The bytes that it shows.
    pub bytes: &'a [u8],
    /// How many pixels, from the first on, were written.
    pub written: usize,
    /// How many of them a record speaks of, where that is marked.
    pub recorded: Option<usize>,
}

impl<'a> Panel<'a> {
    /// One whose pixels were all written.
    pub fn whole(grid: &Grid, caption: &'a str, bytes: &'a [u8]) -> Self {
        Self {
            caption,
            note: String::new(),
            bytes,
            written: grid.size(),
            recorded: None,
        }
    }
}

/// The picture as a PNG file.
pub fn draw(grid: &Grid, panels: &[Panel]) -> Vec<u8> {
    let (width, height) = fitted(grid.width, grid.height);
    let texts = panels.iter().flat_map(|panel| [panel.caption, &panel.note]);
    let widest = texts.map(|text| DOT * font::width(text)).max();
    let column = widest.unwrap_or(0).max(width) + MARGIN;
    let line = MARGIN + DOT * font::HEIGHT;
    let (top, bottom) = (MARGIN + line, MARGIN + line + height);
    let has_notes = panels.iter().any(|panel| !panel.note.is_empty());
    let under = MARGIN + usize::from(has_notes) * line;
    let mut canvas = Canvas::new(panels.len() * column + MARGIN, bottom + under);
    for (place, panel) in panels.iter().enumerate() {
        let left = MARGIN + place * column;
        canvas.write(left, MARGIN, panel.caption);
        canvas.write(left, bottom + MARGIN, &panel.note);
        canvas.fill(left - 1..left + width + 1, top - 1..bottom + 1, FRAME);
        panel.draw(grid, &mut canvas, left..left + width, top..bottom);
    }
    png(canvas.width, canvas.height, &canvas.rgb, column)
}

/// The width and height of a panel: as large as may be, in the same proportion.
fn fitted(width: usize, height: usize) -> (usize, usize) {
    match width * PANEL.1 > height * PANEL.0 {
        true => (PANEL.0, (PANEL.0 * height / width).max(1)),
        false => ((PANEL.1 * width / height).max(1), PANEL.1),
    }
}

/// The pixels, of so many, that a dot of the panel stands for: one at least.
fn covered(dot: usize, dots: usize, pixels: usize) -> Range<usize> {
    let first = dot * pixels / dots;
    first..((dot + 1) * pixels / dots).max(first + 1)
}

impl Panel<'_> {
    fn draw(&self, grid: &Grid, canvas: &mut Canvas, across: Range<usize>, down: Range<usize>) {
        for y in 0..down.len() {
            let rows = covered(y, down.len(), grid.height);
            for x in 0..across.len() {
                let columns = covered(x, across.len(), grid.width);
                let colour = match self.is_written(grid, &columns, &rows) {
                    true => self.colour(grid, columns, rows.clone(), [x, y]),
                    false => MISSING[(x + y) / HATCH % 2],
                };
                canvas.set(across.start + x, down.start + y, colour);
            }
        }
        if let Some(recorded) = self.recorded {
            let line = down.start + recorded / grid.width * down.len() / grid.height;
            canvas.fill(across, line..down.end.min(line + LINE), RECORD);
        }
    }

    /// Whether the last of these pixels was written, and so all of them.
    fn is_written(&self, grid: &Grid, columns: &Range<usize>, rows: &Range<usize>) -> bool {
        (rows.end - 1) * grid.width + columns.end - 1 < self.written
    }

    /// The mean colour of these pixels, at a dot of the panel.
    fn colour(
        &self,
        grid: &Grid,
        columns: Range<usize>,
        rows: Range<usize>,
        dot: [usize; 2],
    ) -> Colour {
        let count = (columns.len() * rows.len()) as u64;
        let pixels = rows.flat_map(|row| {
            let first = row * grid.width;
            let bytes =
                grid.channels * (first + columns.start)..grid.channels * (first + columns.end);
            self.bytes[bytes].chunks_exact(grid.channels)
        });
        match grid.classes {
            Some(classes) => colour_of_rain(pixels.map(rain).sum::<u64>() / count, classes),
            None => mean_over_squares(pixels, count, dot),
        }
    }
}

/// A cell's rain, in hundredths of a millimetre: its bytes as one number, the highest first.
fn rain(cell: &[u8]) -> u64 {
    cell.iter().fold(0, |sum, &byte| sum << 8 | u64::from(byte))
}

fn colour_of_rain(rain: u64, classes: &Classes) -> Colour {
    let reached = classes.iter().rposition(|&from| from <= rain);
    RAIN[reached.expect("the first is from 0 on")]
}

/// The mean of pixels that lie, with their alpha, over squares of two greys.
fn mean_over_squares<'a>(
    pixels: impl Iterator<Item = &'a [u8]>,
    count: u64,
    dot: [usize; 2],
) -> Colour {
    let under = match (dot[0] / SQUARE + dot[1] / SQUARE) % 2 {
        0 => 255,
        _ => 216,
    };
    let mut sums = [0; 3];
    for pixel in pixels {
        let alpha = u64::from(pixel.get(3).copied().unwrap_or(255));
        for (sum, &byte) in sums.iter_mut().zip(pixel) {
            *sum += u64::from(byte) * alpha + under * (255 - alpha);
        }
    }
    sums.map(|sum| (sum / 255 / count) as u8)
}

/// The picture's dots.
struct Canvas {
    width: usize,
    height: usize,
    rgb: Vec<u8>,
}

impl Canvas {
    fn new(width: usize, height: usize) -> Self {
        Self {
            width,
            height,
            rgb: PAPER.repeat(width * height),
        }
    }

    fn set(&mut self, x: usize, y: usize, colour: Colour) {
        let place = 3 * (y * self.width + x);
        self.rgb[place..place + 3].copy_from_slice(&colour);
    }

    fn fill(&mut self, columns: Range<usize>, rows: Range<usize>, colour: Colour) {
        for y in rows {
            for x in columns.clone() {
                self.set(x, y, colour);
            }
        }
    }

    fn write(&mut self, left: usize, top: usize, text: &str) {
        for (x, y) in font::dots(text) {
            let (x, y) = (left + DOT * x, top + DOT * y);
            self.fill(x..x + DOT, y..y + DOT, INK);
        }
    }
}

#[cfg(test)]
mod tests {
    use super::*;

    #[test]
    fn a_panel_keeps_the_proportion() {
        assert_eq!(fitted(2_000, 1_600), (400, 320));
        assert_eq!(fitted(10, 20), (200, 400));
        assert_eq!(fitted(4_000_000, 1), (400, 1));
        assert_eq!(fitted(1, 4_000_000), (1, 400));
    }

    #[test]
    fn every_pixel_is_covered_once_or_spread() {
        let ends: Vec<_> = (0..4).map(|dot| covered(dot, 4, 10)).collect();
        assert_eq!(ends, [0..2, 2..5, 5..7, 7..10]);
        let ends: Vec<_> = (0..4).map(|dot| covered(dot, 4, 2)).collect();
        assert_eq!(ends, [0..1, 0..1, 1..2, 1..2]);
    }

    #[test]
    fn what_is_transparent_shows_the_squares() {
        let clear: [&[u8]; 1] = [&[9, 9, 9, 0]];
        let mean = |dot| mean_over_squares(clear.into_iter(), 1, dot);
        assert_eq!(mean([0, 0]), [255; 3]);
        assert_eq!(mean([SQUARE, 0]), [216; 3]);
        let full: [&[u8]; 2] = [&[10, 20, 30], &[20, 30, 40]];
        assert_eq!(mean_over_squares(full.into_iter(), 2, [0, 0]), [15, 25, 35]);
    }

    #[test]
    fn rain_has_the_colour_of_its_class() {
        let colour = |cell: &[u8]| colour_of_rain(rain(cell), &OF_AN_HOUR);
        assert_eq!(colour(&[0, 0, 0, 3]), RAIN[0]);
        assert_eq!(colour(&[0, 0, 0, 4]), RAIN[1]);
        assert_eq!(colour(&[1, 0, 0, 0]), RAIN[10]);
        assert_eq!(colour(&[0, 0, 0, 0, 0, 0, 1, 0]), RAIN[5]);
    }
}
