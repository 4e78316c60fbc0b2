//! Rain that is made up: a low with its bands, and showers behind it; an hour of it, or a month in which such lows pass. It is the same on every
//! machine, for it takes only sums, products and quotients, and no function whose last digits a library decides.
use std::num::NonZeroUsize;
use std::thread::{available_parallelism, scope};

/// Hours from one low of the month to the next.
const PASSAGE: usize = 62;

/// A map of an hour's rain. Places on it are measured in its height.
pub struct Map {
    /// Cells in a row.
    pub width: usize,
    /// Rows.
    pub height: usize,
    /// Where the low is, from the left and from the top.
    low: (f64, f64),
    /// How far on the clouds are taken from the noise.
    clouds: f64,
    /// How many of the clouds' finest scales are left out: those that are narrower than a cell.
    left_out: u32,
    /// How much a cloud holds before it rains.
    held: f64,
}

impl Map {
    /// The hour that a worker is killed over.
    pub fn storm() -> Self {
        Self {
            width: 2_000,
            height: 1_600,
            low: (0.62, 0.4),
            clouds: 0.0,
            left_out: 0,
            held: 1.42,
        }
    }

    /// An hour of the month: its low comes from the left and leaves to the right, on a way of its own.
    pub fn of_month(width: usize, height: usize, hour: usize) -> Self {
        let low = (hour / PASSAGE) as i64;
        let passed = (hour % PASSAGE) as f64 / PASSAGE as f64;
        let (first, last) = (by_chance(low, 1), by_chance(low, 2));
        Self {
            width,
            height,
            low: (between(-0.6, 2.1, passed), between(first, last, passed)),
            clouds: 17.0 * low as f64 + 3.0 * passed,
            left_out: 3,
            held: 1.6,
        }
    }

    /// Each cell's rain in hundredths of a millimetre, drawn by as many threads as the machine has room for.
    pub fn cells(&self) -> Vec<u32> {
        let mut cells = vec![0; self.width * self.height];
        let threads = available_parallelism().map_or(1, NonZeroUsize::get);
        let rows = self.height / threads + 1;
        scope(|threads| {
            for (place, part) in cells.chunks_mut(rows * self.width).enumerate() {
                threads.spawn(move || self.draw(place * rows, part));
            }
        });
        cells
    }

    /// Draws the cells of whole rows, from one on.
    fn draw(&self, first: usize, cells: &mut [u32]) {
        let side = self.height as f64;
        for (place, cell) in cells.iter_mut().enumerate() {
            let (column, row) = (place % self.width, first + place / self.width);
            *cell = self.rain(column as f64 / side, row as f64 / side);
        }
    }

    /// The rain at a place, in hundredths of a millimetre.
    fn rain(&self, x: f64, y: f64) -> u32 {
        let (u, v) = turned(x - self.low.0, y - self.low.1);
        let clouds = |x: f64, y: f64, scales| clouds(x + self.clouds, y, scales);
        // the band bends as the air does
        let off = u + 0.3 * (clouds(2.0 * u + 40.0, 2.0 * v, 3) - 0.5);
        let band = 1.0 / (1.0 + off * off / 0.008);
        let texture = clouds(8.0 * u, 5.0 * v + 70.0, 7 - self.left_out);
        let showers = clouds(14.0 * u + 20.0, 14.0 * v, 5 - self.left_out)
            * clouds(3.0 * u, 3.0 * v + 90.0, 2);
        let wet = (0.6 * band + 1.5 * texture + 1.3 * showers - self.held).max(0.0);
        (6_000.0 * wet * wet) as u32
    }
}

/// Cells as pixels: four bytes each, the highest first.
pub fn packed(cells: &[u32]) -> Vec<u8> {
    cells.iter().flat_map(|cell| cell.to_be_bytes()).collect()
}

/// A place turned about the low, the more the nearer it is.
fn turned(x: f64, y: f64) -> (f64, f64) {
    // half the angle's tangent gives its cosine and sine without a library
    let half = 1.6 / (1.0 + 7.0 * (x * x + y * y));
    let cosine = (1.0 - half * half) / (1.0 + half * half);
    let sine = 2.0 * half / (1.0 + half * half);
    (cosine * x - sine * y, sine * x + cosine * y)
}

/// Smooth noise from 0 to 1 at several scales, each half as wide and half as strong as the one before.
fn clouds(x: f64, y: f64, scales: u32) -> f64 {
    let (mut sum, mut all, mut strength, mut scale) = (0.0, 0.0, 1.0, 1.0);
    for _ in 0..scales {
        sum += strength * noise(x * scale, y * scale);
        all += strength;
        strength /= 2.0;
        scale *= 2.0;
    }
    sum / all
}

/// Smooth noise from 0 to 1: a number by chance at each whole place, and between them a curve.
fn noise(x: f64, y: f64) -> f64 {
    let (left, top) = (x.floor(), y.floor());
    let (across, down) = (curve(x - left), curve(y - top));
    let corner = |right: i64, below: i64| by_chance(left as i64 + right, top as i64 + below);
    let upper = between(corner(0, 0), corner(1, 0), across);
    let lower = between(corner(0, 1), corner(1, 1), across);
    between(upper, lower, down)
}

fn between(from: f64, to: f64, share: f64) -> f64 {
    from + (to - from) * share
}

/// From 0 to 1, level at both ends.
fn curve(share: f64) -> f64 {
    share * share * (3.0 - 2.0 * share)
}

/// A number from 0 to 1 that the place alone decides.
fn by_chance(x: i64, y: i64) -> f64 {
    let mut number = x as u64 ^ (y as u64).rotate_left(32);
    for _ in 0..2 {
        number = (number ^ number >> 29).wrapping_mul(0x9e37_79b9_7f4a_7c15);
    }
    (number >> 32) as f64 / u32::MAX as f64
}

#[cfg(test)]
mod tests {
    use super::*;

    #[test]
    fn most_cells_are_dry_and_some_have_much() {
        // one cell of each 256 is enough
        let storm = Map::storm();
        let at = |place: usize| {
            let (column, row) = (place % 125, place / 125);
            storm.rain(column as f64 / 100.0, row as f64 / 100.0)
        };
        let rain: Vec<u32> = (0..12_500).map(at).collect();
        assert!(rain.iter().filter(|&&rain| rain == 0).count() > rain.len() / 2);
        assert!((1_000..10_000).contains(rain.iter().max().unwrap()));
    }

    #[test]
    fn every_row_is_drawn_where_it_is() {
        let map = Map::of_month(6, 5, PASSAGE / 2);
        let at = |place: usize| map.rain((place % 6) as f64 / 5.0, (place / 6) as f64 / 5.0);
        let cells: Vec<u32> = (0..30).map(at).collect();
        assert!(cells.iter().any(|&rain| rain > 0));
        assert_eq!(map.cells(), cells);
    }

    #[test]
    fn the_low_of_a_month_moves_on_and_another_follows() {
        let lows: Vec<_> = (0..=PASSAGE)
            .map(|hour| Map::of_month(3, 2, hour).low)
            .collect();
        assert!(lows[..PASSAGE].windows(2).all(|two| two[0].0 < two[1].0));
        assert_eq!(lows[0].0, lows[PASSAGE].0);
        assert_ne!(lows[0].1, lows[PASSAGE].1);
    }

    #[test]
    fn a_cell_is_packed_with_its_highest_byte_first() {
        assert_eq!(
            packed(&[1, 0x1234_5678]),
            [0, 0, 0, 1, 0x12, 0x34, 0x56, 0x78]
        );
    }
}
