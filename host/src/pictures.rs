// Pictures: small ones of many textures, from which good messages are made, and the large ones that the speed is measured on.
use crate::oracle;
use crate::random::Random;

/// Pixels of three or four channels.
pub struct Picture {
    pub width: u32,
    pub height: u32,
    pub channels: usize,
    pub pixels: Vec<u8>,
}

impl Picture {
    /// The first `channels` bytes of what `colour` gives, pixel by pixel.
    fn of(
        width: usize,
        height: usize,
        channels: usize,
        mut colour: impl FnMut(usize, usize) -> [u8; 4],
    ) -> Self {
        let mut pixels = Vec::with_capacity(width * height * channels);
        for y in 0..height {
            for x in 0..width {
                pixels.extend(&colour(x, y)[..channels]);
            }
        }
        Self {
            width: width as u32,
            height: height as u32,
            channels,
            pixels,
        }
    }

    pub fn row(channels: usize, colours: &[[u8; 4]]) -> Self {
        Self::of(colours.len(), 1, channels, |x, _| colours[x])
    }

    /// A part, at most `most` pixels wide and `most` high.
    pub fn part(&self, random: &mut Random, most: usize) -> Self {
        let (width, height) = (self.width as usize, self.height as usize);
        let part = (
            random.between(1, most.min(width)),
            random.between(1, most.min(height)),
        );
        let (left, top) = (
            random.below(width - part.0 + 1),
            random.below(height - part.1 + 1),
        );
        Self::of(part.0, part.1, self.channels, |x, y| {
            let place = ((top + y) * width + left + x) * self.channels;
            let mut colour = [255; 4];
            colour[..self.channels].copy_from_slice(&self.pixels[place..][..self.channels]);
            colour
        })
    }

    pub fn size(&self) -> (u32, u32) {
        (self.width, self.height)
    }

    /// The room that an encode asks for.
    pub fn room(&self) -> usize {
        oracle::room_to_encode(self.width, self.height, self.channels)
    }

    pub fn encoded(&self, colorspace: u8) -> Vec<u8> {
        oracle::message(&self.pixels, self.width, self.height, colorspace)
    }
}

/// What the next pixel is, after `last`: each rule favours other chunks of the encoder.
fn next(random: &mut Random, rule: usize, last: [u8; 4], palette: &[[u8; 4]]) -> [u8; 4] {
    let noise = random.next().to_le_bytes();
    let [r, g, b, a] = last;
    match rule {
        // runs, with now and then another colour
        0 if random.one_in(9) => *random.pick(palette),
        0 => last,
        // steps of DIFF: from -2 to 1
        1 => {
            let near = |c: usize| last[c].wrapping_add(noise[c] % 4).wrapping_sub(2);
            [near(0), near(1), near(2), a]
        }
        // steps of LUMA, and some just beyond
        2 => {
            let green = (noise[0] % 68).wrapping_sub(34);
            let near = |n: u8| green.wrapping_add(n % 18).wrapping_sub(9);
            [
                r.wrapping_add(near(noise[1])),
                g.wrapping_add(green),
                b.wrapping_add(near(noise[2])),
                a,
            ]
        }
        // colours that come again
        3 => *random.pick(palette),
        // noise, opaque as before and with alpha
        4 => [noise[0], noise[1], noise[2], a],
        5 => [noise[0], noise[1], noise[2], noise[3]],
        // only alpha moves
        6 => [r, g, b, a.wrapping_add(noise[0] % 3)],
        // nothing there, mostly
        7 if random.one_in(4) => [noise[0] % 4, 0, 0, noise[1] % 4],
        7 => [0; 4],
        // rain: a number's bytes
        _ => u32::from_be_bytes(last)
            .wrapping_add(u32::from(noise[0] % 40))
            .to_be_bytes(),
    }
}

/// A picture of one texture, or of all of them mixed, with at most `most` pixels.
pub fn textured(random: &mut Random, most: usize) -> Picture {
    let channels = random.between(3, 4);
    let width = random.between(1, most);
    let height = random.between(1, (most / width).min(12));
    let palette: Vec<[u8; 4]> = (0..random.between(1, 6))
        .map(|_| (random.next() as u32).to_le_bytes())
        .collect();
    let mut rule = random.below(10);
    let mixed = rule == 9;
    let mut last = [0, 0, 0, 255];
    if random.one_in(2) {
        last = palette[0];
    }
    Picture::of(width, height, channels, |_, _| {
        if mixed {
            rule = random.below(9);
        }
        last = next(random, rule, last, &palette);
        last
    })
}

pub const WIDTH: usize = 1024;
const HEIGHT: usize = 512;

/// An hour's rain, or a part of it: showers with dry land between them, a number to a pixel, its high bytes first.
fn showers(
    random: &mut Random,
    (left, top): (usize, usize),
    (width, height): (usize, usize),
    channels: usize,
) -> Picture {
    Picture::of(width, height, channels, |x, y| {
        let (x, y) = (left + x, top + y);
        let shower = ((x as f64 / 37.0).sin() * (y as f64 / 23.0).cos() * 2000.0).max(0.0) as u32;
        let gust = if x * y % 7 == 0 {
            random.below(40) as u32
        } else {
            0
        };
        ((shower + gust) << (8 * (4 - channels))).to_be_bytes()
    })
}

fn rain(channels: usize) -> Picture {
    showers(&mut Random::new(1), (0, 0), (WIDTH, HEIGHT), channels)
}

/// The upper left corner of a rain field.
pub fn corner(side: usize, channels: usize) -> Picture {
    showers(&mut Random::new(1), (0, 0), (side, side), channels)
}

/// `height` rows of a rain field of any height, from the row `top` on.
pub fn rows_of_rain(random: &mut Random, top: usize, height: usize) -> Picture {
    showers(random, (0, top), (WIDTH, height), 4)
}

/// A part of a rain field with at most `most` pixels.
pub fn part_of_rain(random: &mut Random, most: usize) -> Picture {
    let place = (random.below(WIDTH), random.below(HEIGHT));
    let width = random.between(1, most);
    let height = random.between(1, most / width);
    let channels = random.between(3, 4);
    showers(random, place, (width, height), channels)
}

/// A page of text with soft edges: dark on white with three channels, on nothing with four.
fn page(channels: usize) -> Picture {
    let mut random = Random::new(2);
    let glyphs: Vec<u64> = (0..40).map(|_| random.next() & random.next()).collect();
    let columns = WIDTH / 8;
    let letters: Vec<usize> = (0..columns * HEIGHT / 16)
        .map(|_| random.below(glyphs.len() + 8))
        .collect();
    Picture::of(WIDTH, HEIGHT, channels, |x, y| {
        let glyph = glyphs
            .get(letters[y / 16 * columns + x / 8])
            .copied()
            .unwrap_or(0);
        let is_inked = |x: usize, y: usize| {
            x % 8 != 7 && y % 16 < 12 && glyph >> (y % 16 / 2 * 8 + x % 8) & 1 == 1
        };
        let ink = if is_inked(x, y) {
            255
        } else if is_inked(x + 1, y) {
            96
        } else {
            0
        };
        match (channels, ink) {
            (3, _) => [255 - ink, 255 - ink, 255 - ink / 2, 255],
            (_, 0) => [0; 4],
            _ => [20, 20, 60, ink],
        }
    })
}

fn flat(channels: usize) -> Picture {
    Picture::of(WIDTH, HEIGHT, channels, |_, _| [10, 200, 30, 255])
}

fn noise(channels: usize) -> Picture {
    let mut random = Random::new(3);
    Picture::of(WIDTH, HEIGHT, channels, |_, _| {
        (random.next() as u32).to_le_bytes()
    })
}

/// What the names of rain fields begin with.
pub const RAIN: &str = "rain field";

/// The large ones, each with three channels and with four, and their names.
pub fn large() -> Vec<(String, Picture)> {
    type Make = fn(usize) -> Picture;
    let made: [(&str, Make); 4] = [
        ("page of text", page),
        (RAIN, rain),
        ("flat", flat),
        ("noise", noise),
    ];
    let mut pictures = Vec::new();
    for (name, make) in made {
        for channels in [3, 4] {
            pictures.push((format!("{name}, {channels}"), make(channels)));
        }
    }
    pictures
}
