// The pictures that are encoded, for messages to decode and for encode's own cases.

/// Numbers that are the same in each run.
pub struct Numbers(pub u64);

impl Numbers {
    pub fn below(&mut self, bound: u64) -> u64 {
        self.0 ^= self.0 << 13;
        self.0 ^= self.0 >> 7;
        self.0 ^= self.0 << 17;
        (self.0 >> 20) % bound
    }

    pub fn byte(&mut self) -> u8 {
        self.below(256) as u8
    }
}

/// What the pixels of a picture look like.
#[derive(Clone, Copy)]
pub enum Texture {
    Black,
    Runs,
    Slow,
    Steep,
    Noise,
    FewColours,
    Doubled,
    Alpha,
    Faded,
}

pub const TEXTURES: [Texture; 9] = [
    Texture::Black,
    Texture::Runs,
    Texture::Slow,
    Texture::Steep,
    Texture::Noise,
    Texture::FewColours,
    Texture::Doubled,
    Texture::Alpha,
    Texture::Faded,
];

pub const COLOURS: [[u8; 4]; 5] = [
    [0, 0, 0, 255],
    [100, 0, 0, 255],
    [0, 0, 0, 0],
    [10, 200, 30, 128],
    [255, 255, 255, 255],
];

/// The colour at place i of a picture.
fn colour(texture: Texture, i: u8, numbers: &mut Numbers) -> [u8; 4] {
    let noise = [0; 4].map(|_| numbers.byte());
    match texture {
        Texture::Black => [0, 0, 0, 255],
        Texture::Runs => COLOURS[usize::from(i / 9) % 5],
        Texture::Slow => [i, i.wrapping_mul(255), i / 2, 255],
        Texture::Steep => [
            i.wrapping_mul(9),
            i.wrapping_mul(13),
            i.wrapping_mul(16),
            255,
        ],
        Texture::Noise => noise,
        Texture::FewColours => COLOURS[usize::from(noise[0]) % 5],
        Texture::Doubled => COLOURS[usize::from(i / 2 * 3) % 5],
        Texture::Alpha => [20, 40, 60, noise[0] / 64 * 80],
        Texture::Faded => [noise[0] % 4, noise[1] % 4, i, 255 - i / 4 * 4],
    }
}

/// The pixels of a picture.
pub fn pixels(texture: Texture, size: (u32, u32), channels: u8) -> Vec<u8> {
    let mut numbers = Numbers(0x9e37_79b9_7f4a_7c15 ^ u64::from(size.0 * 1_000 + size.1));
    let mut pixels = Vec::new();
    for i in 0..size.0 * size.1 {
        let colour = colour(texture, i as u8, &mut numbers);
        pixels.extend(&colour[..usize::from(channels)]);
    }
    pixels
}
