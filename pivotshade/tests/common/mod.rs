// What the tests share: random numbers that are the same on every run, pictures, and messages put together by hand.
#![allow(dead_code)] // no test uses all of it

// the test host's own
#[path = "../../../host/src/random.rs"]
mod random;
pub use random::Random;

/// A picture in which every kind of chunk is likely: repeats, colours seen before, small and large differences, alpha changed now and then.
pub fn picture(random: &mut Random, pixels: usize, channels: usize) -> Vec<u8> {
    let mut colours = [[0, 0, 0, 255]; 5];
    let mut colour = colours[0];
    let mut bytes = Vec::new();
    for _ in 0..pixels {
        match random.below(8) {
            0..=2 => {}
            3 => colour = colours[random.below(5)],
            4 => random.fill(&mut colour[..3]),
            5 => random.fill(&mut colour),
            kind => {
                let spread = if kind == 6 { 4 } else { 24 };
                for byte in &mut colour[..3] {
                    *byte = byte.wrapping_add((random.below(spread)) as u8);
                }
            }
        }
        colours[random.below(5)] = colour;
        bytes.extend(&colour[..channels]);
    }
    bytes
}

/// A header's fourteen bytes, right or wrong.
pub fn header(magic: &[u8; 4], width: u32, height: u32, channels: u8, colorspace: u8) -> Vec<u8> {
    let mut bytes = magic.to_vec();
    bytes.extend(width.to_be_bytes());
    bytes.extend(height.to_be_bytes());
    bytes.extend([channels, colorspace]);
    bytes
}

/// A message of these chunks in one row, sRGB, with its marker.
pub fn message(width: u32, channels: u8, chunks: &[u8]) -> Vec<u8> {
    let mut bytes = header(b"qoif", width, 1, channels, 0);
    bytes.extend(chunks);
    bytes.extend([0, 0, 0, 0, 0, 0, 0, 1]);
    bytes
}
