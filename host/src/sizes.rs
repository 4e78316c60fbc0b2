// What a pixel costs in pictures of 2^10 to 2^26 pixels: the same where the cost is linear. A picture is some rows of
// a rain field of four channels, and of the smaller ones so many are taken that they make up 2^20 pixels: what is
// decoded is alike, and no picture comes again before the others.
use crate::pictures::{self, Picture, WIDTH};
use crate::port;
use crate::random::Random;
use std::time::{Duration, Instant};

const FIELD: usize = 1 << 20;
const TIME: Duration = Duration::from_millis(500);
const ROUNDS: usize = 3;

/// The nanoseconds a pixel of a decode and of an encode of pictures with so many pixels: the least of some rounds.
fn cost(pixels: usize) -> [f64; 2] {
    let height = pixels / WIDTH;
    let mut random = Random::new(1);
    let tops = (0..pixels.max(FIELD) / WIDTH).step_by(height);
    let mut pictures: Vec<Picture> = tops
        .map(|top| pictures::rows_of_rain(&mut random, top, height))
        .collect();
    let mut streams: Vec<Vec<u8>> = pictures.iter().map(|p| vec![0; p.room()]).collect();
    let mut lengths = vec![0; pictures.len()];
    let each = |start: Instant| start.elapsed().as_nanos() as f64 / pixels.max(FIELD) as f64;
    let (mut decode, mut encode) = (f64::MAX, f64::MAX);
    let end = Instant::now() + TIME;
    let mut rounds = 0;
    while rounds < ROUNDS || Instant::now() < end {
        rounds += 1;
        let start = Instant::now();
        for (i, picture) in pictures.iter().enumerate() {
            let (width, height) = picture.size();
            let answer = port::encode(&picture.pixels, width, height, 0, &mut streams[i]);
            assert!(answer.is_accepted(), "{answer}");
            lengths[i] = answer.figures[0] as usize;
        }
        encode = encode.min(each(start));
        let start = Instant::now();
        for (i, picture) in pictures.iter_mut().enumerate() {
            // to the pixels that it was encoded from, which a decode leaves as they are
            let answer = port::decode(&streams[i][..lengths[i]], 4, &mut picture.pixels);
            assert!(answer.is_accepted(), "{answer}");
        }
        decode = decode.min(each(start));
    }
    [decode, encode]
}

pub fn print() {
    println!("{:>12} {:>12} {:>12}", "pixels", "decode", "encode");
    for exponent in (10..=26).step_by(2) {
        let [decode, encode] = cost(1 << exponent);
        println!(
            "{:>12} {decode:12.2} {encode:12.2}",
            format!("2^{exponent}")
        );
    }
}
