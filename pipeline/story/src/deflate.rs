//! Deflate (RFC 1951) in one block of the fixed codes. Matches are looked for only at the distances at which a picture repeats itself.

/// The lengths that a match may have.
const SHORTEST: usize = 3;
const LONGEST: usize = 258;
/// The symbol that ends the block; those of lengths follow.
const END: usize = 256;

/// The bytes, packed by matches at these distances back, each from 1 to 32,768.
pub fn deflate(bytes: &[u8], distances: &[usize]) -> Vec<u8> {
    let mut bits = Bits::default();
    // the last block, with the fixed codes
    bits.put(0b011, 3);
    let mut at = 0;
    while at < bytes.len() {
        match longest(bytes, at, distances) {
            Some((length, distance)) => {
                bits.put_length(length);
                bits.put_distance(distance);
                at += length;
            }
            None => {
                bits.put_symbol(bytes[at].into());
                at += 1;
            }
        }
    }
    bits.put_symbol(END);
    bits.packed
}

/// The length and the distance of the longest match at a place.
fn longest(bytes: &[u8], at: usize, distances: &[usize]) -> Option<(usize, usize)> {
    let within = distances.iter().filter(|&&distance| distance <= at);
    let matches = within.map(|&distance| {
        let pairs = bytes[at - distance..].iter().zip(&bytes[at..]);
        let same = pairs.take(LONGEST).take_while(|(a, b)| a == b);
        (same.count(), distance)
    });
    matches.max().filter(|&(length, _)| length >= SHORTEST)
}

/// Bits, packed from the lowest of each byte on.
#[derive(Default)]
struct Bits {
    packed: Vec<u8>,
    /// How many bits of the last byte are taken, from 1 to 8; 0 where there is none.
    taken: u32,
}

impl Bits {
    /// The lowest `count` bits of a number, the lowest first.
    fn put(&mut self, number: u32, count: u32) {
        for place in 0..count {
            if self.taken % 8 == 0 {
                self.packed.push(0);
                self.taken = 0;
            }
            let last = self.packed.last_mut().expect("one was pushed");
            *last |= ((number >> place & 1) as u8) << self.taken;
            self.taken += 1;
        }
    }

    /// A code, which is the one kind of number whose highest bit is first.
    fn put_code(&mut self, code: usize, count: u32) {
        self.put((code as u32).reverse_bits() >> (32 - count), count);
    }

    /// A literal, the end, or a length's symbol, by its fixed code.
    fn put_symbol(&mut self, symbol: usize) {
        match symbol {
            0..=143 => self.put_code(0x30 + symbol, 8),
            144..=255 => self.put_code(0x190 + symbol - 144, 9),
            256..=279 => self.put_code(symbol - 256, 7),
            _ => self.put_code(0xc0 + symbol - 280, 8),
        }
    }

    fn put_length(&mut self, length: usize) {
        if length == LONGEST {
            return self.put_symbol(END + 29);
        }
        let (symbol, rest, extra) = class(length - SHORTEST, 4);
        self.put_symbol(END + 1 + symbol);
        self.put(rest, extra);
    }

    fn put_distance(&mut self, distance: usize) {
        let (symbol, rest, extra) = class(distance - 1, 2);
        self.put_code(symbol, 5);
        self.put(rest, extra);
    }
}

/// The class of a number, where `each` classes have no extra bits, and as many again for each count of them: the class, what is left, its bits.
fn class(number: usize, each: usize) -> (usize, u32, u32) {
    let (mut class, mut first, mut extra) = (0, 0, 0);
    // the first classes without extra bits are twice as many
    while number >= first + (1 << extra) {
        first += 1 << extra;
        class += 1;
        if class >= 2 * each && class % each == 0 {
            extra += 1;
        }
    }
    (class, (number - first) as u32, extra)
}

#[cfg(test)]
pub mod tests {
    use super::*;

    /// Reads a block of the fixed codes back.
    pub fn inflate(packed: &[u8]) -> Vec<u8> {
        let mut reader = Reader { packed, at: 0 };
        assert_eq!(reader.bits(3), 0b011);
        let mut bytes = Vec::new();
        loop {
            match reader.symbol() {
                END => return bytes,
                literal @ 0..=255 => bytes.push(literal as u8),
                symbol => {
                    let length = reader.length(symbol);
                    let distance = reader.distance();
                    for _ in 0..length {
                        bytes.push(bytes[bytes.len() - distance]);
                    }
                }
            }
        }
    }

    struct Reader<'a> {
        packed: &'a [u8],
        at: usize,
    }

    impl Reader<'_> {
        fn bits(&mut self, count: u32) -> usize {
            (0..count).map(|place| self.code(1) << place).sum()
        }

        fn code(&mut self, count: u32) -> usize {
            (0..count).fold(0, |code, _| {
                let bit = self.packed[self.at / 8] >> (self.at % 8) & 1;
                self.at += 1;
                code << 1 | usize::from(bit)
            })
        }

        fn symbol(&mut self) -> usize {
            let seven = self.code(7);
            if seven < 24 {
                return 256 + seven;
            }
            let eight = seven << 1 | self.code(1);
            match eight {
                0x30..=0xbf => eight - 0x30,
                0xc0..=0xc7 => 280 + eight - 0xc0,
                _ => 144 + (eight << 1 | self.code(1)) - 0x190,
            }
        }

        /// By the table of RFC 1951, 3.2.5.
        fn length(&mut self, symbol: usize) -> usize {
            const FIRST: [usize; 29] = [
                3, 4, 5, 6, 7, 8, 9, 10, 11, 13, 15, 17, 19, 23, 27, 31, 35, 43, 51, 59, 67, 83,
                99, 115, 131, 163, 195, 227, 258,
            ];
            const EXTRA: [u32; 29] = [
                0, 0, 0, 0, 0, 0, 0, 0, 1, 1, 1, 1, 2, 2, 2, 2, 3, 3, 3, 3, 4, 4, 4, 4, 5, 5, 5, 5,
                0,
            ];
            FIRST[symbol - 257] + self.bits(EXTRA[symbol - 257])
        }

        fn distance(&mut self) -> usize {
            const FIRST: [usize; 30] = [
                1, 2, 3, 4, 5, 7, 9, 13, 17, 25, 33, 49, 65, 97, 129, 193, 257, 385, 513, 769,
                1025, 1537, 2049, 3073, 4097, 6145, 8193, 12289, 16385, 24577,
            ];
            const EXTRA: [u32; 30] = [
                0, 0, 0, 0, 1, 1, 2, 2, 3, 3, 4, 4, 5, 5, 6, 6, 7, 7, 8, 8, 9, 9, 10, 10, 11, 11,
                12, 12, 13, 13,
            ];
            let symbol = self.code(5);
            FIRST[symbol] + self.bits(EXTRA[symbol])
        }
    }

    fn noise(length: usize, kinds: u32) -> Vec<u8> {
        let mut state = 1u32;
        let mut next = || {
            state = state.wrapping_mul(1_664_525).wrapping_add(1_013_904_223);
            ((state >> 16) % kinds) as u8
        };
        (0..length).map(|_| next()).collect()
    }

    #[test]
    fn what_is_packed_comes_back() {
        for length in (0..300).chain([70_000]) {
            for kinds in [1, 2, 5, 256] {
                let bytes = noise(length, kinds);
                let packed = deflate(&bytes, &[1, 2, 3, 100]);
                assert_eq!(inflate(&packed), bytes, "{length} bytes of {kinds}");
            }
        }
    }

    #[test]
    fn every_length_comes_back() {
        let mut bytes = noise(1_000, 256);
        for length in SHORTEST..=LONGEST {
            let from = bytes.len() - 1_000;
            bytes.extend_from_within(from..from + length);
            bytes.extend(noise(5, 256));
        }
        let packed = deflate(&bytes, &[1_000]);
        assert_eq!(inflate(&packed), bytes);
        assert!(packed.len() < bytes.len() / 8);
    }

    #[test]
    fn every_distance_comes_back() {
        let once = noise(32_768, 256);
        for distance in (1..600).chain([8_192, 8_193, 16_384, 16_385, 24_576, 24_577, 32_768]) {
            let bytes = once[..distance].repeat(2);
            assert_eq!(inflate(&deflate(&bytes, &[distance])), bytes, "{distance}");
        }
    }
}
