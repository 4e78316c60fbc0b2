// What each step of a decode leaves: its place by the sizes in document 01's table of chunks, its pixels by the Rust's uncut decode.
use crate::answer::Answer;
use crate::oracle;
use crate::record::Record;

/// No output of a case is longer, but those of the images.
pub const MOST: u64 = 1 << 18;

/// Where the decode stands after n steps, and whether the last of them stored its pixel.
struct Place {
    at: usize,
    pixel: usize,
    is_stored: bool,
}

pub struct Trace {
    header: [u8; 14],
    wanted: u64,
    /// The bytes of the whole picture.
    pub needed: u64,
    /// One for each step that has more to do after it, and the start's before them.
    places: Vec<Place>,
    /// Whether the last run is longer than the pixels left.
    pub is_past: bool,
    /// The Rust's answer; 7 for an output of no bytes, where the picture is too long to be lent one.
    pub answer: Answer,
    /// The Rust's output, the bytes that it wrote; zeros after them.
    pub written: Vec<u8>,
}

/// The bytes of a chunk, the pixels it brings, and whether it stores its pixel; none where it is cut short.
fn chunk(bytes: &[u8], channels: u64) -> Option<(usize, usize, bool)> {
    let (size, pixels, is_stored) = match *bytes.first()? {
        0x00..=0x3f => (1, 1, false),
        0x40..=0x7f => (1, 1, true),
        0x80..=0xbf => (2, 1, true),
        run @ 0xc0..=0xfd => (1, usize::from(run - 0xc0) + 1, false),
        0xfe => (4, 1, true),
        0xff if channels == 4 => (5, 1, true),
        // not consumed, but refused with under 8 bytes left
        0xff if bytes.len() < 8 => return None,
        0xff => (0, 1, true),
    };
    (size <= bytes.len()).then(|| (size, pixels, is_stored))
}

impl Trace {
    /// Or why nothing can be started. An output longer than `most` is not lent.
    pub fn new(message: &[u8], wanted: u64, most: u64) -> Result<Self, Answer> {
        let header = oracle::header(message);
        if !header.is_accepted() {
            return Err(header);
        }
        let [width, height, channels, _] = header.figures;
        let needed = oracle::needed(message, wanted).expect("a good header");
        let mut written = vec![0; if needed <= most { needed as usize } else { 0 }];
        let mut answer = oracle::decode(message, wanted, &mut written);
        if answer.number == 2 {
            return Err(answer);
        }
        let (mut at, mut pixel, pixels) = (14, 0, (width * height) as usize);
        let mut places = vec![Place {
            at,
            pixel,
            is_stored: false,
        }];
        let mut is_past = false;
        while pixel < pixels && answer.number != 7 {
            let (size, count, is_stored) = match chunk(&message[at..], channels) {
                Some(chunk) => chunk,
                None => break,
            };
            at += size;
            is_past = count > pixels - pixel;
            pixel = pixels.min(pixel + count);
            places.push(Place {
                at,
                pixel,
                is_stored,
            });
        }
        if answer.is_accepted() {
            answer.figures[1] = at as u64 + 8;
        }
        Ok(Self {
            header: message[..14].try_into().expect("fourteen"),
            wanted,
            needed,
            places,
            is_past,
            answer,
            written,
        })
    }

    /// The steps that have more to do after them; one more ends.
    pub fn steps(&self) -> usize {
        self.places.len() - 1
    }

    /// The pixel position after `steps` steps.
    pub fn pixel(&self, steps: usize) -> usize {
        self.places[steps].pixel
    }

    /// The output's bytes before the pixel position after `steps` steps.
    pub fn bytes(&self, steps: usize) -> usize {
        self.pixel(steps) * self.wanted as usize
    }

    /// The pixels of the picture that are left after `steps` steps.
    pub fn missing(&self, steps: usize) -> usize {
        self.written.len() / self.wanted as usize - self.pixel(steps)
    }

    /// The pixel before a pixel position: the current one.
    fn current(&self, pixel: usize) -> [u8; 4] {
        let mut current = [0, 0, 0, 255];
        if pixel > 0 {
            let wanted = self.wanted as usize;
            current[..wanted].copy_from_slice(&self.written[(pixel - 1) * wanted..][..wanted]);
        }
        current
    }

    /// The record to be written after `steps` steps, where the message came under this number.
    pub fn record(&self, steps: usize, number: u64) -> Record {
        let mut slots = [[0; 4]; 64];
        for place in self.places[..=steps].iter().filter(|p| p.is_stored) {
            let [r, g, b, a] = self.current(place.pixel);
            let sum = 3 * u32::from(r) + 5 * u32::from(g) + 7 * u32::from(b) + 11 * u32::from(a);
            slots[sum as usize % 64] = [r, g, b, a];
        }
        let place = &self.places[steps];
        Record {
            header: self.header,
            wanted: self.wanted,
            at: place.at as u64,
            pixel: place.pixel as u64,
            current: self.current(place.pixel),
            slots,
            number,
        }
    }
}
