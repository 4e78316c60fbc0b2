// The port, called as any Rust program would call it: byte slices and plain numbers in, an answer out. include/pivotshade.h says the same for C.
use crate::answer::Answer;

extern "C" {
    fn pivotshade_header(message: *const u8, length: usize, figures: *mut [u64; 4]) -> u64;
    fn pivotshade_decode(
        message: *const u8,
        length: usize,
        wanted: u64,
        out: *mut u8,
        out_length: usize,
        figures: *mut [u64; 4],
    ) -> u64;
    fn pivotshade_encode(
        pixels: *const u8,
        length: usize,
        width: u32,
        height: u32,
        colorspace: u64,
        out: *mut u8,
        out_length: usize,
        figures: *mut [u64; 4],
    ) -> u64;
    fn pivotshade_strict(message: *const u8, length: usize, figures: *mut [u64; 4]) -> u64;
    fn pivotshade_start(
        message: *const u8,
        length: usize,
        number: u64,
        wanted: u64,
        record: *mut u8,
        record_length: usize,
        figures: *mut [u64; 4],
    ) -> u64;
    fn pivotshade_run(
        message: *const u8,
        length: usize,
        number: u64,
        record: *const u8,
        record_length: usize,
        out: *mut u8,
        out_length: usize,
        steps: u64,
        next: *mut u8,
        next_length: usize,
        figures: *mut [u64; 4],
    ) -> u64;
    fn pivotshade_count(
        message: *const u8,
        length: usize,
        hour: u64,
        frame: *mut u8,
        frame_length: usize,
        totals: *mut u64,
        cells: usize,
        marks: *mut [u8; HOURS],
        figures: *mut [u64; 4],
    ) -> u64;
    fn pivotshade_text(
        number: u64,
        told: *const [u64; 4],
        out: *mut u8,
        out_length: usize,
        figures: *mut [u64; 4],
    ) -> u64;
}

/// What a run answers that has more to do.
pub const MORE: u64 = 256;

/// What a count answers whose hour is marked.
pub const COUNTED_ALREADY: u64 = 257;

/// The hours of a month, each of which has a mark.
pub const HOURS: usize = 744;

/// What the figures hold before a call: each of the four must be written, the zeros too.
const UNWRITTEN: [u64; 4] = [0x5555_5555_5555_5555; 4];

/// Where the decode's code lies.
pub fn place() -> usize {
    pivotshade_decode as *const () as usize
}

/// Width, height, channels and colour space.
pub fn header(message: &[u8]) -> Answer {
    let mut figures = UNWRITTEN;
    // the port reads message[..] alone and writes the four figures alone
    let number = unsafe { pivotshade_header(message.as_ptr(), message.len(), &mut figures) };
    Answer { number, figures }
}

/// Bytes written and message bytes used.
pub fn decode(message: &[u8], wanted: u64, out: &mut [u8]) -> Answer {
    let mut figures = UNWRITTEN;
    let number = decode_lending(message, wanted, out, &mut figures);
    Answer { number, figures }
}

/// The same with the figures lent and not copied: what the call itself costs.
pub fn decode_lending(message: &[u8], wanted: u64, out: &mut [u8], figures: &mut [u64; 4]) -> u64 {
    // the port reads message[..] alone and writes out[..] and the four figures alone
    unsafe {
        pivotshade_decode(
            message.as_ptr(),
            message.len(),
            wanted,
            out.as_mut_ptr(),
            out.len(),
            figures,
        )
    }
}

/// Bytes written.
pub fn encode(pixels: &[u8], width: u32, height: u32, colorspace: u64, out: &mut [u8]) -> Answer {
    let mut figures = UNWRITTEN;
    // the port reads pixels[..] alone and writes out[..] and the four figures alone
    let number = unsafe {
        pivotshade_encode(
            pixels.as_ptr(),
            pixels.len(),
            width,
            height,
            colorspace,
            out.as_mut_ptr(),
            out.len(),
            &mut figures,
        )
    };
    Answer { number, figures }
}

/// Chunks and bytes.
pub fn strict(message: &[u8]) -> Answer {
    let mut figures = UNWRITTEN;
    // the port reads message[..] alone and writes the four figures alone
    let number = unsafe { pivotshade_strict(message.as_ptr(), message.len(), &mut figures) };
    Answer { number, figures }
}

/// The first record's length, of the message with this number.
pub fn start(message: &[u8], number: u64, wanted: u64, record: &mut [u8]) -> Answer {
    let mut figures = UNWRITTEN;
    // the port reads message[..] alone and writes record[..] and the four figures alone
    let number = unsafe {
        pivotshade_start(
            message.as_ptr(),
            message.len(),
            number,
            wanted,
            record.as_mut_ptr(),
            record.len(),
            &mut figures,
        )
    };
    Answer { number, figures }
}

/// Takes up a record of the message with this number, for at most `steps` steps. 0: what decode answers; `MORE`: the length of the record in `next`.
pub fn run(
    message: &[u8],
    number: u64,
    record: &[u8],
    out: &mut [u8],
    steps: u64,
    next: &mut [u8],
) -> Answer {
    let mut figures = UNWRITTEN;
    // the port reads message[..] and record[..] alone and writes out[..], next[..] and the four figures alone
    let number = unsafe {
        pivotshade_run(
            message.as_ptr(),
            message.len(),
            number,
            record.as_ptr(),
            record.len(),
            out.as_mut_ptr(),
            out.len(),
            steps,
            next.as_mut_ptr(),
            next.len(),
            &mut figures,
        )
    };
    Answer { number, figures }
}

/// Message bytes used, of a frame that was added to the totals; `COUNTED_ALREADY` where its hour is marked.
pub fn count(
    message: &[u8],
    hour: u64,
    frame: &mut [u8],
    totals: &mut [u64],
    marks: &mut [u8; HOURS],
) -> Answer {
    let mut figures = UNWRITTEN;
    // the port reads message[..] alone and writes frame[..], totals[..], the marks and the four figures alone
    let number = unsafe {
        pivotshade_count(
            message.as_ptr(),
            message.len(),
            hour,
            frame.as_mut_ptr(),
            frame.len(),
            totals.as_mut_ptr(),
            totals.len(),
            marks,
            &mut figures,
        )
    };
    Answer { number, figures }
}

/// A refusal in words, by its number and the figures told with it: how many bytes they are.
pub fn text(number: u64, told: &[u64; 4], out: &mut [u8]) -> Answer {
    let mut figures = UNWRITTEN;
    // the port reads the four figures told alone and writes out[..] and the four figures alone
    let number =
        unsafe { pivotshade_text(number, told, out.as_mut_ptr(), out.len(), &mut figures) };
    Answer { number, figures }
}
