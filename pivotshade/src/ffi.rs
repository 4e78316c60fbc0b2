// The proved functions, each lent slices and plain numbers: all that is unsafe. include/pivotshade.h says what each does and what a caller owes.
//
// What they ask of memory, a Rust borrow says by itself. A slice's pointer is good for its length and never null, also where the length is 0. A
// `&mut` overlaps no other borrow, so the parts of one call are different places, and nobody else reads or writes what is written during it.
// Figures are four 64-bit numbers of the wrapper's own, read after the call alone.

/// What a call returned, with the figures that it filled.
pub type Answer = (u64, [u64; 4]);

/// What a run returns that has more to do.
pub const MORE: u64 = 256;

/// What a count returns whose hour is marked.
pub const COUNTED_ALREADY: u64 = 257;

/// Bytes of a table's marks.
pub const HOURS: usize = 744;

/// With as many bytes for a record no call lacks room for it.
pub const RECORD_MAX: usize = 300;

/// With as many bytes every refusal's words fit.
pub const TEXT_MAX: usize = 160;

extern "C" {
    fn pivotshade_header(message: *const u8, length: usize, figures: *mut [u64; 4]) -> u64;
    fn pivotshade_decode(
        message: *const u8,
        length: usize,
        wanted: u64,
        out: *mut u8,
        out_length: usize,
        figures: *mut [u64; 4],
    ) -> u64;
    fn pivotshade_encode(
        pixels: *const u8,
        length: usize,
        width: u32,
        height: u32,
        colorspace: u64,
        out: *mut u8,
        out_length: usize,
        figures: *mut [u64; 4],
    ) -> u64;
    fn pivotshade_strict(message: *const u8, length: usize, figures: *mut [u64; 4]) -> u64;
    fn pivotshade_text(
        number: u64,
        told: *const [u64; 4],
        out: *mut u8,
        out_length: usize,
        figures: *mut [u64; 4],
    ) -> u64;
    fn pivotshade_start(
        message: *const u8,
        length: usize,
        number: u64,
        wanted: u64,
        record: *mut u8,
        record_length: usize,
        figures: *mut [u64; 4],
    ) -> u64;
    fn pivotshade_run(
        message: *const u8,
        length: usize,
        number: u64,
        record: *const u8,
        record_length: usize,
        out: *mut u8,
        out_length: usize,
        steps: u64,
        next: *mut u8,
        next_length: usize,
        figures: *mut [u64; 4],
    ) -> u64;
    fn pivotshade_count(
        message: *const u8,
        length: usize,
        hour: u64,
        frame: *mut u8,
        frame_length: usize,
        totals: *mut u64,
        cells: usize,
        marks: *mut [u8; HOURS],
        figures: *mut [u64; 4],
    ) -> u64;
}

/// Width, height, channels and colour space.
pub fn header(message: &[u8]) -> Answer {
    let mut figures = [0; 4];
    // SAFETY: pointer and length are of one slice, which is only read; `figures` is four numbers, and ours alone.
    let number = unsafe { pivotshade_header(message.as_ptr(), message.len(), &mut figures) };
    (number, figures)
}

/// Bytes written and message bytes used.
pub fn decode(message: &[u8], wanted: u64, out: &mut [u8]) -> Answer {
    let mut figures = [0; 4];
    // SAFETY: each pointer has its own slice's length; `message` is only read, and the `&mut` borrows `out` and `figures` overlap nothing.
    let number = unsafe {
        pivotshade_decode(
            message.as_ptr(),
            message.len(),
            wanted,
            out.as_mut_ptr(),
            out.len(),
            &mut figures,
        )
    };
    (number, figures)
}

/// Bytes written.
pub fn encode(pixels: &[u8], width: u32, height: u32, colorspace: u64, out: &mut [u8]) -> Answer {
    let mut figures = [0; 4];
    // SAFETY: each pointer has its own slice's length; `pixels` is only read, and the `&mut` borrows `out` and `figures` overlap nothing.
    let number = unsafe {
        pivotshade_encode(
            pixels.as_ptr(),
            pixels.len(),
            width,
            height,
            colorspace,
            out.as_mut_ptr(),
            out.len(),
            &mut figures,
        )
    };
    (number, figures)
}

/// Chunks and bytes.
pub fn strict(message: &[u8]) -> Answer {
    let mut figures = [0; 4];
    // SAFETY: pointer and length are of one slice, which is only read; `figures` is four numbers, and ours alone.
    let number = unsafe { pivotshade_strict(message.as_ptr(), message.len(), &mut figures) };
    (number, figures)
}

/// The length of a refusal's words.
pub fn text(number: u64, told: &[u64; 4], out: &mut [u8]) -> Answer {
    let mut figures = [0; 4];
    // SAFETY: `told` is four numbers, only read; `out` has its own length; the `&mut` borrows `out` and `figures` overlap nothing.
    let number =
        unsafe { pivotshade_text(number, told, out.as_mut_ptr(), out.len(), &mut figures) };
    (number, figures)
}

/// The first record's length.
pub fn start(message: &[u8], number: u64, wanted: u64, record: &mut [u8]) -> Answer {
    let mut figures = [0; 4];
    // SAFETY: each pointer has its own slice's length; `message` is only read, and the `&mut` borrows `record` and `figures` overlap nothing.
    let answer = unsafe {
        pivotshade_start(
            message.as_ptr(),
            message.len(),
            number,
            wanted,
            record.as_mut_ptr(),
            record.len(),
            &mut figures,
        )
    };
    (answer, figures)
}

/// What decode answers; or `MORE` and the length of the record in `next`.
pub fn run(
    message: &[u8],
    number: u64,
    record: &[u8],
    out: &mut [u8],
    steps: u64,
    next: &mut [u8],
) -> Answer {
    let mut figures = [0; 4];
    // SAFETY: each pointer has its own slice's length; `message` and `record` are only read, and the `&mut` borrows `out`, `next` and `figures`
    // overlap nothing.
    let answer = unsafe {
        pivotshade_run(
            message.as_ptr(),
            message.len(),
            number,
            record.as_ptr(),
            record.len(),
            out.as_mut_ptr(),
            out.len(),
            steps,
            next.as_mut_ptr(),
            next.len(),
            &mut figures,
        )
    };
    (answer, figures)
}

/// Message bytes used; or `COUNTED_ALREADY` and zeros.
pub fn count(
    message: &[u8],
    hour: u64,
    frame: &mut [u8],
    totals: &mut [u64],
    marks: &mut [u8; HOURS],
) -> Answer {
    let mut figures = [0; 4];
    // SAFETY: each pointer has its own slice's length, and `marks` the one that its type says; `message` is only read, and the `&mut` borrows `frame`,
    // `totals`, `marks` and `figures` overlap nothing.
    let number = unsafe {
        pivotshade_count(
            message.as_ptr(),
            message.len(),
            hour,
            frame.as_mut_ptr(),
            frame.len(),
            totals.as_mut_ptr(),
            totals.len(),
            marks,
            &mut figures,
        )
    };
    (number, figures)
}
