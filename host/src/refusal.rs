// The Rust's refusals in document 01's numbers: for the host, and for tools/recorder, to which tools/record-vectors copies this file.
use qoi::Error;

/// The number and the figures that document 01's table of refusals gives.
pub fn number_and_figures(error: &Error) -> (u64, [u64; 4]) {
    use Error::*;
    match *error {
        UnexpectedBufferEnd => (1, [0; 4]),
        InvalidChannels { channels } => (2, [channels.into(), 0, 0, 0]),
        InvalidColorSpace { colorspace } => (3, [colorspace.into(), 0, 0, 0]),
        InvalidMagic { magic } => (4, [magic.into(), 0, 0, 0]),
        InvalidImageDimensions { width, height } => (5, [width.into(), height.into(), 0, 0]),
        InvalidImageLength {
            size,
            width,
            height,
        } => (6, [size as u64, width.into(), height.into(), 0]),
        OutputBufferTooSmall { size, required } => (7, [size as u64, required as u64, 0, 0]),
        InvalidPadding => (8, [0; 4]),
        IoError(ref e) => panic!("no slice gives an i/o error: {e}"),
    }
}
