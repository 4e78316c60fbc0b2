// Encoding a picture to an output or a vector.
use crate::error::{accepted, Error, Result};
use crate::ffi;
use crate::header::Header;
use crate::types::{Channels, ColorSpace};

/// Bytes of a message that are no chunks: header and end marker.
const FRAME: usize = 22;

/// The room that an encode asks for: 22 + pixels x (channels + 1), and at most 2^64-1, where crate qoi's sum wraps or panics.
///
/// ```
/// use pivotshade::{encode_max_len, Channels};
///
/// assert_eq!(encode_max_len(1, 1, Channels::Rgb), 26);
/// assert_eq!(encode_max_len(1 << 31, 1 << 31, Channels::Rgb), usize::MAX);
/// ```
pub fn encode_max_len(width: u32, height: u32, channels: impl Into<u8>) -> usize {
    let pixels = width as usize * height as usize;
    pixels
        .saturating_mul(channels.into() as usize + 1)
        .saturating_add(FRAME)
}

/// Encodes a picture, sRGB, to the front of `buf`: how many bytes the message has.
///
/// As [`Encoder::encode_to_buf`], with the refusals of [`Encoder::new`] first.
///
/// ```
/// use pivotshade::{encode_max_len, encode_to_buf, Channels};
///
/// let mut buf = vec![0; encode_max_len(1, 1, Channels::Rgb)];
/// let size = encode_to_buf(&mut buf, [0, 0, 0], 1, 1)?;
/// assert_eq!(&buf[..size], b"qoif\0\0\0\x01\0\0\0\x01\x03\x00\xc0\0\0\0\0\0\0\0\x01");
/// # Ok::<(), pivotshade::Error>(())
/// ```
pub fn encode_to_buf(
    buf: impl AsMut<[u8]>,
    data: impl AsRef<[u8]>,
    width: u32,
    height: u32,
) -> Result<usize> {
    Encoder::new(&data, width, height)?.encode_to_buf(buf)
}

/// Encodes a picture, sRGB, to a new vector, which is the message.
///
/// ```
/// let message = pivotshade::encode_to_vec([0, 0, 0], 1, 1)?;
/// assert_eq!(message.len(), 23);
/// # Ok::<(), pivotshade::Error>(())
/// ```
pub fn encode_to_vec(data: impl AsRef<[u8]>, width: u32, height: u32) -> Result<Vec<u8>> {
    Encoder::new(&data, width, height)?.encode_to_vec()
}

/// A picture that is to be encoded. It has no `encode_to_stream`: nothing here writes a stream.
///
/// ```
/// use pivotshade::{decode_header, ColorSpace, Encoder};
///
/// let encoder = Encoder::new(&[1, 2, 3, 4], 1, 1)?.with_colorspace(ColorSpace::Linear);
/// assert!(encoder.channels().is_rgba());
/// let message = encoder.encode_to_vec()?;
/// assert_eq!(decode_header(message)?, *encoder.header());
/// # Ok::<(), pivotshade::Error>(())
/// ```
pub struct Encoder<'a> {
    data: &'a [u8],
    header: Header,
}

impl<'a> Encoder<'a> {
    /// For a picture of `width` x `height` pixels, sRGB. Its length says whether a pixel has three bytes or four.
    ///
    /// Refused, in this order: [`Error::InvalidImageDimensions`]; [`Error::InvalidImageLength`] where the length is no multiple of the pixels;
    /// [`Error::InvalidChannels`] where it is another one than three or four times.
    pub fn new(data: &'a (impl AsRef<[u8]> + ?Sized), width: u32, height: u32) -> Result<Self> {
        let data = data.as_ref();
        let rgb = Header {
            width,
            height,
            ..Header::default()
        };
        // into no room no picture is encoded: it is refused for a fault of its own or, where it has none, for the room
        match accepted(ffi::encode(data, width, height, 0, &mut [])) {
            Err(Error::OutputBufferTooSmall { .. }) => {}
            Err(error) => return Err(error),
            Ok(_) => unreachable!("a message has 22 bytes at least"),
        }
        let header = if data.len() == rgb.n_bytes() {
            rgb
        } else {
            rgb.with_channels(Channels::Rgba)
        };
        Ok(Self { data, header })
    }

    /// The same in another colour space, which changes one byte of the message's header and nothing else.
    #[must_use]
    pub const fn with_colorspace(mut self, colorspace: ColorSpace) -> Self {
        self.header = self.header.with_colorspace(colorspace);
        self
    }

    /// The channels that the picture's length says.
    pub const fn channels(&self) -> Channels {
        self.header.channels
    }

    /// The message's header.
    pub const fn header(&self) -> &Header {
        &self.header
    }

    /// The room that [`Encoder::encode_to_buf`] asks for, however few bytes it writes.
    pub fn required_buf_len(&self) -> usize {
        self.header.encode_max_len()
    }

    /// Encodes the picture to the front of `buf`: how many bytes the message has. The bytes after them stay as they were.
    ///
    /// Where `buf` is shorter than [`Encoder::required_buf_len`] it is [`Error::OutputBufferTooSmall`], and nothing is written.
    pub fn encode_to_buf(&self, mut buf: impl AsMut<[u8]>) -> Result<usize> {
        let Header {
            width,
            height,
            colorspace,
            ..
        } = self.header;
        let colorspace = colorspace.as_u8().into();
        let [size, ..] = accepted(ffi::encode(
            self.data,
            width,
            height,
            colorspace,
            buf.as_mut(),
        ))?;
        Ok(size as usize)
    }

    /// Encodes the picture to a new vector, which is the message.
    pub fn encode_to_vec(&self) -> Result<Vec<u8>> {
        let mut out = vec![0; self.required_buf_len()];
        let size = self.encode_to_buf(&mut out)?;
        out.truncate(size);
        Ok(out)
    }
}
