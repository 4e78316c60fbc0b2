// Decoding a message to an output or a vector, and what follows it.
use crate::error::{accepted, Result};
use crate::ffi;
use crate::header::{decode_header, Header};
use crate::types::Channels;

/// Bytes of a header.
const HEADER_SIZE: usize = 14;

/// Decodes a message to the front of `buf`, at the channels of its header, which is handed back.
///
/// As [`Decoder::decode_to_buf`]; for other channels than the header's see [`Decoder::with_channels`].
///
/// ```
/// use pivotshade::{decode_to_buf, encode_to_vec};
///
/// let message = encode_to_vec([10, 20, 30], 1, 1)?;
/// let mut buf = [0xee; 5];
/// let header = decode_to_buf(&mut buf, &message)?;
/// assert_eq!(header.n_bytes(), 3);
/// assert_eq!(buf, [10, 20, 30, 0xee, 0xee]);
/// # Ok::<(), pivotshade::Error>(())
/// ```
pub fn decode_to_buf(buf: impl AsMut<[u8]>, data: impl AsRef<[u8]>) -> Result<Header> {
    let mut decoder = Decoder::new(&data)?;
    decoder.decode_to_buf(buf)?;
    Ok(*decoder.header())
}

/// Decodes a message to a new vector, at the channels of its header, which is handed back too.
///
/// As [`Decoder::decode_to_vec`], and like it takes the memory that the header asks for.
///
/// ```
/// use pivotshade::{decode_to_vec, encode_to_vec};
///
/// let (header, pixels) = decode_to_vec(encode_to_vec([10, 20, 30], 1, 1)?)?;
/// assert_eq!((header.width, header.height), (1, 1));
/// assert_eq!(pixels, [10, 20, 30]);
/// # Ok::<(), pivotshade::Error>(())
/// ```
pub fn decode_to_vec(data: impl AsRef<[u8]>) -> Result<(Header, Vec<u8>)> {
    let mut decoder = Decoder::new(&data)?;
    let out = decoder.decode_to_vec()?;
    Ok((*decoder.header(), out))
}

/// A message that is to be decoded, its header read. It decodes from a slice alone: there is no `from_stream`.
///
/// # Where it differs from crate qoi's
///
/// - An output that is longer than needed: its first [`Decoder::required_buf_len`] bytes are used, and the others stay as they were. Crate qoi
///   decodes over all of it, and panics where it is no whole number of pixels.
/// - [`Decoder::data`] after a decode is what follows the end marker. Crate qoi steps on by the bytes of the chunks less 8, or not at all.
/// - A second decode decodes the same message again. Crate qoi goes on from what `data` is then.
///
/// ```
/// use pivotshade::{encode_to_vec, Channels, Decoder};
///
/// let message = encode_to_vec([10, 20, 30], 1, 1)?;
/// let mut decoder = Decoder::new(&message)?.with_channels(Channels::Rgba);
/// assert!(decoder.header().channels.is_rgb());
/// assert_eq!(decoder.required_buf_len(), 4);
/// assert_eq!(decoder.decode_to_vec()?, [10, 20, 30, 255]);
/// # Ok::<(), pivotshade::Error>(())
/// ```
#[derive(Clone)]
pub struct Decoder<'a> {
    message: &'a [u8],
    data: &'a [u8],
    header: Header,
    channels: Channels,
}

impl<'a> Decoder<'a> {
    /// Reads the header; refused as [`decode_header`] refuses.
    pub fn new(data: &'a (impl AsRef<[u8]> + ?Sized)) -> Result<Self> {
        let message = data.as_ref();
        let header = decode_header(message)?;
        Ok(Self {
            message,
            data: rest(message, HEADER_SIZE),
            header,
            channels: header.channels,
        })
    }

    /// What is not decoded yet: after the header, before a decode; after the end marker, once a decode was accepted.
    ///
    /// ```
    /// use pivotshade::{encode_to_vec, Decoder};
    ///
    /// let first = encode_to_vec([10, 20, 30], 1, 1)?;
    /// let second = encode_to_vec([40, 50, 60], 1, 1)?;
    /// let both = [first.clone(), second].concat();
    ///
    /// let mut decoder = Decoder::new(&both)?;
    /// assert_eq!(decoder.data(), &both[14..]);
    /// decoder.decode_to_vec()?;
    /// assert_eq!(decoder.data(), &both[first.len()..]);
    /// assert_eq!(Decoder::new(decoder.data())?.decode_to_vec()?, [40, 50, 60]);
    /// # Ok::<(), pivotshade::Error>(())
    /// ```
    pub const fn data(&self) -> &'a [u8] {
        self.data
    }

    /// The same, decoding to these channels and not to the header's.
    ///
    /// From three to four, alpha is 255; only a chunk that names a colour never stored, which no encoder here writes, brings 0. From four to three,
    /// alpha counts as 255 throughout, also in the slots where colours are stored: as crate qoi does, and otherwise than the QOI Specification.
    #[must_use]
    pub const fn with_channels(mut self, channels: Channels) -> Self {
        self.channels = channels;
        self
    }

    /// The channels that it decodes to.
    pub const fn channels(&self) -> Channels {
        self.channels
    }

    /// The message's header.
    pub const fn header(&self) -> &Header {
        &self.header
    }

    /// How many bytes the decoded pixels have.
    pub const fn required_buf_len(&self) -> usize {
        self.header.with_channels(self.channels).n_bytes()
    }

    /// Decodes to the front of `buf`: how many bytes were written. The bytes after them stay as they were.
    ///
    /// Refused, and what `buf` holds then: [`Error::OutputBufferTooSmall`](crate::Error::OutputBufferTooSmall), as it was;
    /// [`Error::UnexpectedBufferEnd`](crate::Error::UnexpectedBufferEnd), the pixels of the chunks that are there;
    /// [`Error::InvalidPadding`](crate::Error::InvalidPadding), every pixel.
    pub fn decode_to_buf(&mut self, mut buf: impl AsMut<[u8]>) -> Result<usize> {
        let wanted = self.channels.as_u8().into();
        let [size, used, ..] = accepted(ffi::decode(self.message, wanted, buf.as_mut()))?;
        self.data = rest(self.message, used as usize);
        Ok(size as usize)
    }

    /// Decodes to a new vector.
    ///
    /// It takes [`Decoder::required_buf_len`] bytes before it reads a chunk, as crate qoi does: up to 1.6 GB, for a message of any length. A
    /// caller that does not trust its messages looks at the header first.
    pub fn decode_to_vec(&mut self) -> Result<Vec<u8>> {
        let mut out = vec![0; self.required_buf_len()];
        self.decode_to_buf(&mut out)?;
        Ok(out)
    }
}

/// What follows the first `used` bytes of a message, as [`Ran::Done`](crate::Ran::Done) tells them: what stands after its end marker. It is empty
/// where that is all. After a decode in one call [`Decoder::data`] is the same.
///
/// ```
/// use pivotshade::{encode_to_vec, rest, run, start, Channels, Ran};
///
/// let mut message = encode_to_vec([10, 20, 30], 1, 1)?;
/// message.extend(b"and more");
/// let record = start(&message, 17, Channels::Rgb)?;
/// match run(&message, 17, &record, &mut [0; 3], u64::MAX)? {
///     Ran::Done { used, .. } => assert_eq!(rest(&message, used), b"and more"),
///     Ran::More(_) => unreachable!(),
/// }
/// # Ok::<(), pivotshade::Error>(())
/// ```
pub fn rest(message: &(impl AsRef<[u8]> + ?Sized), used: usize) -> &[u8] {
    let message = message.as_ref();
    &message[used.min(message.len())..]
}
