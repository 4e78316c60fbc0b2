// The strict check: nothing in a message that a decode would pass over.
use crate::error::{accepted, Result};
use crate::ffi;
use crate::header::{decode_header, Header};

/// What the strict check tells of a message that it accepts.
#[derive(Copy, Clone, Debug, PartialEq, Eq, Hash)]
pub struct Strict {
    /// Its header.
    pub header: Header,
    /// How many chunks it has.
    pub chunks: usize,
    /// Its length, all of which a decode uses.
    pub bytes: usize,
}

/// Accepts the messages that a decode accepts, that have no run past the last pixel and nothing after the end marker. It writes no pixels and
/// takes no memory.
///
/// What it accepts, every decode accepts, to three channels and to four. Whatever this crate encodes it accepts. Refused, in this order: as
/// [`decode_header`]; at each chunk [`Error::UnexpectedBufferEnd`](crate::Error::UnexpectedBufferEnd),
/// [`Error::InvalidPadding`](crate::Error::InvalidPadding), [`Error::RunPastImage`](crate::Error::RunPastImage); at the end the first two and
/// [`Error::BytesAfterMarker`](crate::Error::BytesAfterMarker).
///
/// ```
/// use pivotshade::{decode_to_vec, encode_to_vec, strict, Error};
///
/// let mut message = encode_to_vec([10, 20, 30], 1, 1)?;
/// let checked = strict(&message)?;
/// assert_eq!((checked.chunks, checked.bytes), (1, message.len()));
///
/// message.push(0);
/// assert!(decode_to_vec(&message).is_ok());
/// assert_eq!(strict(&message), Err(Error::BytesAfterMarker));
/// # Ok::<(), pivotshade::Error>(())
/// ```
pub fn strict(message: impl AsRef<[u8]>) -> Result<Strict> {
    let message = message.as_ref();
    let [chunks, bytes, ..] = accepted(ffi::strict(message))?;
    Ok(Strict {
        header: decode_header(message)?,
        chunks: chunks as usize,
        bytes: bytes as usize,
    })
}
