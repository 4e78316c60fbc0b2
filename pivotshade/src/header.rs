// The header: what the first fourteen bytes of a message say, and sums over it. The proved functions read it; tests hold `try_new` to them.
use crate::encode::encode_max_len;
use crate::error::{accepted, Error, Result};
use crate::ffi;
use crate::types::{Channels, ColorSpace};

/// The most pixels of a picture.
const PIXELS_MAX: usize = 400_000_000;

/// What a message says of its picture: from 1 to 400,000,000 pixels, channels and colour space.
///
/// The fields are public, so a header can be made up that no message has; the functions that read or write messages never take one.
#[derive(Copy, Clone, Debug, PartialEq, Eq, Hash)]
pub struct Header {
    /// Pixels in a row.
    pub width: u32,
    /// Rows.
    pub height: u32,
    /// Bytes of a pixel.
    pub channels: Channels,
    /// The colour space, which is carried and not looked at.
    pub colorspace: ColorSpace,
}

impl Default for Header {
    /// One pixel, RGB, sRGB.
    fn default() -> Self {
        Self {
            width: 1,
            height: 1,
            channels: Channels::default(),
            colorspace: ColorSpace::default(),
        }
    }
}

impl Header {
    /// A header of these dimensions, or [`Error::InvalidImageDimensions`].
    ///
    /// ```
    /// use pivotshade::{Channels, ColorSpace, Header};
    ///
    /// assert!(Header::try_new(20_000, 20_000, Channels::Rgb, ColorSpace::Srgb).is_ok());
    /// assert!(Header::try_new(20_000, 20_001, Channels::Rgb, ColorSpace::Srgb).is_err());
    /// ```
    pub const fn try_new(
        width: u32,
        height: u32,
        channels: Channels,
        colorspace: ColorSpace,
    ) -> Result<Self> {
        let header = Self {
            width,
            height,
            channels,
            colorspace,
        };
        // in Rust, since a `const fn` can call no function of the archive
        match header.n_pixels() {
            1..=PIXELS_MAX => Ok(header),
            _ => Err(Error::InvalidImageDimensions { width, height }),
        }
    }

    /// The same with other channels.
    #[must_use]
    pub const fn with_channels(mut self, channels: Channels) -> Self {
        self.channels = channels;
        self
    }

    /// The same in another colour space.
    #[must_use]
    pub const fn with_colorspace(mut self, colorspace: ColorSpace) -> Self {
        self.colorspace = colorspace;
        self
    }

    /// Width times height, which always fits.
    pub const fn n_pixels(&self) -> usize {
        self.width as usize * self.height as usize
    }

    /// How many bytes the pixels have; of a made-up header at most 2^64-1, where crate qoi's product wraps or panics.
    pub const fn n_bytes(&self) -> usize {
        self.n_pixels()
            .saturating_mul(self.channels.as_u8() as usize)
    }

    /// [`encode_max_len`] of this picture.
    pub fn encode_max_len(&self) -> usize {
        encode_max_len(self.width, self.height, self.channels)
    }
}

/// Reads a message's header.
///
/// Refused, in this order: [`Error::UnexpectedBufferEnd`] under fourteen bytes, [`Error::InvalidChannels`], [`Error::InvalidColorSpace`],
/// [`Error::InvalidMagic`], [`Error::InvalidImageDimensions`].
///
/// ```
/// use pivotshade::{decode_header, Channels, ColorSpace};
///
/// let header = decode_header(b"qoif\0\0\0\x05\0\0\0\x01\x03\x00")?;
/// assert_eq!((header.width, header.height), (5, 1));
/// assert_eq!((header.channels, header.colorspace), (Channels::Rgb, ColorSpace::Srgb));
/// # Ok::<(), pivotshade::Error>(())
/// ```
pub fn decode_header(data: impl AsRef<[u8]>) -> Result<Header> {
    let [width, height, channels, colorspace] = accepted(ffi::header(data.as_ref()))?;
    // the figures of an accepted header are its fields, so no cast cuts anything off
    Ok(Header {
        width: width as u32,
        height: height as u32,
        channels: Channels::try_from(channels as u8)?,
        colorspace: ColorSpace::try_from(colorspace as u8)?,
    })
}
