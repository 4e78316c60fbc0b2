// Channel counts and colour spaces. Their numbers are the header's bytes; tests/refusals.rs holds which are allowed to the proved reading.
use crate::error::{Error, Result};

/// How many bytes a pixel has: red, green and blue, with or without alpha.
#[derive(Copy, Clone, Debug, Default, PartialEq, Eq, PartialOrd, Ord, Hash)]
#[repr(u8)]
pub enum Channels {
    /// Red, green, blue.
    #[default]
    Rgb = 3,
    /// Red, green, blue, alpha.
    Rgba = 4,
}

impl Channels {
    /// Whether there are three.
    pub const fn is_rgb(self) -> bool {
        matches!(self, Self::Rgb)
    }

    /// Whether there are four.
    pub const fn is_rgba(self) -> bool {
        matches!(self, Self::Rgba)
    }

    /// 3 or 4.
    pub const fn as_u8(self) -> u8 {
        self as u8
    }
}

impl From<Channels> for u8 {
    fn from(channels: Channels) -> Self {
        channels.as_u8()
    }
}

impl TryFrom<u8> for Channels {
    type Error = Error;

    /// Any number but 3 and 4 is [`Error::InvalidChannels`].
    fn try_from(channels: u8) -> Result<Self> {
        match channels {
            3 => Ok(Self::Rgb),
            4 => Ok(Self::Rgba),
            _ => Err(Error::InvalidChannels { channels }),
        }
    }
}

/// What the header says of the colours. Encode and decode carry it and do not look at it.
#[derive(Copy, Clone, Debug, Default, PartialEq, Eq, PartialOrd, Ord, Hash)]
#[repr(u8)]
pub enum ColorSpace {
    /// sRGB, alpha linear.
    #[default]
    Srgb = 0,
    /// Every channel linear.
    Linear = 1,
}

impl ColorSpace {
    /// Whether it is sRGB.
    pub const fn is_srgb(self) -> bool {
        matches!(self, Self::Srgb)
    }

    /// Whether every channel is linear.
    pub const fn is_linear(self) -> bool {
        matches!(self, Self::Linear)
    }

    /// 0 for sRGB, 1 for linear.
    pub const fn as_u8(self) -> u8 {
        self as u8
    }
}

impl From<ColorSpace> for u8 {
    fn from(colorspace: ColorSpace) -> Self {
        colorspace.as_u8()
    }
}

impl TryFrom<u8> for ColorSpace {
    type Error = Error;

    /// Any number but 0 and 1 is [`Error::InvalidColorSpace`].
    fn try_from(colorspace: u8) -> Result<Self> {
        match colorspace {
            0 => Ok(Self::Srgb),
            1 => Ok(Self::Linear),
            _ => Err(Error::InvalidColorSpace { colorspace }),
        }
    }
}
