//! Why a call is refused.

use core::fmt;

/// Why a call is refused. Its [`Display`](fmt::Display) says it in words.
///
/// The numbers are tested in the order 1, 2, 3, 4, 5, 9, 6, then 7 and 8 character by character.
/// After 1 to 6 and 9 nothing that was lent has changed. After 7 and 8
/// [`render`](crate::FontRenderer::render) has drawn the characters before the refused one,
/// [`render_aligned`](crate::FontRenderer::render_aligned) those or the lines before its line alone,
/// and [`redraw`](crate::FontRenderer::redraw) has cleared the old text and drawn nothing.
#[derive(Clone, Copy, Debug, PartialEq, Eq, Hash)]
#[non_exhaustive]
pub enum Error {
    /// Number 1: the font has fewer than 23 or more than 1,048,576 bytes.
    FontLength,
    /// Number 2: a bit width in the font's header is off limits, or its bounding box is negative.
    FontHeader,
    /// Number 3: the framebuffer is not 1 to 256 pixels wide and high, packed not a multiple of 8
    /// high, or its buffer has another length.
    FramebufferSize,
    /// Number 4: the text has more than 4,096 bytes or is not UTF-8.
    TextEncoding,
    /// Number 5: x or y is beyond ±1,048,576, or the line height above 65,535.
    PositionOrLineHeight,
    /// Number 6: a background colour is wanted, and the font allows none.
    BackgroundColorNotSupported,
    /// Number 7: the font has no glyph for this character.
    GlyphNotFound(char),
    /// Number 8: the font ends before the glyph for this character does.
    FontEnds(char),
    /// Number 9: the framebuffer is packed, and a colour is neither 0 nor 1.
    ColorNotSupported,
    /// The library answered with a status that this package has no name for. With the library that
    /// it was written for this does not happen: 255 stands for a code or a length that the package
    /// never hands over.
    UnknownStatus(u32),
}

impl Error {
    /// The refusal that a status other than 0 stands for.
    #[cold]
    pub(crate) const fn from_status(status: u32, code_point: i64) -> Self {
        // Refused characters come from UTF-8, so that each of them is a `char`.
        let refused = match char::from_u32(code_point as u32) {
            Some(ch) => ch,
            None => char::REPLACEMENT_CHARACTER,
        };
        match status {
            1 => Self::FontLength,
            2 => Self::FontHeader,
            3 => Self::FramebufferSize,
            4 => Self::TextEncoding,
            5 => Self::PositionOrLineHeight,
            6 => Self::BackgroundColorNotSupported,
            7 => Self::GlyphNotFound(refused),
            8 => Self::FontEnds(refused),
            9 => Self::ColorNotSupported,
            _ => Self::UnknownStatus(status),
        }
    }

    /// The refusal's number, as in README.md's table and papayahelm.h.
    #[must_use]
    pub const fn number(self) -> u32 {
        match self {
            Self::FontLength => 1,
            Self::FontHeader => 2,
            Self::FramebufferSize => 3,
            Self::TextEncoding => 4,
            Self::PositionOrLineHeight => 5,
            Self::BackgroundColorNotSupported => 6,
            Self::GlyphNotFound(_) => 7,
            Self::FontEnds(_) => 8,
            Self::ColorNotSupported => 9,
            Self::UnknownStatus(status) => status,
        }
    }

    /// The character that is refused, where the refusal is about one.
    #[must_use]
    pub const fn character(self) -> Option<char> {
        match self {
            Self::GlyphNotFound(ch) | Self::FontEnds(ch) => Some(ch),
            _ => None,
        }
    }
}

/// A character between quotes, and its code point.
struct Named(char);

impl fmt::Display for Named {
    fn fmt(&self, f: &mut fmt::Formatter<'_>) -> fmt::Result {
        write!(f, "'{}' (U+{:04X})", self.0.escape_debug(), u32::from(self.0))
    }
}

impl fmt::Display for Error {
    fn fmt(&self, f: &mut fmt::Formatter<'_>) -> fmt::Result {
        f.write_str(match *self {
            Self::FontLength => "the font has fewer than 23 or more than 1,048,576 bytes",
            Self::FontHeader => {
                "the font's header has a bit width off limits or a negative bounding box"
            }
            Self::FramebufferSize => {
                "the framebuffer is not 1 to 256 pixels wide and high, packed not a multiple of 8 high, \
                 or its buffer has another length"
            }
            Self::TextEncoding => "the text has more than 4,096 bytes or is not UTF-8",
            Self::PositionOrLineHeight => {
                "x or y is beyond ±1,048,576, or the line height above 65,535"
            }
            Self::BackgroundColorNotSupported => "the font allows no background colour",
            Self::GlyphNotFound(ch) => return write!(f, "the font has no glyph for {}", Named(ch)),
            Self::FontEnds(ch) => {
                return write!(f, "the font ends before the glyph for {} does", Named(ch));
            }
            Self::ColorNotSupported => "the framebuffer is packed, and a colour is neither 0 nor 1",
            Self::UnknownStatus(status) => {
                return write!(f, "the library answered with status {status}, unknown here");
            }
        })
    }
}

impl core::error::Error for Error {}

#[cfg(test)]
mod tests {
    extern crate std;

    use super::Error;
    use std::string::ToString;

    #[test]
    fn a_status_is_its_number() {
        for status in (1..=9).chain([10, 255, u32::MAX]) {
            assert_eq!(Error::from_status(status, 65).number(), status);
        }
        assert_eq!(Error::from_status(9, 0), Error::ColorNotSupported);
        assert_eq!(Error::from_status(255, 0), Error::UnknownStatus(255));
    }

    #[test]
    fn a_refused_character_is_named() {
        assert_eq!(Error::from_status(7, 0x35), Error::GlyphNotFound('5'));
        assert_eq!(Error::from_status(7, 0).character(), Some('\0'));
        assert_eq!(Error::from_status(8, 0x10_FFFF), Error::FontEnds('\u{10FFFF}'));
        assert_eq!(Error::from_status(6, 0).character(), None);
        // not a code point, which the library never answers
        assert_eq!(Error::from_status(7, 0xD800), Error::GlyphNotFound('\u{FFFD}'));
    }

    #[test]
    fn words() {
        let words = |status, code_point| Error::from_status(status, code_point).to_string();
        assert_eq!(words(7, 0x35), "the font has no glyph for '5' (U+0035)");
        assert_eq!(words(7, 0xB0), "the font has no glyph for '°' (U+00B0)");
        assert_eq!(words(7, 0), "the font has no glyph for '\\0' (U+0000)");
        assert_eq!(words(8, 0), "the font ends before the glyph for '\\0' (U+0000) does");
        assert_eq!(words(255, 0), "the library answered with status 255, unknown here");
    }
}
