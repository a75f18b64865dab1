//! What is drawn on.

use crate::{Point, Rectangle, Size};

/// How the bytes of a framebuffer hold its pixels.
#[derive(Clone, Copy, Debug, Default, PartialEq, Eq, Hash)]
pub enum PixelFormat {
    /// One pixel a byte, of any value.
    #[default]
    Bytes = 0,
    /// Eight pixels of a column a byte, each 0 or 1, the top one in bit 0.
    Packed = 1,
}

impl PixelFormat {
    /// How many pixels of a column a byte holds.
    #[must_use]
    pub const fn pixels_per_byte(self) -> usize {
        match self {
            Self::Bytes => 1,
            Self::Packed => 8,
        }
    }
}

/// Pixels in memory, rows from the top: a byte for each, or for eight of a column.
///
/// The fields may hold anything: a call that draws tests them, and refuses with
/// [`Error::FramebufferSize`](crate::Error::FramebufferSize) where they are off limits.
#[derive(Debug, PartialEq, Eq)]
pub struct Framebuffer<'a> {
    /// How the bytes hold the pixels.
    pub format: PixelFormat,
    /// Columns, 1 to 256.
    pub width: usize,
    /// Rows, 1 to 256; packed a multiple of 8.
    pub height: usize,
    /// The bytes. In [`PixelFormat::Bytes`] these are `width * height`, and the pixel at (x, y) is
    /// `pixels[y * width + x]`; packed an eighth of that, and the pixel is bit `y % 8` of
    /// `pixels[y / 8 * width + x]`.
    pub pixels: &'a mut [u8],
}

impl<'a> Framebuffer<'a> {
    /// A framebuffer of `width` columns and `height` rows with a byte for each pixel.
    #[must_use]
    pub fn new(width: usize, height: usize, pixels: &'a mut [u8]) -> Self {
        Self { format: PixelFormat::Bytes, width, height, pixels }
    }

    /// A framebuffer of `width` columns and `height` rows with a byte for eight pixels of a column,
    /// the top one in bit 0, as the display controllers of small panels take it.
    #[must_use]
    pub fn packed(width: usize, height: usize, pixels: &'a mut [u8]) -> Self {
        Self { format: PixelFormat::Packed, width, height, pixels }
    }

    /// The rows of bytes from the top, each of `width` bytes: a row of pixels, or packed eight rows
    /// of them.
    pub fn rows(&self) -> impl Iterator<Item = &[u8]> {
        let count = if self.width == 0 { 0 } else { self.height / self.format.pixels_per_byte() };
        self.pixels.chunks_exact(self.width.max(1)).take(count)
    }

    /// The pixel at this point, or `None` off the framebuffer.
    #[must_use]
    pub fn pixel(&self, at: Point) -> Option<u8> {
        let (x, y) = (usize::try_from(at.x).ok()?, usize::try_from(at.y).ok()?);
        let per_byte = self.format.pixels_per_byte();
        let byte = *self.rows().nth(y / per_byte)?.get(x)?;
        Some(match self.format {
            PixelFormat::Bytes => byte,
            PixelFormat::Packed => byte >> (y % per_byte) & 1,
        })
    }

    /// The area of all pixels.
    #[must_use]
    pub fn bounding_box(&self) -> Rectangle {
        let side = |n: usize| u32::try_from(n).unwrap_or(u32::MAX);
        Rectangle::new(Point::new(0, 0), Size::new(side(self.width), side(self.height)))
    }
}
