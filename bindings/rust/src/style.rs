//! How a text is placed and coloured.

use crate::Point;

/// Which height of a text stands at the y it is given.
#[derive(Clone, Copy, Debug, Default, PartialEq, Eq, Hash)]
pub enum VerticalPosition {
    /// The baseline of the first line.
    #[default]
    Baseline = 0,
    /// The top of the first line.
    Top = 1,
    /// The middle between the top of the first line and the bottom of the last.
    Center = 2,
    /// The bottom of the last line.
    Bottom = 3,
}

/// Which part of each line stands at the x it is given.
#[derive(Clone, Copy, Debug, Default, PartialEq, Eq, Hash)]
pub enum HorizontalAlignment {
    /// Its left side.
    #[default]
    Left = 0,
    /// Its middle.
    Center = 1,
    /// Its right side.
    Right = 2,
}

/// The values that a text's pixels take: one byte each, with whatever meaning the display gives it.
/// On a packed framebuffer they are 0 and 1:
/// [`Error::ColorNotSupported`](crate::Error::ColorNotSupported).
#[derive(Clone, Copy, Debug, PartialEq, Eq, Hash)]
pub enum FontColor {
    /// The glyphs' own pixels take this value; those between them stay as they were.
    Transparent(u8),
    /// All pixels of each glyph's box take a value. Not every font allows it:
    /// [`Error::BackgroundColorNotSupported`](crate::Error::BackgroundColorNotSupported).
    WithBackground {
        /// What the glyph's own pixels take.
        fg: u8,
        /// What the pixels between them take.
        bg: u8,
    },
}

impl FontColor {
    /// Whether there is a background colour, and both colours: what the library is handed.
    pub(crate) const fn parts(self) -> (u32, u8, u8) {
        match self {
            Self::Transparent(fg) => (0, fg, 0),
            Self::WithBackground { fg, bg } => (1, fg, bg),
        }
    }
}

/// Where and how readings are shown, one after the other: what
/// [`FontRenderer::redraw`](crate::FontRenderer::redraw) is handed at each step.
#[derive(Clone, Copy, Debug, PartialEq, Eq, Hash)]
pub struct Place {
    /// Where each reading stands. x and y are within ±1,048,576.
    pub position: Point,
    /// Which height of the reading stands at `position.y`.
    pub vertical_pos: VerticalPosition,
    /// Which part of each of its lines stands at `position.x`.
    pub horizontal_align: HorizontalAlignment,
    /// What the reading is drawn in.
    pub color: FontColor,
    /// The value that the old reading's bounding box is filled with.
    pub background: u8,
}

impl Place {
    /// Readings whose baseline begins at `position`, cleared with 0.
    #[must_use]
    pub const fn new(position: Point, color: FontColor) -> Self {
        Self {
            position,
            vertical_pos: VerticalPosition::Baseline,
            horizontal_align: HorizontalAlignment::Left,
            color,
            background: 0,
        }
    }

    /// Sets which part of each line stands at the place's x: the middle, for readings centred under
    /// an icon.
    #[must_use]
    pub const fn with_horizontal_align(mut self, horizontal_align: HorizontalAlignment) -> Self {
        self.horizontal_align = horizontal_align;
        self
    }
}
