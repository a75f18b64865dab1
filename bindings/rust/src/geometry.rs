//! Places and areas, in pixels: x grows to the right and y downwards.

/// A place on the display.
#[derive(Clone, Copy, Debug, Default, PartialEq, Eq, Hash)]
pub struct Point {
    /// Pixels to the right of the framebuffer's left edge.
    pub x: i32,
    /// Pixels below the framebuffer's top edge.
    pub y: i32,
}

impl Point {
    /// The point at column `x` and row `y`.
    #[must_use]
    pub const fn new(x: i32, y: i32) -> Self {
        Self { x, y }
    }
}

/// How wide and high something is.
#[derive(Clone, Copy, Debug, Default, PartialEq, Eq, Hash)]
pub struct Size {
    /// Columns.
    pub width: u32,
    /// Rows.
    pub height: u32,
}

impl Size {
    /// A size of `width` columns and `height` rows.
    #[must_use]
    pub const fn new(width: u32, height: u32) -> Self {
        Self { width, height }
    }
}

/// An area of the display. It may lie partly or wholly off the framebuffer.
#[derive(Clone, Copy, Debug, Default, PartialEq, Eq, Hash)]
pub struct Rectangle {
    /// Its top left pixel.
    pub top_left: Point,
    /// Its width and height.
    pub size: Size,
}

impl Rectangle {
    /// The area of this size whose top left pixel is `top_left`.
    #[must_use]
    pub const fn new(top_left: Point, size: Size) -> Self {
        Self { top_left, size }
    }
}

/// What measuring or drawing a text comes to.
#[derive(Clone, Copy, Debug, Default, PartialEq, Eq, Hash)]
pub struct RenderedDimensions {
    /// Where the next glyph would stand: x relative to the start of its line, y to the first line.
    /// A newline sets x to 0 and adds the line height to y.
    pub advance: Point,
    /// The smallest area that holds all of the text's glyphs, or `None` where none of them has a
    /// pixel, as for a space.
    pub bounding_box: Option<Rectangle>,
}
