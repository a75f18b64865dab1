//! The test display: colours to fill with are used up cell by cell and row by row, pixels that are offered are all
//! taken, and what lies off the panel is dropped.

use embedded_graphics_core::{
    prelude::{DrawTarget, PixelColor, Point},
    primitives::Rectangle,
    Pixel,
};

#[derive(Clone, Copy, PartialEq, Eq, Debug)]
pub struct Colour(pub u8);

impl PixelColor for Colour {}

/// With WATCHED the display notes what a letter changes, so that a letter at which the Rust panics can be taken back.
pub struct Display<'a, const WATCHED: bool> {
    width: usize,
    height: usize,
    cells: &'a mut [u8],
    changes: Vec<(usize, u8)>,
}

impl<'a, const WATCHED: bool> Display<'a, WATCHED> {
    pub fn new(width: usize, height: usize, cells: &'a mut [u8]) -> Self {
        Display { width, height, cells, changes: Vec::new() }
    }

    fn set(&mut self, x: i32, y: i32, colour: Colour) {
        let (Ok(x), Ok(y)) = (usize::try_from(x), usize::try_from(y)) else { return };
        if x < self.width && y < self.height {
            let at = y * self.width + x;
            if WATCHED {
                self.changes.push((at, self.cells[at]));
            }
            self.cells[at] = colour.0;
        }
    }

    /// What the letter that was being drawn had changed is taken back.
    pub fn take_back(&mut self) {
        for (at, old) in self.changes.drain(..).rev() {
            self.cells[at] = old;
        }
    }
}

impl<const WATCHED: bool> DrawTarget for Display<'_, WATCHED> {
    type Color = Colour;
    type Error = std::convert::Infallible;

    fn draw_iter<I: IntoIterator<Item = Pixel<Colour>>>(&mut self, pixels: I) -> Result<(), Self::Error> {
        for Pixel(point, colour) in pixels {
            self.set(point.x, point.y, colour);
        }
        self.changes.clear();
        Ok(())
    }

    fn fill_contiguous<I: IntoIterator<Item = Colour>>(&mut self, area: &Rectangle, colors: I) -> Result<(), Self::Error> {
        let Point { x: left, y: top } = area.top_left;
        let mut colors = colors.into_iter();
        for row in 0..area.size.height as i32 {
            for column in 0..area.size.width as i32 {
                let Some(colour) = colors.next() else { return Ok(()) };
                self.set(left + column, top + row, colour);
            }
        }
        self.changes.clear();
        Ok(())
    }
}
