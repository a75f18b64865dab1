//! From a framebuffer to a display of embedded-graphics. It needs `DrawTarget`, `Point`, `Size` and
//! `Rectangle` of embedded-graphics-core, and nothing of a display's driver.

use embedded_graphics_core::draw_target::DrawTarget;
use embedded_graphics_core::geometry::{Point, Size};
use embedded_graphics_core::primitives::Rectangle;
use papayahelm::Framebuffer;

/// Of the columns or rows from `start` on, `len` in number, those among the first `side` ones: the
/// first of them, and how many.
fn visible(start: i32, len: u32, side: usize) -> (usize, usize) {
    let end = i64::from(start) + i64::from(len);
    let first = usize::try_from(start).unwrap_or(0);
    let end = usize::try_from(end).unwrap_or(0).min(side);
    (first, end.saturating_sub(first))
}

/// Hands the pixels of `area` that the framebuffer has to the display, each in the colour that
/// `color_of` gives it.
pub fn hand_over<D: DrawTarget>(
    framebuffer: &Framebuffer<'_>,
    area: papayahelm::Rectangle,
    color_of: impl Fn(u8) -> D::Color,
    display: &mut D,
) -> Result<(), D::Error> {
    let (left, width) = visible(area.top_left.x, area.size.width, framebuffer.width);
    let (top, height) = visible(area.top_left.y, area.size.height, framebuffer.height);
    if width == 0 || height == 0 {
        return Ok(());
    }
    // A framebuffer has up to 256 columns and rows, so that no cast loses anything.
    let (left, top) = (left as i32, top as i32);
    let (right, bottom) = (left + width as i32, top + height as i32);
    let points =
        (top..bottom).flat_map(|y| (left..right).map(move |x| papayahelm::Point::new(x, y)));
    let pixels = points.filter_map(|at| framebuffer.pixel(at));
    let area = Rectangle::new(Point::new(left, top), Size::new(width as u32, height as u32));
    display.fill_contiguous(&area, pixels.map(color_of))
}
