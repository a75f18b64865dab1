//! Readings on a display of embedded-graphics: each step is drawn into a framebuffer, and what has
//! changed is handed to the display's `DrawTarget`.
//!
//! A program takes screen.rs and hand_over.rs, and the driver of its display in place of `Panel`.
//! bindings/test.sh compiles this with oracle/embedded_graphics_core.rs, a stand-in that has the
//! names used here. With the real crate, in `[dev-dependencies]`:
//! `cargo run --example embedded_graphics --features embedded-graphics`.

mod hand_over;
mod screen;

use std::convert::Infallible;

use embedded_graphics_core::draw_target::DrawTarget;
use embedded_graphics_core::geometry::{self, OriginDimensions, Size};
use embedded_graphics_core::pixelcolor::BinaryColor;
use embedded_graphics_core::primitives::Rectangle;
use embedded_graphics_core::Pixel;
use papayahelm::{Error, FontColor, FontRenderer, Framebuffer, Place, Point};
use screen::Screen;

fn color_of(pixel: u8) -> BinaryColor {
    match pixel {
        0 => BinaryColor::Off,
        _ => BinaryColor::On,
    }
}

const WIDTH: usize = 16;
const HEIGHT: usize = 9;

/// A display that keeps the pixels that it gets, and counts them.
struct Panel {
    pixels: [[BinaryColor; WIDTH]; HEIGHT],
    count: usize,
}

impl Panel {
    fn picture(&self) -> Vec<String> {
        let letter = |color: &BinaryColor| if *color == BinaryColor::On { '#' } else { '.' };
        self.pixels.iter().map(|row| row.iter().map(letter).collect()).collect()
    }
}

impl OriginDimensions for Panel {
    fn size(&self) -> Size {
        Size::new(WIDTH as u32, HEIGHT as u32)
    }
}

impl DrawTarget for Panel {
    type Color = BinaryColor;
    type Error = Infallible;

    fn draw_iter<I>(&mut self, pixels: I) -> Result<(), Infallible>
    where
        I: IntoIterator<Item = Pixel<BinaryColor>>,
    {
        for Pixel(at, color) in pixels {
            self.pixels[at.y as usize][at.x as usize] = color;
            self.count += 1;
        }
        Ok(())
    }

    fn fill_contiguous<I>(&mut self, area: &Rectangle, colors: I) -> Result<(), Infallible>
    where
        I: IntoIterator<Item = BinaryColor>,
    {
        let (left, width) = (area.top_left.x, area.size.width as i32);
        let (top, height) = (area.top_left.y, area.size.height as i32);
        let columns = |y| (left..left + width).map(move |x| geometry::Point::new(x, y));
        let points = (top..top + height).flat_map(columns);
        self.draw_iter(points.zip(colors).map(|(at, color)| Pixel(at, color)))
    }
}

fn main() -> Result<(), Box<dyn std::error::Error>> {
    let font = FontRenderer::new_from_raw_data(include_bytes!("../../../../fonts/gauge.bin"))?;
    // The reading stands a pixel off the panel's left edge, where a part of it is not seen.
    let place = Place::new(Point::new(-1, 8), FontColor::Transparent(1));
    let mut pixels = [0; WIDTH * HEIGHT];
    let framebuffer = Framebuffer::new(WIDTH, HEIGHT, &mut pixels);
    // What the display shows before is not known.
    let panel = Panel { pixels: [[BinaryColor::On; WIDTH]; HEIGHT], count: 0 };
    let mut screen = Screen::new(font, place, framebuffer, panel, color_of)?;
    assert_eq!(screen.display().picture(), ["................"; HEIGHT]);
    assert_eq!(screen.display().count, WIDTH * HEIGHT);

    let drawn = screen.show("7.4", color_of)?.into_result()?;
    println!("7.4: advance {}", drawn.advance.x);
    let seven_four = [
        "................",
        "####.......#....",
        "...#......##....",
        "..#......#.#....",
        ".#......#..#....",
        "#.......#####...",
        "#....##....#....",
        "#....##....#....",
        "................",
    ];
    assert_eq!(screen.display().picture(), seven_four);

    // Only the boxes of both readings are handed over: 13 and 4 visible columns.
    let before = screen.display().count;
    screen.show("-", color_of)?.into_result()?;
    let mut minus = ["................"; HEIGHT];
    minus[4] = "####............";
    assert_eq!(screen.display().picture(), minus);
    assert_eq!(screen.display().count - before, 13 * 7 + 4);

    // Refused: the old reading is cleared, and nothing of the new one is shown.
    let refusal = screen.show("7?", color_of)?.into_result().unwrap_err();
    println!("7?: {refusal}");
    assert_eq!(refusal, Error::GlyphNotFound('?'));
    assert_eq!(screen.display().picture(), ["................"; HEIGHT]);

    screen.show("7.4", color_of)?.into_result()?;
    assert_eq!(screen.display().picture(), seven_four);
    println!("{}", screen.display().picture().join("\n"));
    Ok(())
}
