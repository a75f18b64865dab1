//! Reads fonts in the [U8g2 format](https://github.com/olikraus/u8g2/wiki/u8g2fontformat), measures
//! texts in them and draws them into a framebuffer: safe calls of the static library `libc_api.a`,
//! which is written in Rattle and proved.
//!
//! Two things hold whichever bytes come in. What is measured is what is drawn. And no font stops
//! the program: one that cannot be read is refused with an [`Error`] that says why; every call ends
//! and answers.
//!
//! # The redraw step
//!
//! [`FontRenderer::redraw`] shows the next reading in place of the one that stands, whole or not at
//! all:
//!
//! ```
//! use papayahelm::{standing, FontColor, FontRenderer, Framebuffer, Place, Point};
//!
//! # // Font T of the tests: "-" and "4".
//! # const BYTES: [u8; 35] = [
//! #     2, 0, 2, 2, 3, 3, 2, 3, 3, 2, 3, 0, 0, 3, 0, 3, 0, 0, 10, 0, 10, 0, 12,
//! #     45, 5, 138, 62, 2, 52, 5, 146, 60, 73, 0, 0,
//! # ];
//! # fn main() -> Result<(), papayahelm::Error> {
//! # let bytes = &BYTES;
//! let font = FontRenderer::new_from_raw_data(bytes)?;
//! let mut pixels = [0; 32 * 16];
//! let mut panel = Framebuffer::new(32, 16, &mut pixels);
//! let place = Place::new(Point::new(2, 12), FontColor::Transparent(1));
//!
//! let mut shown = ""; // the text that stands: at first none
//! for text in ["-4", "4-4", "45"] {
//!     let answer = font.redraw(shown, text, place, &mut panel);
//!     match &answer.result {
//!         Ok(drawn) => println!("{text}: drawn, advance {}", drawn.advance.x),
//!         // the old text is cleared, and nothing of the new one is drawn
//!         Err(refusal) => println!("{text}: {refusal}"),
//!     }
//!     shown = standing(&answer, shown, text);
//! }
//! # let refusal = font.redraw(shown, "45", place, &mut panel).into_result().unwrap_err();
//! # assert_eq!(refusal.to_string(), "the font has no glyph for '5' (U+0035)");
//! # assert_eq!(shown, "45");
//! # assert!(panel.pixels.iter().all(|pixel| *pixel == 0));
//! # Ok(())
//! # }
//! ```
//!
//! # Aligned lines
//!
//! [`FontRenderer::render_aligned`] draws each line of a text with its left side, its middle or its
//! right side at the x that it is given, and answers with the box that
//! [`get_rendered_dimensions_aligned`](FontRenderer::get_rendered_dimensions_aligned) measures.
//! Readings stand so by their [`Place`], as under an icon:
//!
//! ```
//! use papayahelm::{FontColor, FontRenderer, Framebuffer, HorizontalAlignment, Place, Point};
//!
//! # // Font T of the tests: "-" and "4".
//! # const BYTES: [u8; 35] = [
//! #     2, 0, 2, 2, 3, 3, 2, 3, 3, 2, 3, 0, 0, 3, 0, 3, 0, 0, 10, 0, 10, 0, 12,
//! #     45, 5, 138, 62, 2, 52, 5, 146, 60, 73, 0, 0,
//! # ];
//! # fn main() -> Result<(), papayahelm::Error> {
//! # let bytes = &BYTES;
//! let font = FontRenderer::new_from_raw_data(bytes)?;
//! let mut pixels = [0; 32 * 16];
//! let mut panel = Framebuffer::new(32, 16, &mut pixels);
//! let place = Place::new(Point::new(16, 12), FontColor::Transparent(1))
//!     .with_horizontal_align(HorizontalAlignment::Center);
//! let drawn = font.redraw("", "-4", place, &mut panel).into_result()?;
//! let area = drawn.bounding_box.expect("it has pixels");
//! assert_eq!((area.top_left.x, area.size.width), (14, 5)); // columns 14 to 18
//! # Ok(())
//! # }
//! ```
//!
//! # Packed framebuffers
//!
//! A framebuffer has one byte a pixel. One that is packed has a byte for eight pixels of a column,
//! the top one in bit 0, as the display controllers of small panels take it. Every call draws on
//! either, and shows the same pixels on both; a packed one takes the colours 0 and 1:
//!
//! ```
//! use papayahelm::{Error, FontColor, FontRenderer, Framebuffer, Point, VerticalPosition};
//!
//! # // Font T of the tests: "-" and "4".
//! # const BYTES: [u8; 35] = [
//! #     2, 0, 2, 2, 3, 3, 2, 3, 3, 2, 3, 0, 0, 3, 0, 3, 0, 0, 10, 0, 10, 0, 12,
//! #     45, 5, 138, 62, 2, 52, 5, 146, 60, 73, 0, 0,
//! # ];
//! # fn main() -> Result<(), papayahelm::Error> {
//! # let bytes = &BYTES;
//! let font = FontRenderer::new_from_raw_data(bytes)?;
//! let mut pixels = [0; 8];
//! let mut panel = Framebuffer::packed(8, 8, &mut pixels);
//! let (at, anchor) = (Point::new(0, 8), VerticalPosition::Baseline);
//! font.render("-4", at, anchor, FontColor::Transparent(1), &mut panel).into_result()?;
//! assert_eq!(panel.pixels, [32, 32, 0, 192, 128, 0, 0, 0]);
//! assert_eq!(panel.pixel(Point::new(1, 5)), Some(1));
//!
//! let refused = font.render("-4", at, anchor, FontColor::Transparent(2), &mut panel);
//! assert_eq!(refused.result, Err(Error::ColorNotSupported));
//! # Ok(())
//! # }
//! ```
//!
//! # Padded names
//!
//! A name that is padded with U+0000 to a fixed length is drawn by a font that passes over unknown
//! characters, and is measured and drawn as the name alone is:
//!
//! ```
//! use papayahelm::{FontColor, FontRenderer, Framebuffer, Point, VerticalPosition};
//!
//! # // Font T of the tests: "-" and "4".
//! # const BYTES: [u8; 35] = [
//! #     2, 0, 2, 2, 3, 3, 2, 3, 3, 2, 3, 0, 0, 3, 0, 3, 0, 0, 10, 0, 10, 0, 12,
//! #     45, 5, 138, 62, 2, 52, 5, 146, 60, 73, 0, 0,
//! # ];
//! # fn main() -> Result<(), papayahelm::Error> {
//! # let bytes = &BYTES;
//! let name = *b"-4\0\0\0\0\0\0";
//! let font = FontRenderer::new_from_raw_data(bytes)?.with_ignore_unknown_chars(true);
//! let mut pixels = [0; 32 * 16];
//! let mut panel = Framebuffer::new(32, 16, &mut pixels);
//! let (at, color) = (Point::new(2, 12), FontColor::Transparent(1));
//! let drawn = font.render(name, at, VerticalPosition::Baseline, color, &mut panel).into_result()?;
//! let alone = font.get_rendered_dimensions("-4", at, VerticalPosition::Baseline);
//! assert_eq!(drawn, alone.into_result()?);
//! # let mut pixels = [0; 32 * 16];
//! # let mut other = Framebuffer::new(32, 16, &mut pixels);
//! # font.render("-4", at, VerticalPosition::Baseline, color, &mut other).into_result()?;
//! # assert_eq!(panel, other);
//! # Ok(())
//! # }
//! ```
//!
//! A font that has a glyph for U+0000 draws it. [`FontRenderer::redraw`] skips nothing: hand it the
//! name without the padding, as `trim_end_matches('\0')` leaves it.
//!
//! # Records looked at
//!
//! Each call on a text answers with a [`Report`]: its result, and beside it how many glyph records
//! had their code looked at in the lookups, and how many jump table entries were read. The refusal
//! of a missing glyph has them too:
//!
//! ```
//! use papayahelm::{Error, FontRenderer, LookupSteps, Point, VerticalPosition};
//!
//! # // Font T of the tests: "-" and "4".
//! # const BYTES: [u8; 35] = [
//! #     2, 0, 2, 2, 3, 3, 2, 3, 3, 2, 3, 0, 0, 3, 0, 3, 0, 0, 10, 0, 10, 0, 12,
//! #     45, 5, 138, 62, 2, 52, 5, 146, 60, 73, 0, 0,
//! # ];
//! # fn main() -> Result<(), papayahelm::Error> {
//! # let bytes = &BYTES;
//! let font = FontRenderer::new_from_raw_data(bytes)?; // it has "-" first, then "4"
//! let measure =
//!     |text| font.get_rendered_dimensions(text, Point::new(0, 0), VerticalPosition::Baseline);
//!
//! let four = measure("4");
//! assert_eq!(four.steps, LookupSteps { records: 2, entries: 0 });
//! assert_eq!(four.into_result()?.advance.x, 3);
//!
//! let five = measure("5"); // both; the record that ends the list does not count
//! assert_eq!(five.result, Err(Error::GlyphNotFound('5')));
//! assert_eq!(five.steps, LookupSteps { records: 2, entries: 0 });
//! # Ok(())
//! # }
//! ```
//!
//! # Limits
//!
//! The static library is for x86-64. A font has 23 to 1,048,576 bytes, a text up to 4,096 bytes of
//! UTF-8. A framebuffer is 1 to 256 pixels wide and high, a packed one a multiple of 8 high. What is
//! beyond is refused, with nothing changed.
//!
//! # Linking
//!
//! `rt lib` in the repository's folder crates/c_api writes crates/c_api/out/libc_api.a, where the
//! build script looks for it. The variable `PAPAYAHELM_LIB_DIR` names another folder.

#![no_std]
#![warn(missing_docs)]
#![warn(clippy::undocumented_unsafe_blocks)]

mod error;
mod framebuffer;
mod geometry;
mod header;
mod raw;
mod renderer;
mod report;
mod style;

pub use error::Error;
pub use framebuffer::{Framebuffer, PixelFormat};
pub use geometry::{Point, Rectangle, RenderedDimensions, Size};
pub use header::FontHeader;
pub use renderer::{is_taken, standing, FontRenderer};
pub use report::{LookupSteps, Report};
pub use style::{FontColor, HorizontalAlignment, Place, VerticalPosition};
