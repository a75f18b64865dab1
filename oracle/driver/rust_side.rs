//! The Rust's answers.

use std::cell::{Cell, RefCell};
use std::panic::{catch_unwind, AssertUnwindSafe};

use embedded_graphics_core::{prelude::Point, primitives::Rectangle};
use u8g2_fonts::font_reader::FontReader;
use u8g2_fonts::types::{FontColor, HorizontalAlignment, RenderedDimensions, VerticalPosition};
use u8g2_fonts::{Content, Error, FontRenderer, LookupError};

use crate::case::{Answer, Area, Call, Case, Ink, Outcome};
use crate::display::{Colour, Display};
use crate::step;

thread_local! {
    static SITE: RefCell<String> = const { RefCell::new(String::new()) };
}

/// Panics are noted by place and message, and nothing is printed.
pub fn silence_panics() {
    std::panic::set_hook(Box::new(|info| {
        let message = info
            .payload()
            .downcast_ref::<&str>()
            .map(|s| s.to_string())
            .or_else(|| info.payload().downcast_ref::<String>().cloned())
            .unwrap_or_default();
        let place = info.location().map_or(String::new(), |l| {
            let file = l.file().rsplit("/tree/").next().unwrap_or("").to_string();
            format!("{}:{}", file, l.line())
        });
        SITE.with(|s| *s.borrow_mut() = format!("{place}: {message}"));
    }));
}

/// A text that notes the letter it hands out, so that the letter of a panic is known. All else is `&str`'s.
struct Noted<'a> {
    text: &'a str,
    letter: &'a Cell<u32>,
}

impl<'a> Content for Noted<'a> {
    type LineDimensionsIter = <&'a str as Content>::LineDimensionsIter;

    fn for_each_char<F, E>(&self, mut func: F) -> Result<(), E>
    where
        F: FnMut(char) -> Result<(), E>,
    {
        self.text.for_each_char(|ch| {
            self.letter.set(u32::from(ch));
            func(ch)
        })
    }

    fn for_each_char_infallible<F>(&self, func: F)
    where
        F: FnMut(char),
    {
        self.text.for_each_char_infallible(func)
    }

    fn line_dimensions_iterator(&self) -> Self::LineDimensionsIter {
        self.text.line_dimensions_iterator()
    }
}

pub fn anchor_of(code: usize) -> VerticalPosition {
    match code {
        0 => VerticalPosition::Baseline,
        1 => VerticalPosition::Top,
        2 => VerticalPosition::Center,
        _ => VerticalPosition::Bottom,
    }
}

pub fn alignment_of(code: usize) -> HorizontalAlignment {
    match code {
        0 => HorizontalAlignment::Left,
        1 => HorizontalAlignment::Center,
        _ => HorizontalAlignment::Right,
    }
}

pub fn area_of(r: Rectangle) -> Area {
    Area { left: r.top_left.x, top: r.top_left.y, width: r.size.width, height: r.size.height }
}

fn missing(e: LookupError) -> Answer {
    let LookupError::GlyphNotFound(ch) = e;
    Answer::Refused { number: 7, code_point: u32::from(ch) }
}

fn refusal<E>(e: Error<E>) -> Answer {
    match e {
        Error::BackgroundColorNotSupported => Answer::Refused { number: 6, code_point: 0 },
        Error::GlyphNotFound(ch) => Answer::Refused { number: 7, code_point: u32::from(ch) },
        Error::DisplayError(_) => unreachable!("the display never fails"),
    }
}

fn text_answer(d: RenderedDimensions) -> Answer {
    Answer::Text { advance: (d.advance.x, d.advance.y), bounds: d.bounding_box.map(area_of) }
}

fn header_values(f: &FontReader) -> [i64; 21] {
    [
        f.glyph_count.into(),
        f.supports_background_color.into(),
        f.m0.into(),
        f.m1.into(),
        f.bitcnt_w.into(),
        f.bitcnt_h.into(),
        f.bitcnt_x.into(),
        f.bitcnt_y.into(),
        f.bitcnt_d.into(),
        f.font_bounding_box_width.into(),
        f.font_bounding_box_height.into(),
        f.font_bounding_box_x_offset.into(),
        f.font_bounding_box_y_offset.into(),
        f.ascent.into(),
        f.descent.into(),
        f.ascent_of_parentheses.into(),
        f.descent_of_parentheses.into(),
        f.array_offset_upper_a.into(),
        f.array_offset_lower_a.into(),
        f.array_offset_0x0100.into(),
        f.line_height.into(),
    ]
}

/// The font as the Rust wants it.
///
/// # Safety
/// What is returned, and every value of the Rust made from it, must be gone before `font` is.
pub unsafe fn lent(font: &[u8]) -> &'static [u8] {
    &*(font as *const [u8])
}

/// What the Rust answers to a call that is within limits, and that it is a judge of.
pub fn call(case: &Case, call: Call) -> Outcome {
    assert!(!Call::OURS.contains(&call));
    if let Call::Redraw(_, ink) = call {
        return step::of_drawings(case, ink, self::call).outcome;
    }
    // The renderer below lives no longer than this function, and the font longer.
    let font = unsafe { lent(&case.font) };
    let letter = Cell::new(0);
    let text = || Noted { text: std::str::from_utf8(&case.text).expect("a text within limits"), letter: &letter };
    let position = Point::new(case.x, case.y);
    let anchor = anchor_of(case.anchor);
    let renderer = || {
        FontRenderer::new_from_raw_data(font).with_ignore_unknown_chars(case.skip).with_line_height(case.line_height)
    };
    let color = |ink| match ink {
        Ink::Transparent => FontColor::Transparent(Colour(case.fg)),
        Ink::WithBackground => FontColor::WithBackground { fg: Colour(case.fg), bg: Colour(case.bg) },
    };
    let mut buffer = if call.ink().is_some() { case.buffer.clone() } else { Vec::new() };
    let mut display = Display::<true>::new(case.width, case.height, &mut buffer);
    let answer = catch_unwind(AssertUnwindSafe(|| match call {
        Call::Open => Answer::Open(header_values(&FontReader::new_from_raw_data(font))),
        Call::FontBox(anchor) => {
            Answer::FontBox(area_of(FontRenderer::new_from_raw_data(font).get_font_bounding_box(anchor_of(anchor))))
        }
        Call::Measure => renderer().get_rendered_dimensions(text(), position, anchor).map_or_else(missing, text_answer),
        Call::Aligned(align) => renderer()
            .get_rendered_dimensions_aligned(text(), position, anchor, alignment_of(align))
            .map_or_else(missing, |b| Answer::Bounds(b.map(area_of))),
        Call::Draw(ink) | Call::Redraw(_, ink) => {
            renderer().render(text(), position, anchor, color(ink), &mut display).map_or_else(refusal, text_answer)
        }
        Call::DrawAligned(_, ink) => renderer()
            .render_aligned(text(), position, anchor, HorizontalAlignment::Left, color(ink), &mut display)
            .map_or_else(refusal, |b| Answer::Bounds(b.map(area_of))),
    }))
    .unwrap_or_else(|_| {
        display.take_back();
        Answer::Panicked { code_point: letter.get(), site: SITE.with(|s| s.borrow().clone()) }
    });
    Outcome { answer, buffer, steps: None }
}
