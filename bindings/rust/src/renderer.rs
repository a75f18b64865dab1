//! The calls.

use core::fmt;

use crate::{
    header, raw, Error, FontColor, FontHeader, Framebuffer, HorizontalAlignment, LookupSteps,
    Place, Point, Rectangle, RenderedDimensions, Report, Size, VerticalPosition,
};

/// The numbers that the library stores of an answer: the refused code point, the advance's x and y,
/// whether there is a bounding box, its left, top, width and height, and the steps of the lookups:
/// records and entries.
type Reply = [i64; LEN];

const LEN: usize = 10;

#[inline]
fn checked(status: u32, reply: &Reply) -> Result<(), Error> {
    match status {
        0 => Ok(()),
        _ => Err(Error::from_status(status, reply[0])),
    }
}

/// The library makes these numbers of an `i32` or a `u32`, so that no cast here loses anything.
#[inline]
fn rectangle(reply: &Reply) -> Rectangle {
    Rectangle {
        top_left: Point::new(reply[4] as i32, reply[5] as i32),
        size: Size::new(reply[6] as u32, reply[7] as u32),
    }
}

#[inline]
fn bounding_box(reply: &Reply) -> Option<Rectangle> {
    (reply[3] != 0).then(|| rectangle(reply))
}

#[inline]
fn dimensions(reply: &Reply) -> RenderedDimensions {
    RenderedDimensions {
        advance: Point::new(reply[1] as i32, reply[2] as i32),
        bounding_box: bounding_box(reply),
    }
}

/// The steps are stored with a refusal too. Both fit a `u32`.
#[inline]
fn report<T>(status: u32, reply: &Reply, value: fn(&Reply) -> T) -> Report<T> {
    Report {
        result: checked(status, reply).map(|()| value(reply)),
        steps: LookupSteps { records: reply[8] as u32, entries: reply[9] as u32 },
    }
}

/// A font, and how texts are set in it: the line height, and whether unknown characters are
/// skipped.
///
/// The calls have the names and arguments of `FontRenderer` in u8g2-fonts, with a framebuffer in
/// place of a display. They take a text as a `&str`, or as bytes that should be UTF-8, and answer
/// to it with a [`Report`]. Each of them reads the font's bytes and checks all that it is handed;
/// none panics, whatever that is.
#[derive(Clone, Copy, PartialEq, Eq)]
pub struct FontRenderer<'a> {
    data: &'a [u8],
    line_height: u32,
    ignore_unknown_chars: bool,
}

impl<'a> FontRenderer<'a> {
    /// A font in the [U8g2 format](https://github.com/olikraus/u8g2/wiki/u8g2fontformat), with its
    /// default line height.
    ///
    /// Only the header is checked here. A glyph that is damaged is refused when a text needs it.
    ///
    /// # Errors
    ///
    /// [`FontLength`](Error::FontLength) and [`FontHeader`](Error::FontHeader).
    pub fn new_from_raw_data(data: &'a [u8]) -> Result<Self, Error> {
        let unread = Self::new_unread(data, 0);
        Ok(unread.with_line_height(unread.get_default_line_height()?))
    }

    /// The same without a look at the font, for a constant: each call refuses a font that cannot be
    /// read.
    #[must_use]
    pub const fn new_unread(data: &'a [u8], line_height: u32) -> Self {
        Self { data, line_height, ignore_unknown_chars: false }
    }

    /// With `ignore`, characters that the font has no glyph for are passed over, such as U+0000
    /// behind a padded name. [`redraw`](Self::redraw) never does this.
    #[must_use]
    pub const fn with_ignore_unknown_chars(mut self, ignore: bool) -> Self {
        self.ignore_unknown_chars = ignore;
        self
    }

    /// Sets how many pixels below a line's baseline the next one lies, 0 to 65,535.
    #[must_use]
    pub const fn with_line_height(mut self, line_height: u32) -> Self {
        self.line_height = line_height;
        self
    }

    /// Clears the old text and draws the new one, whole or not at all: the step from one reading to
    /// the next.
    ///
    /// First the causes 1 to 6 and 9 are tested for both texts, and 9 for
    /// [`place.background`](Place::background) too. If one applies, nothing changes. Then the
    /// bounding box of the old text, if that is one that draws, is filled with that value. Then the
    /// new text is drawn if every one of its characters draws; if not, nothing of it is drawn, and
    /// its refusal is the answer. The steps in the report count each character of the new text once,
    /// and none of the old text.
    ///
    /// The old text is the one that the framebuffer shows or that was refused by number 7 or 8: at
    /// first the empty text, then what [`standing`] says. The font, the place and the framebuffer's
    /// size stay the same from step to step; the colour of the text may change.
    ///
    /// The lines of both are set by [`place.horizontal_align`](Place::horizontal_align). The advance
    /// is that of the last line, from where this line begins.
    ///
    /// # Errors
    ///
    /// All that [`Error`] lists.
    pub fn redraw(
        &self,
        old_text: impl AsRef<[u8]>,
        new_text: impl AsRef<[u8]>,
        place: Place,
        framebuffer: &mut Framebuffer<'_>,
    ) -> Report<RenderedDimensions> {
        let (old_text, new_text) = (old_text.as_ref(), new_text.as_ref());
        let (background, fg, bg) = place.color.parts();
        let mut out: Reply = [0; LEN];
        // SAFETY: each pointer comes from a slice and stands beside that slice's length. The pixels
        // and `out` are borrowed mutably, so that nothing else overlaps them. The library tests all
        // other arguments.
        let status = unsafe {
            raw::papayahelm_redraw(
                self.data.as_ptr(),
                self.data.len(),
                old_text.as_ptr(),
                old_text.len(),
                new_text.as_ptr(),
                new_text.len(),
                place.position.x,
                place.position.y,
                place.vertical_pos as u32,
                place.horizontal_align as u32,
                self.line_height,
                background,
                fg,
                bg,
                place.background,
                framebuffer.format as u32,
                framebuffer.width,
                framebuffer.height,
                framebuffer.pixels.as_mut_ptr(),
                framebuffer.pixels.len(),
                out.as_mut_ptr(),
                out.len(),
            )
        };
        report(status, &out, dimensions)
    }

    /// Draws a text.
    ///
    /// What lies off the framebuffer is left out. Newlines begin a new line, so that the advance
    /// may have a y.
    ///
    /// # Errors
    ///
    /// All that [`Error`] lists. After [`GlyphNotFound`](Error::GlyphNotFound) and
    /// [`FontEnds`](Error::FontEnds) the characters before the refused one are drawn, after the
    /// others nothing is.
    pub fn render(
        &self,
        text: impl AsRef<[u8]>,
        position: Point,
        vertical_pos: VerticalPosition,
        color: FontColor,
        framebuffer: &mut Framebuffer<'_>,
    ) -> Report<RenderedDimensions> {
        let text = text.as_ref();
        let (background, fg, bg) = color.parts();
        let mut out: Reply = [0; LEN];
        // SAFETY: each pointer comes from a slice and stands beside that slice's length. The pixels
        // and `out` are borrowed mutably, so that nothing else overlaps them. The library tests all
        // other arguments.
        let status = unsafe {
            raw::papayahelm_draw(
                self.data.as_ptr(),
                self.data.len(),
                text.as_ptr(),
                text.len(),
                position.x,
                position.y,
                vertical_pos as u32,
                self.line_height,
                self.ignore_unknown_chars.into(),
                background,
                fg,
                bg,
                framebuffer.format as u32,
                framebuffer.width,
                framebuffer.height,
                framebuffer.pixels.as_mut_ptr(),
                framebuffer.pixels.len(),
                out.as_mut_ptr(),
                out.len(),
            )
        };
        report(status, &out, dimensions)
    }

    /// Draws a text whose lines are aligned, each for itself, and answers with its bounding box, or
    /// `None` where it has no pixel.
    ///
    /// With [`Left`](HorizontalAlignment::Left) it draws as [`render`](Self::render) does. With the
    /// other two each line is measured before its first character is drawn.
    ///
    /// # Errors
    ///
    /// All that [`Error`] lists. After [`GlyphNotFound`](Error::GlyphNotFound) and
    /// [`FontEnds`](Error::FontEnds) the lines before the refused one are drawn; of that line
    /// nothing if measuring it was refused, else the characters before the refused one. After the
    /// others nothing is drawn.
    pub fn render_aligned(
        &self,
        text: impl AsRef<[u8]>,
        position: Point,
        vertical_pos: VerticalPosition,
        horizontal_align: HorizontalAlignment,
        color: FontColor,
        framebuffer: &mut Framebuffer<'_>,
    ) -> Report<Option<Rectangle>> {
        let text = text.as_ref();
        let (background, fg, bg) = color.parts();
        let mut out: Reply = [0; LEN];
        // SAFETY: each pointer comes from a slice and stands beside that slice's length. The pixels
        // and `out` are borrowed mutably, so that nothing else overlaps them. The library tests all
        // other arguments.
        let status = unsafe {
            raw::papayahelm_draw_aligned(
                self.data.as_ptr(),
                self.data.len(),
                text.as_ptr(),
                text.len(),
                position.x,
                position.y,
                vertical_pos as u32,
                horizontal_align as u32,
                self.line_height,
                self.ignore_unknown_chars.into(),
                background,
                fg,
                bg,
                framebuffer.format as u32,
                framebuffer.width,
                framebuffer.height,
                framebuffer.pixels.as_mut_ptr(),
                framebuffer.pixels.len(),
                out.as_mut_ptr(),
                out.len(),
            )
        };
        report(status, &out, bounding_box)
    }

    /// What [`render`](Self::render) would answer.
    ///
    /// If drawing the text succeeds, no character being skipped, this gives the same advance and
    /// bounding box, and no pixel outside that box changes: a theorem. A text whose glyphs can be
    /// measured may still not draw, if the font ends within a glyph's pixels.
    ///
    /// # Errors
    ///
    /// Those of [`Error`] that are not about colours or framebuffers.
    pub fn get_rendered_dimensions(
        &self,
        text: impl AsRef<[u8]>,
        position: Point,
        vertical_pos: VerticalPosition,
    ) -> Report<RenderedDimensions> {
        let text = text.as_ref();
        let mut out: Reply = [0; LEN];
        // SAFETY: each pointer comes from a slice and stands beside that slice's length. `out` is
        // borrowed mutably, so that nothing else overlaps it. The library tests all other
        // arguments.
        let status = unsafe {
            raw::papayahelm_measure(
                self.data.as_ptr(),
                self.data.len(),
                text.as_ptr(),
                text.len(),
                position.x,
                position.y,
                vertical_pos as u32,
                self.line_height,
                self.ignore_unknown_chars.into(),
                out.as_mut_ptr(),
                out.len(),
            )
        };
        report(status, &out, dimensions)
    }

    /// The bounding box of a text whose lines are aligned, each for itself, or `None` where it has
    /// no pixel: what [`render_aligned`](Self::render_aligned) would answer. What holds of the two
    /// plain calls holds of these, with every alignment.
    ///
    /// # Errors
    ///
    /// Those of [`get_rendered_dimensions`](Self::get_rendered_dimensions).
    pub fn get_rendered_dimensions_aligned(
        &self,
        text: impl AsRef<[u8]>,
        position: Point,
        vertical_pos: VerticalPosition,
        horizontal_align: HorizontalAlignment,
    ) -> Report<Option<Rectangle>> {
        let text = text.as_ref();
        let mut out: Reply = [0; LEN];
        // SAFETY: each pointer comes from a slice and stands beside that slice's length. `out` is
        // borrowed mutably, so that nothing else overlaps it. The library tests all other
        // arguments.
        let status = unsafe {
            raw::papayahelm_measure_aligned(
                self.data.as_ptr(),
                self.data.len(),
                text.as_ptr(),
                text.len(),
                position.x,
                position.y,
                vertical_pos as u32,
                horizontal_align as u32,
                self.line_height,
                self.ignore_unknown_chars.into(),
                out.as_mut_ptr(),
                out.len(),
            )
        };
        report(status, &out, bounding_box)
    }

    /// The area that holds every glyph of the font, drawn at (0, 0).
    ///
    /// # Errors
    ///
    /// [`FontLength`](Error::FontLength) and [`FontHeader`](Error::FontHeader).
    #[inline]
    pub fn get_font_bounding_box(
        &self,
        vertical_pos: VerticalPosition,
    ) -> Result<Rectangle, Error> {
        let mut out: Reply = [0; LEN];
        // SAFETY: each pointer comes from a slice and stands beside that slice's length. `out` is
        // borrowed mutably, so that nothing else overlaps it. The library tests the anchor.
        let status = unsafe {
            raw::papayahelm_font_box(
                self.data.as_ptr(),
                self.data.len(),
                vertical_pos as u32,
                out.as_mut_ptr(),
                out.len(),
            )
        };
        checked(status, &out)?;
        Ok(rectangle(&out))
    }

    /// The values of the font's header.
    ///
    /// # Errors
    ///
    /// [`FontLength`](Error::FontLength) and [`FontHeader`](Error::FontHeader).
    #[inline]
    pub fn header(&self) -> Result<FontHeader, Error> {
        let mut out = [0; header::LEN];
        // SAFETY: each pointer comes from a slice and stands beside that slice's length. `out` is
        // borrowed mutably, so that nothing else overlaps it.
        let status = unsafe {
            raw::papayahelm_open(self.data.as_ptr(), self.data.len(), out.as_mut_ptr(), out.len())
        };
        match status {
            0 => Ok(FontHeader::from_values(&out)),
            _ => Err(Error::from_status(status, 0)),
        }
    }

    /// Pixels of a capital above the baseline.
    ///
    /// # Errors
    ///
    /// [`FontLength`](Error::FontLength) and [`FontHeader`](Error::FontHeader).
    pub fn get_ascent(&self) -> Result<i8, Error> {
        Ok(self.header()?.ascent)
    }

    /// Pixels of a letter such as "g" below the baseline, as a negative number.
    ///
    /// # Errors
    ///
    /// [`FontLength`](Error::FontLength) and [`FontHeader`](Error::FontHeader).
    pub fn get_descent(&self) -> Result<i8, Error> {
        Ok(self.header()?.descent)
    }

    /// The line height that [`new_from_raw_data`](Self::new_from_raw_data) sets, 1 to 128 pixels.
    ///
    /// # Errors
    ///
    /// [`FontLength`](Error::FontLength) and [`FontHeader`](Error::FontHeader).
    pub fn get_default_line_height(&self) -> Result<u32, Error> {
        Ok(self.header()?.line_height)
    }
}

/// The font by its length alone.
impl fmt::Debug for FontRenderer<'_> {
    fn fmt(&self, f: &mut fmt::Formatter<'_>) -> fmt::Result {
        f.debug_struct("FontRenderer")
            .field("bytes", &self.data.len())
            .field("line_height", &self.line_height)
            .field("ignore_unknown_chars", &self.ignore_unknown_chars)
            .finish()
    }
}

/// Whether a step was taken, so that the next one is to clear its new text: after success, and
/// after [`GlyphNotFound`](Error::GlyphNotFound) and [`FontEnds`](Error::FontEnds), where the old
/// text is cleared and nothing of the new one is drawn. After any other refusal the old text still
/// stands.
#[must_use]
pub const fn is_taken(answer: &Report<RenderedDimensions>) -> bool {
    matches!(answer.result, Ok(_) | Err(Error::GlyphNotFound(_) | Error::FontEnds(_)))
}

/// Of the two texts that were handed to [`FontRenderer::redraw`], the one to hand to the next step
/// as its old text.
#[must_use]
pub fn standing<T>(answer: &Report<RenderedDimensions>, old_text: T, new_text: T) -> T {
    if is_taken(answer) {
        new_text
    } else {
        old_text
    }
}
