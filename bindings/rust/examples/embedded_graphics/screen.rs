//! The one place in which a program that draws on a display changes: it calls `Screen::show` where
//! it called `render` with the display.

use embedded_graphics_core::draw_target::DrawTarget;
use papayahelm::{
    standing, FontRenderer, Framebuffer, Place, Rectangle, RenderedDimensions, Report,
};

use crate::hand_over::hand_over;

/// A display, the framebuffer behind it, and the reading that they show.
pub struct Screen<'a, D> {
    font: FontRenderer<'a>,
    place: Place,
    framebuffer: Framebuffer<'a>,
    display: D,
    /// The text that stands, and its box.
    shown: (&'a str, Option<Rectangle>),
}

impl<'a, D: DrawTarget> Screen<'a, D> {
    /// Puts the framebuffer as it is on the display. It shows no reading yet.
    pub fn new(
        font: FontRenderer<'a>,
        place: Place,
        framebuffer: Framebuffer<'a>,
        display: D,
        color_of: impl Fn(u8) -> D::Color,
    ) -> Result<Self, D::Error> {
        let mut screen = Self { font, place, framebuffer, display, shown: ("", None) };
        let whole = screen.framebuffer.bounding_box();
        hand_over(&screen.framebuffer, whole, color_of, &mut screen.display)?;
        Ok(screen)
    }

    /// Shows a reading in place of the one before, whole or not at all. The error is the display's;
    /// a refusal of the reading is in the report.
    pub fn show(
        &mut self,
        text: &'a str,
        color_of: impl Fn(u8) -> D::Color,
    ) -> Result<Report<RenderedDimensions>, D::Error> {
        let (old_text, old_box) = self.shown;
        let answer = self.font.redraw(old_text, text, self.place, &mut self.framebuffer);
        let new_box = answer.result.ok().and_then(|drawn| drawn.bounding_box);
        // No pixel outside the two boxes has changed.
        for area in [old_box, new_box].into_iter().flatten() {
            hand_over(&self.framebuffer, area, &color_of, &mut self.display)?;
        }
        self.shown = standing(&answer, self.shown, (text, new_box));
        Ok(answer)
    }

    pub fn display(&mut self) -> &mut D {
        &mut self.display
    }
}
