use papayahelm::{standing, FontColor, FontRenderer, Framebuffer, Place, Point};

fn main() -> Result<(), papayahelm::Error> {
    let font = FontRenderer::new_from_raw_data(include_bytes!("../../../fonts/gauge.bin"))?;
    let mut pixels = [0; 128 * 64];
    let mut panel = Framebuffer::new(128, 64, &mut pixels);
    let place = Place::new(Point::new(2, 20), FontColor::Transparent(1));
    let mut shown = ""; // the text that stands: at first none
    for text in ["-12.5°", "7.0°", "7.?"] {
        let answer = font.redraw(shown, text, place, &mut panel);
        if let Err(refusal) = &answer.result {
            println!("{text}: {refusal}"); // "the font has no glyph for '?' (U+003F)"
        }
        shown = standing(&answer, shown, text);
    }
    Ok(())
}
