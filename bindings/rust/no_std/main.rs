//! A program without std: readings on a panel, a refused one among them. Its status is 0 where all
//! is as expected. bindings/test.sh compiles it, with `-C panic=abort`; of the C library it takes
//! `memset` and the start of a program.

#![no_std]
#![no_main]

use papayahelm::{standing, Error, FontColor, FontRenderer, Framebuffer, Place, Point};

#[link(name = "c")]
unsafe extern "C" {}

#[panic_handler]
fn panic(_: &core::panic::PanicInfo) -> ! {
    loop {}
}

fn readings() -> Result<(), Error> {
    let font = FontRenderer::new_from_raw_data(include_bytes!("../../../fonts/gauge.bin"))?;
    let mut pixels = [0; 40 * 11];
    let mut panel = Framebuffer::new(40, 11, &mut pixels);
    let place = Place::new(Point::new(2, 9), FontColor::Transparent(1));
    let mut shown = "";
    for text in ["-12.5°", "7.0°"] {
        let answer = font.redraw(shown, text, place, &mut panel);
        answer.into_result()?;
        shown = standing(&answer, shown, text);
    }
    font.redraw(shown, "7.?", place, &mut panel).result.map(|_| ())
}

// SAFETY: no other function of this program has this name.
#[unsafe(no_mangle)]
extern "C" fn main() -> i32 {
    match readings() {
        Err(Error::GlyphNotFound('?')) => 0,
        _ => 1,
    }
}
