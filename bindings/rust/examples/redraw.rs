//! The gauge's step: each reading is shown in place of the one before, whole or not at all.
//!
//! `cargo run --example redraw [FONT.bin]`; without a font it takes the repository's own,
//! fonts/gauge.bin.

use std::process::ExitCode;

use papayahelm::{standing, FontColor, FontRenderer, Framebuffer, Place, Point};

/// What comes from the sensor. The font has no "?", so that one of the readings is refused.
const READINGS: [&str; 4] = ["-12.5°", "7.0°", "7.?", "45.5°"];

fn print(panel: &Framebuffer) {
    for row in panel.rows() {
        let line: String = row.iter().map(|pixel| if *pixel == 0 { '.' } else { '#' }).collect();
        println!("{line}");
    }
}

fn main() -> ExitCode {
    let bytes = match std::env::args_os().nth(1) {
        Some(path) => std::fs::read(path).unwrap_or_default(), // a missing font is an empty one
        None => include_bytes!("../../../fonts/gauge.bin").to_vec(),
    };
    let font = match FontRenderer::new_from_raw_data(&bytes) {
        Ok(font) => font,
        Err(refusal) => {
            eprintln!("this font cannot be read: {refusal}");
            return ExitCode::FAILURE;
        }
    };

    let mut pixels = [0; 40 * 11];
    let mut panel = Framebuffer::new(40, 11, &mut pixels);
    let place = Place::new(Point::new(2, 9), FontColor::Transparent(1));

    let mut shown = ""; // the text that stands: at first none
    for text in READINGS {
        let answer = font.redraw(shown, text, place, &mut panel);
        match &answer.result {
            Ok(drawn) => print!("{text}: drawn, advance {}", drawn.advance.x),
            Err(refusal) => print!("{text}: {refusal}"),
        }
        println!("; {} records looked at", answer.steps.records);
        print(&panel);
        shown = standing(&answer, shown, text);
    }
    ExitCode::SUCCESS
}
