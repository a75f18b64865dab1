//! Readings centred under an icon. A step clears the box of the reading that stands, so that the
//! icon is drawn once.

use papayahelm::{
    standing, FontColor, FontRenderer, Framebuffer, HorizontalAlignment, Place, Point,
    VerticalPosition,
};

const WIDTH: usize = 36;
const HEIGHT: usize = 18;
const MIDDLE: usize = WIDTH / 2;

const HOOF: [&str; 8] = [
    "...#####...",
    "..#.....#..",
    ".#.......#.",
    "#....#....#",
    "#...#.#...#",
    "#...#.#...#",
    ".#.#...#.#.",
    "..#.....#..",
];

fn draw_icon(panel: &mut Framebuffer) {
    for (row, line) in panel.pixels.chunks_exact_mut(WIDTH).zip(HOOF) {
        let left = MIDDLE - line.len() / 2;
        for (pixel, letter) in row[left..].iter_mut().zip(line.bytes()) {
            *pixel = u8::from(letter == b'#');
        }
    }
}

fn print(panel: &Framebuffer) {
    for row in panel.rows() {
        let line: String = row.iter().map(|pixel| if *pixel == 0 { '.' } else { '#' }).collect();
        println!("{line}");
    }
}

fn main() -> Result<(), papayahelm::Error> {
    let font = FontRenderer::new_from_raw_data(include_bytes!("../../../fonts/gauge.bin"))?;
    let mut pixels = [0; WIDTH * HEIGHT];
    let mut panel = Framebuffer::new(WIDTH, HEIGHT, &mut pixels);
    draw_icon(&mut panel);

    let below = Point::new(MIDDLE as i32, HOOF.len() as i32);
    let place = Place {
        vertical_pos: VerticalPosition::Top,
        horizontal_align: HorizontalAlignment::Center,
        ..Place::new(below, FontColor::Transparent(1))
    };
    let mut shown = ""; // the text that stands: at first none
    for text in ["-12.5°", "7.0°"] {
        let answer = font.redraw(shown, text, place, &mut panel);
        if let Err(refusal) = &answer.result {
            println!("{refusal}");
        }
        shown = standing(&answer, shown, text);
        println!("{text}");
        print(&panel);
    }
    Ok(())
}
