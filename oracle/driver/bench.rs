//! The benchmark: the same inputs through the Rust and through the static library. FOLDER holds the fonts made of strokes.
//!   bench FOLDER names    compares both sides' answers and framebuffers but for centred drawing, ours in both formats, and names the inputs
//!   bench FOLDER count    makes ten calls of each input between calls of `bench_mark`, for a tool that counts instructions: Rust, ours, ours packed
//!   bench FOLDER time     nanoseconds a call: Rust, ours
//!   bench FOLDER stack    bytes of stack a call: Rust, ours

mod bench_fonts;
mod display;

use std::hint::black_box;
use std::time::Instant;

use bench_fonts::{noise, stripes};
use display::{Colour, Display};
use embedded_graphics_core::prelude::Point;
use papayahelm as ours;
use u8g2_fonts::font_reader::FontReader;
use u8g2_fonts::types::{FontColor, HorizontalAlignment, VerticalPosition};
use u8g2_fonts::FontRenderer;

const WIDTH: usize = 256;
const HEIGHT: usize = 128;

#[derive(Clone, Copy)]
enum Call {
    Open,
    Measure,
    Aligned,
    Transparent,
    Background,
    Centred,
}

const MEASURING: [(Call, &str); 2] = [(Call::Measure, "measure"), (Call::Aligned, "measure centred")];
const DRAWING: [(Call, &str); 2] = [(Call::Transparent, "draw transparent"), (Call::Background, "draw with background")];
const ALIGNED_DRAWING: [(Call, &str); 1] = [(Call::Centred, "draw centred")];

struct Input {
    name: String,
    font: Vec<u8>,
    text: String,
    place: (i32, i32),
    line_height: u32,
    call: Call,
}

/// A number as the table has it.
fn grouped(n: usize) -> String {
    if n < 1000 { n.to_string() } else { format!("{},{:03}", n / 1000, n % 1000) }
}

fn inputs(folder: &str) -> Vec<Input> {
    let file = |name: &str| std::fs::read(format!("{folder}/{name}.bin")).expect("a font of oracle/bench.sh");
    let (gauge, strokes) = (file("gauge"), file("strokes16"));
    let mut out = Vec::new();
    let mut add = |calls: &[(Call, &str)], name: &str, font: &[u8], text: &str, place, line_height| {
        for (call, does) in calls {
            let name = if name.is_empty() { does.to_string() } else { format!("{does}, {name}") };
            out.push(Input { name, font: font.to_vec(), text: text.into(), place, line_height, call: *call });
        }
    };
    let all = [&MEASURING[..], &DRAWING[..], &ALIGNED_DRAWING[..]].concat();
    let here = (2, 100);
    add(&[(Call::Open, "open")], "", &gauge, "", here, 11);
    for (name, font, text) in [
        ("8 px", &gauge, "-12.5°"),
        ("16 px", &strokes, "-12.5°"),
        ("24 px", &file("strokes24"), "-12.5°"),
        ("96 px", &file("strokes96"), "12.5"),
        ("noise", &noise(0, 0), "-12.5"),
    ] {
        add(&all, &format!("{name}, \"{text}\""), font, text, here, 11);
    }
    // With line height 0 all of the text is visible.
    let long = |text: &str| -> String {
        text.chars().cycle().take(4096).enumerate().map(|(i, c)| if i % 32 == 31 { '\n' } else { c }).collect()
    };
    add(&all, "8 px, 4,096 bytes", &gauge, &long("0123456789 -12.5 height and Lift "), here, 0);
    add(&all, "noise, 4,096 bytes", &noise(0, 0), &long("0123456789 -12.5 Hello, gauge! "), here, 0);
    for (side, place) in [("above", (2, -10)), ("below", (2, 200)), ("left", (-200, 100)), ("right", (300, 100))] {
        add(&DRAWING, &format!("16 px, off: {side}"), &strokes, "-12.5°", place, 11);
    }
    for (side, place) in [("above", (2, 8)), ("below", (2, 136)), ("left", (-28, 100)), ("right", (226, 100))] {
        add(&DRAWING, &format!("16 px, half off: {side}"), &strokes, "-12.5°", place, 11);
    }
    for table in [false, true] {
        for n in [1250, 2500, 5000] {
            let (name, font, letter) =
                if table { ("jump table", noise(0, n), "\u{ffff}") } else { ("chain", noise(n, 0), "\u{ff}") };
            let calls = if n == 5000 { &all } else { &all[..1] };
            add(calls, &format!("{name} of {}, 16 letters", grouped(n)), &font, &letter.repeat(16), here, 11);
        }
    }
    for width in [32, 64, 128] {
        add(&DRAWING, &format!("16 pairs, {} pixels", grouped(16 * width)), &stripes(width, 1, true), "0", here, 11);
    }
    for pairs in [2, 4, 8] {
        add(&DRAWING, &format!("1,024 pixels, {} pairs", 16 * pairs), &stripes(64, pairs, false), "0", here, 11);
    }
    out
}

/// What a call answers is shown whole to `black_box`, so that no part of the work can be left out.
fn seen<T>(answer: &T) -> &T {
    black_box(answer)
}

fn rust(input: &Input, buffer: &mut [u8]) -> i32 {
    // The renderer does not outlive this call, and the font does.
    let font: &'static [u8] = unsafe { &*(input.font.as_slice() as *const [u8]) };
    let text = input.text.as_str();
    let position = Point::new(input.place.0, input.place.1);
    let renderer = || FontRenderer::new_from_raw_data(font).with_line_height(input.line_height);
    let anchor = VerticalPosition::Baseline;
    let draw = |color, buffer| {
        let mut display = Display::<false>::new(WIDTH, HEIGHT, buffer);
        seen(&renderer().render(text, position, anchor, color, &mut display)).as_ref().map_or(-1, |d| d.advance.x)
    };
    match input.call {
        Call::Open => seen(&FontReader::new_from_raw_data(font)).line_height as i32,
        Call::Measure => {
            seen(&renderer().get_rendered_dimensions(text, position, anchor)).as_ref().map_or(-1, |d| d.advance.x)
        }
        Call::Aligned => {
            seen(&renderer().get_rendered_dimensions_aligned(text, position, anchor, HorizontalAlignment::Center))
                .as_ref()
                .map_or(-1, |b| b.map_or(0, |b| b.top_left.x))
        }
        Call::Transparent => draw(FontColor::Transparent(Colour(1)), buffer),
        Call::Background => draw(FontColor::WithBackground { fg: Colour(1), bg: Colour(2) }, buffer),
        Call::Centred => {
            let mut display = Display::<false>::new(WIDTH, HEIGHT, buffer);
            let (align, color) = (HorizontalAlignment::Center, FontColor::Transparent(Colour(1)));
            seen(&renderer().render_aligned(text, position, anchor, align, color, &mut display))
                .as_ref()
                .map_or(-1, |b| b.map_or(0, |b| b.top_left.x))
        }
    }
}

/// On a packed framebuffer, whose pixels are 0 and 1, the background is 0. Inlined, so that no call of the benchmark's own is counted.
#[inline(always)]
fn ours_on(format: ours::PixelFormat, bg: u8, input: &Input, buffer: &mut [u8]) -> i32 {
    let font = ours::FontRenderer::new_unread(&input.font, input.line_height);
    let text = input.text.as_str();
    let position = ours::Point::new(input.place.0, input.place.1);
    let anchor = ours::VerticalPosition::Baseline;
    let draw = |color, pixels| {
        let mut framebuffer = ours::Framebuffer { format, width: WIDTH, height: HEIGHT, pixels };
        seen(&font.render(text, position, anchor, color, &mut framebuffer)).result.map_or(-1, |d| d.advance.x)
    };
    match input.call {
        Call::Open => seen(&font.header()).as_ref().map_or(-1, |h| h.line_height as i32),
        Call::Measure => seen(&font.get_rendered_dimensions(text, position, anchor)).result.map_or(-1, |d| d.advance.x),
        Call::Aligned => {
            seen(&font.get_rendered_dimensions_aligned(text, position, anchor, ours::HorizontalAlignment::Center))
                .result
                .map_or(-1, |b| b.map_or(0, |b| b.top_left.x))
        }
        Call::Transparent => draw(ours::FontColor::Transparent(1), buffer),
        Call::Background => draw(ours::FontColor::WithBackground { fg: 1, bg }, buffer),
        Call::Centred => {
            let mut framebuffer = ours::Framebuffer { format, width: WIDTH, height: HEIGHT, pixels: buffer };
            let (align, color) = (ours::HorizontalAlignment::Center, ours::FontColor::Transparent(1));
            seen(&font.render_aligned(text, position, anchor, align, color, &mut framebuffer))
                .result
                .map_or(-1, |b| b.map_or(0, |b| b.top_left.x))
        }
    }
}

fn ours(input: &Input, buffer: &mut [u8]) -> i32 {
    ours_on(ours::PixelFormat::Bytes, 2, input, buffer)
}

fn packed(input: &Input, buffer: &mut [u8]) -> i32 {
    ours_on(ours::PixelFormat::Packed, 0, input, &mut buffer[..WIDTH * HEIGHT / 8])
}

/// Whether ours answers and shows the same in both formats.
fn same_packed(input: &Input) -> bool {
    let (mut bytes, mut bits) = (vec![0; WIDTH * HEIGHT], vec![0; WIDTH * HEIGHT]);
    let answers = (ours_on(ours::PixelFormat::Bytes, 0, input, &mut bytes), packed(input, &mut bits));
    let pixel = |i: usize| bits[i / WIDTH / 8 * WIDTH + i % WIDTH] >> (i / WIDTH % 8) & 1;
    answers.0 == answers.1 && (0..WIDTH * HEIGHT).all(|i| bytes[i] == pixel(i))
}

type Side = fn(&Input, &mut [u8]) -> i32;

/// valgrind writes its counts before each call of it.
#[no_mangle]
#[inline(never)]
extern "C" fn bench_mark() {
    black_box(());
}

fn repeat(side: Side, n: u32, input: &Input, buffer: &mut [u8]) {
    for _ in 0..n {
        black_box(side(input, buffer));
    }
}

/// Nanoseconds a call: the best of 25 rounds of some 2 ms on each side in turn.
fn time(input: &Input, buffer: &mut [u8]) -> [f64; 2] {
    let mut round = |side: Side, n: u32| {
        let start = Instant::now();
        repeat(side, n, input, buffer);
        (start.elapsed().as_nanos() as f64 / f64::from(n)).max(1.0)
    };
    let n = (2e6 / round(rust, 3)).clamp(3.0, 1e6) as u32;
    let mut best = [f64::MAX; 2];
    for _ in 0..25 {
        best = [best[0].min(round(rust, n)), best[1].min(round(ours, n))];
    }
    best
}

/// The stack below this function is painted, and what is changed is found from its far end.
#[inline(never)]
fn stack(side: Side, input: &Input, buffer: &mut [u8]) -> usize {
    let here = 0u8;
    let base = black_box(&here as *const u8 as usize);
    let cells = base - 16_384..base - 256;
    for at in cells.clone() {
        unsafe { (at as *mut u8).write_volatile(0xa5) };
    }
    black_box(side)(input, buffer);
    let deepest = cells.into_iter().find(|at| unsafe { (*at as *const u8).read_volatile() } != 0xa5);
    base - deepest.unwrap_or(base)
}

fn main() {
    let args: Vec<String> = std::env::args().skip(1).collect();
    let [folder, mode] = args.as_slice() else { panic!("bench FOLDER names | count | time | stack") };
    let mut buffer = vec![0; WIDTH * HEIGHT];
    for input in &inputs(folder) {
        match mode.as_str() {
            "names" => {
                let (mut a, mut b) = (buffer.clone(), buffer.clone());
                let answers = (rust(input, &mut a), ours(input, &mut b));
                // Centred lines may part: the Rust measures them by another path (docs/DIFFERENCES.md).
                let alike = answers.0 == answers.1 && a == b || matches!(input.call, Call::Centred);
                assert!(alike && answers.0 != -1 && same_packed(input), "{}: {answers:?}", input.name);
                println!("{}", input.name);
            }
            "count" => {
                for side in [rust, ours, packed] {
                    repeat(side, 2, input, &mut buffer);
                    bench_mark();
                    repeat(side, 10, input, &mut buffer);
                    bench_mark();
                }
            }
            "time" => {
                let [a, b] = time(input, &mut buffer);
                println!("{a:.0} {b:.0}");
            }
            _ => println!("{} {}", stack(rust, input, &mut buffer), stack(ours, input, &mut buffer)),
        }
    }
}
