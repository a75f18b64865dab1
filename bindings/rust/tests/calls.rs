//! Every call of the package: what it answers, and each refusal that it can meet.

use papayahelm::{
    is_taken, standing, Error, FontColor, FontHeader, FontRenderer, Framebuffer,
    HorizontalAlignment, LookupSteps, PixelFormat, Place, Point, Rectangle, RenderedDimensions,
    Report, Size, VerticalPosition,
};

/// "-" (2 × 1 pixels) and "4" (2 × 2), line height 4, no background colour.
const T: &[u8; 35] = include_bytes!("../../../fonts/t.bin");

/// Digits and signs, with a background colour.
const GAUGE: &[u8] = include_bytes!("../../../fonts/gauge.bin");

const ANCHORS: [VerticalPosition; 4] = [
    VerticalPosition::Baseline,
    VerticalPosition::Top,
    VerticalPosition::Center,
    VerticalPosition::Bottom,
];

const ALIGNS: [HorizontalAlignment; 3] =
    [HorizontalAlignment::Left, HorizontalAlignment::Center, HorizontalAlignment::Right];

const INK: FontColor = FontColor::Transparent(1);
const INK_ON_PAPER: FontColor = FontColor::WithBackground { fg: 1, bg: 2 };
const HERE: Point = Point::new(10, 20);

fn font(bytes: &[u8]) -> FontRenderer<'_> {
    FontRenderer::new_from_raw_data(bytes).expect("a font that opens")
}

/// T with one byte changed.
fn changed(at: usize, value: u8) -> [u8; 35] {
    let mut bytes = *T;
    bytes[at] = value;
    bytes
}

fn area(left: i32, top: i32, width: u32, height: u32) -> Rectangle {
    Rectangle::new(Point::new(left, top), Size::new(width, height))
}

fn dimensions(advance: (i32, i32), bounding_box: Option<Rectangle>) -> RenderedDimensions {
    RenderedDimensions { advance: Point::new(advance.0, advance.1), bounding_box }
}

fn picture(framebuffer: &Framebuffer) -> Vec<String> {
    let letter = |pixel: &u8| char::from_digit(u32::from(*pixel), 10).expect("a digit");
    framebuffer.rows().map(|row| row.iter().map(letter).collect()).collect()
}

#[test]
fn header_by_name() {
    let expected = FontHeader {
        glyph_count: 2,
        supports_background_color: false,
        m0: 2,
        m1: 2,
        bitcnt_w: 3,
        bitcnt_h: 3,
        bitcnt_x: 2,
        bitcnt_y: 3,
        bitcnt_d: 3,
        font_bounding_box_width: 2,
        font_bounding_box_height: 3,
        font_bounding_box_x_offset: 0,
        font_bounding_box_y_offset: 0,
        ascent: 3,
        descent: 0,
        ascent_of_parentheses: 3,
        descent_of_parentheses: 0,
        array_offset_upper_a: 10,
        array_offset_lower_a: 10,
        array_offset_0x0100: 12,
        line_height: 4,
    };
    assert_eq!(font(T).header(), Ok(expected));
}

/// A header in which no two values are alike, negative ones among them.
#[test]
fn header_values_are_not_exchanged() {
    let bytes = [
        9,
        1,
        0,
        1,
        2,
        3,
        4,
        5,
        6,
        100,
        101,
        256 - 102,
        256 - 103,
        104,
        256 - 105,
        106,
        256 - 107,
        1,
        2,
        3,
        4,
        5,
        6,
    ]
    .map(|value: i32| value as u8);
    let header = font(&bytes).header().unwrap();
    assert!(header.supports_background_color);
    let bits = [header.m0, header.m1, header.bitcnt_w, header.bitcnt_h];
    assert_eq!((header.glyph_count, bits), (9, [0, 1, 2, 3]));
    assert_eq!([header.bitcnt_x, header.bitcnt_y, header.bitcnt_d], [4, 5, 6]);
    let side = (header.font_bounding_box_width, header.font_bounding_box_height);
    let offset = (header.font_bounding_box_x_offset, header.font_bounding_box_y_offset);
    assert_eq!((side, offset), ((100, 101), (-102, -103)));
    assert_eq!((header.ascent, header.descent), (104, -105));
    assert_eq!((header.ascent_of_parentheses, header.descent_of_parentheses), (106, -107));
    assert_eq!(header.array_offset_upper_a, 0x0102);
    assert_eq!(header.array_offset_lower_a, 0x0304);
    assert_eq!(header.array_offset_0x0100, 0x0506);
    assert_eq!(header.line_height, 102);
    assert_eq!(font(&bytes).get_ascent(), Ok(104));
    assert_eq!(font(&bytes).get_descent(), Ok(-105));
    assert_eq!(font(&bytes).get_default_line_height(), Ok(102));
    let whole = area(-102, -(101 - 103), 100, 101);
    assert_eq!(font(&bytes).get_font_bounding_box(VerticalPosition::Baseline), Ok(whole));
}

#[test]
fn font_box_from_each_anchor() {
    let tops = ANCHORS.map(|anchor| font(T).get_font_bounding_box(anchor).unwrap());
    assert_eq!(tops, [-3, 1, -1, -3].map(|top| area(0, top, 2, 3)));
}

#[test]
fn measures() {
    let measure =
        |text: &str| font(T).get_rendered_dimensions(text, HERE, VerticalPosition::Baseline).result;
    assert_eq!(measure("-"), Ok(dimensions((3, 0), Some(area(10, 17, 2, 1)))));
    assert_eq!(measure("4"), Ok(dimensions((3, 0), Some(area(10, 18, 2, 2)))));
    assert_eq!(measure("-4"), Ok(dimensions((6, 0), Some(area(10, 17, 5, 3)))));
    assert_eq!(measure("-\n4"), Ok(dimensions((3, 4), Some(area(10, 17, 2, 7)))));
    assert_eq!(measure(""), Ok(RenderedDimensions::default()));
    let anchored = |anchor| font(T).get_rendered_dimensions("-", HERE, anchor).result.unwrap();
    let tops = ANCHORS.map(|anchor| anchored(anchor).bounding_box.unwrap().top_left.y);
    assert_eq!(tops, [17, 21, 19, 17]);
}

#[test]
fn measures_aligned() {
    let aligned = |text: &str, align| {
        font(T)
            .get_rendered_dimensions_aligned(text, HERE, VerticalPosition::Baseline, align)
            .result
    };
    assert_eq!(aligned("-4", HorizontalAlignment::Left), Ok(Some(area(10, 17, 5, 3))));
    assert_eq!(aligned("-4", HorizontalAlignment::Center), Ok(Some(area(8, 17, 5, 3))));
    assert_eq!(aligned("-4", HorizontalAlignment::Right), Ok(Some(area(5, 17, 5, 3))));
    assert_eq!(aligned("", HorizontalAlignment::Right), Ok(None));
    let anchored = |anchor| {
        font(T)
            .get_rendered_dimensions_aligned("-", HERE, anchor, HorizontalAlignment::Left)
            .into_result()
    };
    assert_eq!(ANCHORS.map(anchored), [17, 21, 19, 17].map(|top| Ok(Some(area(10, top, 2, 1)))));
}

#[test]
fn line_height_and_skipping_are_settings() {
    let measure = |font: FontRenderer, text: &str| {
        font.get_rendered_dimensions(text, HERE, VerticalPosition::Baseline).result
    };
    let tall = font(T).with_line_height(9);
    assert_eq!(measure(tall, "-\n4"), Ok(dimensions((3, 9), Some(area(10, 17, 2, 12)))));
    let skipping = font(T).with_ignore_unknown_chars(true);
    assert_eq!(measure(skipping, "-A4"), measure(font(T), "-4"));
    let left = HorizontalAlignment::Left;
    let aligned =
        skipping.get_rendered_dimensions_aligned("-A4", HERE, VerticalPosition::Baseline, left);
    assert_eq!(aligned.result, Ok(Some(area(10, 17, 5, 3))));
    let mut pixels = [0; 64];
    let mut panel = Framebuffer::new(8, 8, &mut pixels);
    let drawn =
        skipping.render("-A4", Point::new(0, 7), VerticalPosition::Baseline, INK, &mut panel);
    assert_eq!(drawn.result, Ok(dimensions((6, 0), Some(area(0, 4, 5, 3)))));
    let (at, center) = (Point::new(4, 7), HorizontalAlignment::Center);
    let drawn =
        skipping.render_aligned("-A4", at, VerticalPosition::Baseline, center, INK, &mut panel);
    assert_eq!(drawn.result, Ok(Some(area(2, 4, 5, 3))));
    // the redraw step skips nothing
    let place = Place::new(Point::new(0, 7), INK);
    let refused = skipping.redraw("", "-A4", place, &mut panel);
    assert_eq!(refused.result, Err(Error::GlyphNotFound('A')));
    assert_eq!(skipping.with_ignore_unknown_chars(false), font(T));
}

#[test]
fn a_constant_font_is_not_looked_at() {
    const FONT: FontRenderer = FontRenderer::new_unread(T, 4);
    assert_eq!(FONT, font(T));
    assert_eq!(
        format!("{FONT:?}"),
        "FontRenderer { bytes: 35, line_height: 4, ignore_unknown_chars: false }"
    );
}

#[test]
fn renders() {
    let mut pixels = [0; 30];
    let mut panel = Framebuffer::new(6, 5, &mut pixels);
    let answer =
        font(T).render("-4", Point::new(0, 4), VerticalPosition::Baseline, INK, &mut panel);
    assert_eq!(answer.result, Ok(dimensions((6, 0), Some(area(0, 1, 5, 3)))));
    assert_eq!(picture(&panel), ["000000", "110000", "000100", "000110", "000000"]);

    let background = changed(1, 1);
    let answer = font(&background).render(
        "4",
        Point::new(1, 0),
        VerticalPosition::Top,
        INK_ON_PAPER,
        &mut panel,
    );
    assert_eq!(answer.result, Ok(dimensions((3, 0), Some(area(1, 2, 2, 2)))));
    assert_eq!(picture(&panel), ["000000", "110000", "012100", "011110", "000000"]);

    // a part that is seen, and none
    let mut pixels = [0; 6];
    let mut panel = Framebuffer::new(3, 2, &mut pixels);
    let answer =
        font(T).render("4", Point::new(-1, 1), VerticalPosition::Baseline, INK, &mut panel);
    assert_eq!(
        (answer.result.unwrap().bounding_box, picture(&panel)),
        (Some(area(-1, -1, 2, 2)), vec!["100".into(), "000".into()])
    );
    let answer = font(T).render("4", Point::new(0, 9), VerticalPosition::Baseline, INK, &mut panel);
    assert!(answer.result.is_ok() && picture(&panel) == ["100", "000"]);
}

/// Each line is moved by the offset that aligned measuring uses, so that the box is the measured
/// one.
#[test]
fn renders_aligned() {
    let at = Point::new(5, 0);
    let drawn = |text: &str, align, color, bytes: &[u8]| {
        let mut pixels = [0; 80];
        let mut panel = Framebuffer::new(10, 8, &mut pixels);
        let answer =
            font(bytes).render_aligned(text, at, VerticalPosition::Top, align, color, &mut panel);
        let measured =
            font(bytes).get_rendered_dimensions_aligned(text, at, VerticalPosition::Top, align);
        assert_eq!(answer, measured);
        (answer.result.unwrap(), picture(&panel))
    };
    let expected = [
        [
            "0000000000",
            "0000011000",
            "0000000010",
            "0000000011",
            "0000000000",
            "0000000000",
            "0000010000",
            "0000011000",
        ],
        [
            "0000000000",
            "0001100000",
            "0000001000",
            "0000001100",
            "0000000000",
            "0000000000",
            "0000100000",
            "0000110000",
        ],
        [
            "0000000000",
            "1100000000",
            "0001000000",
            "0001100000",
            "0000000000",
            "0000000000",
            "0001000000",
            "0001100000",
        ],
    ];
    for (align, (left, rows)) in ALIGNS.into_iter().zip([5, 3, 0].into_iter().zip(expected)) {
        assert_eq!(
            drawn("-4\n4", align, INK, T),
            (Some(area(left, 1, 5, 7)), rows.map(String::from).to_vec())
        );
        assert_eq!(drawn("\n", align, INK, T), (None, vec!["0000000000".to_string(); 8]));
    }
    let (bounding_box, rows) = drawn("4", HorizontalAlignment::Right, INK_ON_PAPER, &changed(1, 1));
    assert_eq!(bounding_box, Some(area(3, 2, 2, 2)));
    assert_eq!(rows[2..4], ["0001200000", "0001100000"]);
}

/// A line that is centred or set right is measured before its first character is drawn.
#[test]
fn a_refused_line_is_not_begun() {
    let drawn = |bytes: &[u8], text: &str, align| {
        let mut pixels = [0; 16 * 25];
        let mut panel = Framebuffer::new(16, 25, &mut pixels);
        let anchor = VerticalPosition::Baseline;
        let answer = font(bytes).render_aligned(text, HERE, anchor, align, INK, &mut panel);
        let set = |(at, pixel): (usize, &u8)| (*pixel == 1).then_some((at % 16, at / 16));
        let pixels: Vec<_> = panel.pixels.iter().enumerate().filter_map(set).collect();
        (answer.result, (answer.steps.records, answer.steps.entries), pixels)
    };
    let [left, center, right] = ALIGNS.map(|align| drawn(T, "-\n4A", align));
    let missing =
        |pixels: &[(usize, usize)]| (Err(Error::GlyphNotFound('A')), (3, 0), pixels.to_vec());
    assert_eq!(left, missing(&[(10, 17), (11, 17), (10, 22), (10, 23), (11, 23)]));
    assert_eq!(center, missing(&[(9, 17), (10, 17)]));
    assert_eq!(right, missing(&[(8, 17), (9, 17)]));

    // "4" can be measured, but not drawn; what is missing behind it is met first in measuring
    let [left, center, right] = ALIGNS.map(|align| drawn(&T[..32], "4\u{10000}", align));
    assert_eq!(left, (Err(Error::FontEnds('4')), (0, 0), vec![]));
    assert_eq!(center, (Err(Error::GlyphNotFound('\u{10000}')), (2, 0), vec![]));
    assert_eq!(right, center);
    // and where all can be measured, the characters before the refused one are drawn
    let center = drawn(&T[..32], "-4", HorizontalAlignment::Center);
    assert_eq!(center, (Err(Error::FontEnds('4')), (0, 0), vec![(8, 17), (9, 17)]));
}

#[test]
fn text_is_a_string_or_bytes() {
    let measure = |text: &dyn AsRef<[u8]>| {
        font(GAUGE).get_rendered_dimensions(text.as_ref(), HERE, VerticalPosition::Baseline)
    };
    let string = String::from("-12.5°");
    assert_eq!(measure(&string), measure(&"-12.5°"));
    assert_eq!(measure(&string.as_bytes()), measure(&b"-12.5\xC2\xB0"));
    assert_eq!(measure(&b"-12.5\xC2").result, Err(Error::TextEncoding));
    let place = Place::new(HERE, INK);
    let mut pixels = [0; 64 * 32];
    let mut panel = Framebuffer::new(64, 32, &mut pixels);
    assert!(font(GAUGE).redraw(b"", &string, place, &mut panel).result.is_ok());
    assert!(font(GAUGE).redraw(string, vec![b'7'], place, &mut panel).result.is_ok());
}

/// Each reading over the one before shows what it shows alone, or nothing.
#[test]
fn redraws() {
    let place = Place {
        vertical_pos: VerticalPosition::Top,
        background: 3,
        ..Place::new(Point::new(1, 1), INK)
    };
    let alone = |text: &str| {
        let mut pixels = [3; 12 * 8];
        let mut panel = Framebuffer::new(12, 8, &mut pixels);
        let answer =
            font(T).render(text, place.position, place.vertical_pos, place.color, &mut panel);
        (answer, pixels)
    };
    let mut pixels = [3; 12 * 8];
    let mut panel = Framebuffer::new(12, 8, &mut pixels);
    let mut shown = "";
    for text in ["-4-", "4", "", "4-", "-5", "-", "45-", "44"] {
        let answer = font(T).redraw(shown, text, place, &mut panel);
        let (expected, mut pixels) = alone(text);
        assert_eq!(answer, expected);
        if answer.result.is_err() {
            assert_eq!(answer.result, Err(Error::GlyphNotFound('5')));
            pixels = [3; 12 * 8];
        }
        assert_eq!(panel.pixels, pixels, "{text}");
        assert!(is_taken(&answer));
        shown = standing(&answer, shown, text);
        assert_eq!(shown, text);
    }
    // refused before a pixel changes: "44" still stands
    for wrong in [&b"\xFF"[..], &[b'-'; 4097]] {
        let before = panel.pixels.to_vec();
        let answer = font(T).redraw(shown, wrong, place, &mut panel);
        assert_eq!((answer.result, is_taken(&answer)), (Err(Error::TextEncoding), false));
        assert_eq!(panel.pixels, before);
        assert_eq!(standing(&answer, shown.as_bytes(), wrong), b"44");
    }
}

/// The old reading is cleared where it stood: a wide one leaves nothing beside a narrow one.
#[test]
fn redraws_aligned() {
    let anchor = VerticalPosition::Top;
    for align in ALIGNS {
        let place = Place {
            vertical_pos: anchor,
            background: 3,
            ..Place::new(Point::new(8, 1), INK).with_horizontal_align(align)
        };
        assert_eq!(place.horizontal_align, align);
        let mut pixels = [3; 20 * 10];
        let mut panel = Framebuffer::new(20, 10, &mut pixels);
        let mut shown = "";
        for text in ["-4-", "4", "-\n4-4", "", "44-\n-", "4-5", "-"] {
            let answer = font(T).redraw(shown, text, place, &mut panel);
            let mut pixels = [3; 20 * 10];
            let mut alone = Framebuffer::new(20, 10, &mut pixels);
            let expected =
                font(T).render_aligned(text, place.position, anchor, align, INK, &mut alone);
            assert_eq!(answer.result.map(|drawn| drawn.bounding_box), expected.result);
            assert_eq!(answer.steps, expected.steps);
            if expected.result.is_err() {
                alone.pixels.fill(3);
            }
            assert_eq!(panel, alone, "{text:?} {align:?}");
            shown = standing(&answer, shown, text);
        }
        // the advance is that of the last line, wherever this line begins
        let answer = font(T).redraw(shown, "-44\n4-", place, &mut panel);
        assert_eq!(answer.result.unwrap().advance, Point::new(6, 4));
    }
    let place = Place::new(HERE, INK);
    assert_eq!(place, place.with_horizontal_align(HorizontalAlignment::Left));
}

#[test]
fn redraws_with_a_background_colour() {
    let mut pixels = [0; 16];
    let mut panel = Framebuffer::new(4, 4, &mut pixels);
    let bytes = changed(1, 1);
    let place = Place::new(Point::new(0, 3), INK_ON_PAPER);
    assert!(font(&bytes).redraw("", "4", place, &mut panel).result.is_ok());
    assert_eq!(picture(&panel), ["0000", "1200", "1100", "0000"]);
    assert!(font(&bytes).redraw("4", "-", place, &mut panel).result.is_ok());
    assert_eq!(picture(&panel), ["1100", "0000", "0000", "0000"]);
}

#[test]
fn framebuffers_by_their_pixels() {
    let mut pixels = [0, 1, 2, 3, 4, 5];
    let panel = Framebuffer::new(3, 2, &mut pixels);
    assert!(panel.rows().eq([&[0, 1, 2], &[3, 4, 5]]));
    assert_eq!(panel.bounding_box(), area(0, 0, 3, 2));
    assert_eq!(panel.pixel(Point::new(2, 1)), Some(5));
    for (x, y) in [(3, 0), (0, 2), (-1, 0), (0, -1), (i32::MIN, i32::MAX)] {
        assert_eq!(panel.pixel(Point::new(x, y)), None);
    }
    // sizes that no call takes
    for (width, height) in [(0, 2), (3, 0), (usize::MAX, usize::MAX), (7, 1)] {
        let panel = Framebuffer::new(width, height, &mut pixels);
        assert_eq!((panel.rows().count(), panel.pixel(Point::new(0, 0))), (0, None));
        assert_eq!(panel.bounding_box().size.width, u32::try_from(width).unwrap_or(u32::MAX));
    }
}

/// What is drawn on a packed framebuffer is what is drawn on one of bytes.
#[test]
fn packed_framebuffers_show_the_same() {
    let (at, anchor) = (Point::new(0, 8), VerticalPosition::Baseline);
    let mut pixels = [0; 8];
    let mut panel = Framebuffer::packed(8, 8, &mut pixels);
    let answer = font(T).render("-4", at, anchor, INK, &mut panel);
    assert_eq!(answer.result, Ok(dimensions((6, 0), Some(area(0, 5, 5, 3)))));
    assert_eq!(panel.pixels, [32, 32, 0, 192, 128, 0, 0, 0]);

    const WIDTH: usize = 11;
    const HEIGHT: usize = 24;
    let whole = |panel: &Framebuffer| -> Vec<u8> {
        let points = (0..HEIGHT).flat_map(|y| (0..WIDTH).map(move |x| (x as i32, y as i32)));
        points.map(|(x, y)| panel.pixel(Point::new(x, y)).unwrap()).collect()
    };
    let background = changed(1, 1);
    let font = font(&background);
    let on = |fg, bg| FontColor::WithBackground { fg, bg };
    for color in [INK, FontColor::Transparent(0), on(1, 0), on(0, 1)] {
        for align in ALIGNS {
            for (x, y) in (-2..30).map(|y| (y % 13, y)) {
                let at = Point::new(x, y);
                let mut bytes = [0; WIDTH * HEIGHT / 8];
                for (i, byte) in bytes.iter_mut().enumerate() {
                    *byte = (i * 37) as u8;
                }
                let mut panel = Framebuffer::packed(WIDTH, HEIGHT, &mut bytes);
                let mut pixels = whole(&panel);
                let mut other = Framebuffer::new(WIDTH, HEIGHT, &mut pixels);
                let text = "-4\n4-4";
                let drawn = font.render(text, at, anchor, color, &mut panel);
                assert_eq!(drawn, font.render(text, at, anchor, color, &mut other));
                assert_eq!(whole(&panel), other.pixels, "{text:?} {color:?} {at:?}");
                let text = "4-\n-";
                let drawn = font.render_aligned(text, at, anchor, align, color, &mut panel);
                assert_eq!(drawn, font.render_aligned(text, at, anchor, align, color, &mut other));
                assert_eq!(whole(&panel), other.pixels, "{text:?} {color:?} {at:?}");
                let place = Place::new(at, color).with_horizontal_align(align);
                for background in 0..2 {
                    let place = Place { background, ..place };
                    let drawn = font.redraw("-4-\n4", "4-", place, &mut panel);
                    assert_eq!(drawn, font.redraw("-4-\n4", "4-", place, &mut other));
                    assert_eq!(whole(&panel), other.pixels, "{color:?} {at:?} {background}");
                }
            }
        }
    }
}

#[test]
fn packed_framebuffers_by_their_pixels() {
    let mut bytes = [1, 2, 4, 128, 255, 0];
    let panel = Framebuffer::packed(3, 16, &mut bytes);
    assert_eq!(panel.format, PixelFormat::Packed);
    assert!(panel.rows().eq([&[1, 2, 4], &[128, 255, 0]]));
    assert_eq!(panel.bounding_box(), area(0, 0, 3, 16));
    for y in 0..16 {
        let row = [0, 1, 2].map(|x| panel.pixel(Point::new(x, y)));
        let expected = [y == 0 || y == 15, y == 1 || y > 7, y == 2].map(u8::from);
        assert_eq!(row, expected.map(Some), "{y}");
    }
    for (x, y) in [(3, 0), (0, 16), (-1, 0), (0, -1), (i32::MIN, i32::MAX)] {
        assert_eq!(panel.pixel(Point::new(x, y)), None);
    }
    assert_eq!(PixelFormat::default(), PixelFormat::Bytes);
}

/// What a call on a text is handed. A test changes what it is about.
#[derive(Clone, Copy)]
struct Input<'a> {
    font: &'a [u8],
    line_height: u32,
    skip: bool,
    text: &'a [u8],
    at: Point,
    align: HorizontalAlignment,
    color: FontColor,
    background: u8,
    format: PixelFormat,
    size: (usize, usize),
    bytes: usize,
}

const PLAIN: Input = Input {
    font: T,
    line_height: 4,
    skip: false,
    text: b"-",
    at: Point::new(1, 5),
    align: HorizontalAlignment::Left,
    color: INK,
    background: 3,
    format: PixelFormat::Bytes,
    size: (8, 8),
    bytes: 64,
};

/// The same on a packed framebuffer.
const PACKED: Input = Input { background: 0, format: PixelFormat::Packed, bytes: 8, ..PLAIN };

#[derive(Clone, Copy, PartialEq, Debug)]
enum Call {
    Measure,
    MeasureAligned,
    Render,
    RenderAligned,
    RedrawNew,
    RedrawOld,
}

const ON_TEXTS: &[Call] = &[
    Call::Measure,
    Call::MeasureAligned,
    Call::Render,
    Call::RenderAligned,
    Call::RedrawNew,
    Call::RedrawOld,
];
const DRAWING: &[Call] = ON_TEXTS.split_at(2).1;
/// The calls that a character of the text can refuse.
const LETTERS: &[Call] = ON_TEXTS.split_at(5).0;
const DRAWING_LETTERS: &[Call] = LETTERS.split_at(2).1;
/// The calls that can skip a character.
const SKIPPING: &[Call] = LETTERS.split_at(4).0;

/// What a call reports, success being all alike, and what the framebuffer holds afterwards; it was
/// filled with 9.
fn reported(call: Call, input: &Input) -> (Report<()>, Vec<u8>) {
    fn plain<T>(report: Report<T>) -> Report<()> {
        Report { result: report.result.map(|_| ()), steps: report.steps }
    }
    let font = FontRenderer::new_unread(input.font, input.line_height)
        .with_ignore_unknown_chars(input.skip);
    let anchor = VerticalPosition::Baseline;
    let align = input.align;
    let place = Place { background: input.background, ..Place::new(input.at, input.color) }
        .with_horizontal_align(align);
    let mut pixels = vec![9; input.bytes];
    let (format, (width, height)) = (input.format, input.size);
    let mut panel = Framebuffer { format, width, height, pixels: &mut pixels };
    let report = match call {
        Call::Measure => plain(font.get_rendered_dimensions(input.text, input.at, anchor)),
        Call::MeasureAligned => {
            plain(font.get_rendered_dimensions_aligned(input.text, input.at, anchor, align))
        }
        Call::Render => plain(font.render(input.text, input.at, anchor, input.color, &mut panel)),
        Call::RenderAligned => {
            let color = input.color;
            plain(font.render_aligned(input.text, input.at, anchor, align, color, &mut panel))
        }
        Call::RedrawOld => plain(font.redraw(input.text, "-", place, &mut panel)),
        Call::RedrawNew => plain(font.redraw("-", input.text, place, &mut panel)),
    };
    (report, pixels)
}

/// The refusal, and what the framebuffer holds afterwards.
fn refusal(call: Call, input: &Input) -> (Option<Error>, Vec<u8>) {
    let (report, pixels) = reported(call, input);
    (report.result.err(), pixels)
}

/// Each of the calls is refused so, with each alignment. But after 7 and 8 no pixel has changed;
/// only with 7 are the lookups counted.
fn refused(calls: &[Call], input: &Input, error: Error) {
    for (call, align) in calls.iter().flat_map(|call| ALIGNS.map(|align| (call, align))) {
        let (found, pixels) = reported(*call, &Input { align, ..*input });
        assert_eq!(found.result, Err(error), "{call:?} {align:?}");
        let late = matches!(error, Error::GlyphNotFound(_) | Error::FontEnds(_));
        assert!(late || pixels.iter().all(|pixel| *pixel == 9), "{call:?} {align:?}");
        assert!(error.number() == 7 || found.steps == LookupSteps::default(), "{call:?} {align:?}");
    }
}

#[test]
fn nothing_is_refused_without_a_cause() {
    for call in ON_TEXTS {
        assert_eq!(refusal(*call, &PLAIN).0, None, "{call:?}");
        assert_eq!(refusal(*call, &PACKED).0, None, "{call:?}");
    }
}

#[test]
fn refuses_1_font_length() {
    let long = vec![0; 1_048_577];
    for bytes in [&[][..], &T[..22], &long] {
        assert_eq!(FontRenderer::new_from_raw_data(bytes), Err(Error::FontLength));
        let unread = FontRenderer::new_unread(bytes, 4);
        assert_eq!(unread.header(), Err(Error::FontLength));
        assert_eq!(unread.get_ascent(), Err(Error::FontLength));
        assert_eq!(unread.get_descent(), Err(Error::FontLength));
        assert_eq!(unread.get_default_line_height(), Err(Error::FontLength));
        assert_eq!(unread.get_font_bounding_box(VerticalPosition::Top), Err(Error::FontLength));
        refused(ON_TEXTS, &Input { font: bytes, ..PLAIN }, Error::FontLength);
    }
    assert!(FontRenderer::new_from_raw_data(&T[..23]).is_ok());
}

#[test]
fn refuses_2_font_header() {
    let wrong = (2..6).map(|at| changed(at, 9)).chain((6..9).map(|at| changed(at, 0)));
    for bytes in wrong.chain((9..11).map(|at| changed(at, 128))) {
        assert_eq!(FontRenderer::new_from_raw_data(&bytes), Err(Error::FontHeader));
        let unread = FontRenderer::new_unread(&bytes, 4);
        assert_eq!(unread.get_font_bounding_box(VerticalPosition::Top), Err(Error::FontHeader));
        refused(ON_TEXTS, &Input { font: &bytes, ..PLAIN }, Error::FontHeader);
    }
}

#[test]
fn refuses_3_framebuffer_size() {
    for size in [(0, 8), (8, 0), (257, 8), (8, 257), (8, 9), (usize::MAX, usize::MAX)] {
        refused(DRAWING, &Input { size, ..PLAIN }, Error::FramebufferSize);
    }
    for bytes in [0, 63, 65] {
        refused(DRAWING, &Input { bytes, ..PLAIN }, Error::FramebufferSize);
    }
    for size in [(0, 8), (8, 0), (257, 8), (8, 264), (8, 16), (usize::MAX, usize::MAX)] {
        refused(DRAWING, &Input { size, ..PACKED }, Error::FramebufferSize);
    }
    for bytes in [0, 7, 9, 64] {
        refused(DRAWING, &Input { bytes, ..PACKED }, Error::FramebufferSize);
    }
    // a height that is no multiple of 8, whatever the buffer's length
    for bytes in 0..97 {
        refused(DRAWING, &Input { bytes, size: (8, 12), ..PACKED }, Error::FramebufferSize);
    }
    let tall = Input { bytes: 96, size: (8, 12), ..PLAIN };
    for call in DRAWING {
        assert_eq!(refusal(*call, &tall).0, None, "{call:?}");
    }
}

#[test]
fn refuses_4_text_encoding() {
    for text in [&b"\xFF"[..], b"-\xC2", b"\xED\xA0\x80", &[b'-'; 4097]] {
        refused(ON_TEXTS, &Input { text, ..PLAIN }, Error::TextEncoding);
    }
}

#[test]
fn refuses_5_position_or_line_height() {
    for (x, y) in [(1_048_577, 0), (-1_048_577, 0), (0, 1_048_577), (0, i32::MIN)] {
        refused(ON_TEXTS, &Input { at: Point::new(x, y), ..PLAIN }, Error::PositionOrLineHeight);
    }
    refused(ON_TEXTS, &Input { line_height: 65_536, ..PLAIN }, Error::PositionOrLineHeight);
}

#[test]
fn refuses_6_background_color_not_supported() {
    refused(DRAWING, &Input { color: INK_ON_PAPER, ..PLAIN }, Error::BackgroundColorNotSupported);
    let color = FontColor::WithBackground { fg: 1, bg: 0 };
    refused(DRAWING, &Input { color, ..PACKED }, Error::BackgroundColorNotSupported);
}

#[test]
fn refuses_7_glyph_not_found() {
    for ch in ['\0', 'A', '5', '\u{100}', '\u{10FFFF}'] {
        let text = format!("-{ch}");
        refused(LETTERS, &Input { text: text.as_bytes(), ..PLAIN }, Error::GlyphNotFound(ch));
        assert_eq!(refusal(Call::RedrawOld, &Input { text: text.as_bytes(), ..PLAIN }).0, None);
    }
    // "-" is drawn before "A" is refused, but by a step that shows all or nothing
    let input = Input { text: b"-A", ..PLAIN };
    assert!(refusal(Call::Render, &input).1.contains(&1));
    assert!(refusal(Call::RenderAligned, &input).1.contains(&1));
    let cleared = refusal(Call::RedrawNew, &input).1;
    assert!(cleared.contains(&3) && !cleared.contains(&1));
}

#[test]
fn refuses_8_font_ends() {
    let cut = Input { font: &T[..33], text: b"A", ..PLAIN };
    refused(LETTERS, &cut, Error::FontEnds('A'));
    refused(SKIPPING, &Input { skip: true, ..cut }, Error::FontEnds('A'));
    // the record 0 0 that ends the list without its jump, and without both
    for bytes in [&T[..34], &T[..33]] {
        let cut = Input { font: bytes, text: b"\0", ..PLAIN };
        refused(LETTERS, &cut, Error::FontEnds('\0'));
        refused(SKIPPING, &Input { skip: true, ..cut }, Error::FontEnds('\0'));
    }
    // "4" can be measured, but not drawn
    let runs = Input { font: &T[..32], text: b"-4", ..PLAIN };
    assert_eq!(refusal(Call::Measure, &runs).0, None);
    refused(DRAWING_LETTERS, &runs, Error::FontEnds('4'));
    assert!(!refusal(Call::RedrawNew, &runs).1.contains(&1));
    assert_eq!(refusal(Call::RedrawOld, &runs).0, None);
}

#[test]
fn refuses_9_color_not_supported() {
    let on = |fg, bg| FontColor::WithBackground { fg, bg };
    let background = changed(1, 1);
    for color in [FontColor::Transparent(2), FontColor::Transparent(255), on(2, 0), on(0, 2)] {
        // before 6, and with a text that draws nothing
        for font in [&T[..], &background] {
            for text in [&b"-"[..], b"", b"A"] {
                let input = Input { font, text, color, ..PACKED };
                refused(DRAWING, &input, Error::ColorNotSupported);
            }
        }
        // in bytes every colour is one
        for call in DRAWING {
            let input = Input { font: &background, color, background: 2, ..PLAIN };
            assert_eq!(refusal(*call, &input).0, None, "{call:?}");
        }
    }
    for color in [INK, FontColor::Transparent(0), on(0, 1), on(1, 1)] {
        for call in DRAWING {
            let input = Input { font: &background, color, background: 1, ..PACKED };
            assert_eq!(refusal(*call, &input).0, None, "{call:?}");
        }
    }
    // what clears is a colour too
    const STEPS: &[Call] = DRAWING.split_at(2).1;
    for color in [INK, on(1, 0)] {
        let input = Input { color, background: 2, ..PACKED };
        refused(STEPS, &input, Error::ColorNotSupported);
    }
    assert_eq!(refusal(Call::Render, &Input { background: 2, ..PACKED }).0, None);
    assert_eq!(Error::ColorNotSupported.character(), None);
}

/// What a text brings in the lookups, by each call on it and with each alignment.
#[test]
fn steps_are_handed_up() {
    // a jump table: two entries with limits below U+0100; one that leads to a record 0; one that
    // leads to U+0100
    let below = [&T[..], &[0; 9]].concat();
    let zero = [&T[..], &[0, 4, 255, 255, 0, 0, 0]].concat();
    let found = [&T[..], &[0, 4, 255, 255, 1, 0, 6, 138, 62, 2]].concat();
    // the same with jump 0, which from U+0100 on does not come before the code
    let last = [&T[..], &[0, 4, 255, 255, 1, 0, 0, 138, 62, 2]].concat();
    // T with a glyph for U+0000, which is that of "-"; with one for "5" in a record with jump 0
    let nul = [&T[..33], &[0, 5, 138, 62, 2, 0, 0]].concat();
    let ended = [&T[..33], &[53, 0, 138, 62, 2, 0, 0]].concat();
    let missing = |ch| Err(Error::GlyphNotFound(ch));
    let brings = |font, skip, text: &str, result, records, entries| {
        let steps = LookupSteps { records, entries };
        for align in ALIGNS {
            let input = Input { font, skip, text: text.as_bytes(), align, ..PLAIN };
            for call in if skip { SKIPPING } else { LETTERS } {
                let found = reported(*call, &input).0;
                assert_eq!(found, Report { result, steps }, "{text:?} {call:?} {align:?}");
            }
            // the old text of a step is not counted: "-" is the first record
            let minus = Report { result: Ok(()), steps: LookupSteps { records: 1, entries: 0 } };
            assert_eq!(reported(Call::RedrawOld, &input).0, minus, "{text:?} {align:?}");
        }
    };
    brings(T, false, "", Ok(()), 0, 0);
    brings(T, false, "-4", Ok(()), 3, 0);
    brings(T, false, "-\n4\n", Ok(()), 3, 0);
    brings(T, false, "444", Ok(()), 6, 0);
    // the record 0 0 that ends the list does not count: its jump comes before its code
    brings(T, false, "A", missing('A'), 0, 0);
    brings(T, false, "5", missing('5'), 2, 0);
    brings(T, false, "-A", missing('A'), 1, 0);
    brings(T, false, "-A4", missing('A'), 1, 0);
    brings(T, true, "-A", Ok(()), 1, 0);
    brings(T, true, "-A4", Ok(()), 3, 0);
    brings(T, true, "-A4A", Ok(()), 3, 0);
    brings(T, false, "\0", missing('\0'), 2, 0);
    brings(T, true, "-\0\0", Ok(()), 5, 0);
    brings(&nul, false, "\0", Ok(()), 3, 0);
    brings(&nul, false, "-\0\n\0", Ok(()), 7, 0);
    brings(&nul, false, "5", missing('5'), 3, 0);
    brings(&ended, false, "5", missing('5'), 2, 0);
    brings(&ended, true, "-5\0", Ok(()), 5, 0);
    brings(&T[..33], false, "-A", Err(Error::FontEnds('A')), 0, 0);
    brings(&T[..33], true, "-A", Err(Error::FontEnds('A')), 0, 0);
    brings(T, false, "\u{10000}", missing('\u{10000}'), 0, 0);
    brings(&below, false, "\u{100}", missing('\u{100}'), 0, 2);
    brings(&zero, false, "\u{100}", missing('\u{100}'), 1, 1);
    brings(&found, false, "\u{100}", Ok(()), 1, 1);
    brings(&last, false, "\u{100}", Ok(()), 1, 1);
    brings(&last, false, "\u{101}", missing('\u{101}'), 1, 1);
    brings(&found, false, "4\u{100}-\u{100}", Ok(()), 5, 2);
    brings(&found, false, "\u{100}\u{101}", Err(Error::FontEnds('\u{101}')), 0, 0);
    // "4" can be measured, but not drawn
    let runs = Input { font: &T[..32], text: b"4", ..PLAIN };
    let four = Report { result: Ok(()), steps: LookupSteps { records: 2, entries: 0 } };
    let measured = [Call::Measure, Call::MeasureAligned].map(|call| reported(call, &runs).0);
    assert_eq!(measured, [four; 2]);
    refused(DRAWING_LETTERS, &runs, Error::FontEnds('4'));
}

/// A name of eight characters, the last ones U+0000. Where unknown characters are skipped it is as
/// the name alone, but for the records; where not, its first U+0000 is refused.
#[test]
fn names_padded_with_nul() {
    fn with_records<T>(report: Report<T>, more: u32) -> Report<T> {
        let LookupSteps { records, entries } = report.steps;
        Report { steps: LookupSteps { records: records + more, entries }, ..report }
    }
    fn refused<T>(steps: LookupSteps) -> Report<T> {
        Report { result: Err(Error::GlyphNotFound('\0')), steps }
    }
    let (at, anchor) = (Point::new(32, 20), VerticalPosition::Baseline);
    let blank = [9; 64 * 32];
    let measured = |font: FontRenderer, text: &str| font.get_rendered_dimensions(text, at, anchor);
    let drawn = |font: FontRenderer, text: &str| {
        let mut pixels = blank;
        let mut panel = Framebuffer::new(64, 32, &mut pixels);
        (font.render(text, at, anchor, INK, &mut panel), pixels)
    };
    let measured_aligned = |font: FontRenderer, text: &str, align| {
        font.get_rendered_dimensions_aligned(text, at, anchor, align)
    };
    let drawn_aligned = |font: FontRenderer, text: &str, align| {
        let mut pixels = blank;
        let mut panel = Framebuffer::new(64, 32, &mut pixels);
        (font.render_aligned(text, at, anchor, align, INK, &mut panel), pixels)
    };
    // behind its last record T has bytes that read as a glyph
    let longer = [&T[..], &[0; 9]].concat();
    // the font, the name, and the records that a U+0000 brings: all but the one with jump 0
    let names = [(&T[..], "-4", 2), (T, "4-4-4-4", 2), (T, "", 2), (&longer, "-4", 2)];
    for (bytes, name, each) in names.into_iter().chain([(GAUGE, "-12.5°", 32)]) {
        let padded = format!("{name:\0<8}");
        assert_eq!(padded.chars().count(), 8);
        let all = each * (padded.len() - name.len()) as u32;
        let (plain, skipping) = (font(bytes), font(bytes).with_ignore_unknown_chars(true));
        let alone = measured(plain, name);
        assert!(alone.result.is_ok());
        let up_to_nul = with_records(alone, each).steps;
        assert_eq!(measured(skipping, &padded), with_records(alone, all), "{name}");
        assert_eq!(measured(plain, &padded), refused(up_to_nul), "{name}");
        // the letters before U+0000 are drawn
        let (report, pixels) = drawn(plain, name);
        assert_eq!(report, alone);
        assert_eq!(drawn(skipping, &padded), (with_records(alone, all), pixels), "{name}");
        assert_eq!(drawn(plain, &padded), (refused(up_to_nul), pixels), "{name}");
        for align in ALIGNS {
            let alone = measured_aligned(plain, name, align);
            assert_eq!(measured_aligned(skipping, &padded, align), with_records(alone, all));
            assert_eq!(measured_aligned(plain, &padded, align), refused(up_to_nul));
            // .. unless their line is measured first
            let (report, pixels) = drawn_aligned(plain, name, align);
            assert_eq!(report, alone);
            let left = if align == HorizontalAlignment::Left { pixels } else { blank };
            let found = drawn_aligned(skipping, &padded, align);
            assert_eq!(found, (with_records(alone, all), pixels), "{name} {align:?}");
            let found = drawn_aligned(plain, &padded, align);
            assert_eq!(found, (refused(up_to_nul), left), "{name} {align:?}");
        }
    }
}

/// The redraw step skips nothing, so that it is handed a name without its padding.
#[test]
fn redraws_names_without_their_padding() {
    let skipping = font(T).with_ignore_unknown_chars(true);
    let place = Place::new(Point::new(1, 5), INK);
    let mut pixels = [0; 16 * 8];
    let mut panel = Framebuffer::new(16, 8, &mut pixels);
    let mut shown = "";
    for padded in ["-4\0\0\0\0\0\0", "4\0\0\0\0\0\0\0", "-4-4\0\0\0\0", "\0\0\0\0\0\0\0\0"] {
        let name = padded.trim_end_matches('\0');
        let answer = skipping.redraw(shown, name, place, &mut panel);
        assert!(answer.result.is_ok());
        shown = standing(&answer, shown, name);
        let mut pixels = [0; 16 * 8];
        let mut alone = Framebuffer::new(16, 8, &mut pixels);
        let drawn =
            skipping.render(padded, place.position, place.vertical_pos, INK, &mut alone).result;
        assert_eq!((answer.result, &panel), (drawn, &alone), "{name}");
    }
    // with it, it is refused: the old name is cleared, and nothing is drawn
    assert!(skipping.redraw(shown, "-4", place, &mut panel).result.is_ok());
    let answer = skipping.redraw("-4", "4-\0\0\0\0\0\0", place, &mut panel);
    assert_eq!(answer.result, Err(Error::GlyphNotFound('\0')));
    assert_eq!(answer.steps, LookupSteps { records: 5, entries: 0 });
    assert!(is_taken(&answer) && panel.pixels.iter().all(|pixel| *pixel == 0));
}

/// The causes are tested in this order: 1, 2, 3, 4, 5, 9, 6, then 7 and 8.
#[test]
fn the_first_cause_is_the_answer() {
    let header = changed(4, 9);
    let all = Input {
        font: &T[..22],
        line_height: 65_536,
        skip: false,
        text: b"A\xFF",
        at: HERE,
        align: HorizontalAlignment::Left,
        color: INK_ON_PAPER,
        background: 2,
        format: PixelFormat::Packed,
        size: (0, 0),
        bytes: 1,
    };
    refused(DRAWING, &all, Error::FontLength);
    let all = Input { font: &header, ..all };
    refused(DRAWING, &all, Error::FontHeader);
    let all = Input { font: T, ..all };
    refused(DRAWING, &all, Error::FramebufferSize);
    let all = Input { size: (1, 8), ..all };
    refused(DRAWING, &all, Error::TextEncoding);
    let all = Input { text: b"A", ..all };
    refused(DRAWING, &all, Error::PositionOrLineHeight);
    let all = Input { line_height: 4, ..all };
    refused(DRAWING, &all, Error::ColorNotSupported);
    let all = Input { color: FontColor::WithBackground { fg: 1, bg: 0 }, background: 0, ..all };
    refused(DRAWING, &all, Error::BackgroundColorNotSupported);
    refused(DRAWING_LETTERS, &Input { color: INK, ..all }, Error::GlyphNotFound('A'));
}

#[test]
fn refusals_are_errors_in_words() {
    fn words(error: impl core::error::Error) -> String {
        error.to_string()
    }
    let header = "the font's header has a bit width off limits or a negative bounding box";
    let framebuffer = "the framebuffer is not 1 to 256 pixels wide and high, \
                       packed not a multiple of 8 high, or its buffer has another length";
    let position = "x or y is beyond ±1,048,576, or the line height above 65,535";
    let ends = "the font ends before the glyph for '\\u{10ffff}' (U+10FFFF) does";
    let all = [
        (Error::FontLength, "the font has fewer than 23 or more than 1,048,576 bytes"),
        (Error::FontHeader, header),
        (Error::FramebufferSize, framebuffer),
        (Error::TextEncoding, "the text has more than 4,096 bytes or is not UTF-8"),
        (Error::PositionOrLineHeight, position),
        (Error::BackgroundColorNotSupported, "the font allows no background colour"),
        (Error::GlyphNotFound('5'), "the font has no glyph for '5' (U+0035)"),
        (Error::FontEnds('\u{10FFFF}'), ends),
        (Error::ColorNotSupported, "the framebuffer is packed, and a colour is neither 0 nor 1"),
    ];
    for (i, (error, expected)) in all.into_iter().enumerate() {
        assert_eq!(words(error), expected);
        assert_eq!(error.number() as usize, i + 1);
        assert_eq!(error.character().is_some(), i == 6 || i == 7);
    }
    assert_eq!(Error::GlyphNotFound('5').character(), Some('5'));
}
