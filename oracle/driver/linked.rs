//! Our answers: the static library, through the package bindings/rust.

use papayahelm::{
    Error, FontColor, FontHeader, FontRenderer, Framebuffer, HorizontalAlignment, Place, Point, Report, VerticalPosition,
};

use crate::case::{Answer, Area, Call, Case, Ink, Outcome};

const ANCHORS: [VerticalPosition; 4] =
    [VerticalPosition::Baseline, VerticalPosition::Top, VerticalPosition::Center, VerticalPosition::Bottom];
const ALIGNS: [HorizontalAlignment; 3] = [HorizontalAlignment::Left, HorizontalAlignment::Center, HorizontalAlignment::Right];

fn area(r: papayahelm::Rectangle) -> Area {
    Area { left: r.top_left.x, top: r.top_left.y, width: r.size.width, height: r.size.height }
}

fn text_answer(d: papayahelm::RenderedDimensions) -> Answer {
    Answer::Text { advance: (d.advance.x, d.advance.y), bounds: d.bounding_box.map(area) }
}

type Reported = (Result<Answer, Error>, Option<(u32, u32)>);

fn reported<T>(report: Report<T>, answer: impl FnOnce(T) -> Answer) -> Reported {
    (report.result.map(answer), Some((report.steps.records, report.steps.entries)))
}

fn refused(error: Error) -> Answer {
    Answer::Refused { number: error.number(), code_point: error.character().map_or(0, u32::from) }
}

fn header(h: FontHeader) -> Answer {
    Answer::Open([
        h.glyph_count.into(),
        h.supports_background_color.into(),
        h.m0.into(),
        h.m1.into(),
        h.bitcnt_w.into(),
        h.bitcnt_h.into(),
        h.bitcnt_x.into(),
        h.bitcnt_y.into(),
        h.bitcnt_d.into(),
        h.font_bounding_box_width.into(),
        h.font_bounding_box_height.into(),
        h.font_bounding_box_x_offset.into(),
        h.font_bounding_box_y_offset.into(),
        h.ascent.into(),
        h.descent.into(),
        h.ascent_of_parentheses.into(),
        h.descent_of_parentheses.into(),
        h.array_offset_upper_a.into(),
        h.array_offset_lower_a.into(),
        h.array_offset_0x0100.into(),
        h.line_height.into(),
    ])
}

pub fn call(case: &Case, call: Call) -> Outcome {
    let font = FontRenderer::new_unread(&case.font, case.line_height).with_ignore_unknown_chars(case.skip);
    let (position, anchor) = (Point::new(case.x, case.y), ANCHORS[case.anchor]);
    let color_of = |ink| match ink {
        Ink::Transparent => FontColor::Transparent(case.fg),
        Ink::WithBackground => FontColor::WithBackground { fg: case.fg, bg: case.bg },
    };
    let mut buffer = if call.ink().is_some() { case.buffer.clone() } else { Vec::new() };
    let mut framebuffer = Framebuffer::new(case.width, case.height, &mut buffer);
    let (answer, steps) = match call {
        Call::Open => (font.header().map(header), None),
        Call::FontBox(anchor) => (font.get_font_bounding_box(ANCHORS[anchor]).map(|r| Answer::FontBox(area(r))), None),
        Call::Measure => reported(font.get_rendered_dimensions(&case.text, position, anchor), text_answer),
        Call::Aligned(align) => {
            let report = font.get_rendered_dimensions_aligned(&case.text, position, anchor, ALIGNS[align]);
            reported(report, |b| Answer::Bounds(b.map(area)))
        }
        Call::Draw(ink) => reported(font.render(&case.text, position, anchor, color_of(ink), &mut framebuffer), text_answer),
        Call::DrawAligned(align, ink) => {
            let report = font.render_aligned(&case.text, position, anchor, ALIGNS[align], color_of(ink), &mut framebuffer);
            reported(report, |b| Answer::Bounds(b.map(area)))
        }
        Call::Redraw(align, ink) => {
            let (horizontal_align, background) = (ALIGNS[align], case.clear_color);
            let place = Place { position, vertical_pos: anchor, horizontal_align, color: color_of(ink), background };
            reported(font.redraw(&case.old_text, &case.text, place, &mut framebuffer), text_answer)
        }
    };
    Outcome { answer: answer.unwrap_or_else(refused), buffer, steps }
}
