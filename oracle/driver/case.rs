//! A case: the inputs of one round of calls, and what a call answers.

pub const ANCHORS: usize = 4;
pub const ALIGNMENTS: usize = 3;

#[derive(Clone, PartialEq, Eq)]
pub struct Case {
    pub font: Vec<u8>,
    pub text: Vec<u8>,
    /// what a step clears before it draws the text, and the colour it fills with
    pub old_text: Vec<u8>,
    pub clear_color: u8,
    pub x: i32,
    pub y: i32,
    pub line_height: u32,
    pub skip: bool,
    /// Baseline, Top, Center, Bottom
    pub anchor: usize,
    pub fg: u8,
    pub bg: u8,
    pub width: usize,
    pub height: usize,
    /// what the framebuffer holds at first; its length may be wrong
    pub buffer: Vec<u8>,
}

#[derive(Clone, Copy, PartialEq, Eq, Debug)]
pub enum Ink {
    Transparent,
    WithBackground,
}

/// The calls of a round, with an anchor, an alignment (Left, Center, Right) and an ink where they have one.
#[derive(Clone, Copy, PartialEq, Eq, Debug)]
pub enum Call {
    Open,
    FontBox(usize),
    Measure,
    Aligned(usize),
    Draw(Ink),
    /// aligned drawing, of which the Rust judges Left alone: it measures the lines of the others by another path
    DrawAligned(usize, Ink),
    /// the redraw step, which the Rust has not: step.rs makes it of plain drawings
    Redraw(usize, Ink),
}

impl Call {
    pub const NAMES: [&'static str; 12] = [
        "open",
        "font box",
        "measure",
        "measure aligned",
        "draw, transparent",
        "draw, background",
        "draw aligned, Left",
        "draw aligned, Center",
        "draw aligned, Right",
        "redraw, Left",
        "redraw, Center",
        "redraw, Right",
    ];

    /// those that are compared with the Rust
    pub const ALL: [Call; 15] = [
        Call::Open,
        Call::FontBox(0),
        Call::FontBox(1),
        Call::FontBox(2),
        Call::FontBox(3),
        Call::Measure,
        Call::Aligned(0),
        Call::Aligned(1),
        Call::Aligned(2),
        Call::Draw(Ink::Transparent),
        Call::Draw(Ink::WithBackground),
        Call::DrawAligned(0, Ink::Transparent),
        Call::DrawAligned(0, Ink::WithBackground),
        Call::Redraw(0, Ink::Transparent),
        Call::Redraw(0, Ink::WithBackground),
    ];

    /// those that the Rust is no judge of
    pub const OURS: [Call; 8] = [
        Call::DrawAligned(1, Ink::Transparent),
        Call::DrawAligned(1, Ink::WithBackground),
        Call::DrawAligned(2, Ink::Transparent),
        Call::DrawAligned(2, Ink::WithBackground),
        Call::Redraw(1, Ink::Transparent),
        Call::Redraw(1, Ink::WithBackground),
        Call::Redraw(2, Ink::Transparent),
        Call::Redraw(2, Ink::WithBackground),
    ];

    pub fn name(self) -> usize {
        match self {
            Call::Open => 0,
            Call::FontBox(_) => 1,
            Call::Measure => 2,
            Call::Aligned(_) => 3,
            Call::Draw(Ink::Transparent) => 4,
            Call::Draw(Ink::WithBackground) => 5,
            Call::DrawAligned(align, _) => 6 + align,
            Call::Redraw(align, _) => 9 + align,
        }
    }

    pub fn ink(self) -> Option<Ink> {
        match self {
            Call::Draw(ink) | Call::DrawAligned(_, ink) | Call::Redraw(_, ink) => Some(ink),
            _ => None,
        }
    }
}

#[derive(Clone, Copy, PartialEq, Eq, Debug)]
pub struct Area {
    pub left: i32,
    pub top: i32,
    pub width: u32,
    pub height: u32,
}

#[derive(Clone, PartialEq, Eq, Debug)]
pub enum Answer {
    /// the header's twenty values and the default line height
    Open([i64; 21]),
    FontBox(Area),
    Text { advance: (i32, i32), bounds: Option<Area> },
    Bounds(Option<Area>),
    Refused { number: u32, code_point: u32 },
    /// the Rust panicked at this letter, with this message at this place of its source
    Panicked { code_point: u32, site: String },
}

/// An answer, and what the framebuffer holds afterwards (empty where the call has none). After a panic of the Rust it is
/// what the framebuffer held before the letter at which it panicked.
#[derive(Clone)]
pub struct Outcome {
    pub answer: Answer,
    pub buffer: Vec<u8>,
    /// The sums of the lookups, records and entries, of a call on a text; `None` from a side that has none.
    pub steps: Option<(u32, u32)>,
}

impl Outcome {
    /// The sums count where both sides have them.
    pub fn same(&self, other: &Outcome) -> bool {
        let steps = self.steps.zip(other.steps).is_none_or(|(a, b)| a == b);
        self.answer == other.answer && self.buffer == other.buffer && steps
    }
}

impl Case {
    /// The number among 1 to 5 with which the call is refused (SPECIFICATION, Refusals), if any: worked out here a second
    /// time, with Rust's own check of UTF-8.
    pub fn off_limits(&self, call: Call) -> Option<u32> {
        if self.font.len() < 23 || self.font.len() > 1_048_576 {
            return Some(1);
        }
        let f = &self.font;
        if f[2..6].iter().any(|b| *b > 8) || f[6..9].iter().any(|b| *b == 0 || *b > 8) || f[9] > 127 || f[10] > 127 {
            return Some(2);
        }
        if matches!(call, Call::Open | Call::FontBox(_)) {
            return None;
        }
        let sides = 1..=256;
        let fits = sides.contains(&self.width) && sides.contains(&self.height) && self.buffer.len() == self.width * self.height;
        if call.ink().is_some() && !fits {
            return Some(3);
        }
        let bad = |text: &[u8]| text.len() > 4096 || std::str::from_utf8(text).is_err();
        if bad(&self.text) || matches!(call, Call::Redraw(..)) && bad(&self.old_text) {
            return Some(4);
        }
        let places = -1_048_576..=1_048_576;
        if !places.contains(&self.x) || !places.contains(&self.y) || self.line_height > 65_535 {
            return Some(5);
        }
        None
    }

    /// Whether some field or run is 8 bits wide: there the Rust mixes bytes, and the answers may part.
    pub fn has_width_8(&self) -> bool {
        self.font[2..9].contains(&8)
    }

}

impl std::fmt::Display for Case {
    fn fmt(&self, f: &mut std::fmt::Formatter) -> std::fmt::Result {
        // a long run of one byte by its length
        let run = |v: &[u8]| match v.len() {
            0..=40 => v.iter().map(|b| b.to_string()).collect::<Vec<_>>().join(" "),
            n => format!("{} ({n} times)", v[0]),
        };
        let bytes = |v: &[u8]| v.chunk_by(|a, b| a == b).map(run).collect::<Vec<_>>().join(" ");
        writeln!(f, "  font ({} bytes): {}", self.font.len(), bytes(&self.font))?;
        for (name, text) in [("text", &self.text), ("old text", &self.old_text)] {
            writeln!(f, "  {name}: \"{}\" = {}", String::from_utf8_lossy(text).escape_debug(), bytes(text))?;
        }
        writeln!(
            f,
            "  at ({}, {}), anchor {}, line height {}, skip {}, colours {} {}, cleared with {}, framebuffer {} x {} of {} bytes",
            self.x, self.y, self.anchor, self.line_height, self.skip, self.fg, self.bg, self.clear_color, self.width, self.height,
            self.buffer.len()
        )
    }
}
