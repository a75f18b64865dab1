//! Chooses cases whose answers are stored in the repository: one for each kind of outcome of each call.

use std::collections::BTreeMap;

use crate::case::{Answer, Area, Call, Case, Ink};
use crate::generate::Cases;
use crate::left_out;
use crate::rust_side;

/// Which part of the lookup a code point goes to.
fn part(code_point: u32) -> &'static str {
    match code_point {
        0 => "U+0000",
        1..=64 => "below A",
        65..=96 => "A",
        97..=255 => "a",
        256..=65535 => "U+0100",
        _ => "above",
    }
}

/// On which sides a box leaves the framebuffer.
fn sides(case: &Case, area: &Area) -> String {
    let (right, bottom) = (area.left + area.width as i32, area.top + area.height as i32);
    let (width, height) = (case.width as i32, case.height as i32);
    if right <= 0 || bottom <= 0 || area.left >= width || area.top >= height {
        return "outside".to_string();
    }
    let mut out = String::new();
    for (name, leaves) in [("l", area.left < 0), ("t", area.top < 0), ("r", right > width), ("b", bottom > height)] {
        if leaves {
            out.push_str(name);
        }
    }
    out
}

/// What tells one outcome from another.
fn kind(case: &Case, call: Call, answer: &Answer) -> String {
    let lines = case.text.iter().filter(|b| **b == 10).count().min(2);
    let outcome = match answer {
        Answer::Open(_) | Answer::FontBox(_) => "ok".to_string(),
        Answer::Text { advance, bounds: Some(area) } if call.ink().is_some() => {
            format!("ok, {} {}", if advance.0 < 0 { "back" } else { "on" }, sides(case, area)).trim_end().to_string()
        }
        Answer::Text { bounds: None, .. } | Answer::Bounds(None) => {
            format!("none, {}", if case.text.is_empty() { "empty text" } else { "no box" })
        }
        Answer::Text { advance, .. } => {
            format!("ok, {} anchor {} lines {lines}", if advance.0 < 0 { "back" } else { "on" }, case.anchor)
        }
        Answer::Bounds(_) => format!("ok, anchor {} lines {lines}", case.anchor),
        Answer::Refused { number, code_point } => format!("no {number}, {}", part(*code_point)),
        Answer::Panicked { code_point, site } => {
            format!("panic at {}, {}", site.split(": ").next().unwrap_or(""), part(*code_point))
        }
    };
    // skipping makes a difference where the call goes on
    let skips = case.skip && (outcome.starts_with("ok") || outcome.starts_with("none"));
    format!("{call:?}, {outcome}{}", if skips { ", skipping" } else { "" })
}

fn size(case: &Case) -> usize {
    case.font.len() * 2 + case.text.len() * 4 + case.buffer.len()
}

fn words(answer: &Answer) -> String {
    let area = |a: &Option<Area>| {
        a.map_or("none".to_string(), |a| format!("{} {} {} {}", a.left, a.top, a.width, a.height))
    };
    match answer {
        Answer::Open(values) => format!("ok {}", values.map(|v| v.to_string()).join(" ")),
        Answer::FontBox(a) => format!("ok {}", area(&Some(*a))),
        Answer::Text { advance, bounds } => format!("ok {} {} {}", advance.0, advance.1, area(bounds)),
        Answer::Bounds(bounds) => format!("ok {}", area(bounds)),
        Answer::Refused { number, code_point } => format!("no {number} {code_point}"),
        // our answer where the Rust panics
        Answer::Panicked { code_point, .. } => format!("no 8 {code_point}"),
    }
}

/// The pattern of crates/cases: a fill value, rising by 0, 1, 2.
fn filled(fill: u8, length: usize) -> Vec<u8> {
    (0..length).map(|i| if fill > 0 { (usize::from(fill) + i % 3) as u8 } else { 0 }).collect()
}

/// Prints the smallest case of each kind among `count` cases: a line of numbers, the bytes in hexadecimal, then the answer.
pub fn record(seed: u64, count: u64) {
    let mut cases = Cases::plain(seed);
    let mut kept: BTreeMap<String, Case> = BTreeMap::new();
    for _ in 0..count {
        let mut case = cases.next();
        if case.font.len() > 90 || case.text.len() > 14 || case.width > 12 || case.height > 12 {
            continue;
        }
        case.buffer = filled(case.fg / 2, case.width * case.height);
        for call in Call::ALL {
            if case.off_limits(call).is_some() || matches!(call, Call::DrawAligned(..) | Call::Redraw(..)) {
                continue;
            }
            if case.has_width_8() && !matches!(call, Call::Open | Call::FontBox(_)) {
                continue;
            }
            if left_out::is(&case, call) {
                continue;
            }
            let rust = rust_side::call(&case, call);
            // the panic that docs/DIFFERENCES.md lists has no answer of the oracle
            if matches!(&rust.answer, Answer::Panicked { site, .. } if site.contains("subtract with overflow")) {
                continue;
            }
            let kind = kind(&case, call, &rust.answer);
            if kept.get(&kind).is_none_or(|k| size(&case) < size(k)) {
                kept.insert(kind, case.clone());
            }
        }
    }
    let hex = |v: &[u8]| v.iter().map(|b| format!("{b:02x}")).collect::<String>();
    for (kind, case) in &kept {
        let call = *Call::ALL.iter().find(|c| kind.starts_with(&format!("{c:?}, "))).expect("the call of a kind");
        let rust = rust_side::call(case, call);
        let (number, anchor, align, ink) = match call {
            Call::Open => (0, 0, 0, 0),
            Call::FontBox(anchor) => (1, anchor, 0, 0),
            Call::Measure => (2, case.anchor, 0, 0),
            Call::Aligned(align) => (3, case.anchor, align, 0),
            Call::Draw(ink) | Call::DrawAligned(_, ink) | Call::Redraw(_, ink) => {
                (4, case.anchor, 0, (ink == Ink::WithBackground) as usize)
            }
        };
        println!(
            "{kind} | {number} {anchor} {align} {ink} {} {} {} {} {} {} {} {} {} | {} | {} | {} | {}",
            case.x, case.y, case.line_height, case.skip as u8, case.fg, case.bg, case.width, case.height, case.fg / 2,
            hex(&case.font), hex(&case.text), words(&rust.answer), hex(&rust.buffer)
        );
    }
}
