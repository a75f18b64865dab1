//! Which texts are left out of the comparison (A3). Up to 255 a record with jump 0 ends the chain before its code is compared,
//! and the Rust compares the code first. So a text is left out if the Rust finds such a record for one of its letters up to 255.

use crate::case::{Answer, Call, Case, Outcome};

/// Whether the Rust's lookup of a code point up to 255 finds a record with jump 0.
fn finds_jump_0(font: &[u8], code: u8) -> bool {
    let offset = |at: usize| usize::from(font[at]) * 256 + usize::from(font[at + 1]);
    let mut at = 23 + match code {
        0..=64 => 0,
        65..=96 => offset(17),
        97.. => offset(19),
    };
    // it panics where the font ends
    while let Some(&[found, jump]) = font.get(at..at + 2) {
        if found == code || jump == 0 {
            return found == code && jump == 0;
        }
        at += usize::from(jump);
    }
    false
}

fn letters_of(text: &[u8]) -> &str {
    std::str::from_utf8(text).expect("a text within limits")
}

/// For which code points up to 255 that is so, of those that the text has. A newline is not looked up.
fn ones(font: &[u8], text: &[u8]) -> [bool; 256] {
    let mut has = [false; 256];
    for ch in letters_of(text).chars().filter(|ch| *ch != '\n') {
        if let Ok(code) = u8::try_from(u32::from(ch)) {
            has[usize::from(code)] = true;
        }
    }
    std::array::from_fn(|code| has[code] && finds_jump_0(font, code as u8))
}

fn text_is(case: &Case, text: &[u8]) -> bool {
    ones(&case.font, text).contains(&true)
}

/// Whether a call within limits is left out. Of a step both texts count.
pub fn is(case: &Case, call: Call) -> bool {
    match call {
        Call::Open | Call::FontBox(_) => false,
        Call::Redraw(..) => text_is(case, &case.text) || text_is(case, &case.old_text),
        _ => text_is(case, &case.text),
    }
}

/// What says that too much is left out. A text that is left out has a letter that is missing, so unless such letters are skipped,
/// which a step never does, ours is refused. And the Rust finds each of these letters, though the font may end in its fields.
pub fn wrong(case: &Case, call: Call, ours: &Answer, mut rust: impl FnMut(&Case, Call) -> Outcome) -> Option<&'static str> {
    let step = matches!(call, Call::Redraw(..));
    let may_succeed = case.skip && !step || !text_is(case, &case.text);
    if !may_succeed && !matches!(ours, Answer::Refused { number: 6..=8, .. }) {
        return Some("left out, and no letter is missing");
    }
    let mut finds = |code: u8| {
        let alone = Case { text: char::from(code).to_string().into_bytes(), skip: false, ..case.clone() };
        match rust(&alone, Call::Measure).answer {
            Answer::Text { .. } => true,
            Answer::Panicked { site, .. } => site.starts_with("font_reader/glyph_reader.rs"),
            _ => false,
        }
    };
    let texts = if step { vec![&case.text, &case.old_text] } else { vec![&case.text] };
    let found = texts.into_iter().map(|text| ones(&case.font, text)).all(|ones| {
        (0..=255).all(|code| !ones[usize::from(code)] || finds(code))
    });
    (!found).then_some("left out for a letter that the Rust does not find")
}

/// What a call other than the step must answer to any text, by the Rust's answer to another one that is not left out. Letters
/// that find a record with jump 0 are missing: skipped, they are as if they were not there; else the text comes as far as the
/// first of them. Behind that one the newlines stay, since the anchor counts them.
pub fn amended(case: &Case, call: Call, rust: impl FnOnce(&Case, Call) -> Outcome) -> Outcome {
    let (text, ones) = (letters_of(&case.text), ones(&case.font, &case.text));
    let is_one = |ch: char| ones.get(ch as usize).is_some_and(|one| *one);
    let with = |text: String| Case { text: text.into_bytes(), ..case.clone() };
    if case.skip {
        return rust(&with(text.chars().filter(|ch| !is_one(*ch)).collect()), call);
    }
    let Some(at) = text.find(is_one) else { return rust(case, call) };
    let missing = text[at..].chars().next().map_or(0, u32::from);
    let newlines = "\n".repeat(text[at..].matches('\n').count());
    let before = rust(&with(text[..at].to_string() + &newlines), call);
    match before.answer {
        Answer::Refused { .. } | Answer::Panicked { .. } => before,
        _ => Outcome { answer: Answer::Refused { number: 7, code_point: missing }, ..before },
    }
}
