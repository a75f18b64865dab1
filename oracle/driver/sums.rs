//! What must hold of the sums of a text's lookups, though the Rust has none to compare them with.

use crate::case::{Answer, Call, Case, Outcome};

/// Both succeed, or both are refused with the same number and letter.
fn alike(a: &Answer, b: &Answer) -> bool {
    let refusal = |answer: &Answer| match answer {
        Answer::Refused { number, code_point } => Some((*number, *code_point)),
        _ => None,
    };
    refusal(a) == refusal(b)
}

/// What is wrong with the sums of a call; `measured` is what measuring answers to the same case.
pub fn wrong(case: &Case, call: Call, ours: &Outcome, measured: &Outcome) -> Option<&'static str> {
    let (records, entries) = ours.steps?;
    if matches!(ours.answer, Answer::Refused { number, .. } if number != 7) {
        return ((records, entries) != (0, 0)).then_some("sums with a refusal other than 7");
    }
    // the step skips nothing, so that its input is another one where the case does
    let same_input = !(case.skip && matches!(call, Call::Redraw(..)));
    if same_input && alike(&ours.answer, &measured.answer) && ours.steps != measured.steps {
        return Some("other sums than measuring has");
    }
    // In one lookup no two records begin at the same byte behind the header, and an entry has four bytes.
    let letters = String::from_utf8_lossy(&case.text).chars().filter(|c| *c != '\n').count();
    let room = letters * case.font.len().saturating_sub(23);
    (records as usize > room || 4 * entries as usize > room).then_some("sums above what the font has room for")
}
