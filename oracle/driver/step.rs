//! What the redraw step must answer, made of drawings alone, by whichever side draws them.

use crate::case::{Answer, Area, Call, Case, Ink, Outcome};

pub struct Step {
    pub outcome: Outcome,
    /// what drawing the old text answers
    pub old: Answer,
}

fn cause(answer: &Answer) -> Option<u32> {
    match answer {
        Answer::Refused { number, .. } if *number < 7 => Some(*number),
        _ => None,
    }
}

/// The pixels of the box that the framebuffer shows.
fn fill(buffer: &mut [u8], width: usize, area: Area, color: u8) {
    for (at, pixel) in buffer.iter_mut().enumerate() {
        let (x, y) = ((at % width) as i64 - i64::from(area.left), (at / width) as i64 - i64::from(area.top));
        if (0..i64::from(area.width)).contains(&x) && (0..i64::from(area.height)).contains(&y) {
            *pixel = color;
        }
    }
}

/// Both texts are drawn for their causes 1 to 6, the lower of which refuses the step. Then the box of the old text is filled
/// if that drawing succeeded, and the new text is drawn on a copy, which counts if it succeeds. No letter is skipped. The sums
/// are those of that one drawing.
pub fn of_drawings(case: &Case, ink: Ink, mut draw: impl FnMut(&Case, Call) -> Outcome) -> Step {
    let mut new = Case { skip: false, ..case.clone() };
    let old = draw(&Case { text: case.old_text.clone(), ..new.clone() }, Call::Draw(ink)).answer;
    let first = draw(&new, Call::Draw(ink));
    if let Some(number) = [cause(&old), cause(&first.answer)].into_iter().flatten().min() {
        let answer = Answer::Refused { number, code_point: 0 };
        let steps = first.steps.map(|_| (0, 0));
        return Step { outcome: Outcome { answer, buffer: new.buffer, steps }, old };
    }
    if let Answer::Text { bounds: Some(area), .. } = old {
        fill(&mut new.buffer, case.width, area, case.clear_color);
    }
    let drawn = draw(&new, Call::Draw(ink));
    let whole = matches!(drawn.answer, Answer::Text { .. });
    let outcome = if whole { drawn } else { Outcome { buffer: new.buffer, ..drawn } };
    Step { outcome, old }
}
