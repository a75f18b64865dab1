//! Makes a case smaller while it keeps showing the same thing, as delta debugging does: large chunks go first, single bytes
//! last. One candidate is held at a time.

use std::ops::Range;

use crate::case::Case;

/// How many candidates are tried at most, and how many of them in one pass.
pub const TRIES: usize = 20_000;
const TRIES_OF_PASS: usize = 4000;

/// Offers ranges of `length` places from the last to the first: all, then halves, quarters and so on down to single ones.
/// `offer` says whether the places are gone.
fn chunks(mut length: usize, mut offer: impl FnMut(Range<usize>) -> bool) {
    let mut size = length;
    while size > 0 {
        let mut end = length;
        while end > 0 {
            let start = end.saturating_sub(size);
            if offer(start..end) {
                length -= end - start;
            }
            end = start;
        }
        size = (size / 2).min(length);
    }
}

/// The letters of a text, and each byte that belongs to none.
fn letters(text: &[u8]) -> Vec<&[u8]> {
    let mut out = Vec::new();
    for chunk in text.utf8_chunks() {
        out.extend(chunk.valid().split_inclusive(|_| true).map(str::as_bytes));
        out.extend(chunk.invalid().chunks(1));
    }
    out
}

struct Shrink<S> {
    case: Case,
    shows: S,
    tries: usize,
    limit: usize,
    kept: usize,
}

impl<S: FnMut(&Case) -> bool> Shrink<S> {
    /// Makes the change if the case then still shows the same thing.
    fn attempt(&mut self, change: impl FnOnce(&mut Case)) -> bool {
        if self.tries == self.limit {
            return false;
        }
        self.tries += 1;
        let mut next = self.case.clone();
        change(&mut next);
        if next == self.case || !(self.shows)(&next) {
            return false;
        }
        self.case = next;
        self.kept += 1;
        true
    }

    fn fewer_letters(&mut self) {
        self.fewer_letters_of(|c| &mut c.text);
        self.fewer_letters_of(|c| &mut c.old_text);
    }

    fn fewer_letters_of(&mut self, of: fn(&mut Case) -> &mut Vec<u8>) {
        let text = of(&mut self.case).clone();
        let mut letters = letters(&text);
        chunks(letters.len(), |range| {
            let fewer = [&letters[..range.start], &letters[range.end..]].concat();
            let gone = self.attempt(|c| *of(c) = fewer.concat());
            if gone {
                letters = fewer;
            }
            gone
        });
    }

    fn smaller_framebuffer(&mut self) {
        let (w, h) = (self.case.width, self.case.height);
        for (width, height) in [(1, 1), (w, 1), (1, h), (w / 2, h / 2)] {
            let pixels = width.saturating_mul(height);
            let before = self.case.width.saturating_mul(self.case.height);
            // sides off limits have a buffer that is shorter
            if 0 < pixels && pixels < before && pixels <= self.case.buffer.len() {
                self.attempt(|c| (c.width, c.height, c.buffer) = (width, height, vec![0; pixels]));
            }
        }
        self.attempt(|c| c.buffer.fill(0));
    }

    fn plainer_numbers(&mut self) {
        while (self.case.x, self.case.y) != (0, 0)
            && (self.attempt(|c| (c.x, c.y) = (0, 0)) || self.attempt(|c| (c.x, c.y) = (c.x / 2, c.y / 2)))
        {}
        self.attempt(|c| c.line_height = 0);
        self.attempt(|c| c.skip = false);
        self.attempt(|c| c.anchor = 0);
        self.attempt(|c| (c.fg, c.bg, c.clear_color) = (1, 0, 2));
    }

    /// A whole header stays.
    fn shorter_font(&mut self) {
        let length = self.case.font.len();
        let first = if length < 23 { 0 } else { 23 };
        chunks(length - first, |range| {
            self.attempt(|c| {
                c.font.drain(first + range.start..first + range.end);
            })
        });
    }

    /// A later record first, with all offsets 0.
    fn later_record(&mut self) {
        for start in (24..self.case.font.len()).rev() {
            let change = |c: &mut Case| {
                c.font[17..23].fill(0);
                c.font.drain(23..start);
            };
            if self.attempt(change) {
                return;
            }
        }
    }

    fn lower_bytes(&mut self) {
        chunks(self.case.font.len(), |range| {
            if self.case.font[range.clone()].iter().any(|b| *b != 0) {
                self.attempt(|c| c.font[range].fill(0));
            }
            false
        });
        for i in 0..self.case.font.len() {
            loop {
                let byte = self.case.font[i];
                let lower = [1, byte / 2, byte.wrapping_sub(1)];
                if !lower.into_iter().any(|value| value < byte && self.attempt(|c| c.font[i] = value)) {
                    break;
                }
            }
        }
    }
}

pub fn shrink<S: FnMut(&Case) -> bool>(case: Case, shows: S) -> Case {
    let passes = [
        Shrink::fewer_letters,
        Shrink::smaller_framebuffer,
        Shrink::plainer_numbers,
        Shrink::shorter_font,
        Shrink::later_record,
        Shrink::lower_bytes,
    ];
    let mut s = Shrink { case, shows, tries: 0, limit: 0, kept: 0 };
    loop {
        let before = s.kept;
        for pass in passes {
            s.limit = TRIES.min(s.tries + TRIES_OF_PASS);
            pass(&mut s);
        }
        if s.kept == before || s.tries == TRIES {
            return s.case;
        }
    }
}
