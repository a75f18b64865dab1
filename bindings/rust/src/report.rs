//! What a call on a text hands up beside its answer.

use crate::Error;

/// The steps of a text's lookups, added up.
///
/// In a success they are over all characters, skipped ones too, and a newline brings nothing. With
/// [`GlyphNotFound`](Error::GlyphNotFound) they are over the characters up to and including the
/// refused one. With every other refusal both are 0. They depend on the font, the text and the
/// outcome alone.
#[derive(Clone, Copy, Debug, Default, PartialEq, Eq, Hash)]
pub struct LookupSteps {
    /// How many glyph records had their code looked at: up to U+00FF not the one with jump 0 that
    /// ends a list.
    pub records: u32,
    /// How many entries of the jump table were read.
    pub entries: u32,
}

/// The answer of a call on a text, and the steps of its lookups, which a refusal has too.
#[derive(Clone, Copy, Debug, PartialEq, Eq, Hash)]
#[must_use = "it may hold a refusal"]
pub struct Report<T> {
    /// What the call answers.
    pub result: Result<T, Error>,
    /// How many steps its lookups took.
    pub steps: LookupSteps,
}

impl<T> Report<T> {
    /// The answer alone, for `?`.
    pub fn into_result(self) -> Result<T, Error> {
        self.result
    }
}
