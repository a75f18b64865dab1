//! The crate root of the Rust library as the oracle builds it. build.sh lays links to the Rust files beside a link to this
//! file, so that each `mod` below is the unchanged file of that name. Modules that are private in the original are public
//! here: the driver reads `FontReader`, and implements `Content` to learn which letter a call had reached.

pub mod content;
mod error;
mod font;
pub mod font_reader;
mod renderer;
pub mod types;
mod utils;

pub use content::Content;
pub use error::{Error, LookupError};
pub use font::Font;
pub use renderer::FontRenderer;
