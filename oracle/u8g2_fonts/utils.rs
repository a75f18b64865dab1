//! In place of `utils/mod.rs`, which does not lie beside the Rust files.

mod combine_bounding_boxes;
mod debug_ignore;
mod horizontal_rendered_dimensions;

pub use combine_bounding_boxes::combine_bounding_boxes;
pub use debug_ignore::DebugIgnore;
pub use horizontal_rendered_dimensions::HorizontalRenderedDimensions;
