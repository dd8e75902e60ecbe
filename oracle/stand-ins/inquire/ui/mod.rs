//! The published crate's module `ui`, as far as frames need it.

mod api;
mod dimension;
mod position;

/// The published file stands beside the probe in one module, so that the probe sees what is private
/// to that file.
pub mod frame_renderer {
    include!("frame_renderer.rs");

    pub mod probe;
}

pub use api::{Attributes, Color, StyleSheet, Styled};
pub use position::Position;

/// Stands in for the source of keys, which frames do not read.
pub trait InputReader {}
