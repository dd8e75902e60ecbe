//! Colours and styles.

mod color;
mod style;

pub use color::Color;
pub use style::{Attributes, StyleSheet, Styled};
