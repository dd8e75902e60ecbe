//! The published frame, asked only what the rules accept.

use crate::model::Model;
use crate::partings::Partings;
use crate::published::{Hashes, Published};
use crate::script::{Player, Refusal, Row};
use crate::terminal::TerminalSize;
use crate::ui::{Position, StyleSheet};

/// Refusals are the model's; what it accepts is answered by the published frame.
pub struct Accepted {
    model: Model,
    published: Published,
}

impl Accepted {
    pub fn new() -> Self {
        Accepted {
            model: Model::new(Partings::default()),
            published: Published::new(Hashes::Hidden),
        }
    }
}

impl Player for Accepted {
    fn restart(&mut self) {
        self.model.restart();
        self.published.restart();
    }

    fn size(&mut self, size: TerminalSize) -> Result<(), Refusal> {
        self.model.size(size)?;
        self.published.size(size)
    }

    fn write(&mut self, style: StyleSheet, text: &[u8]) -> Result<(), Refusal> {
        self.model.write(style, text)?;
        self.published.write(style, text)
    }

    fn mark(&mut self, offset: i64) -> Result<Position, Refusal> {
        self.model.mark(offset)?;
        self.published.mark(offset)
    }

    fn finish(&mut self) -> Vec<Row> {
        self.model.finish();
        self.published.finish()
    }
}
