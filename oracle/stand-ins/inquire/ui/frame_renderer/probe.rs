//! Reaches the published frame, which is private to the file it stands in.

use super::FrameState;
use crate::terminal::TerminalSize;
use crate::ui::{Position, Styled};

pub struct Probe {
    frame: FrameState,
}

/// A finished row: its runs and the published hash.
pub struct ProbedRow<'a> {
    pub runs: &'a [Styled<String>],
    pub hash: u64,
}

impl Probe {
    pub fn new(size: TerminalSize) -> Self {
        Probe {
            frame: FrameState::new(size),
        }
    }

    pub fn size(&self) -> TerminalSize {
        self.frame.terminal_size
    }

    pub fn write(&mut self, text: &Styled<&str>) {
        self.frame.write(text);
    }

    /// The position that the mark has set.
    pub fn mark(&mut self, offset: isize) -> Option<Position> {
        self.frame.mark_cursor_position(offset);
        self.frame.expected_cursor_position
    }

    pub fn resize(&mut self, size: TerminalSize) {
        self.frame.resize_if_needed(size);
    }

    pub fn finish(&mut self) {
        self.frame.finish();
    }

    pub fn rows(&self) -> impl Iterator<Item = ProbedRow<'_>> {
        self.frame.finished_rows.iter().map(|row| ProbedRow {
            runs: row.get_content(),
            hash: row.hash(),
        })
    }
}
