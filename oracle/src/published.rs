//! Scripts played over the published frame.

use unicode_width::UnicodeWidthChar;

use crate::ansi::AnsiStrippable;
use crate::script::{Player, Refusal, Row, Run};
use crate::terminal::TerminalSize;
use crate::ui::frame_renderer::probe::{Probe, ProbedRow};
use crate::ui::{Position, StyleSheet, Styled};

/// Whether rows are shown with the published hash, which is not ours.
#[derive(Clone, Copy, PartialEq, Eq)]
pub enum Hashes {
    Shown,
    Hidden,
}

pub struct Published {
    frame: Probe,
    hashes: Hashes,
}

impl Published {
    pub fn new(hashes: Hashes) -> Self {
        Published {
            frame: Probe::new(TerminalSize::default()),
            hashes,
        }
    }

    fn row(&self, row: ProbedRow) -> Row {
        Row {
            width: row.runs.iter().map(|run| width(&run.content)).sum(),
            hash: (self.hashes == Hashes::Shown).then_some(row.hash),
            runs: row.runs.iter().map(run).collect(),
        }
    }
}

fn run(run: &Styled<String>) -> Run {
    Run {
        style: run.style,
        text: run.content.clone(),
    }
}

fn width(text: &str) -> u16 {
    text.ansi_stripped_chars()
        .map(|character| UnicodeWidthChar::width(character).unwrap_or(0) as u16)
        .sum()
}

/// Nothing is refused but what cannot be passed: a text that is no UTF-8.
impl Player for Published {
    fn restart(&mut self) {
        self.frame = Probe::new(TerminalSize::default());
    }

    fn size(&mut self, size: TerminalSize) -> Result<(), Refusal> {
        self.frame.resize(size);
        Ok(())
    }

    fn write(&mut self, style: StyleSheet, text: &[u8]) -> Result<(), Refusal> {
        let content =
            std::str::from_utf8(text).map_err(|error| Refusal::NotUtf8(error.valid_up_to()))?;
        self.frame.write(&Styled { content, style });
        Ok(())
    }

    fn mark(&mut self, offset: i64) -> Result<Position, Refusal> {
        let position = self.frame.mark(offset as isize);
        Ok(position.expect("a mark has just been set"))
    }

    fn finish(&mut self) -> Vec<Row> {
        self.frame.finish();
        let rows = self.frame.rows().map(|row| self.row(row)).collect();
        self.frame = Probe::new(self.frame.size());
        rows
    }
}
