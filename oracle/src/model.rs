//! A model of the rules for frames, with a switch for each parting of the published Rust from them.

use unicode_width::UnicodeWidthChar;

use crate::model_pieces::{is_colour_sequence, is_control, pieces, Cancel, Piece};
use crate::partings::Partings;
use crate::script::{Player, Refusal, Row, Run};
use crate::style;
use crate::terminal::TerminalSize;
use crate::ui::{Position, StyleSheet};

const TEXT_BYTES: usize = 65_535;
const FRAME_BYTES: usize = 16_384;
const FRAME_RUNS: usize = 1_024;
const FRAME_ROWS: usize = 256;

/// FNV-1a with 64 bits.
const HASH_START: u64 = 0xcbf2_9ce4_8422_2325;
const HASH_PRIME: u64 = 0x100_0000_01b3;

pub struct Model {
    partings: Partings,
    frame: Frame,
}

#[derive(Clone)]
struct Frame {
    partings: Partings,
    size: TerminalSize,
    /// The finished rows.
    rows: Vec<Row>,
    /// The runs of the open row.
    runs: Vec<Run>,
    /// The current run, which has not joined the open row yet.
    text: String,
    style: StyleSheet,
    /// The open row's width and hash so far.
    width: u16,
    hash: u64,
}

/// What closes a row.
#[derive(Clone, Copy, PartialEq, Eq)]
enum Closing {
    Newline,
    Fold,
    Rewrap,
    Finish,
}

impl Model {
    pub fn new(partings: Partings) -> Self {
        let frame = Frame::new(TerminalSize::default(), partings);
        Model { partings, frame }
    }

    /// Takes the frame in place of the old one, if it keeps within the limits.
    fn take(&mut self, frame: Frame) -> Result<(), Refusal> {
        if !self.partings.limits && !frame.fits() {
            return Err(Refusal::Large);
        }
        self.frame = frame;
        Ok(())
    }
}

impl Player for Model {
    fn restart(&mut self) {
        self.frame = Frame::new(TerminalSize::default(), self.partings);
    }

    fn size(&mut self, size: TerminalSize) -> Result<(), Refusal> {
        if size == self.frame.size {
            return Ok(());
        }
        self.take(self.frame.rewrapped(size))
    }

    fn write(&mut self, style: StyleSheet, text: &[u8]) -> Result<(), Refusal> {
        let text = check(text, self.partings)?;
        let mut frame = self.frame.clone();
        frame.write(style, text);
        self.take(frame)
    }

    fn mark(&mut self, offset: i64) -> Result<Position, Refusal> {
        let offset = if self.partings.offsets {
            offset as u16
        } else {
            u16::try_from(offset).map_err(|_| Refusal::Offset)?
        };
        let column = self.frame.width.saturating_add(offset);
        let width = self.frame.size.width();
        Ok(Position {
            row: self.frame.rows.len() as u16 + column / width,
            col: column % width,
        })
    }

    fn finish(&mut self) -> Vec<Row> {
        let new = Frame::new(self.frame.size, self.partings);
        let mut rows = std::mem::replace(&mut self.frame, new).finished();
        if self.partings.hashes {
            rows.iter_mut().for_each(|row| row.hash = None);
        }
        rows
    }
}

/// The refusals that need no frame, in their order.
fn check(text: &[u8], partings: Partings) -> Result<&str, Refusal> {
    if !partings.limits && text.len() > TEXT_BYTES {
        return Err(Refusal::Large);
    }
    let text = std::str::from_utf8(text).map_err(|error| Refusal::NotUtf8(error.valid_up_to()))?;
    if partings.texts {
        return Ok(text);
    }
    let mut place = 0;
    for piece in pieces(text, cancel(partings)) {
        match piece {
            Piece::Char('\n') => {}
            Piece::Char(character) if is_control(character) => {
                return Err(Refusal::Control(place));
            }
            Piece::Escape(sequence) if !is_colour_sequence(sequence) => {
                return Err(Refusal::Escape(place));
            }
            _ => {}
        }
        place += piece.len();
    }
    Ok(text)
}

fn cancel(partings: Partings) -> Cancel {
    if partings.cancel {
        Cancel::Passes
    } else {
        Cancel::Ends
    }
}

fn feed(hash: u64, bytes: &[u8]) -> u64 {
    bytes.iter().fold(hash, |hash, &byte| {
        (hash ^ u64::from(byte)).wrapping_mul(HASH_PRIME)
    })
}

impl Frame {
    fn new(size: TerminalSize, partings: Partings) -> Self {
        Frame {
            partings,
            size,
            rows: Vec::new(),
            runs: Vec::new(),
            text: String::new(),
            style: StyleSheet::empty(),
            width: 0,
            hash: HASH_START,
        }
    }

    fn write(&mut self, style: StyleSheet, text: &str) {
        self.style = style;
        for piece in pieces(text, cancel(self.partings)) {
            match piece {
                Piece::Char('\n') => {
                    self.feed(b"\n");
                    self.close(Closing::Newline);
                }
                Piece::Char(character) => {
                    let width = UnicodeWidthChar::width(character).unwrap_or(0) as u16;
                    if width > self.size.width().saturating_sub(self.width) {
                        self.close(Closing::Fold);
                    }
                    self.width += width;
                    self.carry(character.encode_utf8(&mut [0; 4]));
                }
                Piece::Escape(sequence) => self.carry(sequence),
            }
        }
        if !self.text.is_empty() {
            self.join();
            self.style = StyleSheet::empty();
        }
    }

    fn carry(&mut self, piece: &str) {
        self.feed(piece.as_bytes());
        self.text.push_str(piece);
    }

    fn feed(&mut self, piece: &[u8]) {
        self.hash = feed(feed(self.hash, piece), &style::bytes(&self.style));
    }

    /// The current run joins the open row.
    fn join(&mut self) {
        self.runs.push(Run {
            style: self.style,
            text: std::mem::take(&mut self.text),
        });
    }

    fn close(&mut self, closing: Closing) {
        if !self.text.is_empty() || !self.style.is_empty() {
            self.join();
        }
        if !self.runs.is_empty() || self.adds_without_runs(closing) {
            self.rows.push(Row {
                width: self.width,
                hash: Some(self.hash),
                runs: std::mem::take(&mut self.runs),
            });
        }
        self.width = 0;
        self.hash = if self.style.is_empty() {
            HASH_START
        } else {
            feed(HASH_START, &style::bytes(&self.style))
        };
    }

    fn adds_without_runs(&self, closing: Closing) -> bool {
        match closing {
            Closing::Newline => !self.partings.rows,
            Closing::Rewrap => true,
            Closing::Fold | Closing::Finish => false,
        }
    }

    fn rewrapped(&self, size: TerminalSize) -> Frame {
        let mut new = Frame::new(size, self.partings);
        for row in &self.rows {
            new.write_all(&row.runs);
            new.close(Closing::Rewrap);
        }
        new.write_all(&self.runs);
        if self.partings.rewrap {
            new.close(Closing::Finish);
        } else {
            new.style = self.style;
        }
        new
    }

    fn write_all(&mut self, runs: &[Run]) {
        for run in runs {
            self.write(run.style, &run.text);
        }
    }

    fn finished(mut self) -> Vec<Row> {
        self.close(Closing::Finish);
        self.rows
    }

    /// Whether the frame, finished now, would keep within the limits.
    fn fits(&self) -> bool {
        let rows = self.clone().finished();
        let runs = || rows.iter().flat_map(|row| &row.runs);
        rows.len() <= FRAME_ROWS
            && runs().count() <= FRAME_RUNS
            && runs().map(|run| run.text.len()).sum::<usize>() <= FRAME_BYTES
    }
}
