//! Scripts of calls on frames, one call a line, and how their answers are printed.

use std::fmt::{self, Display};
use std::io::{BufRead, Write};

use crate::terminal::TerminalSize;
use crate::ui::{Position, StyleSheet};
use crate::{hex, style, Outcome};

/// What plays the calls of scripts. A refused call changes nothing.
pub trait Player {
    /// Begins a new empty frame at the size taken before the first `size`.
    fn restart(&mut self);
    /// Re-wraps the frame to the size.
    fn size(&mut self, size: TerminalSize) -> Result<(), Refusal>;
    fn write(&mut self, style: StyleSheet, text: &[u8]) -> Result<(), Refusal>;
    fn mark(&mut self, offset: i64) -> Result<Position, Refusal>;
    /// The finished rows; a new empty frame of the same size begins.
    fn finish(&mut self) -> Vec<Row>;
}

#[derive(Clone, Copy, Debug, PartialEq, Eq)]
pub enum Refusal {
    /// The text is no UTF-8, from this place on.
    NotUtf8(usize),
    /// A control character other than newline is at this place.
    Control(usize),
    /// An escape piece that is no colour sequence is at this place.
    Escape(usize),
    /// The text or the frame would be too large.
    Large,
    /// The offset has not 16 bits.
    Offset,
}

#[derive(Clone, Debug, PartialEq, Eq)]
pub struct Run {
    pub style: StyleSheet,
    pub text: String,
}

#[derive(Clone, Debug, PartialEq, Eq)]
pub struct Row {
    pub width: u16,
    /// None where hashes are not compared.
    pub hash: Option<u64>,
    pub runs: Vec<Run>,
}

enum Call<'a> {
    Script(&'a str),
    /// None where the width or the height is 0.
    Size(Option<TerminalSize>),
    Write(StyleSheet, Vec<u8>),
    Mark(i64),
    Finish,
}

/// Answers each line of the input.
pub fn play(player: &mut impl Player, input: impl BufRead, out: &mut impl Write) -> Outcome {
    player.restart();
    for (index, line) in input.lines().enumerate() {
        match parse(&line?) {
            Some(call) => answer(player, call, out)?,
            None => writeln!(out, "line {} not understood", index + 1)?,
        }
    }
    Ok(())
}

/// The answers to one script.
pub fn answers(player: &mut impl Player, script: &str) -> String {
    let mut out = Vec::new();
    play(player, script.as_bytes(), &mut out).expect("a vector can be written to");
    String::from_utf8(out).expect("answers are UTF-8")
}

fn parse(line: &str) -> Option<Call<'_>> {
    match line.split(' ').collect::<Vec<_>>()[..] {
        ["script", name] if !name.is_empty() => Some(Call::Script(name)),
        ["size", width, height] => {
            let (width, height) = (parse_number(width)?, parse_number(height)?);
            Some(Call::Size(TerminalSize::new(width, height)))
        }
        ["write", style, text] if !text.is_empty() => {
            Some(Call::Write(style::parse(style)?, hex::decode(text).ok()?))
        }
        ["mark", offset] => Some(Call::Mark(parse_offset(offset)?)),
        ["finish"] => Some(Call::Finish),
        _ => None,
    }
}

fn parse_number(word: &str) -> Option<u16> {
    word.bytes()
        .all(|byte| byte.is_ascii_digit())
        .then(|| word.parse().ok())?
}

fn parse_offset(word: &str) -> Option<i64> {
    let digits = word.strip_prefix('-').unwrap_or(word);
    digits
        .bytes()
        .all(|byte| byte.is_ascii_digit())
        .then(|| word.parse().ok())?
}

fn answer(player: &mut impl Player, call: Call, out: &mut impl Write) -> Outcome {
    match call {
        Call::Script(name) => {
            player.restart();
            writeln!(out, "script {name}")?;
        }
        Call::Size(None) => writeln!(out, "size fault 5")?,
        Call::Size(Some(size)) => writeln!(out, "size {}", number(player.size(size)))?,
        Call::Write(style, text) => writeln!(out, "write {}", number(player.write(style, &text)))?,
        Call::Mark(offset) => match player.mark(offset) {
            Ok(Position { row, col }) => writeln!(out, "mark 0 {row} {col}")?,
            Err(refusal) => writeln!(out, "mark {refusal}")?,
        },
        Call::Finish => {
            writeln!(out, "finish 0")?;
            for (index, row) in player.finish().iter().enumerate() {
                writeln!(out, "row {index} {row}")?;
            }
        }
    }
    Ok(())
}

fn number(answer: Result<(), Refusal>) -> String {
    match answer {
        Ok(()) => "0".to_string(),
        Err(refusal) => refusal.to_string(),
    }
}

impl Display for Refusal {
    fn fmt(&self, f: &mut fmt::Formatter<'_>) -> fmt::Result {
        match self {
            Refusal::NotUtf8(place) => write!(f, "refused 1 at {place}"),
            Refusal::Control(place) => write!(f, "refused 2 at {place}"),
            Refusal::Escape(place) => write!(f, "refused 3 at {place}"),
            Refusal::Large => write!(f, "refused 4"),
            Refusal::Offset => write!(f, "refused 5"),
        }
    }
}

impl Display for Row {
    fn fmt(&self, f: &mut fmt::Formatter<'_>) -> fmt::Result {
        write!(f, "width {} hash ", self.width)?;
        match self.hash {
            Some(hash) => write!(f, "{hash:016x}")?,
            None => write!(f, "-")?,
        }
        for run in &self.runs {
            let text = hex::encode(run.text.as_bytes());
            write!(f, " run {} {text}", style::print(&run.style))?;
        }
        Ok(())
    }
}
