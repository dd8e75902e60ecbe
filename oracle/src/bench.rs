//! Times the published reader over one text.

use std::fs;
use std::hint::black_box;
use std::io::Write;
use std::path::Path;
use std::time::Instant;

use crate::ansi::{AnsiAware, AnsiAwareChar, AnsiStrippable};
use crate::terminal::TerminalSize;
use crate::ui::frame_renderer::probe::Probe;
use crate::ui::{StyleSheet, Styled};
use crate::Outcome;

/// One more than the last code point, so that an escape sequence counts as no character does.
const ESCAPE: u64 = 0x11_0000;

/// Prints a line for each measurement: its name, the checksum, the nanoseconds of the fastest round.
pub fn run(out: &mut impl Write, file: &Path, rounds: u32) -> Outcome {
    if rounds == 0 {
        return Err("ROUNDS is at least 1".into());
    }
    let bytes = fs::read(file)?;
    let text = std::str::from_utf8(&bytes)?;
    let lines = [
        ("pieces", fastest(rounds, || pieces(black_box(text)))),
        ("stripped", fastest(rounds, || stripped(black_box(text)))),
        ("checked", fastest(rounds, || checked(black_box(&bytes)))),
    ];
    for (name, (checksum, nanoseconds)) in lines {
        writeln!(out, "{name} {checksum} {nanoseconds}")?;
    }
    Ok(())
}

/// Prints the line of one more measurement: a frame of 80 columns is opened, the text written, and the frame finished.
pub fn write(out: &mut impl Write, file: &Path, rounds: u32) -> Outcome {
    let text = fs::read_to_string(file)?;
    let (_, nanoseconds) = fastest(rounds, || written(black_box(&text)).rows().count() as u64);
    let checksum = written(&text).rows().fold(0, |sum, row| {
        add(
            sum,
            row.runs.iter().map(|run| run.content.len() as u64).sum(),
        )
    });
    writeln!(out, "write {checksum} {nanoseconds}")?;
    Ok(())
}

fn written(text: &str) -> Probe {
    let mut frame = Probe::new(TerminalSize::default());
    frame.write(&Styled {
        content: text,
        style: StyleSheet::default(),
    });
    frame.finish();
    frame
}

/// The checksum, and the time of the fastest round.
fn fastest(rounds: u32, round: impl Fn() -> u64) -> (u64, u128) {
    let mut checksum = 0;
    let mut nanoseconds = u128::MAX;
    for _ in 0..rounds {
        let start = Instant::now();
        checksum = black_box(round());
        nanoseconds = nanoseconds.min(start.elapsed().as_nanos());
    }
    (checksum, nanoseconds)
}

fn pieces(text: &str) -> u64 {
    text.ansi_aware_chars().fold(0, |sum, piece| match piece {
        AnsiAwareChar::AnsiEscapeSequence(sequence) => {
            add(sum, ESCAPE.wrapping_add(sequence.len() as u64))
        }
        AnsiAwareChar::Char(character) => add(sum, u64::from(character)),
    })
}

fn stripped(text: &str) -> u64 {
    text.ansi_stripped_chars()
        .fold(0, |sum, character| add(sum, u64::from(character)))
}

fn checked(bytes: &[u8]) -> u64 {
    pieces(std::str::from_utf8(bytes).expect("checked before the timing"))
}

fn add(sum: u64, value: u64) -> u64 {
    sum.wrapping_mul(31).wrapping_add(value)
}
