//! The published reader's answers for one text.

use crate::ansi::{AnsiAware, AnsiAwareChar, AnsiStrippable};
use crate::hex;

/// The pieces: `E:HEX` for an escape sequence, `C:CODEPOINT` for a character.
pub fn list(bytes: &[u8]) -> String {
    answer(bytes, |text| {
        text.ansi_aware_chars()
            .map(|piece| match piece {
                AnsiAwareChar::AnsiEscapeSequence(sequence) => {
                    format!("E:{}", hex::encode(sequence.as_bytes()))
                }
                AnsiAwareChar::Char(character) => character_word(character),
            })
            .collect()
    })
}

/// The characters outside escape sequences, each as `C:CODEPOINT`.
pub fn stripped(bytes: &[u8]) -> String {
    answer(bytes, |text| {
        text.ansi_stripped_chars().map(character_word).collect()
    })
}

fn character_word(character: char) -> String {
    format!("C:{:x}", u32::from(character))
}

/// The words joined by spaces, `-` for none, or the refusal of a text that is no UTF-8 with the
/// place of its first offending byte.
fn answer(bytes: &[u8], words: fn(&str) -> Vec<String>) -> String {
    match std::str::from_utf8(bytes).map(words) {
        Err(error) => format!("refused 1 {}", error.valid_up_to()),
        Ok(words) if words.is_empty() => "-".to_string(),
        Ok(words) => words.join(" "),
    }
}
