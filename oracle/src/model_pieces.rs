//! The pieces of a text by the model: our own reading of the rules, not the published one.

/// Whether CAN and SUB end an escape sequence.
#[derive(Clone, Copy, PartialEq, Eq)]
pub enum Cancel {
    Ends,
    Passes,
}

#[derive(Clone, Copy)]
pub enum Piece<'a> {
    Escape(&'a str),
    Char(char),
}

impl Piece<'_> {
    /// Its length in bytes.
    pub fn len(&self) -> usize {
        match self {
            Piece::Escape(sequence) => sequence.len(),
            Piece::Char(character) => character.len_utf8(),
        }
    }
}

#[derive(Clone, Copy)]
enum State {
    Escape,
    CsiEntry,
    EscapeIntermediate,
    String,
}

pub fn pieces(text: &str, cancel: Cancel) -> impl Iterator<Item = Piece<'_>> {
    let mut rest = text;
    std::iter::from_fn(move || {
        let first = rest.chars().next()?;
        let piece = match first {
            '\x1b' => Piece::Escape(sequence(rest, cancel)),
            _ => Piece::Char(first),
        };
        rest = &rest[piece.len()..];
        Some(piece)
    })
}

/// The escape sequence with which the text begins.
fn sequence(text: &str, cancel: Cancel) -> &str {
    let mut state = State::Escape;
    for (place, character) in text.char_indices().skip(1) {
        match next(state, character, cancel) {
            Some(next) => state = next,
            None => return &text[..place + character.len_utf8()],
        }
    }
    text
}

/// None where the character ends the sequence.
fn next(state: State, character: char, cancel: Cancel) -> Option<State> {
    match (state, character) {
        (_, '\x18' | '\x1a') if cancel == Cancel::Ends => None,
        (_, '\x1b') => Some(State::Escape),
        (State::Escape, '[') => Some(State::CsiEntry),
        (State::Escape, 'P' | 'X' | ']' | '^' | '_') => Some(State::String),
        (State::Escape, ' '..='/') => Some(State::EscapeIntermediate),
        (State::Escape, '0'..='~') => None,
        (State::CsiEntry, '@'..='~') => None,
        (State::EscapeIntermediate, '0'..='~') => None,
        (State::String, '\x07' | '\u{9c}') => None,
        (state, _) => Some(state),
    }
}

pub fn is_control(character: char) -> bool {
    matches!(character, '\0'..='\x1f' | '\x7f'..='\u{9f}')
}

pub fn is_colour_sequence(sequence: &str) -> bool {
    sequence
        .strip_prefix("\x1b[")
        .and_then(|rest| rest.strip_suffix('m'))
        .is_some_and(|middle| middle.bytes().all(|b| matches!(b, b'0'..=b'9' | b';')))
}
