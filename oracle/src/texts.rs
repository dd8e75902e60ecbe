//! The texts for timing, always the same: three of exactly 1 MiB to be read, and two of 16,000 bytes to be written.

use std::fs;
use std::io;
use std::path::Path;

use crate::random::Random;

const SIZE: usize = 1 << 20;

/// What a frame of ours takes at most, less a little.
const WRITTEN: usize = 16_000;

/// A line is broken once it has this many characters and more.
const LINE: usize = 72;

pub fn write(folder: &Path) -> io::Result<()> {
    fs::create_dir_all(folder)?;
    fs::write(folder.join("plain.txt"), text(SIZE, 2, plain_word))?;
    fs::write(folder.join("mixed.txt"), text(SIZE, 3, mixed_word))?;
    fs::write(folder.join("escapes.txt"), text(SIZE, 4, escaped_word))?;
    fs::write(folder.join("letters.txt"), "a".repeat(WRITTEN))?;
    fs::write(folder.join("scripts.txt"), text(WRITTEN, 5, mixed_word))
}

/// Words with spaces and line feeds between them, filled up with full stops.
fn text(size: usize, seed: u64, word: fn(&mut Random) -> String) -> String {
    let mut random = Random::new(seed);
    let mut text = String::with_capacity(size);
    let mut column = 0;
    loop {
        let next = word(&mut random);
        if text.len() + next.len() + 1 > size {
            break;
        }
        text.push_str(&next);
        column += next.chars().count() + 1;
        text.push(if column > LINE { '\n' } else { ' ' });
        if column > LINE {
            column = 0;
        }
    }
    text.extend(std::iter::repeat_n('.', size - text.len()));
    text
}

fn plain_word(random: &mut Random) -> String {
    let mut word = letters(random, "etaoinshrdlucmfwypvbgk", 1, 9);
    if random.one_in(12) {
        word.push_str(random.choose(&[",", ".", ";", "?"]));
    }
    word
}

fn mixed_word(random: &mut Random) -> String {
    match random.within(0..=11) {
        0..=2 => letters(random, "aàâbcçdeéèêfgiîlmnoôöprsßtuùü", 2, 9),
        3..=4 => letters(random, "αβγδεζηθικλμνξοπρσςτυφχψωάέήίόύώ", 2, 9),
        5..=6 => letters(random, "абвгдежзийклмнопрстуфхцчшщыьэюя", 2, 9),
        7..=8 => letters(
            random,
            "日本語中文字東京世界人大小山川水火木金土한글국어",
            1,
            5,
        ),
        9..=10 => letters(random, "😀😃😄😅🤣😊🙂🙃😉😍🚀🌍🎉", 1, 3),
        _ => plain_word(random),
    }
}

fn escaped_word(random: &mut Random) -> String {
    let word = plain_word(random);
    match random.within(0..=15) {
        0..=5 => format!("\x1b[{}m{word}\x1b[0m", random.within(30..=37)),
        6..=8 => format!("\x1b[1;{}m{word}\x1b[22;39m", random.within(90..=97)),
        9..=10 => format!("\x1b[38;5;{}m{word}\x1b[39m", random.within(0..=255)),
        11..=12 => format!(
            "\x1b[48;2;{};{};0m{word}\x1b[m",
            random.within(0..=255),
            random.within(0..=255)
        ),
        13 => format!("\x1b]0;{word}\x07{word}"),
        14 => format!("\x1b]8;;http://{word}.org/\x1b\\{word}\x1b]8;;\x1b\\"),
        _ => format!("\x1b(B{word}\x1b[K"),
    }
}

fn letters(random: &mut Random, alphabet: &str, shortest: u32, longest: u32) -> String {
    let alphabet: Vec<char> = alphabet.chars().collect();
    (0..random.within(shortest..=longest))
        .map(|_| alphabet[random.within(0..=alphabet.len() as u32 - 1) as usize])
        .collect()
}
