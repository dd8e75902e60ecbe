//! Styles as they are written in scripts and answers: `-`, or words joined by commas.

use crate::ui::{Attributes, Color, StyleSheet};

/// The named colours in the order of their codes.
pub const NAMED: [(&str, Color); 16] = [
    ("Black", Color::Black),
    ("DarkRed", Color::DarkRed),
    ("DarkGreen", Color::DarkGreen),
    ("DarkYellow", Color::DarkYellow),
    ("DarkBlue", Color::DarkBlue),
    ("DarkMagenta", Color::DarkMagenta),
    ("DarkCyan", Color::DarkCyan),
    ("Grey", Color::Grey),
    ("DarkGrey", Color::DarkGrey),
    ("LightRed", Color::LightRed),
    ("LightGreen", Color::LightGreen),
    ("LightYellow", Color::LightYellow),
    ("LightBlue", Color::LightBlue),
    ("LightMagenta", Color::LightMagenta),
    ("LightCyan", Color::LightCyan),
    ("White", Color::White),
];

/// The words may come in any order; of two for one thing the later one stands.
pub fn parse(word: &str) -> Option<StyleSheet> {
    if word == "-" {
        return Some(StyleSheet::empty());
    }
    word.split(',').try_fold(StyleSheet::empty(), add)
}

fn add(style: StyleSheet, word: &str) -> Option<StyleSheet> {
    match word.split_once('=') {
        Some(("fg", color)) => Some(style.with_fg(parse_color(color)?)),
        Some(("bg", color)) => Some(style.with_bg(parse_color(color)?)),
        Some(_) => None,
        None => Some(style.with_attr(style.att | parse_attribute(word)?)),
    }
}

fn parse_attribute(word: &str) -> Option<Attributes> {
    match word {
        "bold" => Some(Attributes::BOLD),
        "italic" => Some(Attributes::ITALIC),
        _ => None,
    }
}

fn parse_color(word: &str) -> Option<Color> {
    match word.split(':').collect::<Vec<_>>()[..] {
        ["n", n] => Some(Color::AnsiValue(parse_byte(n)?)),
        ["rgb", r, g, b] => Some(Color::rgb(parse_byte(r)?, parse_byte(g)?, parse_byte(b)?)),
        [name] => NAMED
            .iter()
            .find_map(|&(other, color)| (other == name).then_some(color)),
        _ => None,
    }
}

fn parse_byte(word: &str) -> Option<u8> {
    word.bytes()
        .all(|byte| byte.is_ascii_digit())
        .then(|| word.parse().ok())?
}

pub fn print(style: &StyleSheet) -> String {
    let colors = [("fg", style.fg), ("bg", style.bg)]
        .into_iter()
        .filter_map(|(ground, color)| Some(format!("{ground}={}", print_color(color?))));
    let attributes = [("bold", Attributes::BOLD), ("italic", Attributes::ITALIC)]
        .into_iter()
        .filter(|&(_, attribute)| style.att.contains(attribute))
        .map(|(word, _)| word.to_string());
    let words: Vec<String> = colors.chain(attributes).collect();
    if words.is_empty() {
        "-".to_string()
    } else {
        words.join(",")
    }
}

fn print_color(color: Color) -> String {
    match color {
        Color::AnsiValue(n) => format!("n:{n}"),
        Color::Rgb { r, g, b } => format!("rgb:{r}:{g}:{b}"),
        named => NAMED[usize::from(code(named))].0.to_string(),
    }
}

/// The code of a named colour.
fn code(named: Color) -> u8 {
    NAMED
        .iter()
        .position(|&(_, color)| color == named)
        .expect("every other colour has a name") as u8
}

/// A style's nine bytes, as a row hash is fed with them: four for each ground, and the attributes.
pub fn bytes(style: &StyleSheet) -> [u8; 9] {
    let [f0, f1, f2, f3] = color_bytes(style.fg);
    let [b0, b1, b2, b3] = color_bytes(style.bg);
    [f0, f1, f2, f3, b0, b1, b2, b3, style.att.bits()]
}

fn color_bytes(color: Option<Color>) -> [u8; 4] {
    match color {
        None => [0; 4],
        Some(Color::AnsiValue(n)) => [2, n, 0, 0],
        Some(Color::Rgb { r, g, b }) => [3, r, g, b],
        Some(named) => [1, code(named), 0, 0],
    }
}
