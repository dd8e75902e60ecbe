//! Stands in for the crate unicode-width, with the widths of our rule `Table`, so that both sides
//! fold rows at the same places.

pub trait UnicodeWidthChar {
    /// The character's width in cells; None for a control character.
    fn width(self) -> Option<usize>;
}

impl UnicodeWidthChar for char {
    fn width(self) -> Option<usize> {
        match self {
            '\0'..='\u{1f}' | '\u{7f}'..='\u{9f}' => None,
            '\u{300}'..='\u{36f}' | '\u{200b}'..='\u{200f}' => Some(0),
            '\u{1100}'..='\u{115f}'
            | '\u{2e80}'..='\u{303e}'
            | '\u{3041}'..='\u{a4cf}'
            | '\u{ac00}'..='\u{d7a3}'
            | '\u{ff00}'..='\u{ff60}'
            | '\u{1f300}'..='\u{1f64f}' => Some(2),
            _ => Some(1),
        }
    }
}
