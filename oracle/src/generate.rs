//! Texts to compare answers on. No text holds CAN (18) or SUB (1A): there the two readers differ
//! by intent.

use crate::random::Random;

/// For each range of characters that a state tells apart at least one, and characters of every
/// length in UTF-8. U+4E1C ends in the byte 9C, which is no U+009C.
const SYMBOLS: [&[u8]; 21] = [
    b"\x1b",
    b"[",
    b"]",
    b"P",
    b"X",
    b" ",
    b"/",
    b"0",
    b";",
    b"m",
    b"~",
    b"\x07",
    b"\x7f",
    "\u{9c}".as_bytes(),
    "\u{80}".as_bytes(),
    "\u{4e1c}".as_bytes(),
    b"\n",
    b"\0",
    b"a",
    "\u{1f600}".as_bytes(),
    "\u{301}".as_bytes(),
];

/// The bytes at which the rules for well-formed UTF-8 change, and a few between.
const BOUNDS: [&[u8]; 22] = [
    b"A", b"\x7f", b"\x80", b"\x8f", b"\x90", b"\x9f", b"\xa0", b"\xbf", b"\xc0", b"\xc1", b"\xc2",
    b"\xdf", b"\xe0", b"\xe1", b"\xed", b"\xee", b"\xef", b"\xf0", b"\xf1", b"\xf4", b"\xf5",
    b"\xff",
];

/// Beginnings that lead to each state, ground first; strings by each of their introducers.
const BEGINNINGS: [&str; 9] = [
    "", "\x1b", "\x1b[", "\x1b ", "\x1b]", "\x1bP", "\x1bX", "\x1b^", "\x1b_",
];

/// Any two states answer differently to at least one of these.
const ENDINGS: [&str; 2] = ["]a\x07b", "0a\x07b"];

/// Bytes that are ill-formed wherever they stand between characters.
pub const DAMAGE: [&[u8]; 14] = [
    b"\x80",
    b"\xbf",
    b"\xff",
    b"\xc0\x80",
    b"\xc1\xbf",
    b"\xc2",
    b"\xe0\x9f\xbf",
    b"\xe4\xb8",
    b"\xed\xa0\x80",
    b"\xed\xbf\xbf",
    b"\xf0\x8f\xbf\xbf",
    b"\xf0\x9f\x98",
    b"\xf4\x90\x80\x80",
    b"\xf5\x80\x80\x80",
];

/// Every text of at most four symbols, the shorter ones first.
pub fn exhaustive() -> impl Iterator<Item = Vec<u8>> {
    words(&SYMBOLS, 4)
}

/// Every text of at most four bytes among those at UTF-8's bounds, the shorter ones first.
pub fn bytes() -> impl Iterator<Item = Vec<u8>> {
    words(&BOUNDS, 4)
}

/// Every character up to U+00FF where each state reads it, with what tells the next state.
pub fn states() -> impl Iterator<Item = Vec<u8>> {
    BEGINNINGS.iter().flat_map(|beginning| {
        ('\0'..='\u{ff}')
            .filter(|&character| !cancels(character))
            .flat_map(move |character| {
                ENDINGS
                    .iter()
                    .map(move |ending| format!("{beginning}{character}{ending}").into_bytes())
            })
    })
}

/// `count` texts of 0 to 60 symbols; one in 20 is damaged in one place.
pub fn random(seed: u64, count: usize) -> impl Iterator<Item = Vec<u8>> {
    let mut random = Random::new(seed);
    (0..count).map(move |_| random_text(&mut random))
}

fn cancels(character: char) -> bool {
    matches!(character, '\x18' | '\x1a')
}

fn words(alphabet: &'static [&'static [u8]], longest: u32) -> impl Iterator<Item = Vec<u8>> {
    (0..=longest).flat_map(move |length| {
        (0..alphabet.len().pow(length)).map(move |index| word(alphabet, length, index))
    })
}

/// The word of that length that is at `index` in the order of the alphabet.
fn word(alphabet: &[&[u8]], length: u32, index: usize) -> Vec<u8> {
    (0..length)
        .rev()
        .map(|place| alphabet[index / alphabet.len().pow(place) % alphabet.len()])
        .collect::<Vec<_>>()
        .concat()
}

fn random_text(random: &mut Random) -> Vec<u8> {
    let mut symbols: Vec<Vec<u8>> = (0..random.within(0..=60))
        .map(|_| random_symbol(random).into_bytes())
        .collect();
    if random.one_in(20) {
        let place = random.within(0..=symbols.len() as u32) as usize;
        symbols.insert(place, random.choose(&DAMAGE).to_vec());
    }
    symbols.concat()
}

/// The ranges are weighted by how many of the hundred numbers they take.
fn random_symbol(random: &mut Random) -> String {
    match random.within(0..=99) {
        0..=11 => "\x1b".to_string(),
        12..=17 => "[".to_string(),
        18..=21 => random.choose(&["]", "P", "X", "^", "_"]).to_string(),
        22..=26 => random.choose(&["\x07", "\u{9c}", "\x1b\\"]).to_string(),
        27..=30 => random.character(0x20..=0x2f).to_string(),
        31..=40 => random.character(0x30..=0x3f).to_string(),
        41..=46 => random.character(0x40..=0x7e).to_string(),
        47..=62 => random.character(0x61..=0x7a).to_string(),
        63..=67 => control(random).to_string(),
        68..=69 => "\x7f".to_string(),
        70..=73 => random.character(0x80..=0x9f).to_string(),
        74..=79 => random.character(0xa0..=0x7ff).to_string(),
        80..=86 => random.character(0x800..=0xffff).to_string(),
        87..=92 => random.character(0x1_0000..=0x10_ffff).to_string(),
        _ => format!("\x1b[{};{}m", random.within(0..=1), random.within(30..=37)),
    }
}

fn control(random: &mut Random) -> char {
    loop {
        let character = random.character(0..=0x1f);
        if !cancels(character) {
            return character;
        }
    }
}
