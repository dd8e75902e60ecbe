//! Random scripts of calls on frames.

use crate::generate::DAMAGE;
use crate::random::Random;
use crate::{hex, style};

/// The characters at which the widths of `Table` change, and their neighbours.
const WIDTH_BOUNDS: &str = "\u{7e}\u{a0}\u{2ff}\u{300}\u{36f}\u{370}\u{10ff}\u{1100}\u{115f}\u{1160}\
    \u{200a}\u{200b}\u{200f}\u{2010}\u{2e7f}\u{2e80}\u{303e}\u{303f}\u{3040}\u{3041}\u{a4cf}\u{a4d0}\
    \u{abff}\u{ac00}\u{d7a3}\u{d7a4}\u{feff}\u{ff00}\u{ff60}\u{ff61}\u{1f2ff}\u{1f300}\u{1f64f}\u{1f650}";

/// Escape sequences that set no colour, complete and incomplete.
const ESCAPES: [&str; 14] = [
    "\x1b",
    "\x1b[",
    "\x1b[31",
    "\x1b[2K",
    "\x1b[?25l",
    "\x1b[3:1m",
    "\x1b[ m",
    "\x1b[31\x1bm",
    "\x1b]0;ab\x07",
    "\x1b]0;ab\u{9c}",
    "\x1b(B",
    "\x1bc",
    "\x1b[3\x18m",
    "\x1b]a\x1ab",
];

const COLOUR_SEQUENCES: [&str; 8] = [
    "\x1b[m",
    "\x1b[0m",
    "\x1b[1m",
    "\x1b[31m",
    "\x1b[1;94m",
    "\x1b[;;m",
    "\x1b[38;5;200m",
    "\x1b[48;2;1;2;3m",
];

/// Lines that are no calls.
const OTHER_LINES: [&str; 13] = [
    "",
    "start",
    "finish 0",
    "mark",
    "mark x",
    "mark 1 2",
    "size 4",
    "size 4 x",
    "write -",
    "write - 6",
    "write - 6A",
    "write pink 61",
    "write fg=n:256 61",
];

/// The text of `count` scripts. The seed is part of their names.
pub fn random(seed: u64, count: usize) -> impl Iterator<Item = String> {
    let mut random = Random::new(seed);
    (1..=count).map(move |index| {
        let mut script = Script {
            random: &mut random,
            text: format!("script {seed}-{index}\n"),
            width: 80,
        };
        script.calls();
        script.text
    })
}

/// A script in the making.
struct Script<'a> {
    random: &'a mut Random,
    text: String,
    /// The width that the last `size` asked for.
    width: u32,
}

impl Script<'_> {
    fn calls(&mut self) {
        if self.random.one_in(400) {
            self.long_text();
        }
        for _ in 0..self.random.within(1..=3) {
            if !self.random.one_in(10) {
                self.size();
            }
            if self.random.one_in(30) {
                self.near_a_limit();
            }
            for _ in 0..self.random.within(0..=10) {
                self.call();
            }
            self.line("finish");
        }
    }

    fn line(&mut self, line: &str) {
        self.text.push_str(line);
        self.text.push('\n');
    }

    fn call(&mut self) {
        match self.random.within(0..=99) {
            0..=69 => self.write(),
            70..=84 => self.mark(),
            85..=96 => self.size(),
            97 => self.line("finish"),
            98 => self.refused_write(),
            _ => {
                let other = self.random.choose(&OTHER_LINES);
                self.line(other);
            }
        }
    }

    fn size(&mut self) {
        let width = match self.random.within(0..=19) {
            0..=12 => self.random.within(2..=12),
            13..=14 => 80,
            15..=17 => self.width,
            18 => self.random.within(13..=100),
            _ => self.random.within(0..=1) * 65_535,
        };
        let height = match self.random.within(0..=19) {
            0 => 0,
            1 => 65_535,
            _ => self.random.within(1..=4),
        };
        if width != 0 {
            self.width = width;
        }
        self.line(&format!("size {width} {height}"));
    }

    fn mark(&mut self) {
        let offset = match self.random.within(0..=11) {
            0..=2 => 0,
            3..=5 => i64::from(self.random.within(1..=30)),
            6 => i64::from(self.random.within(31..=65_534)),
            7 => 65_535,
            8 => 65_536,
            9 => i64::from(self.random.within(65_537..=200_000)),
            10 => -1,
            _ => -i64::from(self.random.within(2..=200_000)),
        };
        self.line(&format!("mark {offset}"));
    }

    fn write(&mut self) {
        let text = text(self.random);
        self.write_text(text.as_bytes());
    }

    fn write_text(&mut self, text: &[u8]) {
        let style = random_style(self.random);
        self.line(&format!("write {style} {}", hex::encode(text)));
    }

    /// A text with one or two offenders in it.
    fn refused_write(&mut self) {
        let mut parts = vec![text(self.random).into_bytes()];
        for _ in 0..self.random.within(1..=2) {
            parts.push(offender(self.random));
            parts.push(text(self.random).into_bytes());
        }
        self.write_text(&parts.concat());
    }

    /// A text at the limit of its length, in a frame of its own; one in four is no UTF-8, too.
    fn long_text(&mut self) {
        let mut text = vec![b'a'; self.random.within(65_535..=65_536) as usize];
        if self.random.one_in(4) {
            text[7] = 0xff;
        }
        self.write_text(&text);
        self.line("finish");
    }

    /// Calls that bring the frame to one of its limits, or to a little below or above.
    fn near_a_limit(&mut self) {
        let less = self.random.within(0..=4) as usize;
        match self.random.within(0..=9) {
            0..=1 => self.write_text(&[b'\n'].repeat(258 - less)),
            2..=3 => self.write_text(&b"a\n".repeat(258 - less)),
            4..=5 => {
                self.write_text(&[b'a'].repeat(self.width.min(80) as usize * (257 - less / 2)))
            }
            6 => self.runs(1_026 - less),
            _ => {
                self.size_to(80);
                self.write_text(&[b'b'].repeat(16_386 - less));
            }
        }
    }

    fn runs(&mut self, count: usize) {
        self.size_to(80);
        for _ in 0..count {
            let style = random_style(self.random);
            self.line(&format!("write {style} 63"));
        }
    }

    fn size_to(&mut self, width: u32) {
        self.width = width;
        self.line(&format!("size {width} 24"));
    }
}

/// A text that is accepted where it fits.
fn text(random: &mut Random) -> String {
    let length = match random.within(0..=7) {
        0 => 0,
        1..=3 => random.within(1..=3),
        4..=6 => random.within(4..=12),
        _ => random.within(13..=40),
    };
    let mut text: String = (0..length).map(|_| symbol(random)).collect();
    match random.within(0..=11) {
        0 => text.insert(0, '\n'),
        1 => text.push('\n'),
        2 => text.push_str("\n\n"),
        _ => {}
    }
    text
}

fn symbol(random: &mut Random) -> String {
    match random.within(0..=99) {
        0..=54 => random.character(0x61..=0x7a).to_string(),
        55..=59 => " ".to_string(),
        60..=68 => "\n".to_string(),
        69..=74 => random
            .choose(&["\u{301}", "\u{300}", "\u{200b}"])
            .to_string(),
        75..=84 => random
            .choose(&["\u{754c}", "\u{ac00}", "\u{ff21}", "\u{1f600}"])
            .to_string(),
        85..=88 => random
            .choose(&["\u{e9}", "\u{3b1}", "\u{10ffff}"])
            .to_string(),
        89..=92 => {
            let bounds: Vec<char> = WIDTH_BOUNDS.chars().collect();
            bounds[random.within(0..=bounds.len() as u32 - 1) as usize].to_string()
        }
        _ => random.choose(&COLOUR_SEQUENCES).to_string(),
    }
}

/// What makes a text refused: ill-formed bytes, a control character or another escape sequence.
fn offender(random: &mut Random) -> Vec<u8> {
    match random.within(0..=5) {
        0 => random.choose(&DAMAGE).to_vec(),
        1 => b"\x7f".to_vec(),
        2 => random.character(0..=0x1f).to_string().into_bytes(),
        3 => random.character(0x80..=0x9f).to_string().into_bytes(),
        _ => random.choose(&ESCAPES).as_bytes().to_vec(),
    }
}

/// Half of the styles are empty.
fn random_style(random: &mut Random) -> String {
    let mut words = Vec::new();
    if random.one_in(2) {
        return "-".to_string();
    }
    if random.one_in(3) {
        words.push(format!("fg={}", color(random)));
    }
    if random.one_in(3) {
        words.push(format!("bg={}", color(random)));
    }
    if words.is_empty() || random.one_in(3) {
        words.push("bold".to_string());
    }
    if random.one_in(4) {
        words.push("italic".to_string());
    }
    words.join(",")
}

fn color(random: &mut Random) -> String {
    match random.within(0..=3) {
        0 => format!("n:{}", random.within(0..=255)),
        1 => {
            let mut byte = || random.within(0..=255);
            format!("rgb:{}:{}:{}", byte(), byte(), byte())
        }
        _ => style::NAMED[random.within(0..=15) as usize].0.to_string(),
    }
}
