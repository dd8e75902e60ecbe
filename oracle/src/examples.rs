//! The partings of the published Rust from the rules for frames, each with a script that shows it.

use std::io::Write;

use crate::model::Model;
use crate::partings::Partings;
use crate::published::{Hashes, Published};
use crate::script::answers;
use crate::Outcome;

struct Example {
    /// The partings that explain it.
    partings: &'static str,
    /// What the published Rust does.
    about: &'static str,
    script: String,
    hashes: Hashes,
}

/// The smallest scripts that were found, in rows of partings, about and script.
const SCRIPTS: [[&str; 3]; 9] = [
    [
        "rows",
        "drops a row without runs that a newline closes",
        "write - 0a\nfinish\n",
    ],
    [
        "rewrap",
        "closes the open row when re-wrapping",
        "write - 61\nsize 80 25\nwrite - 62\nfinish\n",
    ],
    [
        "rewrap",
        "loses the open row's style when re-wrapping",
        "write bold -\nsize 80 25\nfinish\n",
    ],
    [
        "rewrap",
        "adds a row when re-wrapping behind a last run without bytes",
        "write bold 0a\nsize 80 25\nfinish\n",
    ],
    ["offsets", "casts an offset below 0", "mark -1\n"],
    ["offsets", "casts an offset above 65535", "mark 65536\n"],
    ["texts", "takes control characters", "write - 07\n"],
    ["texts", "takes escapes that set no colour", "write - 1b\n"],
    [
        "texts,cancel",
        "reads on in an escape sequence behind CAN and SUB",
        "write - 1b5b186d\nfinish\n",
    ],
];

/// Two frames whose second rows differ: their hashes tell whether it is seen.
const FOLDED: &str = "size 2 24\nwrite - 616158\nfinish\nwrite - 616159\nfinish\n";

fn examples() -> Vec<Example> {
    let mut examples: Vec<Example> = SCRIPTS
        .iter()
        .map(|&[partings, about, script]| example(partings, about, script.to_string()))
        .collect();
    let rows = format!("write - {}\n", "0a".repeat(257));
    examples.push(example("limits", "has no limits", rows));
    examples.push(Example {
        hashes: Hashes::Shown,
        ..example(
            "hashes",
            "feeds a folded character to the row above",
            FOLDED.to_string(),
        )
    });
    examples
}

fn example(partings: &'static str, about: &'static str, script: String) -> Example {
    Example {
        partings,
        about,
        script,
        hashes: Hashes::Hidden,
    }
}

/// Prints each parting with its script, the published answers and ours, and checks that the named
/// partings explain it.
pub fn print(out: &mut impl Write) -> Outcome {
    for example in examples() {
        let rust = answers(&mut Published::new(example.hashes), &example.script);
        let ours = answers(&mut Model::new(Partings::default()), &example.script);
        writeln!(out, "{}: the Rust {}", example.partings, example.about)?;
        print_lines(out, "script", &example.script)?;
        print_lines(out, "Rust", &rust)?;
        print_lines(out, "ours", &ours)?;
        check(&example, &rust)?;
    }
    Ok(())
}

/// A long line is cut.
fn print_lines(out: &mut impl Write, title: &str, lines: &str) -> Outcome {
    for line in lines.lines() {
        match line.get(..80) {
            Some(start) => writeln!(out, "  {title:<6}  {start}.. ({} bytes)", line.len())?,
            None => writeln!(out, "  {title:<6}  {line}")?,
        }
    }
    Ok(())
}

/// With the partings the model answers as the published frame does, without them it does not.
fn check(example: &Example, rust: &str) -> Outcome {
    let model = |partings| answers(&mut Model::new(partings), &example.script);
    let with = Partings::parse(example.partings)?;
    let without = Partings::default();
    let explained = match example.hashes {
        Hashes::Hidden => {
            let hidden = |partings| Partings {
                hashes: true,
                ..partings
            };
            model(hidden(with)) == rust && model(hidden(without)) != rust
        }
        Hashes::Shown => last_hashes_equal(rust) && !last_hashes_equal(&model(without)),
    };
    if explained {
        Ok(())
    } else {
        Err(format!("{} does not explain:\n{}", example.partings, example.script).into())
    }
}

/// Whether the last rows of the first two frames have the same hash.
fn last_hashes_equal(answers: &str) -> bool {
    let mut hashes = answers
        .lines()
        .filter(|line| line.starts_with("row 1 "))
        .map(|line| line.split(' ').nth(5));
    hashes.next() == hashes.next()
}
