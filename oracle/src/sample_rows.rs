//! The sample of scripts on frames that is stored in the repository, with the rules' answers.

use std::fs;
use std::path::Path;

use crate::accepted::Accepted;
use crate::model::Model;
use crate::partings::Partings;
use crate::script::answers;
use crate::{scripts, Outcome};

const SEED: u64 = 1;

/// How many random scripts are taken, and how long each may be.
const COUNT: usize = 30;
const LENGTH: usize = 1_500;

/// Scripts made by hand, without their first line.
const CHOSEN: [(&str, &str); 7] = [
    ("full", "size 4 24\nwrite - 61626364\nmark 0\nfinish\n"),
    ("fold", "size 4 24\nwrite - 6162636465\nfinish\n"),
    ("wide", "size 4 24\nwrite - 616263e7958c\nfinish\n"),
    ("newline", "write - 610a\nfinish\nwrite bold 610a\nfinish\n"),
    (
        "marks",
        "size 4 24\nwrite - 6162\nmark 65535\nmark 65536\nmark -1\n",
    ),
    (
        "sequence",
        "write - 1b5b33316d61\nwrite - 1b\nwrite - 6107\nwrite - 61ff\nfinish\n",
    ),
    (
        "folded",
        "size 4 24\nwrite - 616161615862\nfinish\nwrite - 616161615962\nfinish\n",
    ),
];

/// Writes the scripts to DIR/stdin and the answers to DIR/stdout. Each script is one on which the
/// published frame, asked what is accepted, answers the same but for hashes.
pub fn write(folder: &Path) -> Outcome {
    let chosen: Vec<String> = chosen();
    if let Some(script) = chosen.iter().find(|script| !agrees(script)) {
        return Err(format!("the published frame answers otherwise:\n{script}").into());
    }
    let random = scripts::random(SEED, usize::MAX)
        .filter(|script| script.len() <= LENGTH && agrees(script))
        .take(COUNT);
    let input: String = chosen.into_iter().chain(random).collect();
    fs::create_dir_all(folder)?;
    fs::write(
        folder.join("stdout"),
        answers(&mut Model::new(Partings::default()), &input),
    )?;
    fs::write(folder.join("stdin"), input)?;
    Ok(())
}

fn chosen() -> Vec<String> {
    CHOSEN
        .iter()
        .map(|&(name, calls)| (name, calls.to_string()))
        .chain([
            ("rows", row_limit()),
            ("runs", run_limit()),
            ("bytes", byte_limit()),
            ("rewrap", rewrap_limit()),
        ])
        .map(|(name, calls)| format!("script {name}\n{calls}"))
        .collect()
}

/// The 256th row is accepted, the next one refused, also where an empty text in a style adds it.
fn row_limit() -> String {
    format!(
        "write - {}\nwrite - 0a61\nwrite - 610a\nwrite bold -\nfinish\n",
        "610a".repeat(255)
    )
}

fn run_limit() -> String {
    format!(
        "{}write - 61\nwrite bold -\nmark 0\n",
        "write - 61\n".repeat(1_023)
    )
}

fn byte_limit() -> String {
    format!(
        "write - {}\nwrite - 6262\nwrite - 62\nwrite - 62\nmark 0\n",
        "61".repeat(16_383)
    )
}

/// Each row of four columns becomes two: 256 are accepted, 258 refused.
fn rewrap_limit() -> String {
    let call = |length| {
        format!(
            "size 4 24\nwrite - {}\nsize 2 24\nmark 0\n",
            "61".repeat(length)
        )
    };
    format!(
        "{}write - 61\nscript rewrap-refused\n{}",
        call(512),
        call(516)
    )
}

fn agrees(script: &str) -> bool {
    let partings = Partings {
        hashes: true,
        ..Partings::default()
    };
    answers(&mut Model::new(partings), script) == answers(&mut Accepted::new(), script)
}
