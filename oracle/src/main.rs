//! Answers, texts and timings by the published Rust, to compare our programs with.

mod accepted;
mod bench;
mod examples;
mod generate;
mod hex;
mod model;
mod model_pieces;
mod partings;
mod pieces;
mod published;
mod random;
mod sample;
mod sample_rows;
mod script;
mod scripts;
mod style;
mod texts;

include!(concat!(env!("OUT_DIR"), "/inquire/modules.rs"));

use std::error::Error;
use std::io::{self, BufWriter, Write};
use std::path::Path;
use std::process::ExitCode;
use std::thread;

use accepted::Accepted;
use model::Model;
use partings::Partings;
use published::{Hashes, Published};
use script::Player;

const USAGE: &str = "\
usage: oracle list                        texts in hex on standard input, their pieces
       oracle stripped                    the same, their characters outside escape sequences
       oracle generate exhaustive         every short text over the telling symbols
       oracle generate states             every character up to U+00FF in each state
       oracle generate bytes              every short text over the bytes at UTF-8's bounds
       oracle generate random SEED COUNT  random texts
       oracle generate rows SEED COUNT    random scripts of calls on frames
       oracle sample                      chosen texts with both answers
       oracle texts DIR                   write the three texts for timing
       oracle bench FILE ROUNDS           time the reading of FILE
       oracle bench-write FILE ROUNDS     time the writing of FILE to a frame
       oracle rows                        scripts on standard input, the published frame's answers
       oracle rows accepted               the same, asked only what the rules accept
       oracle model [PARTINGS]            the same by the rules, with partings: all, none or names
       oracle partings                    the partings, each with a script and both answers
       oracle sample-rows DIR             write chosen scripts and the rules' answers";

/// The published reader may call itself once for each character.
const STACK: usize = 1 << 30;

type Outcome = Result<(), Box<dyn Error + Send + Sync>>;

fn main() -> ExitCode {
    let arguments: Vec<String> = std::env::args().skip(1).collect();
    let worker = thread::Builder::new()
        .stack_size(STACK)
        .spawn(move || run(&arguments))
        .expect("a thread can be started");
    match worker.join() {
        Ok(Ok(())) => ExitCode::SUCCESS,
        Ok(Err(error)) => {
            eprintln!("oracle: {error}");
            ExitCode::from(2)
        }
        Err(_) => ExitCode::from(101),
    }
}

fn run(arguments: &[String]) -> Outcome {
    let words: Vec<&str> = arguments.iter().map(String::as_str).collect();
    let mut out = BufWriter::new(io::stdout().lock());
    match words[..] {
        ["list"] => answer_lines(&mut out, pieces::list)?,
        ["stripped"] => answer_lines(&mut out, pieces::stripped)?,
        ["generate", "exhaustive"] => print_texts(&mut out, generate::exhaustive())?,
        ["generate", "states"] => print_texts(&mut out, generate::states())?,
        ["generate", "bytes"] => print_texts(&mut out, generate::bytes())?,
        ["generate", "random", seed, count] => {
            print_texts(&mut out, generate::random(seed.parse()?, count.parse()?))?;
        }
        ["sample"] => sample::print(&mut out)?,
        ["texts", folder] => texts::write(Path::new(folder))?,
        ["bench-write", file, rounds] => {
            bench::write(&mut out, Path::new(file), rounds.parse()?)?;
        }
        ["bench", file, rounds] => bench::run(&mut out, Path::new(file), rounds.parse()?)?,
        ["generate", "rows", seed, count] => {
            for script in scripts::random(seed.parse()?, count.parse()?) {
                out.write_all(script.as_bytes())?;
            }
        }
        ["rows"] => play(&mut out, Published::new(Hashes::Hidden))?,
        ["rows", "accepted"] => play(&mut out, Accepted::new())?,
        ["model"] => play(&mut out, Model::new(Partings::default()))?,
        ["model", partings] => play(&mut out, Model::new(Partings::parse(partings)?))?,
        ["partings"] => examples::print(&mut out)?,
        ["sample-rows", folder] => sample_rows::write(Path::new(folder))?,
        _ => return Err(USAGE.into()),
    }
    out.flush()?;
    Ok(())
}

/// Answers each line of standard input by one line.
fn answer_lines(out: &mut impl Write, answer: fn(&[u8]) -> String) -> Outcome {
    for line in io::stdin().lines() {
        writeln!(out, "{}", answer(&hex::decode(&line?)?))?;
    }
    Ok(())
}

/// Plays the scripts of standard input.
fn play(out: &mut impl Write, mut player: impl Player) -> Outcome {
    script::play(&mut player, io::stdin().lock(), out)
}

fn print_texts(out: &mut impl Write, texts: impl Iterator<Item = Vec<u8>>) -> Outcome {
    for text in texts {
        writeln!(out, "{}", hex::encode(&text))?;
    }
    Ok(())
}
