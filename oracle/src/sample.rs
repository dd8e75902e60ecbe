//! The sample that is stored in the repository: texts with the published reader's answers.

use std::io::{self, Write};

use crate::{generate, hex, pieces};

/// The exhaustive texts of at most two of the 21 symbols.
const SHORT: usize = 1 + 21 + 21 * 21;

const SEED: u64 = 1;

/// One line for each text: the text, its pieces and its stripped characters, between them tabs.
pub fn print(out: &mut impl Write) -> io::Result<()> {
    for text in texts() {
        let (list, stripped) = (pieces::list(&text), pieces::stripped(&text));
        writeln!(out, "{}\t{list}\t{stripped}", hex::encode(&text))?;
    }
    Ok(())
}

/// The steps are prime, so that each symbol and byte comes in each place.
fn texts() -> impl Iterator<Item = Vec<u8>> {
    let short = generate::exhaustive().take(SHORT);
    let long = generate::exhaustive().skip(SHORT).step_by(1009);
    let states = generate::states().step_by(23);
    let bytes = generate::bytes().step_by(1511);
    short
        .chain(long)
        .chain(states)
        .chain(bytes)
        .chain(generate::random(SEED, 120))
}
