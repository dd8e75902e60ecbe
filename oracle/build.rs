//! Copies the published source of the crate inquire, version 0.9.4, from the folder named by
//! INQUIRE_SRC into OUT_DIR, byte for byte, and beside it our stand-ins for what else it names. To
//! fetch it: the archive of inquire 0.9.4 on crates.io; INQUIRE_SRC is the folder `src` in it.

use std::env;
use std::fs;
use std::path::{Path, PathBuf};

/// The published files that are compiled, by their paths below INQUIRE_SRC.
const PUBLISHED: [&str; 6] = [
    "ansi.rs",
    "terminal/mod.rs",
    "ui/api/color.rs",
    "ui/api/style.rs",
    "ui/dimension.rs",
    "ui/frame_renderer.rs",
];

/// Our files, by their paths below stand-ins/inquire. `modules.rs` names the root's modules, and
/// each is looked up among the copies.
const STAND_INS: [&str; 6] = [
    "modules.rs",
    "error.rs",
    "terminal/console.rs",
    "ui/mod.rs",
    "ui/api/mod.rs",
    "ui/frame_renderer/probe.rs",
];

fn main() {
    println!("cargo:rerun-if-changed=build.rs");
    println!("cargo:rerun-if-env-changed=INQUIRE_SRC");
    let source = env::var_os("INQUIRE_SRC")
        .map(PathBuf::from)
        .expect("set INQUIRE_SRC to the folder src of the crate inquire 0.9.4");
    let copies = PathBuf::from(env::var_os("OUT_DIR").expect("cargo sets OUT_DIR")).join("inquire");
    for file in PUBLISHED {
        copy(&source.join(file), &copies.join(file));
    }
    for file in STAND_INS {
        copy(
            &Path::new("stand-ins/inquire").join(file),
            &copies.join(file),
        );
    }
    let backend = read(&source.join("ui/backend.rs"));
    write(&copies.join("ui/position.rs"), position(&backend));
}

/// Of ui/backend.rs only the item `Position` is compiled, from its line `derive` to its end.
fn position(backend: &str) -> &str {
    let (before, behind) = backend
        .split_once("\npub struct Position {\n")
        .expect("ui/backend.rs has the item Position");
    let start = before.rfind('\n').expect("Position has a line `derive`") + 1;
    let end = behind.find("\n}\n").expect("Position has an end") + "\n}\n".len();
    &backend[start..backend.len() - behind.len() + end]
}

fn copy(from: &Path, to: &Path) {
    write(to, &read(from));
}

fn read(from: &Path) -> String {
    println!("cargo:rerun-if-changed={}", from.display());
    fs::read_to_string(from).unwrap_or_else(|error| panic!("{}: {error}", from.display()))
}

fn write(to: &Path, text: &str) {
    let folder = to.parent().expect("a copy lies in a folder");
    fs::create_dir_all(folder).expect("OUT_DIR can be written");
    fs::write(to, text).expect("OUT_DIR can be written");
}
