// The root's modules of the published crate. Its files name one another by `crate::`, so
// src/main.rs includes this text at its own root.
mod ansi;
mod error;
#[allow(dead_code, unexpected_cfgs, clippy::needless_return)]
mod terminal;
#[allow(dead_code)]
mod ui;
