//! A terminal that takes everything and shows nothing: the published crate does not build without
//! one.

use std::fmt::Display;
use std::io::Result;

use super::{Terminal, TerminalSize};
use crate::ui::{InputReader, Styled};

#[derive(Clone)]
pub struct ConsoleTerminal;

impl ConsoleTerminal {
    pub fn new() -> Self {
        ConsoleTerminal
    }
}

impl InputReader for ConsoleTerminal {}

impl Terminal for ConsoleTerminal {
    fn get_size(&self) -> Result<Option<TerminalSize>> {
        Ok(None)
    }

    fn write<T: Display>(&mut self, _: T) -> Result<()> {
        Ok(())
    }

    fn write_styled<T: Display>(&mut self, _: &Styled<T>) -> Result<()> {
        Ok(())
    }

    fn clear_line(&mut self) -> Result<()> {
        Ok(())
    }

    fn clear_until_new_line(&mut self) -> Result<()> {
        Ok(())
    }

    fn cursor_hide(&mut self) -> Result<()> {
        Ok(())
    }

    fn cursor_show(&mut self) -> Result<()> {
        Ok(())
    }

    fn cursor_up(&mut self, _: u16) -> Result<()> {
        Ok(())
    }

    fn cursor_down(&mut self, _: u16) -> Result<()> {
        Ok(())
    }

    fn cursor_left(&mut self, _: u16) -> Result<()> {
        Ok(())
    }

    fn cursor_right(&mut self, _: u16) -> Result<()> {
        Ok(())
    }

    fn cursor_move_to_column(&mut self, _: u16) -> Result<()> {
        Ok(())
    }

    fn flush(&mut self) -> Result<()> {
        Ok(())
    }
}
