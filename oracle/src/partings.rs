//! Where the published Rust parts from the rules for frames.

/// Which partings the model follows; none by default.
#[derive(Clone, Copy, Default)]
pub struct Partings {
    /// Rows without runs that a newline closes are dropped.
    pub rows: bool,
    /// Re-wrapping closes the open row and loses its style.
    pub rewrap: bool,
    /// Offsets are cast to 16 bits.
    pub offsets: bool,
    /// Texts and frames have no limits.
    pub limits: bool,
    /// Control characters and all escape sequences are taken.
    pub texts: bool,
    /// CAN and SUB do not end an escape sequence.
    pub cancel: bool,
    /// Hashes are others, and so are not compared.
    pub hashes: bool,
}

impl Partings {
    /// `all`, `none`, or names joined by commas.
    pub fn parse(word: &str) -> Result<Self, String> {
        let mut partings = Partings::default();
        match word {
            "none" => {}
            "all" => partings.add_all(),
            _ => word.split(',').try_for_each(|name| partings.add(name))?,
        }
        Ok(partings)
    }

    fn add_all(&mut self) {
        *self = Partings {
            rows: true,
            rewrap: true,
            offsets: true,
            limits: true,
            texts: true,
            cancel: true,
            hashes: true,
        };
    }

    fn add(&mut self, name: &str) -> Result<(), String> {
        let switch = match name {
            "rows" => &mut self.rows,
            "rewrap" => &mut self.rewrap,
            "offsets" => &mut self.offsets,
            "limits" => &mut self.limits,
            "texts" => &mut self.texts,
            "cancel" => &mut self.cancel,
            "hashes" => &mut self.hashes,
            _ => return Err(format!("no parting: {name}")),
        };
        *switch = true;
        Ok(())
    }
}
