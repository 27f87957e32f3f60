//! A place in a text that moves forward; spaces do not count.

/// The text and the place.
pub struct Cursor<'t> {
    rest: &'t str,
}

impl<'t> Cursor<'t> {
    pub fn new(text: &'t str) -> Cursor<'t> {
        Cursor { rest: text.trim() }
    }

    /// Goes past the sign if it stands here.
    pub fn take(&mut self, sign: char) -> bool {
        let after = self.rest.strip_prefix(sign);
        self.rest = after.unwrap_or(self.rest).trim_start();
        after.is_some()
    }

    pub fn ask(&mut self, sign: char) -> Result<(), String> {
        if self.take(sign) {
            return Ok(());
        }
        Err(format!("{sign} is asked before {}", self.rest))
    }

    /// The letters and digits that stand here.
    pub fn word(&mut self) -> String {
        let length = self.rest.find(|sign: char| !sign.is_ascii_alphanumeric()).unwrap_or(self.rest.len());
        let (word, after) = self.rest.split_at(length);
        self.rest = after.trim_start();
        word.to_string()
    }

    pub fn end(&self) -> Result<(), String> {
        if self.rest.is_empty() {
            return Ok(());
        }
        Err(format!("{} is left over", self.rest))
    }
}
