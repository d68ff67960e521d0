//! The front of a text, for what is said of it.

use core::fmt::{self, Debug, Display, Formatter, Write};

/// The front of a text, of 40 bytes at most. It is kept by value, so that a fault may outlive the text.
#[derive(Copy, Clone, PartialEq, Eq, Hash)]
pub struct Excerpt {
    bytes: [u8; 40],
    size: usize,
    is_cut: bool,
}

impl Excerpt {
    pub(crate) fn of(text: &[u8]) -> Self {
        let mut bytes = [0; 40];
        let size = text.len().min(bytes.len());
        bytes[..size].copy_from_slice(&text[..size]);
        Excerpt { bytes, size, is_cut: size < text.len() }
    }

    /// The bytes.
    pub fn as_bytes(&self) -> &[u8] {
        &self.bytes[..self.size]
    }

    /// Puts it within quotes, as a message shows a cell: its characters, and what is none or can't be printed escaped.
    pub(crate) fn put_quoted(&self, f: &mut Formatter<'_>) -> fmt::Result {
        f.write_char('"')?;
        let mut chunks = self.as_bytes().utf8_chunks().peekable();
        while let Some(chunk) = chunks.next() {
            chunk.valid().chars().try_for_each(|letter| put_letter(f, letter))?;
            // Where it is cut within a character, that is left out.
            if chunks.peek().is_some() || !self.is_cut {
                Display::fmt(&chunk.invalid().escape_ascii(), f)?;
            }
        }
        f.write_str(if self.is_cut { "\".." } else { "\"" })
    }
}

/// Puts a character, or what stands for it within quotes.
fn put_letter(f: &mut Formatter<'_>, letter: char) -> fmt::Result {
    match u8::try_from(letter) {
        Ok(b'\'') => f.write_char(letter),
        Ok(byte) if byte.is_ascii() => Display::fmt(&byte.escape_ascii(), f),
        _ => Display::fmt(&letter.escape_debug(), f),
    }
}

impl Display for Excerpt {
    /// The bytes, those that aren't printable ASCII by their numbers, and `..` behind a text that goes on.
    fn fmt(&self, f: &mut Formatter<'_>) -> fmt::Result {
        for &byte in self.as_bytes() {
            match byte {
                b' '..=b'~' => f.write_char(char::from(byte))?,
                _ => write!(f, "\\x{byte:02x}")?,
            }
        }
        f.write_str(if self.is_cut { ".." } else { "" })
    }
}

impl Debug for Excerpt {
    fn fmt(&self, f: &mut Formatter<'_>) -> fmt::Result {
        write!(f, "\"{self}\"")
    }
}
