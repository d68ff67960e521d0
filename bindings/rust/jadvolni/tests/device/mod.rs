//! What the tests of readers read from.
use std::io::{self, ErrorKind, Read};

/// A reader of a text that gives few bytes at once, and fails before the byte at each of some places, once each.
pub struct Device<'a> {
    text: &'a [u8],
    most: usize,
    place: usize,
    failures: Vec<(usize, ErrorKind)>,
}

impl Read for Device<'_> {
    fn read(&mut self, block: &mut [u8]) -> io::Result<usize> {
        if let Some(index) = self.failures.iter().position(|(at, _)| *at == self.place) {
            return Err(self.failures.remove(index).1.into());
        }
        let later = self.failures.iter().map(|(at, _)| *at).filter(|at| *at > self.place);
        let end = later.chain([self.text.len(), self.place.saturating_add(self.most)]).min();
        let count = (&self.text[self.place..end.unwrap_or(self.place)]).read(block)?;
        self.place += count;
        Ok(count)
    }
}

/// One at its start.
pub fn device(
    text: &[u8],
    most: usize,
    failures: impl IntoIterator<Item = (usize, ErrorKind)>,
) -> Device<'_> {
    Device { text, most, place: 0, failures: failures.into_iter().collect() }
}
