//! The bytes that readers hold of a text, with the feature `std`.

extern crate std;

use std::io::{self, ErrorKind, Read};
use std::ops::{Deref, DerefMut};
use std::vec;
use std::vec::Vec;

/// The bytes that are allocated at first; more if they are needed.
const FIRST: usize = (1 << 20) + 1;

/// Bytes in a row, which grow up to a limit.
pub(crate) struct Block {
    bytes: Vec<u8>,
    limit: usize,
}

impl Block {
    /// A block for fields or rows of at most `size` bytes, and at least one: behind one that is as long has another
    /// byte room, which shows whether it is longer.
    pub(crate) fn of(size: usize) -> Self {
        let limit = size.max(1).saturating_add(1);
        Block { bytes: vec![0; limit.min(FIRST)], limit }
    }

    /// Whether `filled` bytes are all that there may be.
    pub(crate) fn is_full(&self, filled: usize) -> bool {
        filled == self.limit
    }

    /// The room behind the first `filled` bytes, where it isn't full. There is some: it grows where there is none.
    pub(crate) fn room(&mut self, filled: usize) -> io::Result<&mut [u8]> {
        if filled == self.bytes.len() {
            let size = self.limit.min(self.bytes.len().saturating_mul(2));
            grow(&mut self.bytes, size, 0)?;
        }
        Ok(&mut self.bytes[filled..])
    }
}

impl Deref for Block {
    type Target = [u8];

    fn deref(&self) -> &[u8] {
        &self.bytes
    }
}

impl DerefMut for Block {
    fn deref_mut(&mut self) -> &mut [u8] {
        &mut self.bytes
    }
}

/// Makes a vector as long as that, if there is memory for it.
pub(crate) fn grow<T: Copy>(items: &mut Vec<T>, size: usize, item: T) -> io::Result<()> {
    let more = size.saturating_sub(items.len());
    items.try_reserve_exact(more).map_err(|error| io::Error::new(ErrorKind::OutOfMemory, error))?;
    items.resize(size.max(items.len()), item);
    Ok(())
}

/// Reads once, and again where that was interrupted.
pub(crate) fn read_once(reader: &mut impl Read, room: &mut [u8]) -> io::Result<usize> {
    loop {
        match reader.read(room) {
            Err(error) if error.kind() == ErrorKind::Interrupted => {}
            Ok(count) if count > room.len() => {
                return Err(io::Error::other("the reader tells more bytes than it was asked for"));
            }
            answer => return answer,
        }
    }
}
