//! Texts of a table: where the text of a cell is, its bytes, and these with each doubled quote as one.

#[cfg(feature = "std")]
extern crate std;

use core::fmt;
use jadvolni_sys as sys;
#[cfg(feature = "std")]
use std::{borrow::Cow, vec::Vec};

/// Where the text of a cell is: within its quotes if it has them, and including its blanks.
///
/// It is stored in the slice of [`TableColumn::of_texts`](crate::TableColumn::of_texts). Its places count bytes from
/// the start of what was read, from which its bytes are taken.
#[derive(Copy, Clone, PartialEq, Eq)]
#[repr(transparent)]
pub struct CellText(sys::jadvolni_cell_text);

impl CellText {
    /// The value of an element of a slice before a call has written to it, and of a missing text: no bytes, at place 0.
    pub const NONE: CellText =
        CellText(sys::jadvolni_cell_text { start: 0, size: 0, has_doubled_quotes: 0 });

    /// The place of the text's first byte.
    pub fn start(&self) -> usize {
        self.0.start
    }

    /// The place after its last byte.
    pub fn stop(&self) -> usize {
        self.0.start.saturating_add(self.0.size)
    }

    /// Whether it contains doubled quotes, each of which stands for one.
    pub fn has_doubled_quotes(&self) -> bool {
        self.0.has_doubled_quotes != 0
    }

    /// The bytes of the text, in which quotes are still doubled. `text` is what the table was read from; if it doesn't
    /// have the place, the result is empty.
    ///
    /// ```
    /// use jadvolni::{parse_table, CellText, Dialect, TableColumn};
    /// let (text, comma) = ("rent,1\n food,2\n", Dialect::separated_by(b','));
    /// let mut purposes = [CellText::NONE; 9];
    /// parse_table(text, &comma, &mut [TableColumn::of_texts(&mut purposes), TableColumn::UNREAD])?;
    /// assert_eq!([purposes[0].of(text), purposes[1].of(text)], [&b"rent"[..], b" food"]);
    /// # Ok::<(), jadvolni::TableError>(())
    /// ```
    pub fn of<'t, T: AsRef<[u8]> + ?Sized>(&self, text: &'t T) -> &'t [u8] {
        text.as_ref().get(self.start()..self.stop()).unwrap_or(&[])
    }

    /// The bytes with each doubled quote as one. If there are none, they are those of [`CellText::of`]; otherwise they
    /// are written to the beginning of a slice, where as many bytes as the text has are enough. If there are too few,
    /// the result is `None`, and nothing is written.
    ///
    /// ```
    /// use jadvolni::{parse_table, CellText, Dialect, TableColumn};
    /// let (text, quoted) = ("\"5\"\" nails\"\n", Dialect::separated_by(b',').has_quotes(true));
    /// let (mut texts, mut room) = ([CellText::NONE], [0; 9]);
    /// parse_table(text, &quoted, &mut [TableColumn::of_texts(&mut texts)])?;
    /// assert_eq!(texts[0].of(text), b"5\"\" nails");
    /// assert_eq!(texts[0].fold_into(text, &mut room), Some(&b"5\" nails"[..]));
    /// assert_eq!(texts[0].fold_into(text, &mut room[..7]), None);
    /// # Ok::<(), jadvolni::TableError>(())
    /// ```
    pub fn fold_into<'t, T: AsRef<[u8]> + ?Sized>(
        &self,
        text: &'t T,
        room: &'t mut [u8],
    ) -> Option<&'t [u8]> {
        let held = self.of(text);
        if !self.has_doubled_quotes() {
            return Some(held);
        }
        let size = fold_quotes(held, room);
        room.get(..size)
    }

    /// The bytes with each doubled quote as one, with the feature `std`. It allocates only if there are doubled quotes.
    ///
    /// ```
    /// use jadvolni::{parse_table, CellText, Dialect, TableColumn};
    /// let (text, quoted) = ("\"5\"\" nails\"\n", Dialect::separated_by(b',').has_quotes(true));
    /// let mut texts = [CellText::NONE];
    /// parse_table(text, &quoted, &mut [TableColumn::of_texts(&mut texts)])?;
    /// assert_eq!(String::from_utf8_lossy(&texts[0].folded(text)), "5\" nails");
    /// # Ok::<(), jadvolni::TableError>(())
    /// ```
    #[cfg(feature = "std")]
    pub fn folded<'t, T: AsRef<[u8]> + ?Sized>(&self, text: &'t T) -> Cow<'t, [u8]> {
        let held = self.of(text);
        if self.has_doubled_quotes() {
            Cow::Owned(folded(held))
        } else {
            Cow::Borrowed(held)
        }
    }

    /// Texts as the library has them.
    pub(crate) fn as_kept(texts: &mut [CellText]) -> &mut [sys::jadvolni_cell_text] {
        let (first, count) = (texts.as_mut_ptr().cast(), texts.len());
        // SAFETY: a text is the library's struct, and the slice is borrowed for as long.
        unsafe { core::slice::from_raw_parts_mut(first, count) }
    }
}

impl Default for CellText {
    fn default() -> CellText {
        CellText::NONE
    }
}

impl fmt::Debug for CellText {
    fn fmt(&self, f: &mut fmt::Formatter<'_>) -> fmt::Result {
        let mut shown = f.debug_struct("CellText");
        shown.field("start", &self.start()).field("stop", &self.stop());
        shown.field("has_doubled_quotes", &self.has_doubled_quotes()).finish()
    }
}

/// Copies a text with each doubled quote as one, and returns how many bytes that takes: at most as many as the text
/// has. If there is no room for them, nothing is written.
fn fold_quotes(text: &[u8], folded: &mut [u8]) -> usize {
    let (first, room) = (folded.as_mut_ptr().cast(), folded.len());
    // SAFETY: the pointers are those of slices with their lengths, of which the second is this call's alone.
    unsafe { sys::jadvolni_fold_quotes(text.as_ptr().cast(), text.len(), first, room) }
}

/// A text with each doubled quote as one.
#[cfg(feature = "std")]
pub(crate) fn folded(text: &[u8]) -> Vec<u8> {
    let mut folded = text.to_vec();
    let size = fold_quotes(text, &mut folded);
    folded.truncate(size);
    folded
}
