//! Where the first row of a text ends, which may come little by little.

use crate::Dialect;

/// Looks for the end of a row, at each byte once.
pub(crate) struct RowEnds {
    /// The size of a record, where rows are such.
    record: Option<usize>,
    has_quotes: bool,
    /// How many bytes of the row were seen.
    seen: usize,
    /// Where the quote stands that isn't closed in these, and where the last one opens and closes that is.
    open: Option<usize>,
    last: Option<(usize, usize)>,
}

impl RowEnds {
    pub(crate) fn new(dialect: &Dialect<'_>) -> Self {
        RowEnds {
            record: (dialect.0.is_records != 0).then(|| RowEnds::width(dialect).max(1)),
            has_quotes: dialect.0.has_quotes != 0,
            seen: 0,
            open: None,
            last: None,
        }
    }

    /// How many bytes the cells of a row have together, by their widths.
    pub(crate) fn width(dialect: &Dialect<'_>) -> usize {
        dialect.widths().iter().fold(0, |sum, width| sum.saturating_add(*width))
    }

    /// Another row begins.
    #[cfg(feature = "std")]
    pub(crate) fn begin(&mut self) {
        (self.seen, self.open, self.last) = (0, None, None);
    }

    /// Where the row stops that these bytes begin with, its line feed counted, if it ends in them. Those that were
    /// handed over before are their front.
    ///
    /// A line feed ends a row where an even number of quotes stands before it, whether these are in place or not.
    pub(crate) fn stop_in(&mut self, row: &[u8]) -> Option<usize> {
        if let Some(size) = self.record {
            return (row.len() >= size).then_some(size);
        }
        while let Some(&byte) = row.get(self.seen) {
            match byte {
                b'"' if self.has_quotes => self.see_quote(),
                b'\n' if self.open.is_none() => return Some(self.seen + 1),
                _ => {}
            }
            self.seen += 1;
        }
        None
    }

    /// The first row of a text, with what ends it: all of the text where nothing does.
    pub(crate) fn first_row<'t>(text: &'t [u8], dialect: &Dialect<'_>) -> &'t [u8] {
        let stop = RowEnds::new(dialect).stop_in(text);
        &text[..stop.unwrap_or(text.len())]
    }

    /// The place in the row of the quote that opens its cell, and isn't closed in what was handed over.
    #[cfg(feature = "std")]
    pub(crate) fn open_quote(&self) -> Option<usize> {
        self.open
    }

    /// A quote directly behind one that closes makes with it one that is doubled, and the cell goes on.
    fn see_quote(&mut self) {
        match (self.open, self.last) {
            (Some(opened), _) => (self.open, self.last) = (None, Some((opened, self.seen))),
            (None, Some((opened, closed))) if closed + 1 == self.seen => self.open = Some(opened),
            (None, _) => self.open = Some(self.seen),
        }
    }
}
