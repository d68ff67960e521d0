//! The cells of a row: for the names of a header, and for what a fault says of its cell.

use crate::Dialect;
use jadvolni_sys as sys;

/// Where a cell is.
pub(crate) type CellPlace = sys::jadvolni_cell_place;

/// How many cells a row has. Where those from a column on are goes to the front of a slice, as far as it has room.
pub(crate) fn put_cells(
    row: &[u8],
    dialect: &Dialect<'_>,
    first: usize,
    cells: &mut [CellPlace],
) -> usize {
    let (bytes, len, room) = (row.as_ptr().cast(), row.len(), cells.len());
    // SAFETY: the pointers are those of slices with their lengths, and of a borrowed dialect.
    unsafe { sys::jadvolni_row_cells(bytes, len, &dialect.0, first, cells.as_mut_ptr(), room) }
        .count
}

/// The bytes of a cell of a row.
pub(crate) fn cell_of(row: &[u8], place: CellPlace) -> &[u8] {
    &row[place.start..][..place.size]
}
