//! Columns whose lines have carriage returns, blanks, missing numbers or amounts: tables of one column.

use crate::{parse_table, row_place, Column, ColumnError, Dialect, Table, TableColumn, TableError};

/// Reads the numbers of a text's lines, as the only column of a table, as long as its slice and its bits have room. The
/// dialect says whether there are carriage returns, blanks and missing numbers; the column has the format, or amounts.
///
/// With [`Dialect::LINES`] each line is one cell. The numbers before a fault are there, and the fault is that of
/// [`parse_column`](crate::parse_column), where a field is a line.
///
/// ```
/// use jadvolni::{is_present, parse_column_with_dialect, Column, Dialect, Fixed, TableColumn};
/// let amount = Fixed::of_places(2).point(b',').group_separator(Some(b'.'));
/// let lines = Dialect::LINES.allows_returns(true).allows_blanks(true).missing(b"-");
/// let (mut cents, mut bits) = ([0i64; 4], [0u8]);
/// let column = TableColumn::of_fixed(&mut cents, &amount).with_bits(&mut bits);
/// let read = parse_column_with_dialect("-1.234,50\r\n - \n7,00\n", &lines, column);
/// assert_eq!(read, Ok(Column { count: 3, stop: 20 }));
/// assert_eq!((cents, is_present(&bits, 1)), ([-123450, 0, 700, 0], false));
/// ```
pub fn parse_column_with_dialect(
    text: impl AsRef<[u8]>,
    dialect: &Dialect<'_>,
    column: TableColumn<'_>,
) -> Result<Column, ColumnError> {
    let text = text.as_ref();
    match parse_table(text, dialect, &mut [column]) {
        Ok(Table { rows, stop }) => Ok(Column { count: rows, stop }),
        Err(TableError { error, .. }) if error.place().is_none() => {
            Err(ColumnError::InvalidFormat(error))
        }
        Err(TableError { row, error, .. }) => {
            let start = row_place(text, dialect, row).unwrap_or_default().start;
            Err(ColumnError::InvalidField { field: row, start, error })
        }
    }
}
