//! The columns of a table: what their cells look like, and the slices that they are stored in.

use crate::format::ByteShown;
use crate::{CellText, ColumnInteger, Fixed, Format};
use core::fmt;
use core::marker::PhantomData;
use jadvolni_sys as sys;

/// A column of a table, which is read into a slice, or isn't read.
#[repr(transparent)]
pub struct TableColumn<'a>(sys::jadvolni_table_column, PhantomData<&'a mut ()>);

impl<'a> TableColumn<'a> {
    /// A column that isn't read: its cells may hold any bytes but what ends a cell; if the dialect has quotes, these
    /// must be in place.
    pub const UNREAD: Self = TableColumn(UNREAD, PhantomData);

    /// A column that stores its numbers in a slice, under the standard format.
    pub fn of<T: TableInteger>(numbers: &'a mut [T]) -> Self {
        Self::with_format(numbers, &Format::STANDARD)
    }

    /// A column that stores its numbers in a slice, under a format.
    pub fn with_format<T: TableInteger>(numbers: &'a mut [T], format: &Format) -> Self {
        Self::into_slice(numbers, sys::jadvolni_table_column { format: format.0, ..UNREAD })
    }

    /// A column that stores its fixed-point numbers in a slice, in units of the last place. If the description has 0
    /// places, they are integers in the format of its integer part.
    ///
    /// ```
    /// use jadvolni::{parse_table, Dialect, Fixed, TableColumn};
    /// let amount = Fixed::of_places(2).point(b',').group_separator(Some(b'.'));
    /// let (mut days, mut cents) = ([0u16; 2], [0i64; 2]);
    /// let mut columns = [TableColumn::of(&mut days), TableColumn::of_fixed(&mut cents, &amount)];
    /// parse_table("1;-1.234,50\n2;7,00\n", &Dialect::separated_by(b';'), &mut columns)?;
    /// assert_eq!((days, cents), ([1, 2], [-123450, 700]));
    /// # Ok::<(), jadvolni::TableError>(())
    /// ```
    pub fn of_fixed<T: TableInteger>(numbers: &'a mut [T], fixed: &Fixed) -> Self {
        let sys::jadvolni_fixed { integer: format, point, places, takes_fewer, reserved } = fixed.0;
        let fixed =
            sys::jadvolni_table_column { format, point, places, takes_fewer, reserved, ..UNREAD };
        Self::into_slice(numbers, fixed)
    }

    /// A column of texts, which stores in a slice where each is. A text may contain any bytes but what ends its cell. If
    /// the dialect has quotes, one with a quote must be enclosed in them, and its own are doubled.
    pub fn of_texts(texts: &'a mut [CellText]) -> Self {
        Self::into_slice(CellText::as_kept(texts), UNREAD)
    }

    /// A column that is stored in a slice.
    fn into_slice<T: TableArray>(
        items: &'a mut [T],
        mut column: sys::jadvolni_table_column,
    ) -> Self {
        T::put_into(&mut column, items);
        TableColumn(column, PhantomData)
    }

    /// The same column, if numbers or texts may be missing: bit `k & 7` of byte `k >> 3` is then 1 if row `k` has one,
    /// and 0 if it is missing; then the slice has 0 or [`CellText::NONE`] there. The lowest bit comes first.
    /// [`is_present`] tests one.
    pub fn with_bits(mut self, present: &'a mut [u8]) -> Self {
        self.0.present = array_of(present);
        self
    }

    /// How many rows there is room for, if the column is read.
    fn room(&self) -> Option<usize> {
        let room = self.rooms_of_arrays().into_iter().flatten().next()?;
        Some(room_of(self.0.present).map_or(room, |bytes| room.min(bytes.saturating_mul(8))))
    }
}

impl fmt::Debug for TableColumn<'_> {
    /// What its cells look like, and how many rows it has room for: neither what is stored, nor where.
    fn fmt(&self, f: &mut fmt::Formatter<'_>) -> fmt::Result {
        let (Some(items), Some(room)) = (self.items(), self.room()) else {
            return f.write_str("UNREAD");
        };
        let mut shown = f.debug_struct("TableColumn");
        shown.field("items", &format_args!("{items}")).field("room", &room);
        shown.field("has_bits", &room_of(self.0.present).is_some());
        if items != "text" {
            shown.field("format", &Format(self.0.format));
        }
        if items != "text" && self.0.places != 0 {
            shown.field("places", &self.0.places).field("point", &ByteShown(self.0.point));
            shown.field("takes_fewer", &(self.0.takes_fewer != 0));
        }
        shown.finish()
    }
}

#[cfg(feature = "std")]
impl TableColumn<'_> {
    /// Makes the places of the texts in the first rows count from `bytes` bytes before what was read. Missing ones are
    /// unchanged.
    pub(crate) fn move_texts(&mut self, rows: usize, bytes: usize) {
        let (text, present) = (self.0.text, self.0.present);
        if text.numbers.is_null() {
            return;
        }
        let room = rows.min(text.capacity);
        // SAFETY: the texts and the bits are those of slices that the column has borrowed alone.
        let (texts, bits) = unsafe {
            let bits = || core::slice::from_raw_parts(present.numbers, present.capacity);
            let texts = core::slice::from_raw_parts_mut(text.numbers, room);
            (texts, (!present.numbers.is_null()).then(bits))
        };
        for (row, text) in texts.iter_mut().enumerate() {
            if bits.map_or(true, |bits| is_present(bits, row)) {
                text.start = text.start.saturating_add(bytes);
            }
        }
    }
}

/// Whether a row has a number or a text, by the bits of its column. A row past the last bit has none.
///
/// ```
/// use jadvolni::{is_present, parse_table, Dialect, TableColumn};
/// let (mut numbers, mut bits) = ([0i32; 3], [0u8]);
/// let mut columns = [TableColumn::of(&mut numbers).with_bits(&mut bits)];
/// parse_table("7\n\n0\n", &Dialect::separated_by(b','), &mut columns).unwrap();
/// assert_eq!([0, 1, 2, 8].map(|row| is_present(&bits, row)), [true, false, true, false]);
/// ```
pub fn is_present(bits: &[u8], row: usize) -> bool {
    bits.get(row >> 3).is_some_and(|byte| byte >> (row & 7) & 1 == 1)
}

/// How many rows there is room for; there is no bound if no column is read.
pub(crate) fn capacity(columns: &[TableColumn<'_>]) -> usize {
    columns.iter().filter_map(TableColumn::room).min().unwrap_or(usize::MAX)
}

/// A call of the library on the rows of a part of a text, and its arguments after the columns.
macro_rules! call_on_rows {
    ($call:ident($text:ident, $is_last:ident, $dialect:ident, $columns:ident $(, $more:expr)*)) => {
        jadvolni_sys::$call(
            $text.as_ptr().cast(),
            $text.len(),
            $is_last,
            &$dialect.0,
            crate::table_column::capacity($columns),
            $columns.as_mut_ptr().cast(),
            $columns.len(),
            $($more),*
        )
    };
}
pub(crate) use call_on_rows;

/// As C's `{0}`.
// SAFETY: the fields are integers and pointers, and each of these may be 0.
const UNREAD: sys::jadvolni_table_column = unsafe { core::mem::zeroed() };

/// One of the eight integer types that the columns of a table have: `u8` to `u64`, `i8` to `i64`.
pub trait TableInteger: ColumnInteger + TableArray {}

/// The array of the library's column that has items of a type.
pub trait TableArray: Sized {
    /// Sets that array to a slice.
    fn put_into(column: &mut sys::jadvolni_table_column, items: &mut [Self]);
}

/// A slice as a struct of the library.
fn array_of<T>(items: &mut [T]) -> sys::jadvolni_array<T> {
    sys::jadvolni_array { numbers: items.as_mut_ptr(), capacity: items.len() }
}

/// How many items an array has room for, if there is one.
fn room_of<T>(array: sys::jadvolni_array<T>) -> Option<usize> {
    (!array.numbers.is_null()).then_some(array.capacity)
}

/// The arrays of a column, each by its name and the type of its items. One of them is set if the column is read.
macro_rules! arrays {
    ($($name:ident: $type:ty)*) => {
        $(impl TableArray for $type {
            fn put_into(column: &mut sys::jadvolni_table_column, items: &mut [$type]) {
                column.$name = array_of(items);
            }
        })*

        impl TableColumn<'_> {
            /// The room of each array that is set.
            fn rooms_of_arrays(&self) -> impl IntoIterator<Item = Option<usize>> {
                [$(room_of(self.0.$name)),*]
            }

            /// The name of the array that is set: the type of its numbers, or `text`.
            fn items(&self) -> Option<&'static str> {
                let mut names = [$((room_of(self.0.$name), stringify!($name))),*].into_iter();
                names.find_map(|(room, name)| room.and(Some(name)))
            }
        }
    };
}

arrays! {
    i64: i64 u64: u64 i32: i32 u32: u32 i16: i16 u16: u16 i8: i8 u8: u8 text: sys::jadvolni_cell_text
}

/// The types whose arrays have numbers.
macro_rules! integers {
    ($($type:ty)*) => {$(impl TableInteger for $type {})*};
}

integers! { u8 u16 u32 u64 i8 i16 i32 i64 }
