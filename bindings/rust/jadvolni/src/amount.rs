//! Fixed-point numbers as messages show them.

use crate::Fixed;
use core::fmt::{self, Display, Formatter, Write};

/// A sign, and as many digits as a number of 128 bits and one of 38 places have at most.
const MOST: usize = 40;

/// A fixed-point number, as a bound of [`parse_fixed_within`](crate::parse_fixed_within): it is shown with the point that
/// texts have.
#[derive(Debug, Copy, Clone, PartialEq, Eq)]
pub struct Amount<T> {
    /// How many units of the last place it is.
    pub units: T,
    places: usize,
    point: u8,
}

impl<T> Amount<T> {
    /// The amount, in units of the last place. There are at most 38 places.
    pub(crate) fn of(units: T, fixed: &Fixed) -> Self {
        let point = if fixed.0.point == 0 { b'.' } else { fixed.0.point };
        Amount { units, places: fixed.0.places.into(), point }
    }
}

/// Characters that are put behind each other, as far as there is room.
struct Shown {
    bytes: [u8; MOST],
    size: usize,
}

impl Write for Shown {
    fn write_str(&mut self, text: &str) -> fmt::Result {
        let stop = self.size + text.len();
        self.bytes.get_mut(self.size..stop).ok_or(fmt::Error)?.copy_from_slice(text.as_bytes());
        self.size = stop;
        Ok(())
    }
}

impl<T: Display> Display for Amount<T> {
    /// As `-0.05`, where five units are shown with two places. A point that isn't printable ASCII is shown by its number.
    fn fmt(&self, f: &mut Formatter<'_>) -> fmt::Result {
        let mut shown = Shown { bytes: [0; MOST], size: 0 };
        write!(shown, "{}", self.units)?;
        let number = core::str::from_utf8(&shown.bytes[..shown.size]).map_err(|_| fmt::Error)?;
        let digits = number.trim_start_matches('-');
        let whole = digits.len().saturating_sub(self.places);
        f.write_str(&number[..number.len() - digits.len()])?;
        f.write_str(if whole == 0 { "0" } else { &digits[..whole] })?;
        if self.places == 0 {
            return Ok(());
        }
        match self.point {
            b' '..=b'~' => f.write_char(char::from(self.point))?,
            _ => write!(f, "\\x{:02x}", self.point)?,
        }
        let behind = &digits[whole..];
        (behind.len()..self.places).try_for_each(|_| f.write_char('0'))?;
        f.write_str(behind)
    }
}
