//! Long inputs as a report shows them.

use std::fmt::{Display, Formatter, Result};

/// How many values a report shows.
const MOST_SHOWN: usize = 1_200;

/// Bytes, in base 16.
pub struct Bytes<'a>(pub &'a [u8]);

impl Display for Bytes<'_> {
    fn fmt(&self, formatter: &mut Formatter) -> Result {
        let shown = &self.0[..self.0.len().min(MOST_SHOWN)];
        write!(formatter, "{} bytes {shown:02x?}", self.0.len())?;
        show_rest(formatter, self.0.len())
    }
}

/// Numbers, in base 10.
pub struct Numbers<'a>(pub &'a [u64]);

impl Display for Numbers<'_> {
    fn fmt(&self, formatter: &mut Formatter) -> Result {
        let shown = &self.0[..self.0.len().min(MOST_SHOWN)];
        write!(formatter, "{} numbers {shown:?}", self.0.len())?;
        show_rest(formatter, self.0.len())
    }
}

fn show_rest(formatter: &mut Formatter, count: usize) -> Result {
    if count > MOST_SHOWN {
        formatter.write_str(" and more")?;
    }
    Ok(())
}
