//! The table of marks that a caller keeps between calls.

use crate::head::window_of;
use crate::{check, Refusal};

/// The marks of every row. With n the fewest words that have a bit for each tick of the window, row r has n words for the ticks at which it is
/// true, from word 2rn on, and then n for those at which it is false. Tick t is bit t % 64, of value 2 to the t % 64, in word t / 64 of the n. So in
/// a window up to 64, word 2r has the ticks at which row r is true, and word 2r+1 those at which it is false. The first rows are the declared
/// signals', in sheet order.
///
/// ```
/// use mikhakun::{add, Table};
///
/// let sheet = b"window=2\nsignals=1\nsignal=a\nrules=0\n";
/// let mut table = Table::for_sheet(sheet)?;
/// add(sheet, b"at=1\nsignal=a\nvalue=1\n", &mut table)?;
/// assert_eq!(table.words(), [0b10, 0]);
/// let kept = Table::from(table.words().to_vec());
/// assert_eq!(kept, table);
///
/// let wide = b"window=65\nsignals=1\nsignal=a\nrules=0\n";
/// let mut table = Table::for_sheet(wide)?;
/// add(wide, b"at=1\nsignal=a\nvalue=1\nat=64\nsignal=a\nvalue=0\n", &mut table)?;
/// assert_eq!(table.words(), [0b10, 0, 0, 0b1]);
/// # Ok::<(), mikhakun::Refusal>(())
/// ```
#[derive(Clone, Debug, PartialEq, Eq)]
pub struct Table {
    words: Vec<u64>,
}

impl Table {
    /// The empty table of a sheet with this many rows and this window.
    pub fn empty(rows: usize, window: usize) -> Self {
        Table { words: vec![0; 2 * rows * ((window + 63) / 64)] }
    }

    /// The empty table of a sheet, or the sheet's refusal.
    pub fn for_sheet(sheet: &[u8]) -> Result<Self, Refusal> {
        check(sheet).map(|rows| Table::empty(rows, window_of(sheet)))
    }

    /// The table's words.
    pub fn words(&self) -> &[u64] {
        &self.words
    }

    /// The table's words, to be written.
    pub(crate) fn words_mut(&mut self) -> &mut [u64] {
        &mut self.words
    }

    /// The table's words, taken out.
    pub fn into_words(self) -> Vec<u64> {
        self.words
    }
}

/// Any words are a table; `add`, `ask` and `write_dump` refuse it by 15 or 16 if it is not one of their sheet.
impl From<Vec<u64>> for Table {
    fn from(words: Vec<u64>) -> Self {
        Table { words }
    }
}
