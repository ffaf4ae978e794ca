//! Settles what the published inference rules lead to from a sheet of timed rules and readings.
//!
//! A sheet says what must be true of its signals, tick by tick. Given readings, [`add`] settles signals as true or false at ticks of the
//! window; each value holds in every history that obeys the sheet and agrees with the readings. These are safe functions over the proved
//! reader, a static library: [`check`], [`add`], [`ask`], two moves, [`figures`], [`print_rule`], [`write_dump`], [`read_dump`] and [`caption`] each take the
//! sheet's text, and keep nothing between calls but the [`Table`] that they are lent.
//!
//! ```
//! use mikhakun::{add, ask, check, Table, Value};
//!
//! let sheet = b"window=10\nsignals=3\nsignal=clear2\nsignal=go10\nsignal=open10\n\
//!     rules=2\nrule=clear2@[-3,0]=>go10\nrule=go10=>open10@[2,2]\n";
//! let mut readings = String::new();
//! for tick in 3..=6 {
//!     readings += &format!("at={tick}\nsignal=clear2\nvalue=1\n");
//! }
//!
//! assert_eq!(check(sheet)?, 15);
//! let mut table = Table::for_sheet(sheet)?;
//! let added = add(sheet, readings.as_bytes(), &mut table)?;
//! assert_eq!((added.new_facts, added.clash), (6, false));
//! assert_eq!(ask(sheet, &table, 1, 6)?, Value::True);
//! assert_eq!(ask(sheet, &table, 2, 8)?, Value::True);
//! assert_eq!(ask(sheet, &table, 2, 7)?, Value::Unsettled);
//! # Ok::<(), mikhakun::Refusal>(())
//! ```
//!
//! A readings text is of single readings, as above, or of spans, and its first key tells which. [`to_spans`] and [`to_readings`] move it from
//! either form to one of them:
//!
//! ```
//! let sheet = b"window=10\nsignals=1\nsignal=clear2\nrules=0\n";
//! let spans = b"from=3\nto=5\nsignal=clear2\nvalue=1\n";
//! let readings = mikhakun::to_readings(sheet, spans)?;
//! assert_eq!(readings, b"at=3\nsignal=clear2\nvalue=1\nat=4\nsignal=clear2\nvalue=1\nat=5\nsignal=clear2\nvalue=1\n");
//! assert_eq!(mikhakun::to_spans(sheet, &readings)?, spans);
//! # Ok::<(), mikhakun::Refusal>(())
//! ```
//!
//! [`figures`] runs several readings texts against one sheet, each by itself, and counts at how many ticks each signal is true, false and unsettled:
//!
//! ```
//! let sheet = b"window=10\nsignals=1\nsignal=clear2\nrules=0\n";
//! let records = mikhakun::figures(sheet, &[b"from=3\nto=5\nsignal=clear2\nvalue=1\n", b"at=8\nsignal=clear2\nvalue=0\n"])?;
//! assert_eq!((records[0].held, records[0].failed, records[0].unsettled), (3, 1, 16));
//! assert_eq!(records[0].first, Some(3));
//! # Ok::<(), mikhakun::Refusal>(())
//! ```
//!
//! [`print_rule`] prints a rule back as it was read, with parentheses only where the grammar needs them and intervals in square brackets:
//!
//! ```
//! let sheet = b"window=10\nsignals=2\nsignal=clear2\nsignal=go10\nrules=1\nrule=((clear2))@(-4,0)=>(go10)\n";
//! assert_eq!(mikhakun::print_rule(sheet, 0)?, b"clear2@[-3,-1]=>go10");
//! # Ok::<(), mikhakun::Refusal>(())
//! ```
//!
//! [`write_dump`] writes a table as a value change dump, which trace viewers show, and [`read_dump`] makes readings of such a dump:
//!
//! ```
//! use mikhakun::{add, read_dump, write_dump, Table};
//!
//! let sheet = b"window=10\nsignals=1\nsignal=clear2\nrules=1\nrule=clear2=>clear2@[1,1]\n";
//! let mut table = Table::for_sheet(sheet)?;
//! add(sheet, b"at=8\nsignal=clear2\nvalue=1\n", &mut table)?;
//! let dump = write_dump(sheet, &table)?;
//! assert!(dump.ends_with(b"#0\nx!\n#8\n1!\n"));
//! assert_eq!(read_dump(sheet, &dump)?, b"at=8\nsignal=clear2\nvalue=1\nat=9\nsignal=clear2\nvalue=1\n");
//! # Ok::<(), mikhakun::Refusal>(())
//! ```
//!
//! [`caption`] gives what a house shows of a signal: its own words, from a text of lines `name=caption`, or the name where there are none:
//!
//! ```
//! use mikhakun::caption;
//!
//! let sheet = b"window=10\nsignals=2\nsignal=clear2\nsignal=go10\nrules=0\n";
//! let captions = b"clear2=North aisle empty\n";
//! assert_eq!(caption(sheet, captions, 0)?.shown, "North aisle empty");
//! assert_eq!(caption(sheet, captions, 1)?.shown, "go10");
//! # Ok::<(), mikhakun::Refusal>(())
//! ```
//!
//! What is refused says why and where:
//!
//! ```
//! let sheet = b"window=10\nsignals=1\nsignal=clear2\nrules=1\nrule=clear2@[-3,0]=>go10\n";
//! let refusal = mikhakun::check(sheet).unwrap_err();
//! assert_eq!((refusal.number(), refusal.place()), (6, 62));
//! assert_eq!(
//!     refusal.explain(sheet, b"").to_string(),
//!     "sheet, line 5, column 21: the name is not declared (refusal 6)\n\
//!      \x20   rule=clear2@[-3,0]=>go10\n\
//!      \x20                       ^"
//! );
//! ```

mod captions;
mod dumps;
mod explanation;
mod ffi;
mod figures;
mod head;
mod moves;
mod name;
mod print;
mod refusal;
mod table;
mod value;

pub use captions::{caption, Caption, LONGEST_CAPTION};
pub use dumps::{read_dump, read_dump_into, write_dump, write_dump_into, LONGEST_DUMP, LONGEST_DUMP_READINGS};
pub use explanation::Explanation;
pub use figures::{figures, figures_into, Record};
pub use moves::{to_readings, to_readings_into, to_spans, to_spans_into, LONGEST_TEXT};
pub use print::{print_rule, print_rule_into, LONGEST_RULE};
pub use refusal::{Refusal, Text};
pub use table::Table;
pub use value::Value;

/// What an accepted [`add`] tells.
#[derive(Clone, Copy, Debug, PartialEq, Eq)]
pub struct Added {
    /// How many facts are new. A fact is one mark, true or false, of a declared signal at a tick.
    pub new_facts: usize,
    /// Whether any row of the closed table is both true and false at one tick.
    pub clash: bool,
}

/// Checks a sheet: its row count, or a refusal from 1 to 9.
///
/// ```
/// assert_eq!(mikhakun::check(b"window=1\nsignals=1\nsignal=a\nrules=0\n"), Ok(1));
/// assert_eq!(mikhakun::check(b"window=65\nsignals=1\nsignal=a\nrules=0\n"), Ok(1));
/// assert_eq!(mikhakun::check(b"window=4097\n").unwrap_err().number(), 3);
/// ```
pub fn check(sheet: &[u8]) -> Result<usize, Refusal> {
    let (mut rows, mut place) = (0, 0);
    // SAFETY: the pointer and length are a slice's, and the results are locals of this call.
    let number = unsafe { ffi::mikhakun_check(sheet.as_ptr(), sheet.len(), &mut rows, &mut place) };
    answer(number, place, || rows as usize)
}

/// Adds readings, single ones or spans, to the table and closes it, or refuses and leaves every word of the table: 1 to 9, 15, 16, 10, then 11 to 14
/// and 21 line by line, in this order.
///
/// The table then has exactly the marks that a finite chain of the inference rules leads to from the sheet's rules, the readings and what it held.
///
/// ```
/// use mikhakun::{add, Table};
///
/// let sheet = b"window=3\nsignals=1\nsignal=a\nrules=1\nrule=a=>a@[1,1]\n";
/// let mut table = Table::for_sheet(sheet)?;
/// let added = add(sheet, b"at=0\nsignal=a\nvalue=1\n", &mut table)?;
/// assert_eq!(added.new_facts, 3);
/// assert_eq!(add(sheet, b"from=1\nto=2\nsignal=a\nvalue=1\n", &mut table)?.new_facts, 0);
/// # Ok::<(), mikhakun::Refusal>(())
/// ```
pub fn add(sheet: &[u8], readings: &[u8], table: &mut Table) -> Result<Added, Refusal> {
    let words = table.words_mut();
    let (mut new_facts, mut clash, mut place) = (0, 0, 0);
    // SAFETY: each pointer and length are a slice's, that of the table is borrowed for writing, and the results are locals of this call.
    let number = unsafe {
        ffi::mikhakun_add(
            sheet.as_ptr(),
            sheet.len(),
            readings.as_ptr(),
            readings.len(),
            words.as_mut_ptr(),
            words.len(),
            &mut new_facts,
            &mut clash,
            &mut place,
        )
    };
    answer(number, place, || Added { new_facts: new_facts as usize, clash: clash != 0 })
}

/// Asks the table, as it is, for the value of a signal at a tick: 1 to 9, 15, 16, 17, in this order, are its refusals.
///
/// Signals are numbered from 0 in sheet order.
///
/// ```
/// use mikhakun::{add, ask, Table, Value};
///
/// let sheet = b"window=1\nsignals=1\nsignal=a\nrules=0\n";
/// let mut table = Table::for_sheet(sheet)?;
/// assert_eq!(ask(sheet, &table, 0, 0)?, Value::Unsettled);
/// add(sheet, b"at=0\nsignal=a\nvalue=0\n", &mut table)?;
/// assert_eq!(ask(sheet, &table, 0, 0)?, Value::False);
/// assert_eq!(ask(sheet, &table, 0, 1).unwrap_err().number(), 17);
/// # Ok::<(), mikhakun::Refusal>(())
/// ```
pub fn ask(sheet: &[u8], table: &Table, signal: usize, tick: usize) -> Result<Value, Refusal> {
    let words = table.words();
    let (mut value, mut place) = (0, 0);
    // SAFETY: each pointer and length are a slice's, and the results are locals of this call.
    let number = unsafe {
        ffi::mikhakun_ask(sheet.as_ptr(), sheet.len(), words.as_ptr(), words.len(), signal as u64, tick as u64, &mut value, &mut place)
    };
    answer(number, place, || Value::numbered(value))
}

/// A call's answer: 0 is acceptance.
fn answer<A>(number: u64, place: u64, accepted: impl FnOnce() -> A) -> Result<A, Refusal> {
    if number == 0 {
        Ok(accepted())
    } else {
        Err(Refusal::new(number, place as usize))
    }
}

/// The text that a call writes into a buffer of so many bytes, which are enough for every text of its kind.
fn written(longest: usize, write_into: impl FnOnce(&mut [u8]) -> Result<usize, Refusal>) -> Result<Vec<u8>, Refusal> {
    let mut text = vec![0; longest];
    let length = write_into(&mut text)?;
    text.truncate(length);
    Ok(text)
}
