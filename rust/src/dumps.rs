//! Value change dumps (VCD, IEEE 1364): a table written as one, and one read back to readings.

use crate::{answer, ffi, written, Refusal, Table, Text, LONGEST_TEXT};

/// The most bytes that [`write_dump`] writes: 64 signals with names of 16 bytes, each with another sign at each of 4,096 ticks.
pub const LONGEST_DUMP: usize = 812_282;

/// The most bytes that [`read_dump`] writes: a reading for each of these signals at each of these ticks.
pub const LONGEST_DUMP_READINGS: usize = 10_414_720;

/// The number of the refusal of a buffer that is too short.
const NO_ROOM: u64 = 20;

/// By how much the buffer grows that was too short.
const GROWTH: usize = 4;

/// The table as a value change dump, for a trace viewer: a wire for each signal in sheet order, with the sign 0, 1 or x for unsettled at tick 0, and at each
/// later tick the signs that change. A tick is a second.
///
/// [`read_dump`] makes of it exactly the values that are settled. Refusals 1 to 9, 15, 16, then 23 for a table in which any row is both true and false at one
/// tick, in this order.
///
/// ```
/// use mikhakun::{add, write_dump, Table};
///
/// let sheet = b"window=10\nsignals=2\nsignal=clear2\nsignal=go10\nrules=1\nrule=clear2@[-3,0]=>go10\n";
/// let mut table = Table::for_sheet(sheet)?;
/// add(sheet, b"from=3\nto=6\nsignal=clear2\nvalue=1\n", &mut table)?;
/// assert_eq!(
///     String::from_utf8_lossy(&write_dump(sheet, &table)?),
///     "$timescale 1 s $end\n\
///      $scope module sheet $end\n\
///      $var wire 1 ! clear2 $end\n\
///      $var wire 1 \" go10 $end\n\
///      $upscope $end\n\
///      $enddefinitions $end\n\
///      #0\nx!\nx\"\n\
///      #3\n1!\n\
///      #6\n1\"\n\
///      #7\nx!\nx\"\n"
/// );
///
/// add(sheet, b"at=6\nsignal=go10\nvalue=0\n", &mut table)?;
/// assert_eq!(write_dump(sheet, &table).unwrap_err().number(), 23);
/// # Ok::<(), mikhakun::Refusal>(())
/// ```
pub fn write_dump(sheet: &[u8], table: &Table) -> Result<Vec<u8>, Refusal> {
    grown(LONGEST_DUMP, |buffer| write_dump_into(sheet, table, buffer))
}

/// The readings that a dump says, one by one, by tick, then signal: one for each 0 and 1 at a tick. A sign holds until the signal's next or the window's end.
///
/// A dump has the lines that [`write_dump`] writes, and no others. Its timescale may be 1, 10 or 100 of s, ms, us, ns, ps or fs, which changes nothing; `z` counts as
/// `x`; a sign may be said again; a time may have no sign. Times rise strictly, and signs at one time are in sheet order, none twice; every signal has one at `#0`.
///
/// Refusals 1 to 9, then line by line 22 for any other or missing line, 12 for a name that is not declared and 13 for a tick outside the window, in this order.
/// [`Refusal::explain`] takes the dump where it takes the readings of other calls.
///
/// A readings text that [`add`](crate::add) takes has at most [`LONGEST_TEXT`] bytes. A longer one is added in parts, cut between two readings.
///
/// ```
/// use mikhakun::read_dump;
///
/// let sheet = b"window=4\nsignals=1\nsignal=a\nrules=0\n";
/// let head = "$timescale 10 ms $end\n$scope module sheet $end\n$var wire 1 ! a $end\n$upscope $end\n$enddefinitions $end\n";
/// let dump = format!("{head}#0\nz!\n#2\n1!\n");
/// assert_eq!(read_dump(sheet, dump.as_bytes())?, b"at=2\nsignal=a\nvalue=1\nat=3\nsignal=a\nvalue=1\n");
///
/// let late = format!("{head}#0\nz!\n#4\n1!\n");
/// let refusal = read_dump(sheet, late.as_bytes()).unwrap_err();
/// assert_eq!(
///     refusal.explain(sheet, late.as_bytes()).to_string(),
///     "dump, line 8, column 2: the tick is outside the window (refusal 13)\n\
///      \x20   #4\n\
///      \x20    ^"
/// );
/// # Ok::<(), mikhakun::Refusal>(())
/// ```
pub fn read_dump(sheet: &[u8], dump: &[u8]) -> Result<Vec<u8>, Refusal> {
    grown(LONGEST_DUMP_READINGS, |buffer| read_dump_into(sheet, dump, buffer))
}

/// [`write_dump`] into a lent buffer, from its first byte on: the text's length. The bytes after the text stay, and at a refusal all do.
///
/// It is last refused by 20 where the buffer is shorter than the text; one of [`LONGEST_DUMP`] bytes never is.
///
/// ```
/// use mikhakun::{write_dump_into, Table};
///
/// let sheet = b"window=4\nsignals=1\nsignal=a\nrules=0\n";
/// let table = Table::for_sheet(sheet)?;
/// let mut buffer = [b'.'; 200];
/// let length = write_dump_into(sheet, &table, &mut buffer)?;
/// assert!(buffer[..length].ends_with(b"$enddefinitions $end\n#0\nx!\n"));
/// assert_eq!(write_dump_into(sheet, &table, &mut buffer[..length - 1]).unwrap_err().number(), 20);
/// # Ok::<(), mikhakun::Refusal>(())
/// ```
pub fn write_dump_into(sheet: &[u8], table: &Table, buffer: &mut [u8]) -> Result<usize, Refusal> {
    let words = table.words();
    let (mut length, mut place) = (0, 0);
    // SAFETY: each pointer and length are a slice's, that of the buffer is borrowed for writing, and the results are locals of this call.
    let number = unsafe {
        ffi::mikhakun_write_dump(
            sheet.as_ptr(),
            sheet.len(),
            words.as_ptr(),
            words.len(),
            buffer.as_mut_ptr(),
            buffer.len(),
            &mut length,
            &mut place,
        )
    };
    answer(number, place, || length as usize)
}

/// [`read_dump`] into a lent buffer, from its first byte on: the text's length. The bytes after the text stay, and at a refusal all do.
///
/// It is last refused by 20 where the buffer is shorter than the text; one of [`LONGEST_DUMP_READINGS`] bytes never is.
///
/// ```
/// let sheet = b"window=1\nsignals=1\nsignal=a\nrules=0\n";
/// let dump = b"$timescale 1 s $end\n$scope module sheet $end\n$var wire 1 ! a $end\n$upscope $end\n$enddefinitions $end\n#0\n1!\n";
/// let mut buffer = [b'.'; 23];
/// assert_eq!(mikhakun::read_dump_into(sheet, dump, &mut buffer), Ok(22));
/// assert_eq!(&buffer, b"at=0\nsignal=a\nvalue=1\n.");
/// ```
pub fn read_dump_into(sheet: &[u8], dump: &[u8], buffer: &mut [u8]) -> Result<usize, Refusal> {
    let (mut length, mut place) = (0, 0);
    // SAFETY: each pointer and length are a slice's, that of the buffer is borrowed for writing, and the results are locals of this call.
    let number = unsafe {
        ffi::mikhakun_read_dump(
            sheet.as_ptr(),
            sheet.len(),
            dump.as_ptr(),
            dump.len(),
            buffer.as_mut_ptr(),
            buffer.len(),
            &mut length,
            &mut place,
        )
    };
    answer(number, place, || length as usize).map_err(|refusal| refusal.placed_in(Text::Dump))
}

/// The text that a call writes: into a buffer for most texts first, and while that is too short into a larger one, up to the longest. Few texts come near that.
fn grown(longest: usize, write_into: impl Fn(&mut [u8]) -> Result<usize, Refusal>) -> Result<Vec<u8>, Refusal> {
    let mut room = LONGEST_TEXT;
    loop {
        match written(room, &write_into) {
            Err(refusal) if refusal.number() == NO_ROOM && room < longest => room = longest.min(GROWTH * room),
            answer => return answer,
        }
    }
}
