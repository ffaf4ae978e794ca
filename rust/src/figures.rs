//! The figures of several readings texts, each run against the sheet by itself.

use crate::head::signals_of;
use crate::{answer, ffi, Refusal, Table};

/// The most signals of a sheet.
const MOST_SIGNALS: usize = 64;

/// What the runs of several readings texts say of a signal.
///
/// A run that clashes counts its whole window in `clashed` and nothing in the other three counts. The four add up to window times runs.
#[derive(Clone, Copy, Debug, Default, PartialEq, Eq)]
pub struct Record {
    /// The signal's number, from 0 in sheet order, as [`ask`](crate::ask) takes it.
    pub signal: usize,
    /// At how many ticks it is true.
    pub held: usize,
    /// At how many ticks it is false.
    pub failed: usize,
    /// At how many ticks it is neither.
    pub unsettled: usize,
    /// How many ticks the runs that clash have.
    pub clashed: usize,
    /// The earliest tick at which it is true or false in any run without a clash.
    pub first: Option<usize>,
}

impl Record {
    /// What the library wrote.
    fn written(record: &ffi::Record) -> Self {
        Record {
            signal: record.signal as usize,
            held: record.held as usize,
            failed: record.failed as usize,
            unsettled: record.unsettled as usize,
            clashed: record.clashed as usize,
            first: (record.first != ffi::NO_TICK).then_some(record.first as usize),
        }
    }
}

/// Runs up to 64 readings texts, of either form each, one by one against the sheet: a record for each signal, over all runs.
///
/// The records come in the order of a listing: by the bytes before the number at a name's end, no number before a number, then by the number.
///
/// All texts are checked before the first run. Refusals 1 to 9, 19 for over 64 texts, then of each text in turn 10 and, line by line, 11 to 14 and 21,
/// in this order. The place of 10 to 14 and 21 is counted in the texts joined: [`Refusal::among`] says in which text it is and where there, and
/// [`Refusal::explain_among`] tells it in words.
///
/// ```
/// use mikhakun::{figures, Record};
///
/// let sheet = b"window=10\nsignals=2\nsignal=go10\nsignal=clear2\nrules=1\nrule=clear2@[-3,0]=>go10\n";
/// let early = b"from=3\nto=7\nsignal=clear2\nvalue=1\n";
/// let late = b"at=2\nsignal=clear2\nvalue=0\nat=5\nsignal=go10\nvalue=1\n";
/// let night = b"from=0\nto=3\nsignal=clear2\nvalue=1\nfrom=3\nto=3\nsignal=go10\nvalue=0\n";
/// assert_eq!(
///     figures(sheet, &[early, late, night])?,
///     [
///         Record { signal: 1, held: 5, failed: 1, unsettled: 14, clashed: 10, first: Some(2) },
///         Record { signal: 0, held: 3, failed: 0, unsettled: 17, clashed: 10, first: Some(5) },
///     ]
/// );
/// assert_eq!(figures(sheet, &[night])?[0].first, None);
/// # Ok::<(), mikhakun::Refusal>(())
/// ```
pub fn figures(sheet: &[u8], texts: &[&[u8]]) -> Result<Vec<Record>, Refusal> {
    let mut work = Table::for_sheet(sheet)?;
    let mut records = vec![Record::default(); signals_of(sheet)];
    let lengths: Vec<u64> = texts.iter().map(|text| text.len() as u64).collect();
    figures_into(sheet, &texts.concat(), &lengths, &mut work, &mut records)?;
    Ok(records)
}

/// [`figures`] into a lent list of records, of texts that stand one behind the other with nothing between, by their lengths. It allocates nothing.
///
/// The work table is one of the sheet's, whatever marks it holds. It is cleared before each run and ends as the last run's closed table, cleared if
/// there is none. A refusal changes no word of it and no record.
///
/// After 9 come 15 for the work table's length, 18 for a list that is not as long as the sheet has signals, and 19 also for lengths whose sum is not the
/// joined texts' length.
///
/// ```
/// use mikhakun::{ask, figures_into, Record, Table, Value};
///
/// let sheet = b"window=10\nsignals=1\nsignal=shut\nrules=0\n";
/// let texts = b"at=3\nsignal=shut\nvalue=1\nat=4\nsignal=shut\nvalue=0\n";
/// let (mut work, mut records) = (Table::for_sheet(sheet)?, [Record::default()]);
/// figures_into(sheet, texts, &[25, 25], &mut work, &mut records)?;
/// assert_eq!(records, [Record { signal: 0, held: 1, failed: 1, unsettled: 18, clashed: 0, first: Some(3) }]);
/// assert_eq!((ask(sheet, &work, 0, 3)?, ask(sheet, &work, 0, 4)?), (Value::Unsettled, Value::False));
/// assert_eq!(figures_into(sheet, texts, &[25, 24], &mut work, &mut records).unwrap_err().number(), 19);
/// # Ok::<(), mikhakun::Refusal>(())
/// ```
pub fn figures_into(sheet: &[u8], texts: &[u8], lengths: &[u64], work: &mut Table, records: &mut [Record]) -> Result<(), Refusal> {
    // A list longer than any sheet's is as wrong as one that is longer by one.
    let mut longest = [ffi::Record::default(); MOST_SIGNALS + 1];
    let count = records.len().min(longest.len());
    let (words, written, mut place) = (work.words_mut(), &mut longest[..count], 0);
    // SAFETY: each pointer and length are a slice's, those of the table and the records are borrowed for writing, and the place is a local of this call.
    let number = unsafe {
        ffi::mikhakun_figures(
            sheet.as_ptr(),
            sheet.len(),
            texts.as_ptr(),
            texts.len(),
            lengths.as_ptr(),
            lengths.len(),
            words.as_mut_ptr(),
            words.len(),
            written.as_mut_ptr(),
            written.len(),
            &mut place,
        )
    };
    answer(number, place, || records.iter_mut().zip(written).for_each(|(record, written)| *record = Record::written(written)))
}
