//! A rule printed back, from what was read.

use crate::{answer, ffi, written, Refusal};

/// The most bytes that a rule has, and so the most that [`print_rule`] writes.
pub const LONGEST_RULE: usize = 256;

/// The formula of a rule, as it was read: parentheses only where the grammar needs them, intervals in square brackets, since and until as written, names
/// as spelled. Rules are numbered from 0 in sheet order.
///
/// Read in the rule's place, the text gives the same formula; printed again, the same bytes. No pair of its parentheses can be left out: what is left reads
/// as another formula, or as none. Two rules with one text are the same formula.
///
/// Refusals 1 to 9, 17 for a number that is not below the number of rules, last 20 for a text over [`LONGEST_RULE`] bytes, in this order. A long rule can
/// have such a text, for square brackets may take a byte more than round ones: `(9,11)` becomes `[10,10]`.
///
/// ```
/// let sheet = b"window=4\nsignals=3\nsignal=a\nsignal=b\nsignal=c\nrules=3\nrule=((a))@(0,3)\nrule=(a&b)&c\nrule=a&(b&c)\n";
/// assert_eq!(mikhakun::print_rule(sheet, 0)?, b"a@[1,2]");
/// assert_eq!(mikhakun::print_rule(sheet, 1)?, b"a&b&c");
/// assert_eq!(mikhakun::print_rule(sheet, 2)?, b"a&(b&c)");
/// assert_eq!(mikhakun::print_rule(sheet, 3).unwrap_err().number(), 17);
///
/// let long = format!("window=4\nsignals=1\nsignal=a\nrules=1\nrule=a{}\n", "@(9,11)".repeat(32));
/// assert_eq!(mikhakun::print_rule(long.as_bytes(), 0).unwrap_err().number(), 20);
/// # Ok::<(), mikhakun::Refusal>(())
/// ```
pub fn print_rule(sheet: &[u8], rule: usize) -> Result<Vec<u8>, Refusal> {
    written(LONGEST_RULE, |buffer| print_rule_into(sheet, rule, buffer))
}

/// [`print_rule`] into a lent buffer, from its first byte on: the text's length. The bytes after the text stay, and at a refusal all do.
///
/// It is also refused by 20 where the buffer is shorter than the text. More room than [`LONGEST_RULE`] is never needed.
///
/// ```
/// use mikhakun::{print_rule_into, LONGEST_RULE};
///
/// let sheet = b"window=4\nsignals=2\nsignal=a\nsignal=b\nrules=1\nrule=((a)=>(!b))\n";
/// let mut buffer = [b'.'; LONGEST_RULE];
/// assert_eq!(print_rule_into(sheet, 0, &mut buffer), Ok(5));
/// assert_eq!(&buffer[..6], b"a=>!b.");
/// assert_eq!(print_rule_into(sheet, 0, &mut buffer[..4]).unwrap_err().number(), 20);
/// ```
pub fn print_rule_into(sheet: &[u8], rule: usize, buffer: &mut [u8]) -> Result<usize, Refusal> {
    let (mut length, mut place) = (0, 0);
    // SAFETY: each pointer and length are a slice's, that of the buffer is borrowed for writing, and the results are locals of this call.
    let number = unsafe {
        ffi::mikhakun_print_rule(sheet.as_ptr(), sheet.len(), rule as u64, buffer.as_mut_ptr(), buffer.len(), &mut length, &mut place)
    };
    answer(number, place, || length as usize)
}
