//! The other side: the C library, called as its header says. Outputs start as given, so that one can see which were written.

/// What a call answered and left in its outputs.
#[derive(Clone, Debug, PartialEq, Eq)]
pub struct Outcome {
    pub answer: u64,
    /// The outputs in the header's order, place last.
    pub outputs: Vec<u64>,
}

/// What every output holds before a call.
pub const UNWRITTEN: u64 = 0x5EC0_2D5E_C02D_5EC0;

#[cfg(library)]
mod linked {
    use super::{Outcome, UNWRITTEN};
    use crate::figures::Record;
    use crate::text::readings::Form;

    extern "C" {
        fn mikhakun_check(
            sheet: *const u8,
            sheet_len: usize,
            rows: *mut u64,
            place: *mut u64,
        ) -> u64;
        fn mikhakun_add(
            sheet: *const u8,
            sheet_len: usize,
            readings: *const u8,
            readings_len: usize,
            table: *mut u64,
            words: usize,
            new_facts: *mut u64,
            clash: *mut u64,
            place: *mut u64,
        ) -> u64;
        fn mikhakun_ask(
            sheet: *const u8,
            sheet_len: usize,
            table: *const u64,
            words: usize,
            signal: u64,
            tick: u64,
            value: *mut u64,
            place: *mut u64,
        ) -> u64;
        fn mikhakun_to_spans(
            sheet: *const u8,
            sheet_len: usize,
            readings: *const u8,
            readings_len: usize,
            out: *mut u8,
            room: usize,
            length: *mut u64,
            place: *mut u64,
        ) -> u64;
        fn mikhakun_to_readings(
            sheet: *const u8,
            sheet_len: usize,
            readings: *const u8,
            readings_len: usize,
            out: *mut u8,
            room: usize,
            length: *mut u64,
            place: *mut u64,
        ) -> u64;
        fn mikhakun_figures(
            sheet: *const u8,
            sheet_len: usize,
            texts: *const u8,
            texts_len: usize,
            lengths: *const u64,
            runs: usize,
            work: *mut u64,
            words: usize,
            records: *mut Record,
            record_count: usize,
            place: *mut u64,
        ) -> u64;
        fn mikhakun_print_rule(
            sheet: *const u8,
            sheet_len: usize,
            rule: u64,
            out: *mut u8,
            room: usize,
            length: *mut u64,
            place: *mut u64,
        ) -> u64;
        fn mikhakun_write_dump(
            sheet: *const u8,
            sheet_len: usize,
            table: *const u64,
            words: usize,
            out: *mut u8,
            room: usize,
            length: *mut u64,
            place: *mut u64,
        ) -> u64;
        fn mikhakun_read_dump(
            sheet: *const u8,
            sheet_len: usize,
            dump: *const u8,
            dump_len: usize,
            out: *mut u8,
            room: usize,
            length: *mut u64,
            place: *mut u64,
        ) -> u64;
        fn mikhakun_caption(
            sheet: *const u8,
            sheet_len: usize,
            captions: *const u8,
            captions_len: usize,
            signal: u64,
            in_captions: *mut u64,
            start: *mut u64,
            length: *mut u64,
            place: *mut u64,
        ) -> u64;
    }

    pub const LINKED: bool = true;

    pub fn check(sheet: &[u8]) -> Outcome {
        let (mut rows, mut place) = (UNWRITTEN, UNWRITTEN);
        let answer = unsafe { mikhakun_check(sheet.as_ptr(), sheet.len(), &mut rows, &mut place) };
        Outcome {
            answer,
            outputs: vec![rows, place],
        }
    }

    pub fn add(sheet: &[u8], readings: &[u8], table: &mut [u64]) -> Outcome {
        let (mut new_facts, mut clash, mut place) = (UNWRITTEN, UNWRITTEN, UNWRITTEN);
        let answer = unsafe {
            mikhakun_add(
                sheet.as_ptr(),
                sheet.len(),
                readings.as_ptr(),
                readings.len(),
                table.as_mut_ptr(),
                table.len(),
                &mut new_facts,
                &mut clash,
                &mut place,
            )
        };
        Outcome {
            answer,
            outputs: vec![new_facts, clash, place],
        }
    }

    pub fn ask(sheet: &[u8], table: &[u64], signal: u64, tick: u64) -> Outcome {
        let (mut value, mut place) = (UNWRITTEN, UNWRITTEN);
        let (sheet_len, words) = (sheet.len(), table.len());
        let (sheet, table) = (sheet.as_ptr(), table.as_ptr());
        let answer = unsafe {
            mikhakun_ask(
                sheet, sheet_len, table, words, signal, tick, &mut value, &mut place,
            )
        };
        Outcome {
            answer,
            outputs: vec![value, place],
        }
    }

    pub fn move_to(form: Form, sheet: &[u8], readings: &[u8], out: &mut [u8]) -> Outcome {
        let (mut length, mut place) = (UNWRITTEN, UNWRITTEN);
        let function = match form {
            Form::Readings => mikhakun_to_readings,
            Form::Spans => mikhakun_to_spans,
        };
        let answer = unsafe {
            function(
                sheet.as_ptr(),
                sheet.len(),
                readings.as_ptr(),
                readings.len(),
                out.as_mut_ptr(),
                out.len(),
                &mut length,
                &mut place,
            )
        };
        Outcome {
            answer,
            outputs: vec![length, place],
        }
    }

    pub fn figures(
        sheet: &[u8],
        texts: &[u8],
        lengths: &[u64],
        work: &mut [u64],
        records: &mut [Record],
    ) -> Outcome {
        let mut place = UNWRITTEN;
        let answer = unsafe {
            mikhakun_figures(
                sheet.as_ptr(),
                sheet.len(),
                texts.as_ptr(),
                texts.len(),
                lengths.as_ptr(),
                lengths.len(),
                work.as_mut_ptr(),
                work.len(),
                records.as_mut_ptr(),
                records.len(),
                &mut place,
            )
        };
        Outcome {
            answer,
            outputs: vec![place],
        }
    }

    pub fn print_rule(sheet: &[u8], rule: u64, out: &mut [u8]) -> Outcome {
        let (mut length, mut place) = (UNWRITTEN, UNWRITTEN);
        let (sheet_len, room) = (sheet.len(), out.len());
        let (sheet, out) = (sheet.as_ptr(), out.as_mut_ptr());
        let answer = unsafe {
            mikhakun_print_rule(sheet, sheet_len, rule, out, room, &mut length, &mut place)
        };
        Outcome {
            answer,
            outputs: vec![length, place],
        }
    }

    pub fn write_dump(sheet: &[u8], table: &[u64], out: &mut [u8]) -> Outcome {
        let (mut length, mut place) = (UNWRITTEN, UNWRITTEN);
        let answer = unsafe {
            mikhakun_write_dump(
                sheet.as_ptr(),
                sheet.len(),
                table.as_ptr(),
                table.len(),
                out.as_mut_ptr(),
                out.len(),
                &mut length,
                &mut place,
            )
        };
        Outcome {
            answer,
            outputs: vec![length, place],
        }
    }

    pub fn read_dump(sheet: &[u8], dump: &[u8], out: &mut [u8]) -> Outcome {
        let (mut length, mut place) = (UNWRITTEN, UNWRITTEN);
        let answer = unsafe {
            mikhakun_read_dump(
                sheet.as_ptr(),
                sheet.len(),
                dump.as_ptr(),
                dump.len(),
                out.as_mut_ptr(),
                out.len(),
                &mut length,
                &mut place,
            )
        };
        Outcome {
            answer,
            outputs: vec![length, place],
        }
    }

    pub fn caption(sheet: &[u8], captions: &[u8], signal: u64) -> Outcome {
        let (mut in_captions, mut start) = (UNWRITTEN, UNWRITTEN);
        let (mut length, mut place) = (UNWRITTEN, UNWRITTEN);
        let answer = unsafe {
            mikhakun_caption(
                sheet.as_ptr(),
                sheet.len(),
                captions.as_ptr(),
                captions.len(),
                signal,
                &mut in_captions,
                &mut start,
                &mut length,
                &mut place,
            )
        };
        Outcome {
            answer,
            outputs: vec![in_captions, start, length, place],
        }
    }
}

#[cfg(not(library))]
mod linked {
    use super::Outcome;
    use crate::figures::Record;
    use crate::text::readings::Form;

    pub const LINKED: bool = false;

    pub fn check(_: &[u8]) -> Outcome {
        unreachable!("no library")
    }

    pub fn add(_: &[u8], _: &[u8], _: &mut [u64]) -> Outcome {
        unreachable!("no library")
    }

    pub fn ask(_: &[u8], _: &[u64], _: u64, _: u64) -> Outcome {
        unreachable!("no library")
    }

    pub fn move_to(_: Form, _: &[u8], _: &[u8], _: &mut [u8]) -> Outcome {
        unreachable!("no library")
    }

    pub fn figures(_: &[u8], _: &[u8], _: &[u64], _: &mut [u64], _: &mut [Record]) -> Outcome {
        unreachable!("no library")
    }

    pub fn print_rule(_: &[u8], _: u64, _: &mut [u8]) -> Outcome {
        unreachable!("no library")
    }

    pub fn write_dump(_: &[u8], _: &[u64], _: &mut [u8]) -> Outcome {
        unreachable!("no library")
    }

    pub fn read_dump(_: &[u8], _: &[u8], _: &mut [u8]) -> Outcome {
        unreachable!("no library")
    }

    pub fn caption(_: &[u8], _: &[u8], _: u64) -> Outcome {
        unreachable!("no library")
    }
}

pub use linked::{
    add, ask, caption, check, figures, move_to, print_rule, read_dump, write_dump, LINKED,
};
