//! The numbers in the first two lines of an accepted sheet.

/// The window: the number in the first line.
pub(crate) fn window_of(sheet: &[u8]) -> usize {
    number_in(sheet, 0)
}

/// How many signals it has: the number in the second line.
pub(crate) fn signals_of(sheet: &[u8]) -> usize {
    number_in(sheet, 1)
}

/// The number after the sign `=` in a line, counted from 0.
fn number_in(sheet: &[u8], line: usize) -> usize {
    let line = sheet.split(|&byte| byte == b'\n').nth(line).expect("an accepted sheet has the line");
    let digits = line.iter().skip_while(|&&byte| byte != b'=').skip(1);
    digits.fold(0, |number, digit| 10 * number + usize::from(digit - b'0'))
}

#[cfg(test)]
mod tests {
    use super::*;

    #[test]
    fn the_first_two_lines_have_the_numbers() {
        let sheet = b"window=4096\nsignals=17\nsignal=a1\n";
        assert_eq!((window_of(sheet), signals_of(sheet)), (4_096, 17));
    }
}
