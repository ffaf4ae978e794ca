//! The form of a name, to say which part of it is broken.

/// The most bytes of a name.
const LONGEST: usize = 16;

/// May the byte stand in a name, after its first?
pub(crate) fn is_name_byte(byte: &u8) -> bool {
    byte.is_ascii_lowercase() || byte.is_ascii_digit()
}

/// Is this a lower-case letter and then lower-case letters or digits, 1 to 16 in all? Such a name may still end in a number that no name ends in.
pub(crate) fn is_spelled(name: &[u8]) -> bool {
    matches!(name, [b'a'..=b'z', rest @ ..] if rest.len() < LONGEST && rest.iter().all(is_name_byte))
}

/// Is this a word of the rules, which names no signal?
pub(crate) fn is_reserved(name: &[u8]) -> bool {
    name == b"since" || name == b"until"
}

/// What is wrong with the number at a name's end, if anything is. It has no leading zero unless it is 0 alone; five digits are then over 9,999.
pub(crate) fn end_number_fault(name: &[u8]) -> Option<&'static str> {
    let before = name.iter().rposition(|byte| !byte.is_ascii_digit()).map_or(0, |last| last + 1);
    match &name[before..] {
        [b'0', _, ..] => Some("a number at the end of a name has no leading zero"),
        [_, _, _, _, _, ..] => Some("a number at the end of a name is at most 9,999"),
        _ => None,
    }
}

#[cfg(test)]
mod tests {
    use super::*;

    #[test]
    fn a_name_is_spelled_with_lower_case_letters_and_digits() {
        for name in ["a", "x1y2", "a00", "a234567890123456"] {
            assert!(is_spelled(name.as_bytes()), "{name}");
        }
        for name in ["", "2a", "A", "a_", "a2345678901234567"] {
            assert!(!is_spelled(name.as_bytes()), "{name}");
        }
    }

    #[test]
    fn an_end_number_has_no_leading_zero() {
        for name in ["a00", "a01", "aisle02", "x1y02", "a010000"] {
            assert_eq!(end_number_fault(name.as_bytes()), Some("a number at the end of a name has no leading zero"), "{name}");
        }
    }

    #[test]
    fn an_end_number_is_at_most_9_999() {
        for name in ["a10000", "a99999", "a234567890123456"] {
            assert_eq!(end_number_fault(name.as_bytes()), Some("a number at the end of a name is at most 9,999"), "{name}");
        }
    }

    #[test]
    fn other_end_numbers_are_right_and_so_is_none() {
        for name in ["a", "a0", "a9", "a10", "a9999", "x1y2", "a02b", "a0b0", "a12345b"] {
            assert_eq!(end_number_fault(name.as_bytes()), None, "{name}");
        }
    }
}
