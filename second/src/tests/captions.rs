//! Captions, worked out by hand: the part that is shown of either text, the limits, and each refusal with its place.

use super::{sheet, shown};
use crate::captions::{caption, Part, Source};

/// The names of signals 0 to 3, which stand at 26, 35, 44 and 58 in the sheet.
const NAMES: &str = "a b aisle2 aisle10";

/// What is shown for the signal: the text, the first byte there and the bytes; or the refusal.
fn asked(captions: &[u8], signal: u64) -> Result<(Source, usize, String), (u64, u64)> {
    let sheet = sheet(4, NAMES, &["a=>b@[1,1]"]);
    let answer = caption(sheet.as_bytes(), captions, signal);
    let part = answer.map_err(|refusal| (refusal.number, refusal.place))?;
    let bytes = part.shown(sheet.as_bytes(), captions);
    let bytes = String::from_utf8_lossy(bytes).to_string();
    Ok((part.of, part.bytes.start, bytes))
}

fn in_sheet(start: usize, name: &str) -> Result<(Source, usize, String), (u64, u64)> {
    Ok((Source::Sheet, start, name.to_string()))
}

fn in_captions(start: usize, caption: &str) -> Result<(Source, usize, String), (u64, u64)> {
    Ok((Source::Captions, start, caption.to_string()))
}

/// The refusal of captions, which is the same for every signal, and for none.
fn refused(captions: &[u8]) -> Option<(u64, u64)> {
    let refusals = [0, 1, 2, 3, 4, u64::MAX].map(|signal| asked(captions, signal).err());
    let whole = refusals == [None, None, None, None, Some((17, 0)), Some((17, 0))];
    let same = refusals.iter().all(|refusal| *refusal == refusals[0]);
    assert!(whole || same, "{refusals:?}");
    refusals[0]
}

#[test]
fn a_part_of_either_text() {
    let captions = b"aisle2=Gang 2\nb=East = west\n";
    assert_eq!(asked(captions, 0), in_sheet(26, "a"));
    assert_eq!(asked(captions, 1), in_captions(16, "East = west"));
    assert_eq!(asked(captions, 2), in_captions(7, "Gang 2"));
    assert_eq!(asked(captions, 3), in_sheet(58, "aisle10"));
    let name = caption(sheet(4, NAMES, &[]).as_bytes(), captions, 3);
    let part = Part {
        of: Source::Sheet,
        bytes: 58..65,
    };
    assert_eq!(name, Ok(part));
}

#[test]
fn no_captions() {
    assert_eq!(asked(b"", 0), in_sheet(26, "a"));
    assert_eq!(asked(b"", 1), in_sheet(35, "b"));
    assert_eq!(asked(b"", 2), in_sheet(44, "aisle2"));
    assert_eq!(asked(b"", 3), in_sheet(58, "aisle10"));
}

#[test]
fn all_names_in_any_order() {
    let captions = b"aisle10=a\na=aisle2\naisle2==\nb= \n";
    assert_eq!(asked(captions, 0), in_captions(12, "aisle2"));
    assert_eq!(asked(captions, 1), in_captions(30, " "));
    assert_eq!(asked(captions, 2), in_captions(26, "="));
    assert_eq!(asked(captions, 3), in_captions(8, "a"));
}

#[test]
fn names_in_captions_are_no_lines() {
    // Each of these lines is of b alone.
    for captions in ["b=a=1\n", "b=aisle2=x\n", "b==a=\n", "b=a\n"] {
        let captions = captions.as_bytes();
        assert_eq!(asked(captions, 0), in_sheet(26, "a"));
        assert_eq!(asked(captions, 2), in_sheet(44, "aisle2"));
    }
    // Where an LF is lost, two lines are one.
    assert_eq!(asked(b"b=xa=y\n", 0), in_sheet(26, "a"));
    assert_eq!(asked(b"b=xa=y\n", 1), in_captions(2, "xa=y"));
}

#[test]
fn lengths_of_captions() {
    for length in [1, 2, 39, 40] {
        let caption = "x".repeat(length);
        let text = format!("a=y\nb={caption}\n");
        assert_eq!(asked(text.as_bytes(), 1), in_captions(6, &caption));
    }
    for length in [0, 41, 42, 256, 257, 296, 65_537, 65_576] {
        let text = format!("a=y\nb={}\n", "x".repeat(length));
        assert_eq!(refused(text.as_bytes()), Some((24, 4)), "{length}");
    }
}

#[test]
fn every_byte_in_a_caption() {
    let bytes = (0..=255).filter(|byte| *byte != b'\n');
    for byte in bytes {
        let wanted = match byte {
            32..=126 => None,
            _ => Some((24, 4)),
        };
        let middle = [&[b'x'; 20][..], &[byte], &[b'x'; 19]].concat();
        for caption in [&[byte][..], &[byte, b'x'], &[b'x', byte], &middle] {
            let text = [b"a=y\nb=", caption, b"\n"].concat();
            assert_eq!(refused(&text), wanted, "{byte}");
        }
    }
}

#[test]
fn lines_not_of_their_form() {
    for line in [
        "\n",
        "a\n",
        " \n",
        "a",
        "a=",
        "a=x",
        "a=\n",
        "=",
        "=\n",
        "=x",
        "a=x\r\n",
        "a=x\ty\n",
        "\r\n",
        "\0",
        "a:x\n",
        "a=\r\n",
        "a=x\u{e9}\n",
    ] {
        assert_eq!(refused(line.as_bytes()), Some((24, 0)), "{line:?}");
        let later = format!("b=y\n{line}");
        assert_eq!(refused(later.as_bytes()), Some((24, 4)), "{line:?}");
        if line.ends_with('\n') {
            let between = later + "aisle2=z\n";
            assert_eq!(refused(between.as_bytes()), Some((24, 4)), "{line:?}");
        }
    }
    // Bytes after the last line, and an empty line there.
    assert_eq!(refused(b"a=x\n\n"), Some((24, 4)));
    assert_eq!(refused(b"a=x\n "), Some((24, 4)));
}

#[test]
fn names_that_are_not_declared() {
    for name in [
        "",
        " ",
        "c",
        "A",
        "a ",
        " a",
        "a\r",
        "aa",
        "ab",
        "aisle",
        "aisle1",
        "aisle02",
        "aisle002",
        "aisle2a",
        "aisle20",
        "aisle100",
        "aisle10002",
        "aisle65538",
        "since",
        "until",
        "signal",
        "2",
        "abcdefghijklmnop",
        "abcdefghijklmnopq",
        "\u{e9}",
        "\0",
    ] {
        let line = format!("{name}=x\n");
        assert_eq!(refused(line.as_bytes()), Some((12, 0)), "{name:?}");
        let later = format!("a=x\n{line}b=y\n");
        assert_eq!(refused(later.as_bytes()), Some((12, 4)), "{name:?}");
        // The form comes before the name.
        for rest in ["", "\n", "=", "=\n", "=x", "=\t\n", "=x\r\n"] {
            let line = format!("{name}{rest}");
            if !line.is_empty() {
                assert_eq!(refused(line.as_bytes()), Some((24, 0)), "{line:?}");
            }
        }
    }
}

#[test]
fn names_repeated() {
    assert_eq!(refused(b"a=x\na=x\n"), Some((24, 4)));
    assert_eq!(refused(b"a=x\na=y\n"), Some((24, 4)));
    assert_eq!(refused(b"a=x\nb=y\na=z\n"), Some((24, 8)));
    assert_eq!(refused(b"b=y\na=x\na=z\n"), Some((24, 8)));
    assert_eq!(refused(b"aisle2=x\naisle10=x\naisle2=y\n"), Some((24, 19)));
    assert_eq!(refused(b"a=x\nb=x\naisle2=x\naisle10=x\n"), None);
    // A line that is wrong in its form as well has the same number and place; a name that is not declared is refused before it is repeated.
    assert_eq!(refused(b"a=x\na=\n"), Some((24, 4)));
    assert_eq!(refused(b"c=x\nc=x\n"), Some((12, 0)));
}

#[test]
fn the_first_line_that_is_wrong_tells_the_refusal() {
    for (captions, refusal) in [
        ("a=x\nc=y\nb\n", (12, 4)),
        ("a=x\nb\nc=y\n", (24, 4)),
        ("a=x\na=y\nc=z\n", (24, 4)),
        ("c=x\na=x\na=y\n", (12, 0)),
        ("a=x\nc=y\na=z\n", (12, 4)),
        ("a=x\nb=y\naisle2=\nc=x", (24, 8)),
        ("=x\n\n", (12, 0)),
        ("\n=x\n", (24, 0)),
    ] {
        assert_eq!(refused(captions.as_bytes()), Some(refusal), "{captions:?}");
    }
}

#[test]
fn numbers_of_signals() {
    for captions in ["", "a=x\n", "aisle10=x\nb=y\n"] {
        for signal in 0..4 {
            assert!(asked(captions.as_bytes(), signal).is_ok());
        }
        for signal in [4, 5, 63, 64, 256, 1 << 32, (1 << 32) + 1, 1 << 63, u64::MAX] {
            assert_eq!(asked(captions.as_bytes(), signal), Err((17, 0)), "{signal}");
        }
    }
}

#[test]
fn no_limit_of_length() {
    let long = "a".repeat(40_000);
    assert_eq!(refused(long.as_bytes()), Some((24, 0)));
    assert_eq!(refused(format!("a={long}\n").as_bytes()), Some((24, 0)));
    assert_eq!(refused(format!("{long}=x\n").as_bytes()), Some((12, 0)));
    let lines = "a=x\nb=y\n".repeat(5_000);
    assert_eq!(refused(lines.as_bytes()), Some((24, 8)));
    // The longest that is accepted: 64 names of 16 bytes, with captions of 40.
    let names: Vec<String> = (10..74).map(|n| format!("abcdefghijklmn{n}")).collect();
    let captions: String = names.iter().map(|n| format!("{n}={:#<40}\n", n)).collect();
    let sheet = sheet(1, &names.join(" "), &[]);
    for (signal, name) in names.iter().enumerate() {
        let part = caption(sheet.as_bytes(), captions.as_bytes(), signal as u64);
        let start = 58 * signal + 17;
        let wanted = Part {
            of: Source::Captions,
            bytes: start..start + 40,
        };
        assert_eq!(part, Ok(wanted), "{name}");
    }
}

#[test]
fn the_sheet_is_refused_first() {
    let long = format!("{}x", "x".repeat(32_768));
    let many = ["since(a,a)"; 33];
    for (text, refusal) in [
        (long, (1, 0)),
        (String::new(), (2, 0)),
        (sheet(4_097, NAMES, &[]), (3, 7)),
        (sheet(4, "a a", &[]), (4, 35)),
        (sheet(4, "a", &["a)"]), (5, 42)),
        (sheet(4, "a", &["b"]), (6, 41)),
        (sheet(4, "a", &["a@[1,0]"]), (7, 43)),
        (sheet(4, "a", &[&"(".repeat(33)]), (8, 73)),
        (sheet(4, "a", &many), (9, 0)),
    ] {
        for captions in ["", "a=x\n", "c=x\n", "x", "a=x\na=x\n"] {
            for signal in [0, u64::MAX] {
                let answer = caption(text.as_bytes(), captions.as_bytes(), signal);
                assert_eq!(shown(answer), Some(refusal), "{captions:?}");
            }
        }
    }
}
