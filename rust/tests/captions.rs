//! Captions: what is shown of each signal, and of which text; the limits on both sides; each refusal with its place; and the order of refusals.

mod common {
    pub mod numbers;
    pub mod sheet;
}

use common::numbers::numbers_from;
use common::sheet::sheet;
use mikhakun::{caption, check, Refusal, Text, LONGEST_CAPTION, LONGEST_TEXT};

/// The names of signals 0 to 3, which stand at 27, 41, 53 and 67 in the sheet below.
const NAMES: &[&str] = &["clear2", "go10", "open10", "light2"];

/// What is shown of a signal: the text that it is a part of, its first byte there, and the bytes.
type Shown<'a> = (Text, usize, &'a str);

/// A case: what it is called, the captions, and what is shown of each signal.
type Case = (&'static str, &'static str, [Shown<'static>; 4]);

const S: Text = Text::Sheet;
const C: Text = Text::Captions;

#[rustfmt::skip]
const SHOWN: &[Case] = &[
    ("no captions",                 "",                                        [(S, 27, "clear2"),   (S, 41, "go10"),    (S, 53, "open10"),     (S, 67, "light2")]),
    ("the first signal's",          "clear2=North\n",                          [(C, 7, "North"),     (S, 41, "go10"),    (S, 53, "open10"),     (S, 67, "light2")]),
    ("the last signal's",           "light2=Lamp\n",                           [(S, 27, "clear2"),   (S, 41, "go10"),    (S, 53, "open10"),     (C, 7, "Lamp")]),
    ("a later signal's first",      "open10=Maps\ngo10=Go\n",                  [(S, 27, "clear2"),   (C, 17, "Go"),      (C, 7, "Maps"),        (S, 67, "light2")]),
    ("all, from the last up",       "light2=d\nopen10=c\ngo10=b\nclear2=a\n",  [(C, 32, "a"),        (C, 23, "b"),       (C, 16, "c"),          (C, 7, "d")]),
    ("a byte: space, ~ and =",      "clear2= \ngo10=~\nopen10==\n",            [(C, 7, " "),         (C, 14, "~"),       (C, 23, "="),          (S, 67, "light2")]),
    ("= in captions",               "go10=M10 = on\nclear2==2==\n",            [(C, 21, "=2=="),     (C, 5, "M10 = on"), (S, 53, "open10"),     (S, 67, "light2")]),
    ("a name as another's caption", "go10=clear2\nclear2=open10=x\n",          [(C, 19, "open10=x"), (C, 5, "clear2"),   (S, 53, "open10"),     (S, 67, "light2")]),
    ("its own name",                "go10=go10\n",                             [(S, 27, "clear2"),   (C, 5, "go10"),     (S, 53, "open10"),     (S, 67, "light2")]),
    ("the same caption twice",      "go10=Maps\nopen10=Maps\n",                [(S, 27, "clear2"),   (C, 5, "Maps"),     (C, 17, "Maps"),       (S, 67, "light2")]),
    ("spaces at both ends",         "light2=  Lamp  \n",                       [(S, 27, "clear2"),   (S, 41, "go10"),    (S, 53, "open10"),     (C, 7, "  Lamp  ")]),
    ("a line of the sheet",         "open10=signal=go10\n",                    [(S, 27, "clear2"),   (S, 41, "go10"),    (C, 7, "signal=go10"), (S, 67, "light2")]),
];

/// The captions before the refused line, that line and what follows, and the number. The place is the line's first byte.
type RefusedCase = (&'static str, &'static str, u64);

#[rustfmt::skip]
const REFUSED: &[RefusedCase] = &[
    // Not of its form: no `=`, no LF, no caption, another byte.
    ("", "\n", 24),
    ("", "clear2\n", 24),
    ("", "clear2", 24),
    ("", "clear2=", 24),
    ("", "clear2=\n", 24),
    ("", "clear2=North", 24),
    ("", "=", 24),
    ("", "=\n", 24),
    ("", "=North", 24),
    ("", "clear2=North\r\n", 24),
    ("", "clear2=\tNorth\n", 24),
    ("", "clear2:North\n", 24),
    ("", "clear2\n=North\n", 24),
    ("", "clear2=Nord\u{e9}\n", 24),
    ("", "\0", 24),
    ("clear2=North\n", "\n", 24),
    ("clear2=North\n", " ", 24),
    ("clear2=North\n", "go10=Maps", 24),
    ("clear2=North\ngo10=Maps\n", "open10=\nlight2=Lamp\n", 24),
    // No declared name before the first `=`.
    ("", "=North\n", 12),
    ("", "==\n", 12),
    ("", " =North\n", 12),
    ("", "clear=North\n", 12),
    ("", "clear20=North\n", 12),
    ("", "clear02=North\n", 12),
    ("", "go010=Maps\n", 12),
    ("", "go1=Maps\n", 12),
    ("", "go10000=Maps\n", 12),
    ("", "Clear2=North\n", 12),
    ("", "clear2 =North\n", 12),
    ("", " clear2=North\n", 12),
    ("", "\rclear2=North\n", 12),
    ("", "clear2\u{e9}=North\n", 12),
    ("", "clear2\0=North\n", 12),
    ("", "signal=clear2\n", 12),
    ("", "since=North\n", 12),
    ("", "abcdefghijklmnop=North\n", 12),
    ("", "abcdefghijklmnopq=North\n", 12),
    ("clear2=North\n", "aisle2=South\n", 12),
    ("clear2=North\ngo10=Maps\n", "=Lamp\nlight2=Lamp\n", 12),
    // A name repeated.
    ("clear2=North\n", "clear2=North\n", 24),
    ("clear2=North\n", "clear2=South\n", 24),
    ("clear2=North\ngo10=Maps\n", "clear2=South\n", 24),
    ("light2=Lamp\nclear2=North\ngo10=Maps\n", "light2=Lamp\nopen10=Open\n", 24),
    // Several hold at once: in a line the form before the name, and of several lines the first.
    ("", "aisle2=\n", 24),
    ("", "aisle2=South", 24),
    ("", "aisle02=\u{e9}\n", 24),
    ("", "aisle2=South\nclear2=\n", 12),
    ("", "clear2=\naisle2=South\n", 24),
    ("", "aisle2=South\naisle2=South\n", 12),
    ("clear2=North\n", "clear2=\n", 24),
    ("clear2=North\n", "clear2=South\naisle2=South\n", 24),
    ("clear2=North\n", "aisle2=South\nclear2=South\n", 12),
    ("clear2=North\n", "clear2=South\nclear2=South", 24),
];

/// The sheet of the four signals. Its hidden signal, of since, has no number that can be asked for.
fn house() -> Vec<u8> {
    sheet(10, NAMES, &["clear2@[-3,0]=>go10", "light2<=>since(go10,open10)"])
}

/// A refusal's number, its place, and the text that this is in.
type Refused = (u64, usize, Option<Text>);

fn refused<T: std::fmt::Debug>(answer: Result<T, Refusal>) -> Refused {
    let refusal = answer.unwrap_err();
    (refusal.number(), refusal.place(), refusal.text())
}

/// What is shown of each of so many signals. It is a part of the lent memory, and there is no signal after the last.
fn all_shown<'a>(sheet: &'a [u8], captions: &'a [u8], signals: usize) -> Vec<Shown<'a>> {
    let shown = |signal| {
        let part = caption(sheet, captions, signal).unwrap();
        let lent = if part.text == Text::Captions { captions } else { sheet };
        assert_eq!(part.shown.as_ptr(), lent[part.start..].as_ptr());
        assert_eq!(part.shown.as_bytes(), &lent[part.start..part.start + part.shown.len()]);
        assert_eq!(part.to_string(), part.shown);
        (part.text, part.start, part.shown)
    };
    for signal in [signals, signals + 1, usize::MAX] {
        assert_eq!(refused(caption(sheet, captions, signal)), (17, 0, None), "{signal}");
    }
    (0..signals).map(shown).collect()
}

/// The captions are refused so, whichever signal is asked for, also one that there is not.
fn all_refused(sheet: &[u8], captions: &[u8], wanted: Refused) {
    for signal in [0, 1, 2, 3, 4, 64, usize::MAX] {
        assert_eq!(refused(caption(sheet, captions, signal)), wanted, "{} {signal}", String::from_utf8_lossy(captions));
    }
}

#[test]
fn what_is_shown_of_each_signal() {
    let sheet = house();
    for (what, captions, wanted) in SHOWN {
        assert_eq!(all_shown(&sheet, captions.as_bytes(), 4), wanted, "{what}");
    }
}

#[test]
fn each_refused_line_with_its_place() {
    let sheet = house();
    for (before, rest, number) in REFUSED {
        assert_eq!(all_shown(&sheet, before.as_bytes(), 4).len(), 4, "{before}");
        all_refused(&sheet, format!("{before}{rest}").as_bytes(), (*number, before.len(), Some(C)));
    }
}

#[test]
fn the_length_of_a_caption() {
    let sheet = house();
    for length in [1, 2, 39, 40] {
        let (words, after) = ("x".repeat(length), "go10=y\n");
        let text = format!("light2=z\nopen10={words}\n{after}");
        let shown = all_shown(&sheet, text.as_bytes(), 4);
        assert_eq!(shown[1..], [(C, 22 + length, "y"), (C, 16, &words), (C, 7, "z")], "{length}");
    }
    assert_eq!(LONGEST_CAPTION, 40);
    for length in [0, 41, 42, 100, 255, 256, 257, 295, 296, 297, 65_536, 65_537, 65_576, 65_577] {
        let text = format!("light2=z\nopen10={}\ngo10=y\n", "x".repeat(length));
        all_refused(&sheet, text.as_bytes(), (24, 9, Some(C)));
    }
}

#[test]
fn each_byte_of_a_caption() {
    let sheet = house();
    for byte in (0..=255).filter(|&byte| byte != b'\n') {
        for (before, after) in [("", ""), ("", "x"), ("x", ""), ("North ", " aisle"), ("", &"x".repeat(39)), (&"x".repeat(39), "")] {
            let words = [before.as_bytes(), &[byte], after.as_bytes()].concat();
            let text = [b"go10=y\nclear2=", &words[..], b"\n"].concat();
            if (32..=126).contains(&byte) {
                let part = caption(&sheet, &text, 0).unwrap();
                assert_eq!((part.text, part.start, part.shown.as_bytes()), (C, 14, &words[..]), "{byte}");
            } else {
                all_refused(&sheet, &text, (24, 7, Some(C)));
            }
        }
    }
}

#[test]
fn each_byte_in_a_name() {
    // Whatever stands in the place of the name's last byte, or after it, makes it another name; LF ends the line.
    let sheet = house();
    for byte in 0..=255 {
        for name in [[b"go1", &[byte][..]].concat(), [b"go10", &[byte][..]].concat(), [&[byte][..], b"go10"].concat()] {
            let text = [&name, &b"=Maps\n"[..]].concat();
            match &name[..] {
                b"go10" | b"go10=" => assert_eq!(caption(&sheet, &text, 1).unwrap().start, 5, "{byte}"),
                name if name.contains(&b'\n') => all_refused(&sheet, &text, (24, 0, Some(C))),
                _ => all_refused(&sheet, &text, (12, 0, Some(C))),
            }
        }
    }
}

#[test]
fn names_that_begin_alike() {
    let names = ["aisle20", "aisle", "aisle2", "a", "aisle2b"];
    let sheet = sheet(4, &names, &[]);
    for (signal, name) in names.iter().enumerate() {
        let text = format!("{name}=Words\n");
        let shown = all_shown(&sheet, text.as_bytes(), names.len());
        for (other, part) in shown.iter().enumerate() {
            let wanted = if other == signal { (C, name.len() + 1, "Words") } else { (S, part.1, names[other]) };
            assert_eq!(*part, wanted, "{name}");
        }
    }
    for name in ["aisle02", "aisle200", "aisle2bc", "aisl", "aisle10000", "b"] {
        all_refused(&sheet, format!("{name}=Words\n").as_bytes(), (12, 0, Some(C)));
    }
}

/// The sheet of 64 signals whose names have 16 bytes, and captions of 40 bytes for all of them: the longest text that is accepted.
fn largest() -> (Vec<u8>, String) {
    let names: Vec<String> = (0..64).map(|number| format!("abcdefghijkl{}", 1_000 + number)).collect();
    let captions = names.iter().rev().map(|name| format!("{name}={:>40}\n", &name[12..])).collect();
    (sheet(4_096, &names.iter().map(String::as_str).collect::<Vec<_>>(), &[]), captions)
}

#[test]
fn the_longest_captions() {
    let (sheet, captions) = largest();
    assert_eq!(captions.len(), 3_712);
    for (signal, shown) in all_shown(&sheet, captions.as_bytes(), 64).into_iter().enumerate() {
        assert_eq!(shown, (C, 58 * (63 - signal) + 17, format!("{:>40}", 1_000 + signal).as_str()));
    }
    // A 65th line has a name again, or none that is declared.
    for (line, number) in [("abcdefghijkl1000=x\n", 24), ("abcdefghijkl1064=x\n", 12)] {
        all_refused(&sheet, format!("{captions}{line}").as_bytes(), (number, 3_712, Some(C)));
    }
    // The text may be far longer than a sheet or readings: only its lines count.
    for (far, number) in [("x".repeat(1 << 20), 24), ("x=\n".repeat(1 << 20), 24), ("x=x\n".repeat(1 << 20), 12)] {
        assert!(far.len() > LONGEST_TEXT);
        all_refused(&sheet, far.as_bytes(), (number, 0, Some(C)));
        all_refused(&sheet, format!("{captions}{far}").as_bytes(), (number, 3_712, Some(C)));
    }
}

#[test]
fn the_order_of_refusals() {
    let too_large = sheet(10, NAMES, &["go10@[-63,63]@[-63,63]@[-63,63]@[-63,63]@[-63,63]"]);
    let sheets: [(&[u8], Refused); 5] = [
        (&[b'x'; LONGEST_TEXT + 1], (1, 0, None)),
        (b"", (2, 0, Some(S))),
        (b"window=4097\n", (3, 7, Some(S))),
        (b"window=1\nsignals=1\nsignal=aisle02\nrules=0\n", (4, 26, Some(S))),
        (&too_large, (9, 0, None)),
    ];
    // The sheet's own come first, whatever the captions and the signal.
    for (sheet, wanted) in sheets {
        assert_eq!(refused(check(sheet)), wanted);
        for captions in ["", "x", "aisle2=South\n", "clear2=North\n", "clear2=North\nclear2=South\n"] {
            all_refused(sheet, captions.as_bytes(), wanted);
        }
    }
    // Then the captions', also for a signal that there is not; last that one.
    let sheet = house();
    let asked = |captions: &str| refused(caption(&sheet, captions.as_bytes(), 4));
    assert_eq!(asked("aisle2=South\nclear2=\n"), (12, 0, Some(C)));
    assert_eq!(asked("clear2=North\nclear2=\n"), (24, 13, Some(C)));
    assert_eq!(asked("clear2=North\n"), (17, 0, None));
    assert_eq!(asked(""), (17, 0, None));
}

/// Captions of no order for some of these names, from a row of numbers that begins with this one: the text, and the place of each name's caption.
fn captions_of_no_order(number: u64, names: &[&str]) -> (String, Vec<Option<(usize, String)>>) {
    let mut below = numbers_from(number);
    let mut order: Vec<usize> = (0..names.len()).collect();
    for last in (1..names.len()).rev() {
        order.swap(last, below(last + 1));
    }
    let (mut text, mut captions) = (String::new(), vec![None; names.len()]);
    for signal in order.into_iter().take(below(names.len() + 1)) {
        let length = 1 + below(LONGEST_CAPTION);
        let words: String = (0..length).map(|_| char::from(32 + below(95) as u8)).collect();
        captions[signal] = Some((text.len() + names[signal].len() + 1, words.clone()));
        text += &format!("{}={words}\n", names[signal]);
    }
    (text, captions)
}

#[test]
fn captions_of_some_names_in_any_order() {
    let names = ["a", "a0", "aisle", "aisle2", "aisle10", "x1y2", "go9999", "since2", "abcdefghijklmnop"];
    let (sheet, mut counts) = (sheet(65, &names, &[]), [0, 0]);
    for number in 0..300 {
        let (text, captions) = captions_of_no_order(number, &names);
        for (signal, (part, wanted)) in all_shown(&sheet, text.as_bytes(), names.len()).into_iter().zip(&captions).enumerate() {
            match wanted {
                Some((start, words)) => assert_eq!(part, (C, *start, words.as_str()), "{text}"),
                None => assert_eq!((part.0, part.2), (S, names[signal]), "{text}"),
            }
            counts[usize::from(wanted.is_some())] += 1;
        }
        // Any line once more is refused there.
        if let Some(line) = text.split_inclusive('\n').next() {
            all_refused(&sheet, format!("{text}{line}").as_bytes(), (24, text.len(), Some(C)));
        }
    }
    assert!(counts.iter().all(|&count| count > 500), "{counts:?}");
}
