//! Texts of captions: of all names, of some and of none, in any order, with captions of every kind; and with one wrong line or several, damaged
//! or torn.

use super::damage::damage;
use super::names::misnumbered;
use super::random::Random;
use crate::captions::LONGEST_CAPTION;
use crate::text::LONGEST_TEXT;

/// A text for a sheet with these names; more than half have a fault, and some have several.
pub fn captions(random: &mut Random, names: &[String]) -> Vec<u8> {
    let mut lines = lines(random, names);
    let mut place = 0;
    for number in 0..random.weighted(&[44, 36, 14, 6]) {
        // Every other later fault is in the same line.
        if number == 0 || random.chance(50) {
            place = random.below(lines.len() + 1);
        }
        wrong(random, &mut lines, place, names);
    }
    let mut text = written(&lines);
    match random.weighted(&[88, 6, 6]) {
        0 => {}
        1 => damage(random, &mut text),
        _ => tear(random, &mut text),
    }
    text
}

/// A text without a fault.
pub fn whole(random: &mut Random, names: &[String]) -> Vec<u8> {
    written(&lines(random, names))
}

/// A line in pieces; any of them may be missing or another.
#[derive(Clone)]
struct Line {
    name: Vec<u8>,
    equals: &'static str,
    caption: Vec<u8>,
    end: &'static str,
}

fn line(name: &str, caption: Vec<u8>) -> Line {
    Line {
        name: name.as_bytes().to_vec(),
        equals: "=",
        caption,
        end: "\n",
    }
}

fn written(lines: &[Line]) -> Vec<u8> {
    let line = |line: &Line| {
        [
            &line.name[..],
            line.equals.as_bytes(),
            &line.caption,
            line.end.as_bytes(),
        ]
        .concat()
    };
    lines.iter().flat_map(line).collect()
}

/// Lines of all names, of some, of one, or none at all; every other time in another order than the sheet's.
fn lines(random: &mut Random, names: &[String]) -> Vec<Line> {
    let (all, some) = (names.len(), random.below(names.len() + 1));
    let count = random.pick(&[all, all, all, some, some, some, 1, 0]);
    let mut chosen: Vec<&String> = names.iter().collect();
    while chosen.len() > count {
        chosen.remove(random.below(chosen.len()));
    }
    if random.chance(50) {
        random.shuffle(&mut chosen);
    }
    let with_caption = |name: &String| {
        let other = &names[random.below(names.len())];
        line(name, caption(random, name, other))
    };
    chosen.into_iter().map(with_caption).collect()
}

/// Words, any bytes, or one byte again and again, of any length; `=` in it, or before it; a name, or a line.
fn caption(random: &mut Random, name: &str, other: &str) -> Vec<u8> {
    let words = ["Aisle two", "Gang 10", "the east door", "(nowhere)", "A"];
    let any = 1 + random.below(LONGEST_CAPTION);
    let length = random.pick(&[1, 1, 2, LONGEST_CAPTION - 1, LONGEST_CAPTION, any, any]);
    let mut caption = match random.weighted(&[20, 32, 12, 6, 6, 8, 16]) {
        0 => return random.pick(&words).into(),
        1 => printable(random, length),
        2 => vec![random.pick(&[32, 126, b'=', b'0']); length],
        3 => format!("={name}=").into_bytes(),
        4 => return name.into(),
        5 => return other.into(),
        _ => format!("{other}=1").into_bytes(),
    };
    if random.chance(20) {
        let place = random.below(caption.len());
        caption[place] = b'=';
    }
    caption
}

/// So many bytes that a caption may have.
fn printable(random: &mut Random, length: usize) -> Vec<u8> {
    let byte = |_| random.between(32, 126) as u8;
    (0..length).map(byte).collect()
}

/// Makes the line at this place wrong; after the last line, a new one.
fn wrong(random: &mut Random, lines: &mut Vec<Line>, place: usize, names: &[String]) {
    if place == lines.len() {
        let name = &names[random.below(names.len())];
        lines.push(line(name, printable(random, 5)));
    }
    match random.weighted(&[34, 30, 18, 18]) {
        0 => wrong_name(random, &mut lines[place], names),
        1 => wrong_caption(random, &mut lines[place]),
        2 => wrong_form(random, &mut lines[place]),
        _ => wrong_order(random, lines, place),
    }
}

/// A name that is not declared, most often: empty, misnumbered, reserved, too long, or any other bytes.
fn wrong_name(random: &mut Random, line: &mut Line, names: &[String]) {
    let name = names[random.below(names.len())].clone();
    let odd = [
        "zz", "A", " ", "a b", "a\r", "1", "signal", "q77", "a.b", "\t", "\u{e9}",
    ];
    let reserved = ["since", "until"];
    line.name = match random.weighted(&[24, 14, 12, 14, 12, 8, 3, 10, 3]) {
        0 => misnumbered(random, &name).into_bytes(),
        1 => vec![],
        2 => random.pick(&reserved).into(),
        3 => random.pick(&odd).into(),
        4 => (name + random.pick(&["a", "0", "9", " "])).into_bytes(),
        5 => name[..name.len() - 1].into(),
        // The longest that a name may be, and one byte more.
        6 => b"abcdefghijklmnop".to_vec(),
        7 => b"abcdefghijklmnopq".to_vec(),
        _ => vec![b'a'; long(random)],
    };
}

/// A caption that is empty or too long, or has a byte that none may have.
fn wrong_caption(random: &mut Random, line: &mut Line) {
    let (above, below) = (128 + random.below(128), random.below(32));
    let bytes = [9, 13, 31, 31, 127, 127, 200, above as u8, below as u8];
    match random.weighted(&[14, 14, 10, 60, 2]) {
        0 => line.caption.clear(),
        1 => line.caption = printable(random, LONGEST_CAPTION + 1),
        2 => {
            // Some have the length of a caption in their last 8 or 16 bits.
            let more = random.pick(&[2, 3, 60, 216, 217, 256, 65_536]);
            line.caption = printable(random, LONGEST_CAPTION + more);
        }
        3 => {
            let place = random.below(line.caption.len() + 1);
            line.caption.insert(place, random.pick(&bytes));
            line.caption.truncate(LONGEST_CAPTION);
        }
        _ => line.caption = vec![b'a'; long(random)],
    }
}

/// More bytes than any other text may have.
fn long(random: &mut Random) -> usize {
    LONGEST_TEXT + 1 + random.below(10_000)
}

/// Without its `=` or its LF, with another sign in the place of either, or an empty line.
fn wrong_form(random: &mut Random, line: &mut Line) {
    match random.below(6) {
        0 | 1 => {
            line.equals = random.pick(&["", "", ":", " ", "\t"]);
            line.caption.retain(|&byte| byte != b'=');
        }
        2 => line.end = random.pick(&["", "\r", "\0", ";"]),
        3 => line.end = random.pick(&["\r\n", "\n\n", " \n"]),
        4 => {
            line.name.clear();
            line.caption.clear();
            line.equals = "";
        }
        _ => line.equals = random.pick(&["==", " = ", "=\n", " ="]),
    }
}

/// The line's name once more, right before it, right after it or anywhere.
fn wrong_order(random: &mut Random, lines: &mut Vec<Line>, place: usize) {
    let mut again = lines[place].clone();
    if random.chance(70) {
        again.caption = printable(random, 3);
    }
    let any = random.below(lines.len() + 1);
    lines.insert(random.pick(&[place, place + 1, any, any]), again);
}

/// The last LF missing, the text cut, an LF put in, or bytes after the end.
fn tear(random: &mut Random, text: &mut Vec<u8>) {
    match random.below(5) {
        0 | 1 => {
            text.pop();
        }
        2 => text.truncate(random.below(text.len() + 1)),
        3 => {
            let place = random.below(text.len() + 1);
            text.insert(place, b'\n');
        }
        _ => {
            let after = ["\n", " ", "\0", "=", "a", "a=", "=a\n", "a=b", "\r\n"];
            text.extend(random.pick(&after).bytes());
        }
    }
}
