//! Damage to a text: bytes, lines and tokens lost, doubled, swapped or put in.

use super::random::Random;

/// Bytes and tokens that are put into texts.
const PIECES: [&str; 44] = [
    "(", ")", "[", "]", ",", "!", "@", "?", "&", "|", "=>", "<=>", "=", "<", ">", "-", "-0", "0",
    "00", "1", "9", "a", "z", "A", "since", "until", "since(", "until(", " ", "\n", "\r", "\t",
    "\0", "_", "@[0,1]", "?(-1,1)", "!a", "&b", "=>a", "<=>b", "=a", ";", "{", "`",
];

/// One damage, or several.
pub fn damage(random: &mut Random, text: &mut Vec<u8>) {
    let times = random.weighted(&[0, 80, 15, 5]);
    for _ in 0..times {
        match random.below(12) {
            0..=2 => bytes(random, text),
            3..=5 => lines(random, text),
            6 => ends(random, text),
            _ => pieces(random, text),
        }
    }
}

/// A bit or a byte.
fn bytes(random: &mut Random, text: &mut Vec<u8>) {
    if text.is_empty() {
        return;
    }
    let place = random.below(text.len());
    match random.below(4) {
        0 => text[place] ^= 1 << random.below(8),
        1 => text[place] = random.below(256) as u8,
        2 => text[place] = random.between(33, 126) as u8,
        _ => {
            text.remove(place);
        }
    }
}

/// A line dropped, doubled, swapped with another, or ended in another way.
fn lines(random: &mut Random, text: &mut Vec<u8>) {
    let mut lines: Vec<Vec<u8>> = text
        .split_inclusive(|&byte| byte == b'\n')
        .map(Vec::from)
        .collect();
    if lines.is_empty() {
        return;
    }
    let place = random.below(lines.len());
    let other = random.below(lines.len());
    match random.below(4) {
        0 => {
            lines.remove(place);
        }
        1 => lines.insert(other, lines[place].clone()),
        2 => lines.swap(place, other),
        _ => {
            lines[place].pop();
            lines[place].extend(random.pick(&["", "\r\n", "\n\n", " \n", "\r"]).bytes());
        }
    }
    *text = lines.concat();
}

/// The end of the text: the last LF missing, the text cut, bytes after the end.
fn ends(random: &mut Random, text: &mut Vec<u8>) {
    match random.below(4) {
        0 => {
            text.pop();
        }
        1 => text.truncate(random.below(text.len() + 1)),
        _ => {
            let after = [
                "\n",
                "a",
                "rule=a\n",
                "window=3\n",
                "at=0\n",
                "at=0",
                "from=0\n",
                "to=0\n",
                "signal=a\n",
                "\0",
                " ",
            ];
            text.extend(random.pick(&after).bytes());
        }
    }
}

/// A token or byte put in, or put in the place of a byte, past the first lines more often.
fn pieces(random: &mut Random, text: &mut Vec<u8>) {
    let least = if random.chance(70) { text.len() / 2 } else { 0 };
    let place = least + random.below(text.len() + 1 - least);
    let replaced = if place < text.len() && random.chance(50) {
        1
    } else {
        0
    };
    let piece = random.pick(&PIECES).bytes();
    text.splice(place..place + replaced, piece);
}
