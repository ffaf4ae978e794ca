//! Names of signals: plain ones, ones that differ in the numbers at their ends, and ones whose end number no name may have.

use super::random::Random;

/// Bytes before a number. Some have digits inside, and some start others.
const BEFORE: [&str; 16] = [
    "a",
    "aa",
    "a1b",
    "a02b",
    "b",
    "x",
    "x1y",
    "x10y",
    "x00y",
    "z99999z",
    "aisl",
    "aisle",
    "aisle1b",
    "aislea",
    "abcdefghijkl",
    "abcdefghijkm",
];

/// From `least` to `most` names, all different, in any order.
pub fn names(random: &mut Random, least: usize, most: usize) -> Vec<String> {
    let count = least + random.below(most + 1 - least);
    let mut names = if random.chance(50) {
        numbered(random, count)
    } else {
        plain(random, count)
    };
    random.shuffle(&mut names);
    if random.chance(5) {
        names[0] = random
            .pick(&["since0", "sinc", "untila", "sincesince", "unti"])
            .to_string();
    }
    names
}

/// Names of one or more letters; from the 27th on with a number.
fn plain(random: &mut Random, count: usize) -> Vec<String> {
    let long = random.chance(20);
    let mut names = vec![];
    for number in 0..count {
        let letter = (b'a' + (number % 26) as u8) as char;
        let mut name = letter.to_string();
        if number >= 26 {
            name += &(number / 26).to_string();
        }
        if long {
            name += random.pick(&["", "x", "until", "0", "9z", "abcdefghijklm"]);
        }
        names.push(name);
    }
    names
}

/// Names of which many have the same bytes before the number at their end.
fn numbered(random: &mut Random, count: usize) -> Vec<String> {
    let few = 1 + random.below(4);
    let before: Vec<&str> = (0..few).map(|_| random.pick(&BEFORE)).collect();
    let mut names = vec![];
    while names.len() < count {
        let name = random.pick(&before).to_string() + &end_number(random);
        if !names.contains(&name) {
            names.push(name);
        }
    }
    names
}

/// No number, 0, or one of 1 to 4 digits; the smallest and the largest of each length more often.
fn end_number(random: &mut Random) -> String {
    let smallest = match random.weighted(&[15, 10, 30, 25, 10, 10]) {
        0 => return String::new(),
        1 => return "0".to_string(),
        2 => 1,
        3 => 10,
        4 => 100,
        _ => 1_000,
    };
    let largest = 10 * smallest - 1;
    let any = random.between(smallest, largest);
    random.pick(&[smallest, largest, any, any, any]).to_string()
}

/// The name with an end number that no name may have: with a leading zero, or over 9,999. To a reader that passes over zeros, or keeps
/// only the last digits or bits, some would be the name itself.
pub fn misnumbered(random: &mut Random, name: &str) -> String {
    let before = name.trim_end_matches(|sign: char| sign.is_ascii_digit());
    let small = random.pick(&[0, 1, 7]);
    let number = name[before.len()..].parse::<u32>().map_or(small, u64::from);
    if random.chance(50) {
        let zeros = random.pick(&["0", "0", "00", "000"]);
        return format!("{before}{zeros}{number}");
    }
    let more = random.pick(&[10_000, 20_000, 1 << 16, 1 << 32]);
    let far = random.between(10_000, 999_999_999) as u64;
    let number = random.pick(&[10_000, number + more, number + more, far]);
    format!("{before}{number}")
}
