//! Texts of random formulas and intervals.

use super::random::Random;

/// How random formulas look.
pub struct Style {
    pub names: Vec<String>,
    /// Of a hundred parts, how many are since or until.
    pub hidden: usize,
    /// Whether intervals may have ends anywhere up to their limits, over them, or none inside.
    pub wild: bool,
    /// Whether many parts stand in parentheses that they do not need, some in several.
    pub clumsy: bool,
}

impl Style {
    /// These names, and nothing that is out of the way.
    pub fn plain(names: Vec<String>) -> Self {
        Style {
            names,
            hidden: 0,
            wild: false,
            clumsy: false,
        }
    }

    pub fn name(&self, random: &mut Random) -> String {
        self.names[random.below(self.names.len())].clone()
    }
}

/// A random formula with about `size` names, in 256 bytes.
pub fn formula(random: &mut Random, style: &Style, size: usize) -> String {
    for smaller in (1..=size).rev() {
        let text = part(random, style, smaller, 0);
        if text.len() <= 256 {
            return text;
        }
    }
    style.name(random)
}

/// A part that may stand at this level: 0 formula, 1 implication, 2 or, 3 and, 4 timed, 5 plain.
fn part(random: &mut Random, style: &Style, size: usize, level: usize) -> String {
    if size <= 1 {
        return leaf(random, style, level);
    }
    let left = 1 + random.below(size - 1);
    let right = size - left;
    let (own, text) = match random.weighted(&[8, 18, 22, 22, 16, 8, style.hidden]) {
        0 => (0, pair(random, style, (left, 1), "<=>", (right, 1))),
        1 => (1, pair(random, style, (left, 2), "=>", (right, 2))),
        2 => (2, pair(random, style, (left, 2), "|", (right, 3))),
        3 => (3, pair(random, style, (left, 3), "&", (right, 4))),
        4 => (4, part(random, style, size, 4) + &timing(random, style)),
        5 => (5, format!("!{}", part(random, style, size, 5))),
        _ => {
            let word = random.pick(&["since(", "until("]);
            let arguments = pair(random, style, (left, 0), ",", (right, 0));
            (5, format!("{word}{arguments})"))
        }
    };
    let text = if own < level || random.chance(4) {
        format!("({text})")
    } else {
        text
    };
    clumsily(random, style, text)
}

/// The part, in needless parentheses if the style is clumsy.
fn clumsily(random: &mut Random, style: &Style, text: String) -> String {
    if !style.clumsy {
        return text;
    }
    let pairs = random.weighted(&[70, 18, 8, 4]);
    "(".repeat(pairs) + &text + &")".repeat(pairs)
}

/// Two parts, each with its size and level, and what joins them.
fn pair(
    random: &mut Random,
    style: &Style,
    left: (usize, usize),
    sign: &str,
    right: (usize, usize),
) -> String {
    let left = part(random, style, left.0, left.1);
    let right = part(random, style, right.0, right.1);
    left + sign + &right
}

fn leaf(random: &mut Random, style: &Style, level: usize) -> String {
    let not = random.pick(&["", "", "", "!", "!!"]);
    let name = style.name(random);
    let name = clumsily(random, style, name);
    let text = clumsily(random, style, format!("{not}{name}"));
    if level <= 4 && random.chance(25) {
        let timed = text + &timing(random, style);
        clumsily(random, style, timed)
    } else {
        text
    }
}

fn timing(random: &mut Random, style: &Style) -> String {
    let sign = random.pick(&["@", "?"]);
    let interval = if style.wild {
        wild_interval(random)
    } else {
        near_interval(random)
    };
    format!("{sign}{interval}")
}

/// An accepted interval near 0.
fn near_interval(random: &mut Random) -> String {
    let low = random.between(-3, 3);
    let high = low + random.between(0, 3);
    written(random, low, high)
}

/// The interval of these whole numbers, with square or round brackets.
pub fn written(random: &mut Random, low: i64, high: i64) -> String {
    let round_below = low > -63 && random.chance(30);
    let round_above = high < 63 && random.chance(30);
    let below = if round_below {
        format!("({}", low - 1)
    } else {
        format!("[{low}")
    };
    let above = if round_above {
        format!("{})", high + 1)
    } else {
        format!("{high}]")
    };
    format!("{below},{above}")
}

/// Ends at the limits, over them, in any order, and now and then of a wrong writing.
pub fn wild_interval(random: &mut Random) -> String {
    match random.below(10) {
        0 | 1 => {
            let low = random.between(-63, 63);
            let high = random.between(low, 63);
            written(random, low, high)
        }
        2 => random
            .pick(&["[-63,63]", "(-1,1)", "(-63,63)", "(0,1)", "[0,64]"])
            .to_string(),
        3 => {
            let low = random.between(-5, 5);
            let high = low + random.between(-2, 2);
            format!(
                "{}{low},{high}{}",
                random.pick(&["[", "("]),
                random.pick(&["]", ")"])
            )
        }
        _ => {
            let (low, high) = (wild_end(random), wild_end(random));
            let (opening, closing) = (random.pick(&["[", "("]), random.pick(&["]", ")"]));
            format!("{opening}{low},{high}{closing}")
        }
    }
}

/// An end at a limit, over it, or now and then of a wrong writing.
fn wild_end(random: &mut Random) -> &'static str {
    let ends = [
        "-64", "-63", "-62", "0", "62", "63", "64", "-1", "1", "9999", "-9999",
    ];
    let odd = [
        "-0", "00", "01", "12345", "-", "", "a", "--1", "-01", "+1", "1 ",
    ];
    if random.chance(8) {
        random.pick(&odd)
    } else {
        random.pick(&ends)
    }
}
