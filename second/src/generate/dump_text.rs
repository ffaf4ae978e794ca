//! Texts of dumps: as they are written and as they may be read, with other timescales, `z`, signs said again and times without a sign; and
//! with a wrong line, damaged, torn, or of another window.

use super::damage::damage;
use super::dumps::signs;
use super::names::misnumbered;
use super::random::Random;
use crate::dumps::{id, letter, timescale, var_key, Sign, SCALES, UNITS};

/// A dump for a sheet with this window and these names.
pub fn dump(random: &mut Random, window: usize, names: &[String]) -> Vec<u8> {
    let mut lines = Lines::any(random, window, names);
    if random.chance(58) {
        lines.wrong(random);
    }
    let mut text = lines.text();
    match random.weighted(&[88, 6, 6]) {
        0 => {}
        1 => damage(random, &mut text),
        _ => tear(random, &mut text),
    }
    text
}

/// The lines of a dump, without LF. There are the timescale's, the scope's, one of each signal, two that end the head, `#0`, one sign of each
/// signal, and then the later ones.
struct Lines<'a> {
    lines: Vec<String>,
    window: usize,
    names: &'a [String],
}

/// What comes before the signals' lines.
const BEFORE_VARS: usize = 2;
/// What comes between the signals' lines and the first sign.
const BETWEEN: usize = 3;

impl<'a> Lines<'a> {
    /// Lines that are accepted, most often: one in twelve is for another window.
    fn any(random: &mut Random, window: usize, names: &'a [String]) -> Self {
        let other = random.pick(&[1, window + 1, 2 * window, 64, 65]);
        let ticks = random.pick(&[&[window; 11][..], &[other]].concat());
        let mut lines = Lines {
            lines: vec![],
            window,
            names,
        };
        lines.head(random);
        lines.signs(random, ticks);
        lines
    }

    fn head(&mut self, random: &mut Random) {
        let (scale, unit) = (random.pick(&SCALES), random.pick(&UNITS));
        self.lines.push(timescale(scale, unit));
        self.lines.push("$scope module sheet $end".to_string());
        for (signal, name) in self.names.iter().enumerate() {
            self.lines.push(var_line(&var_key(signal), name));
        }
        self.lines.push("$upscope $end".to_string());
        self.lines.push("$enddefinitions $end".to_string());
    }

    /// The signs of so many ticks. Some are said again, some times have none, and some unsettled ones are `z`.
    fn signs(&mut self, random: &mut Random, ticks: usize) {
        let again = random.pick(&[0, 0, 0, 5, 30]);
        let empty = random.pick(&[0, 0, 0, 2, 20]);
        let z = random.pick(&[0, 0, 50, 100]);
        let signs = signs(random, self.names.len(), ticks);
        for (tick, now) in signs.iter().enumerate() {
            let mut said = vec![];
            for (signal, &sign) in now.iter().enumerate() {
                let changes = tick == 0 || signs[tick - 1][signal] != sign;
                if changes || random.chance(again) {
                    said.push(sign_line(random, signal, sign, z));
                }
            }
            if !said.is_empty() || random.chance(empty) {
                self.lines.push(format!("#{tick}"));
                self.lines.append(&mut said);
            }
        }
    }

    fn text(&self) -> Vec<u8> {
        let lines = self.lines.iter().map(|line| format!("{line}\n"));
        lines.collect::<String>().into_bytes()
    }

    /// The first sign's place.
    fn first_sign(&self) -> usize {
        BEFORE_VARS + self.names.len() + BETWEEN
    }

    /// The first later line's place.
    fn first_later(&self) -> usize {
        self.first_sign() + self.names.len()
    }

    /// One line that is wrong, dropped, doubled or out of its place.
    fn wrong(&mut self, random: &mut Random) {
        match random.weighted(&[8, 14, 34, 16, 28]) {
            0 => self.wrong_timescale(random),
            1 => self.wrong_fixed(random),
            2 => self.wrong_var(random),
            3 => {
                let signal = random.below(self.names.len());
                self.wrong_sign(random, self.first_sign() + signal);
            }
            _ => self.wrong_later(random),
        }
    }

    fn wrong_timescale(&mut self, random: &mut Random) {
        let wrong = [
            "$timescale 2 s $end",
            "$timescale 1000 s $end",
            "$timescale 1s $end",
            "$timescale 1  s $end",
            "$timescale 10 S $end",
            "$timescale 1 as $end",
            "$timescale 01 s $end",
            "$timescale 100 s",
            "$timescale 1 s $end ",
            "$timescale",
            "$date today $end",
            "",
        ];
        self.lines[0] = random.pick(&wrong).to_string();
    }

    /// One of the lines that every dump has, in other words; or another line before it.
    fn wrong_fixed(&mut self, random: &mut Random) {
        let after_vars = BEFORE_VARS + self.names.len();
        let place = random.pick(&[1, after_vars, after_vars + 1, after_vars + 2]);
        let line = self.lines[place].clone();
        let other = match random.below(8) {
            0 => line.replacen(' ', "  ", 1) + "0",
            1 => line + " ",
            2 => line.to_uppercase() + "0",
            3 => line.replacen("$end", "", 1) + " ",
            4 => random
                .pick(&[
                    "$scope module top $end",
                    "$scope begin sheet $end",
                    "$end",
                    "#1",
                    "#",
                ])
                .to_string(),
            5 => {
                self.lines.remove(place);
                return;
            }
            6 => {
                self.lines.insert(place, line);
                return;
            }
            _ => {
                let other = foreign(random);
                self.lines.insert(place, other);
                return;
            }
        };
        self.lines[place] = other;
    }

    fn wrong_var(&mut self, random: &mut Random) {
        let signal = random.below(self.names.len());
        let other = random.below(self.names.len());
        let (place, name) = (BEFORE_VARS + signal, self.names[signal].clone());
        let key = var_key(signal);
        let odd = [
            "zz",
            "A",
            " ",
            "since",
            "a b",
            "abcdefghijklmnopq",
            "$end",
            "a\r",
        ];
        let line = match random.weighted(&[20, 14, 10, 10, 8, 8, 8, 10, 6, 6]) {
            0 => var_line(&key, &misnumbered(random, &name)),
            1 => var_line(&key, random.pick(&odd)),
            2 => var_line(&key, ""),
            3 => var_line(&key, &self.names[other]),
            4 => {
                self.lines.swap(place, BEFORE_VARS + other);
                return;
            }
            5 => {
                let near = random.pick(&[signal + 1, self.names.len(), other]);
                let key = random
                    .pick(&[var_key(near).as_str(), "$var wire 1  ", "$var wire 1 ~ "])
                    .to_string();
                let name = random.pick(&[name.as_str(), "zz"]).to_string();
                var_line(&key, &name)
            }
            6 => var_line(
                random.pick(&["$var reg 1 ", "$var wire 2 ", "$var wire 1"]),
                &name,
            ),
            7 => {
                let end = random.pick(&[
                    "",
                    " ",
                    "$end",
                    " $end ",
                    " $END",
                    " $end\r",
                    " [0] $end",
                    "  $end",
                    " $end $end",
                ]);
                format!("{key}{name}{end}")
            }
            8 => key.clone() + random.pick(&["", "$end", "end", " $en"]),
            _ => {
                let line = self.lines.remove(place);
                if random.chance(50) {
                    self.lines.insert(place, line.clone());
                    self.lines.insert(place, line);
                }
                return;
            }
        };
        self.lines[place] = line;
    }

    /// The sign at this place: another letter or ID, dropped, doubled, out of order, or with a line before it.
    fn wrong_sign(&mut self, random: &mut Random, place: usize) {
        let line = self.lines[place].clone();
        let (sign, signal) = line.split_at(1);
        let count = self.names.len();
        let other = random.below(count + 1);
        let any = id(random.pick(&[other, count, count + 1, 63, 64])).to_string();
        match random.weighted(&[22, 22, 14, 14, 14, 14]) {
            0 => {
                let odd = random.pick(&["2", "X", "Z", "u", "-", "", " ", "b1 ", "r0 ", "01"]);
                self.lines[place] = format!("{odd}{signal}");
            }
            1 => {
                let odd = [any.as_str(), " ", "~", "", "\u{7f}"];
                let odd = random.pick(&odd);
                let tail = random.pick(&["", "", "", " ", "!"]);
                self.lines[place] = format!("{sign}{odd}{tail}");
            }
            2 => {
                self.lines.remove(place);
            }
            3 => self.lines.insert(place, line),
            4 => {
                let next = (place + 1).min(self.lines.len() - 1);
                self.lines.swap(place, next);
            }
            _ => {
                let other = foreign(random);
                self.lines.insert(place, other);
            }
        }
    }

    /// A wrong time or sign after those at tick 0.
    fn wrong_later(&mut self, random: &mut Random) {
        let later = self.lines.len().saturating_sub(self.first_later());
        if later == 0 || random.chance(25) {
            let last = self.last_time();
            let line = self.wrong_time(random, last);
            self.lines.push(line);
            return;
        }
        let place = self.first_later() + random.below(later);
        if self.lines[place].starts_with('#') {
            let before = time_before(&self.lines[..place]);
            self.lines[place] = self.wrong_time(random, before);
        } else {
            self.wrong_sign(random, place);
        }
    }

    fn last_time(&self) -> usize {
        time_before(&self.lines)
    }

    /// A time that is not after the one before, that is outside the window, or that is no number; now and then a right one.
    fn wrong_time(&self, random: &mut Random, before: usize) -> String {
        let far = random.pick(&[
            self.window + 1,
            2 * self.window,
            4_096,
            4_097,
            10_000,
            99_999,
        ]);
        let near = random.below(before + 1);
        let odd = [
            "#", "# ", "#-1", "#a", "#1 ", "#00", "#+1", "##1", "1", "#1.0", "#1#2",
        ];
        match random.weighted(&[14, 12, 16, 10, 14, 12, 16, 6]) {
            0 => format!("#{before}"),
            1 => format!("#{near}"),
            2 => format!("#{}", self.window),
            3 => format!("#{far}"),
            4 => format!("#{}", 100_000 + random.below(900_000)),
            5 => format!("#0{}", before + 1),
            6 => random.pick(&odd).to_string(),
            _ => format!("#{}", before + 1),
        }
    }
}

/// The last time in these lines, as far as it can be read.
fn time_before(lines: &[String]) -> usize {
    let times = lines.iter().rev().filter_map(|line| line.strip_prefix('#'));
    times
        .filter_map(|time| time.parse().ok())
        .next()
        .unwrap_or(0)
}

fn var_line(key: &str, name: &str) -> String {
    format!("{key}{name} $end")
}

/// The line of a sign, `z` in so many of a hundred that are unsettled.
fn sign_line(random: &mut Random, signal: usize, sign: Sign, z: usize) -> String {
    let letter = match sign {
        None if random.chance(z) => 'z',
        _ => letter(sign),
    };
    format!("{letter}{}", id(signal))
}

/// A line that other writers have and this form has not.
fn foreign(random: &mut Random) -> String {
    let lines = [
        "$date",
        "$version made up $end",
        "$comment nothing $end",
        "$dumpvars",
        "$end",
        "$var wire 1 ! a $end",
        "#0",
        "#1",
        "b1 !",
        "0!",
        "",
    ];
    random.pick(&lines).to_string()
}

/// The last LF missing, the text cut, bytes after the end, or another line end.
fn tear(random: &mut Random, text: &mut Vec<u8>) {
    match random.below(6) {
        0 | 1 => {
            text.pop();
        }
        2 => text.truncate(random.below(text.len() + 1)),
        3 => {
            let lines: Vec<&[u8]> = text.split_inclusive(|&byte| byte == b'\n').collect();
            *text = lines[..random.below(lines.len() + 1)].concat();
        }
        4 => {
            let after = ["\n", " ", "\0", "#", "0", "0!", "$dumpoff $end\n", "\r\n"];
            text.extend(random.pick(&after).bytes());
        }
        _ => {
            let place = random.below(text.len() + 1);
            text.splice(place..place, *b"\n");
        }
    }
}
