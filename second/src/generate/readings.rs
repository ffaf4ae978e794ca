//! Texts of readings in either form: few and many, whole, with one wrong value, of both forms or none, damaged, and at their longest.

use super::damage::damage;
use super::names::misnumbered;
use super::random::Random;
use super::{spans, windows};
use crate::text::readings::{Form, Span};
use crate::text::LONGEST_TEXT;

/// Readings of either form for a sheet with this window and these names.
pub fn readings(random: &mut Random, window: usize, names: &[String]) -> Vec<u8> {
    let weights = [70, 12, 7, 3, 2, 4, 2];
    Texts::any(random, window, names).text(random, &weights)
}

/// The same with more faults.
pub fn faulty(random: &mut Random, window: usize, names: &[String]) -> Vec<u8> {
    let weights = [20, 46, 9, 11, 4, 7, 3];
    Texts::any(random, window, names).text(random, &weights)
}

/// The same without a fault; now and then with as many entries as fit.
pub fn whole(random: &mut Random, window: usize, names: &[String]) -> Vec<u8> {
    let weights = [97, 0, 0, 0, 3, 0, 0];
    Texts::any(random, window, names).text(random, &weights)
}

/// The same with a fault, most often; more of them spans, which can be wrong in more ways.
pub fn wrong(random: &mut Random, window: usize, names: &[String]) -> Vec<u8> {
    let weights = [0, 74, 8, 6, 0, 8, 4];
    let form = random.pick(&[Form::Readings, Form::Spans, Form::Spans]);
    let texts = Texts {
        form,
        window,
        names,
    };
    texts.text(random, &weights)
}

/// The same at its longest, or too long.
pub fn longest(random: &mut Random, window: usize, names: &[String]) -> Vec<u8> {
    let weights = [0, 0, 0, 1, 0, 0, 0];
    Texts::any(random, window, names).text(random, &weights)
}

/// Texts of a form for a window and names.
struct Texts<'a> {
    form: Form,
    window: usize,
    names: &'a [String],
}

impl<'a> Texts<'a> {
    fn any(random: &mut Random, window: usize, names: &'a [String]) -> Self {
        let form = random.pick(&[Form::Readings, Form::Spans]);
        Texts {
            form,
            window,
            names,
        }
    }

    /// A text whole, with a wrong entry, damaged, at its longest, with as many entries as fit, of both forms, or with a first key of none.
    fn text(&self, random: &mut Random, weights: &[usize; 7]) -> Vec<u8> {
        let count = random.pick(&[0, 1, 2, 3, 5, 8, 20]);
        let mut entries = self.entries(random, count);
        match random.weighted(weights) {
            0 => {}
            1 => {
                let mut wrong = self.wrong(random);
                if random.chance(40) {
                    let any = random.below(wrong.len());
                    let near_end = wrong.len().saturating_sub(random.below(20));
                    wrong.truncate(random.pick(&[any, near_end]));
                }
                entries.push(wrong);
            }
            2 => return self.damaged(random, entries),
            3 => entries = self.longest(random),
            4 => entries = self.many(random),
            5 => self.mix(random, &mut entries),
            _ => self.put_before(random, &mut entries),
        }
        if random.chance(2) {
            entries.extend(self.entries(random, 1));
        }
        entries.concat().into_bytes()
    }

    fn name(&self, random: &mut Random) -> &'a str {
        &self.names[random.below(self.names.len())]
    }

    /// So many entries that are accepted; single readings now and then tick by tick.
    fn entries(&self, random: &mut Random, count: usize) -> Vec<String> {
        let mut all = spans::spans(random, count, self.window, self.names.len());
        if self.form == Form::Readings && random.chance(40) {
            all = spans::single(&all, 4 * count);
            if random.chance(50) {
                random.shuffle(&mut all);
            }
        }
        all.iter()
            .map(|span| written(self.form, span, self.names))
            .collect()
    }

    /// An entry with at least one value that is not allowed, most often.
    fn wrong(&self, random: &mut Random) -> String {
        let tick = random.below(self.window);
        let (mut first, mut last) = (tick.to_string(), tick.to_string());
        let mut name = self.name(random).to_string();
        let mut value = random.below(2).to_string();
        let numbers = [
            "2", "3", "10", "64", "4095", "4096", "4097", "99999", "100000", "00", "01", "", "-0",
            "-1", "a", "1 ", "0\r",
        ];
        let words = [
            "",
            "zz",
            "A",
            "since",
            "until",
            "abcdefghijklmnopq",
            "a b",
            "a\r",
            "1",
            "0a",
        ];
        let weights = match self.form {
            Form::Readings => [10, 15, 8, 10, 22, 15, 32, 0, 0, 0],
            Form::Spans => [6, 12, 5, 7, 15, 10, 36, 6, 14, 16],
        };
        loop {
            match random.weighted(&weights) {
                0 => first = random.pick(&numbers).to_string(),
                1 => first = (self.window + random.below(3)).to_string(),
                2 => name = random.pick(&words).to_string(),
                3 => name += random.pick(&["a", "0", " "]),
                4 => name = misnumbered(random, &name),
                5 => value = random.pick(&numbers).to_string(),
                6 => value = random.between(2, 12).to_string(),
                7 => last = random.pick(&numbers).to_string(),
                8 => last = (self.window + random.below(3)).to_string(),
                _ => {
                    let below = random.below(self.window);
                    let above = below + 1 + random.pick(&[0, 0, 8, 90]);
                    first = above.min(self.window - 1).to_string();
                    last = below.to_string();
                }
            }
            if random.chance(55) {
                return self.form.lines((first, last), name, value);
            }
        }
    }

    fn damaged(&self, random: &mut Random, entries: Vec<String>) -> Vec<u8> {
        let mut text = entries.concat().into_bytes();
        damage(random, &mut text);
        text
    }

    /// Whole entries of 32,768 or 32,769 bytes in all where the ticks allow it; else near that.
    fn longest(&self, random: &mut Random) -> Vec<String> {
        let length = random.pick(&[32_768, 32_768, 32_769, 32_769, 40_000]);
        let name = self.name(random);
        let short = self.form.lines((0, 0), name, 1).len();
        let longer = length % short;
        let mut entries = vec![];
        for number in 0..length / short {
            let tick = if number < longer && self.window > 10 {
                10 + number % (self.window - 10)
            } else {
                0
            };
            // A byte more, or two if it has three digits.
            let ticks = match self.form {
                Form::Readings => (tick, tick),
                Form::Spans => (0, tick),
            };
            let value = if random.chance(95) { 1 } else { 0 };
            entries.push(self.form.lines(ticks, name, value));
        }
        let written: usize = entries.iter().map(String::len).sum();
        if written < length && random.chance(50) {
            entries.push("a".repeat(length - written));
        }
        entries
    }

    /// As many entries of one value as fit, over the whole window.
    fn many(&self, random: &mut Random) -> Vec<String> {
        let value = random.below(2);
        let (mut entries, mut left) = (vec![], LONGEST_TEXT);
        loop {
            let tick = windows::tick(random, self.window);
            let last = (tick + random.pick(&[0, 0, 1, 2, 30])).min(self.window - 1);
            let next = self.form.lines((tick, last), self.name(random), value);
            if next.len() > left {
                return entries;
            }
            left -= next.len();
            entries.push(next);
        }
    }

    /// Something of the other form after the first key.
    fn mix(&self, random: &mut Random, entries: &mut Vec<String>) {
        entries.extend(self.entries(random, 1));
        let place = 1 + random.below(entries.len());
        let form = self.form.other();
        let other = Texts { form, ..*self };
        let entry = other.entries(random, 1).concat();
        let lines: Vec<&str> = entry.split_inclusive('\n').collect();
        match random.below(4) {
            0 | 1 => entries.insert(place, entry),
            2 => entries.insert(place, lines[0].to_string()),
            _ => {
                // In the midst of an entry, after its first line.
                let own = &mut entries[place - 1];
                let first = own.find('\n').map_or(0, |end| end + 1);
                own.insert_str(first, lines[0]);
            }
        }
    }

    /// Something before the first key, which then is of neither form.
    fn put_before(&self, random: &mut Random, entries: &mut Vec<String>) {
        let before = [
            "to=0\n",
            "signal=a\n",
            "value=1\n",
            "\n",
            " ",
            "\r\n",
            "F",
            "from",
            "at",
            "from =0\n",
            "At=0\n",
            "window=3\n",
            "=",
            "\0",
        ];
        entries.insert(0, random.pick(&before).to_string());
    }
}

/// The lines of a span; those of a reading have its first tick.
pub fn written(form: Form, span: &Span, names: &[String]) -> String {
    form.lines(
        (span.first, span.last),
        &names[span.signal],
        u8::from(span.value),
    )
}
