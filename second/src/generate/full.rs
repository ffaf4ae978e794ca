//! Readings that a move writes in exactly the most bytes that are allowed, in one more, or in any number over that.

use super::draft::Draft;
use super::names::names;
use super::random::Random;
use super::readings::written;
use super::spans;
use crate::text::readings::{Form, Span};
use crate::text::LONGEST_TEXT;

/// A sheet with enough ticks for such readings, and with names of odd and of even length, so that any sum of lengths is met.
pub fn sheet(random: &mut Random) -> Vec<u8> {
    let window = random.pick(&[1_200, 2_500, 4_095, 4_096]);
    let mut names = names(random, 1, 3);
    let other_length = if names[0].len() % 2 == 0 { "q" } else { "qq" };
    names.push(other_length.to_string());
    let rules = if random.chance(50) {
        vec![]
    } else {
        vec![format!("{}=>{}@[1,1]", names[0], names[0])]
    };
    Draft::new(window, names, rules).text()
}

/// Readings for a move to this form. Only a text of the other form can be shorter than what is written.
pub fn readings(random: &mut Random, to: Form, window: usize, names: &[String]) -> Vec<u8> {
    let any = LONGEST_TEXT + 2 + random.below(2_000);
    let (most, over) = (LONGEST_TEXT, LONGEST_TEXT + 1);
    let length = random.pick(&[most, most, over, over, any]);
    let mut apart = apart(random, to, window, names.len());
    random.shuffle(&mut apart);
    let mut chosen = chosen(to, length, &apart, names);
    random.shuffle(&mut chosen);
    if to == Form::Spans {
        chosen = spans::single(&chosen, usize::MAX);
    }
    let text = chosen.iter().map(|span| written(to.other(), span, names));
    text.collect::<String>().into_bytes()
}

/// What is left for spans that are chosen by their size, and how many there are to choose from: enough for any sum.
const LEFT: usize = 700;
const CHOICE: usize = 1_000;

/// Those of the spans that are written in so many bytes in all: the first ones as they come, then single ticks of the sizes that are missing.
fn chosen(to: Form, length: usize, spans: &[Span], names: &[String]) -> Vec<Span> {
    let (mut chosen, mut left) = (vec![], length);
    for &span in spans {
        let size = size(to, span, names);
        if left < size + LEFT {
            break;
        }
        left -= size;
        chosen.push(span);
    }
    let rest = spans[chosen.len()..].iter().take(CHOICE);
    let single = rest.filter(|span| span.first == span.last);
    let mut sized: Vec<(usize, Span)> = single.map(|&span| (size(to, span, names), span)).collect();
    let longest = sized.iter().map(|(size, _)| *size).max().unwrap_or(left);
    for count in (1..=left / longest + 1).rev() {
        let wanted = left / count;
        if let Some(place) = sized.iter().position(|(size, _)| *size == wanted) {
            let (size, span) = sized.swap_remove(place);
            left -= size;
            chosen.push(span);
        }
    }
    chosen
}

/// In how many bytes the span is written in this form.
fn size(to: Form, span: Span, names: &[String]) -> usize {
    let written = |span: &Span| written(to, span, names).len();
    match to {
        Form::Spans => written(&span),
        Form::Readings => spans::single(&[span], usize::MAX).iter().map(written).sum(),
    }
}

/// Spans over all the window, one tick between two of them: many of one tick, and for single readings some long ones.
fn apart(random: &mut Random, to: Form, window: usize, signals: usize) -> Vec<Span> {
    let mut spans = vec![];
    for row in 0..2 * signals {
        let mut first = random.below(2);
        while first < window {
            let more = match to {
                Form::Spans => random.pick(&[0, 0, 0, 0, 0, 0, 0, 1]),
                Form::Readings => random.pick(&[0, 0, 3, 20, 60]),
            };
            let last = (first + more).min(window - 1);
            spans.push(Span {
                first,
                last,
                signal: row / 2,
                value: row % 2 == 1,
            });
            first = last + 2;
        }
    }
    spans
}
