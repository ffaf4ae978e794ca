//! Spans of ticks: anywhere in the window, and beside one another in every way that matters to a merge.

use super::random::Random;
use super::windows;
use crate::text::readings::Span;

/// So many spans, each anywhere, or most of them beside the one before.
pub fn spans(random: &mut Random, count: usize, window: usize, signals: usize) -> Vec<Span> {
    let related = random.pick(&[0, 70]);
    let mut spans: Vec<Span> = vec![];
    for _ in 0..count {
        let next = match spans.last() {
            Some(before) if random.chance(related) => beside(random, before, window),
            _ => any(random, window, signals),
        };
        spans.push(next);
    }
    spans
}

/// One tick, a few, from any tick to any other, or the whole window.
fn any(random: &mut Random, window: usize, signals: usize) -> Span {
    let (one, two) = (windows::tick(random, window), windows::tick(random, window));
    let few = (one + 1 + random.below(5)).min(window - 1);
    let (first, last) = match random.weighted(&[30, 35, 25, 10]) {
        0 => (one, one),
        1 => (one, few),
        2 => (one.min(two), one.max(two)),
        _ => (0, window - 1),
    };
    Span {
        first,
        last,
        signal: random.below(signals),
        value: random.chance(50),
    }
}

/// Equal, inside, overlapping, touching or one tick apart; now and then of the other value.
fn beside(random: &mut Random, before: &Span, window: usize) -> Span {
    let (first, last) = (before.first as i64, before.last as i64);
    let inside = random.between(first, last);
    let more = random.between(0, 4);
    let (first, last) = match random.below(8) {
        0 => (first, last),
        1 => (inside, inside),
        2 => (inside, last + more),
        3 => (first - more, inside),
        4 => (last + 1, last + 1 + more),
        5 => (first - 1 - more, first - 1),
        6 => (last + 2, last + 2 + more),
        _ => (first - 2 - more, first - 2),
    };
    let tick = |tick: i64| tick.clamp(0, window as i64 - 1) as usize;
    Span {
        first: tick(first),
        last: tick(last),
        signal: before.signal,
        value: before.value != random.chance(10),
    }
}

/// The ticks of these spans as spans of one tick each; at most so many.
pub fn single(spans: &[Span], most: usize) -> Vec<Span> {
    let ticks = |span: &Span| {
        let span = *span;
        span.ticks().map(move |tick| Span {
            first: tick,
            last: tick,
            ..span
        })
    };
    spans.iter().flat_map(ticks).take(most).collect()
}
