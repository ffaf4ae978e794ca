//! The closing against its definition: all rules over all nodes and ticks, again and again, until nothing is new.

use crate::generate::{case, Call};
use crate::infer::{close, within, Marks};
use crate::lower::{lower, Node, Rows};
use crate::table::WORD;
use crate::text::{readings, sheet};

/// Premises and the mark they give, each as row, tick and value.
type Mark = (usize, usize, bool);
type Step = (Vec<Mark>, Mark);

/// The document's rules at one node and tick, written out one by one.
fn steps(row: usize, node: Node, t: usize, window: usize) -> Vec<Step> {
    let mut steps: Vec<Step> = vec![];
    for v in [false, true] {
        match node {
            Node::Signal => {}
            Node::Not(child) => {
                steps.push((vec![(row, t, v)], (child, t, !v)));
                steps.push((vec![(child, t, v)], (row, t, !v)));
            }
            Node::Look(child, offset) => {
                if let Some(there) = within(t, offset, window) {
                    steps.push((vec![(row, t, v)], (child, there, v)));
                    steps.push((vec![(child, there, v)], (row, t, v)));
                }
            }
            Node::And(a, b) | Node::Or(a, b) => {
                let strong = v == matches!(node, Node::And(_, _));
                for (a, b) in [(a, b), (b, a)] {
                    if strong {
                        steps.push((vec![(row, t, v)], (a, t, v)));
                        steps.push((vec![(a, t, v), (b, t, v)], (row, t, v)));
                    } else {
                        steps.push((vec![(a, t, v)], (row, t, v)));
                        steps.push((vec![(row, t, v), (a, t, !v)], (b, t, v)));
                    }
                }
            }
        }
    }
    steps
}

fn swept(rows: &Rows, start: &Marks, window: usize) -> Marks {
    let mut marks = start.clone();
    for &top in &rows.tops {
        (0..window).for_each(|tick| marks.set(top, tick, true));
    }
    let all = |(row, node): (usize, &Node)| {
        let node = *node;
        (0..window)
            .flat_map(move |tick| steps(row, node, tick, window))
            .collect::<Vec<Step>>()
    };
    let all: Vec<Step> = rows.nodes.iter().enumerate().flat_map(all).collect();
    loop {
        let before = marks.clone();
        for (premises, given) in &all {
            if premises
                .iter()
                .all(|&(row, tick, value)| marks.has(row, tick, value))
            {
                marks.set(given.0, given.1, given.2);
            }
        }
        if marks == before {
            return marks;
        }
    }
}

/// The sweeps take long: sheets with more rows times window are left out.
const MOST_CELLS: usize = 5_000;

#[test]
fn closing_is_the_least_closed_set() {
    let (mut compared, mut of_several_words) = (0, 0);
    for number in 0..500 {
        let case = case(3, number);
        let Ok(sheet) = sheet::read(&case.sheet) else {
            continue;
        };
        let Ok(rows) = lower(&sheet) else { continue };
        if rows.nodes.len() * sheet.window > MOST_CELLS {
            continue;
        }
        for call in &case.calls {
            let Call::Add { readings, .. } = call else {
                continue;
            };
            let Ok(all) = readings::read(readings, sheet.window, &sheet.names) else {
                continue;
            };
            let mut start = Marks::none(rows.nodes.len(), sheet.window);
            for span in all {
                for tick in span.ticks() {
                    start.set(span.signal, tick, span.value);
                }
            }
            assert_eq!(
                close(&rows, &start),
                swept(&rows, &start, sheet.window),
                "case {number}"
            );
            compared += 1;
            of_several_words += usize::from(sheet.window > WORD);
        }
    }
    assert!(compared > 200, "{compared}");
    assert!(of_several_words > 20, "{of_several_words}");
}
