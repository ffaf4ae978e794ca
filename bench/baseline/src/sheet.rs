//! A sheet's text from its first line to its last.
use crate::formula::{Node, Parser};
use crate::names::Names;
use crate::text::{is_name, line, number_line, refuse, Refusal};

pub struct Sheet<'a> {
    pub window: usize,
    pub names: Vec<&'a [u8]>,
    pub numbers: Names<'a>,
    /// The nodes of all rules.
    pub nodes: Vec<Node>,
    /// Each rule's top node, and how many hidden signals the sheet has up to its end.
    pub rules: Vec<(usize, usize)>,
    /// The top nodes of the defining rules.
    pub definings: Vec<usize>,
}

fn names(text: &[u8], count: usize, mut at: usize) -> Result<(Vec<&[u8]>, Names<'_>, usize), Refusal> {
    let mut names: Vec<&[u8]> = Vec::with_capacity(count);
    let mut numbers = Names::with_capacity_and_hasher(count, Default::default());
    for number in 0..count {
        let (name, start, next) = line(text, at, b"signal=", 2)?;
        if !is_name(name) || numbers.insert(name, number).is_some() {
            return refuse(4, start);
        }
        names.push(name);
        at = next;
    }
    Ok((names, numbers, at))
}

pub fn read(text: &[u8]) -> Result<Sheet<'_>, Refusal> {
    if text.len() > 32768 {
        return refuse(1, 0);
    }
    let (window, at) = number_line(text, 0, b"window=", (1, 4096), 2, 3)?;
    let (signals, at) = number_line(text, at, b"signals=", (1, 64), 2, 3)?;
    let (names, numbers, at) = names(text, signals, at)?;
    let (count, mut at) = number_line(text, at, b"rules=", (0, 64), 2, 3)?;
    let mut nodes = Vec::new();
    let mut definings = Vec::new();
    let mut rules = Vec::with_capacity(count);
    for _ in 0..count {
        let (rule, start, next) = line(text, at, b"rule=", 2)?;
        if rule.is_empty() || rule.len() > 256 {
            return refuse(5, start);
        }
        let mut parser = Parser {
            text: &text[..next - 1],
            at: start,
            names: &numbers,
            nodes,
            definings,
        };
        let top = parser.rule()?;
        nodes = parser.nodes;
        definings = parser.definings;
        rules.push((top, definings.len()));
        at = next;
    }
    if at < text.len() {
        return refuse(2, at);
    }
    Ok(Sheet {
        window,
        names,
        numbers,
        nodes,
        rules,
        definings,
    })
}
