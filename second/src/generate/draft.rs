//! A sheet before it is written out, and the random rules that most kinds of sheets are made of.

use super::formula::{self, Style};
use super::random::Random;

/// The values of a sheet's lines, before they are written out.
pub struct Draft {
    pub window: String,
    pub signals: String,
    pub names: Vec<String>,
    pub rules_count: String,
    pub rules: Vec<String>,
}

impl Draft {
    pub fn new(window: usize, names: Vec<String>, rules: Vec<String>) -> Self {
        Draft {
            window: window.to_string(),
            signals: names.len().to_string(),
            names,
            rules_count: rules.len().to_string(),
            rules,
        }
    }

    /// The sheet's text.
    pub fn text(&self) -> Vec<u8> {
        let mut text = format!("window={}\nsignals={}\n", self.window, self.signals);
        for name in &self.names {
            text += &format!("signal={name}\n");
        }
        text += &format!("rules={}\n", self.rules_count);
        for rule in &self.rules {
            text += &format!("rule={rule}\n");
        }
        text.into_bytes()
    }
}

/// So many random rules, each with at most about `size` names.
pub fn random_rules(random: &mut Random, style: &Style, count: usize, size: usize) -> Vec<String> {
    let mut rules = vec![];
    for _ in 0..count {
        let size = 1 + random.below(size);
        rules.push(formula::formula(random, style, size));
    }
    rules
}
