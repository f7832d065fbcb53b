//! Literals, nogoods and rules in words: atoms by their names, names of the proof by their numbers, rules with their lines.

use std::cell::OnceCell;
use std::collections::HashMap;

use super::replay::Replay;
use crate::library::Program;
use crate::rules::{rules, Rule};
use crate::statements::Ground;

/// A program in words.
pub struct Wording<'a> {
    ground: &'a Ground,
    /// By atom, what it is called.
    atoms: Vec<String>,
    pub rules: Vec<Rule>,
    /// By body, the rules with it, counted from 0.
    by_body: HashMap<Vec<i32>, Vec<usize>>,
    texts: Vec<OnceCell<String>>,
}

impl<'a> Wording<'a> {
    pub fn of(ground: &'a Ground, program: &Program) -> Wording<'a> {
        let rules = rules(program);
        let mut by_body: HashMap<Vec<i32>, Vec<usize>> = HashMap::new();
        for (place, rule) in rules.iter().enumerate() {
            rule.bodies().into_iter().for_each(|body| by_body.entry(body).or_default().push(place));
        }
        let called = ground.names.all();
        let name = |atom: usize| called.get(&(atom as i32)).map_or(format!("#{atom}"), |name| String::from(*name));
        let atoms = (0..=program.atoms).map(name).collect();
        Wording { ground, atoms, texts: vec![OnceCell::new(); rules.len()], rules, by_body }
    }

    /// An atom by name; a body's name as `body#5`, another name as `name#9`; what is not known as `#9`.
    fn variable(&self, variable: i32, replay: &Replay) -> String {
        let of = match replay.names.get(&variable) {
            Some(name) if name.of_body => "body",
            Some(_) => "name",
            None => "",
        };
        let atom = usize::try_from(variable).ok().filter(|atom| *atom > 0).and_then(|atom| self.atoms.get(atom));
        atom.cloned().unwrap_or_else(|| format!("{of}#{variable}"))
    }

    pub fn literal(&self, literal: i32, replay: &Replay) -> String {
        let name = self.variable(literal.saturating_abs(), replay);
        if literal < 0 {
            format!("not {name}")
        } else {
            name
        }
    }

    /// Literals with commas between them.
    pub fn list(&self, literals: &[i32], replay: &Replay) -> String {
        literals.iter().map(|literal| self.literal(*literal, replay)).collect::<Vec<_>>().join(", ")
    }

    /// A set of literals: a body or a nogood.
    pub fn set(&self, literals: &[i32], replay: &Replay) -> String {
        format!("{{{}}}", self.list(literals, replay))
    }

    /// The rules with a body.
    pub fn rules_with(&self, body: &[i32]) -> &[usize] {
        self.by_body.get(body).map_or(&[], Vec::as_slice)
    }

    /// The line of a rule in the program's text, counted from 1.
    pub fn line(&self, rule: usize) -> usize {
        // The header is line 1.
        let line = rule + 2;
        if self.ground.of_plan {
            line
        } else {
            self.ground.line(line)
        }
    }

    /// A rule in the input language.
    pub fn rule_text(&self, rule: usize) -> &str {
        self.texts[rule].get_or_init(|| self.ground.names.rule(&self.rules[rule]))
    }

    /// A rule with its number and its line.
    pub fn rule(&self, rule: usize) -> String {
        format!("rule {}, line {}: {}", rule + 1, self.line(rule), self.rule_text(rule))
    }
}
