//! An explanation in words: as lines that fold, which are indented on a terminal, and as fields.

use std::collections::HashSet;

use super::closure::Assumption;
use super::naming::tidied;
use super::program::Plain;
use super::tree::{Failed, Node, Principle, Tree, Why};
use crate::json::Json;
use crate::names::Names;
use crate::page::Fold;
use crate::rules::Rule;

/// A tree with what it is of. The names have one for each atom; those that are known are the program's own, and atoms
/// above the told number are of sums that were split.
pub struct View<'a> {
    pub plain: &'a Plain,
    pub names: &'a Names,
    pub known: &'a Names,
    pub told: usize,
    pub tree: &'a Tree,
}

/// What was shown already, so that it is not shown twice.
#[derive(Default)]
struct Shown {
    nodes: HashSet<usize>,
    sets: HashSet<Vec<i32>>,
}

pub fn literal(literal: i32, names: &Names) -> String {
    tidied(&format!("{}{}", if literal < 0 { "not " } else { "" }, names.of(literal.abs())))
}

/// The lines of a fold, each under its own by two spaces.
pub fn indented(fold: &Fold) -> String {
    let mut lines = Vec::new();
    let mut left = vec![(0, fold)];
    while let Some((depth, fold)) = left.pop() {
        let head = fold.head.as_ref().map_or(String::new(), |(text, _)| format!("{text}: "));
        lines.push(format!("{}{head}{}", "  ".repeat(depth), fold.text));
        left.extend(fold.inside.iter().rev().map(|inside| (depth + 1, inside)));
    }
    lines.join("\n")
}

impl View<'_> {
    /// A rule; where its head only stands for its body, that.
    fn text(&self, rule: usize) -> String {
        let rule = &self.plain.rules[rule];
        match rule.heads[..] {
            [head] if !rule.choice && self.is_nameless(head) => {
                let body = self.names.rule(&Rule { heads: Vec::new(), ..rule.clone() });
                tidied(body.trim_start_matches(":- ").trim_end_matches('.'))
            }
            _ => tidied(&self.names.rule(rule)),
        }
    }

    fn literal(&self, node: usize) -> String {
        self.spelled(self.tree.nodes[node].literal)
    }

    /// A literal, or a body in its place.
    pub fn spelled(&self, of: i32) -> String {
        let body = (of.unsigned_abs() as usize).checked_sub(self.plain.atoms + 1).and_then(|place| self.tree.bodies.get(place));
        let Some(body) = body else { return literal(of, self.names) };
        let literals: Vec<String> = body.iter().map(|of| literal(*of, self.names)).collect();
        format!("{}({})", if of < 0 { "not " } else { "" }, literals.join(", "))
    }

    /// Whether a literal is over an atom that only stands for what its rules say.
    fn is_nameless(&self, literal: i32) -> bool {
        let atom = literal.unsigned_abs() as usize;
        let of_split = atom > self.told && atom <= self.plain.atoms;
        of_split || atom <= self.told && !self.known.is_empty() && !self.known.has(literal.abs())
    }

    /// Whether the rule says of an atom that only stands for it that a sum is reached.
    fn is_nameless_sum(&self, rule: usize) -> bool {
        self.plain.is_sum(rule) && self.plain.rules[rule].heads.iter().all(|head| self.is_nameless(*head))
    }

    /// The whole explanation.
    pub fn fold(&self) -> Fold {
        self.node(self.tree.nodes.len() - 1, &mut Shown::default())
    }

    /// A node.
    fn node(&self, place: usize, shown: &mut Shown) -> Fold {
        let Node { literal, why } = &self.tree.nodes[place];
        let class = match why {
            Why::Left { .. } | Why::Supposed => "open",
            Why::Taken { .. } => "open",
            _ if *literal > 0 => "there",
            _ => "false",
        };
        let head = Some((self.literal(place), class));
        if !shown.nodes.insert(place) && !why.below().is_empty() {
            return Fold { head, text: String::from("as above"), inside: Vec::new() };
        }
        let (text, inside) = self.said(why, shown);
        Fold { head, text, inside }
    }

    /// What is said of a node, and what stands under it.
    fn said(&self, why: &Why, shown: &mut Shown) -> (String, Vec<Fold>) {
        match why {
            Why::Rule { rule, .. } if self.plain.is_fact(*rule) => (String::from("a fact"), Vec::new()),
            Why::Rule { rule, below } if self.is_nameless_sum(*rule) => (String::from("reached"), self.nodes(below, shown)),
            Why::Rule { rule, below } => (format!("by {}", self.text(*rule)), self.nodes(below, shown)),
            Why::Taken { rule, below } => (format!("chosen by {}", self.text(*rule)), self.nodes(below, shown)),
            Why::Left { rules } => (self.left(rules), Vec::new()),
            Why::Fails(fails) if fails.is_empty() => (String::from("no rule gives it"), Vec::new()),
            Why::Fails(fails) => match &fails[..] {
                [failed] if self.is_nameless_sum(failed.rule) => (String::from("not reached"), self.nodes(&failed.below, shown)),
                [failed] => (format!("{} fails", self.text(failed.rule)), self.nodes(&failed.below, shown)),
                _ => (String::from("each rule for it fails"), self.fails(fails, shown)),
            },
            Why::Loop { set, fails } => {
                let again = !shown.sets.insert(set.clone());
                let inside = if again { Vec::new() } else { self.fails(fails, shown) };
                (self.held_up(set, again), inside)
            }
            Why::Supposed => (String::from("supposed, against what is asked about"), Vec::new()),
            Why::Step { by, below } => (format!("then it holds, {}", self.principle(by)), self.nodes(below, shown)),
            Why::Contrary { by, below } => {
                (format!("otherwise all of this holds, which cannot be, {}", self.principle(by)), self.nodes(below, shown))
            }
        }
    }

    fn principle(&self, by: &Principle) -> String {
        match by {
            Principle::Body => String::from("as a body holds where its literals do"),
            Principle::Rule(rule) => format!("by {}", self.text(*rule)),
            Principle::Chosen(rule) => format!("chosen by {}", self.text(*rule)),
            Principle::Needs(atom) => format!("as {} needs a rule whose body holds", self.names.of(*atom)),
            Principle::NeedsOutside(set) => {
                let names: Vec<String> = set.iter().map(|atom| self.names.of(*atom)).collect();
                format!("as {{{}}} needs a rule from outside whose body holds", names.join(", "))
            }
        }
    }

    fn left(&self, rules: &[usize]) -> String {
        let texts: Vec<String> = rules.iter().map(|rule| self.text(*rule)).collect();
        if texts.is_empty() {
            String::from("assumed")
        } else {
            format!("left by {}", texts.join(" "))
        }
    }

    fn held_up(&self, set: &[i32], again: bool) -> String {
        let names: Vec<String> = set.iter().map(|atom| self.names.of(*atom)).collect();
        let how = if set.len() == 1 { "holds only itself up" } else { "hold only each other up" };
        format!("{{{}}} {how}{}", names.join(", "), if again { ", as above" } else { "" })
    }

    /// Nodes; for one of an atom that only stands for what its rules say, what it rests on.
    fn nodes(&self, below: &[usize], shown: &mut Shown) -> Vec<Fold> {
        below.iter().flat_map(|place| self.instead(*place)).map(|place| self.node(place, shown)).collect()
    }

    /// The nodes that are shown for one: of an atom that has no name and a plain rule those under it, and where one under
    /// it has the same name that one.
    fn instead(&self, place: usize) -> Vec<usize> {
        let Node { literal, why } = &self.tree.nodes[place];
        let below = why.below();
        let same = matches!(below[..], [only] if self.literal(only) == self.literal(place));
        let stands_for = match why {
            Why::Rule { rule, .. } => !self.plain.is_sum(*rule) && !below.is_empty(),
            _ => same,
        };
        if self.is_nameless(*literal) && stands_for {
            return below.into_iter().flat_map(|place| self.instead(place)).collect();
        }
        vec![place]
    }

    fn fails(&self, fails: &[Failed], shown: &mut Shown) -> Vec<Fold> {
        let fold = |failed: &Failed| Fold {
            head: None,
            text: format!("{} fails", self.text(failed.rule)),
            inside: self.nodes(&failed.below, shown),
        };
        fails.iter().map(fold).collect()
    }

    /// An assumption in words: what it is, what it makes hold, and by which rules.
    pub fn assumption(&self, assumption: Assumption) -> (&'static str, String, Vec<String>) {
        let of_choice = |body: Option<usize>| {
            let supports = &self.plain.supports[assumption.literal().unsigned_abs() as usize];
            let chosen = supports.iter().filter(|support| support.choice && body.is_none_or(|body| support.body == body));
            let mut rules: Vec<usize> = chosen.map(|support| support.rule).collect();
            rules.dedup();
            rules.into_iter().map(|rule| self.text(rule)).collect::<Vec<_>>()
        };
        let text = literal(assumption.literal(), self.names);
        match assumption {
            Assumption::Taken { body, .. } => ("chosen", text, of_choice(Some(body)).into_iter().take(1).collect()),
            Assumption::Left(_) => {
                let rules = of_choice(None);
                (if rules.is_empty() { "assumed" } else { "left" }, text, rules)
            }
        }
    }

    /// The nodes for machines, each with its place in the list, what it is by, and the places of what it rests on.
    pub fn json(&self) -> Json {
        Json::List(self.tree.nodes.iter().enumerate().map(|(place, node)| self.node_json(place, node)).collect())
    }

    fn node_json(&self, place: usize, node: &Node) -> Json {
        let places = |below: &[usize]| Json::List(below.iter().map(|place| Json::count(*place)).collect());
        let failed = |failed: &Failed| Json::Object(vec![("rule", Json::text(&self.text(failed.rule))), ("below", places(&failed.below))]);
        let fails = |fails: &[Failed]| Json::List(fails.iter().map(failed).collect());
        let by = |rule: usize, below: &[usize]| vec![("rule", Json::text(&self.text(rule))), ("below", places(below))];
        let (kind, more) = match &node.why {
            Why::Rule { rule, below } if self.plain.is_fact(*rule) => ("fact", by(*rule, below)),
            Why::Rule { rule, below } => ("rule", by(*rule, below)),
            Why::Taken { rule, below } => ("chosen", by(*rule, below)),
            Why::Left { rules } if rules.is_empty() => ("assumed", Vec::new()),
            Why::Left { rules } => {
                let rules: Vec<String> = rules.iter().map(|rule| self.text(*rule)).collect();
                ("left", vec![("rules", Json::texts(&rules))])
            }
            Why::Fails(list) => ("fails", vec![("fails", fails(list))]),
            Why::Loop { set, fails: list } => {
                let set: Vec<String> = set.iter().map(|atom| self.names.of(*atom)).collect();
                ("set", vec![("set", Json::texts(&set)), ("fails", fails(list))])
            }
            Why::Supposed => ("supposed", Vec::new()),
            Why::Step { by, below } => ("step", vec![("principle", Json::text(&self.principle(by))), ("below", places(below))]),
            Why::Contrary { by, below } => ("contrary", vec![("principle", Json::text(&self.principle(by))), ("below", places(below))]),
        };
        let atom = ("number", Json::Number(i64::from(node.literal)));
        let before = vec![("node", Json::count(place)), ("literal", Json::text(&self.literal(place))), atom, ("by", Json::text(kind))];
        Json::Object([before, more].concat())
    }
}
