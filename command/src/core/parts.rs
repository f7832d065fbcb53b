//! A ground program by lines, of which some belong to constraints that may be left out: those of a plan, each with the
//! ground constraints that gringo makes of it, or ground constraints one by one.

use std::collections::BTreeSet;

use crate::names::Names;
use crate::outcome::Failure;
use crate::plan::Statement;
use crate::rules::{Body, Rule, SHORT};
use crate::source;
use crate::statements::Ground;

/// A line of the program, and the constraint that it belongs to.
#[derive(Debug, Clone)]
pub struct Line {
    pub text: String,
    pub rule: Rule,
    pub owner: Option<usize>,
}

/// Where a constraint comes from.
#[derive(Debug, Clone, PartialEq, Eq)]
pub enum Place {
    /// This line of the file.
    Line(usize),
    /// `--assume` with this literal.
    Assumed(String),
    /// No constraint of the plan: the bounds of a choice, a file that it includes, or an atom and its opposite.
    Rule,
}

/// What gringo makes a ground constraint of that is of no constraint of the plan. For bounds it makes atoms that have no
/// name; an included file may have such constraints too.
pub fn origin(rule: &Rule, names: &Names, includes: bool) -> &'static str {
    let named: Vec<String> = rule.atoms().into_iter().filter(|atom| names.has(*atom)).map(|atom| names.of(atom)).collect();
    let is_opposite = |name: &String| named.contains(&format!("-{name}"));
    match (named.len() == rule.atoms().len(), includes) {
        (true, _) if named.len() == 2 && named.iter().any(is_opposite) => "an atom and its opposite",
        (true, true) => "an included file",
        (false, true) => "an included file or a rule's bounds",
        (_, false) => "a rule's bounds",
    }
}

/// The program, with the places of the constraints that may be left out.
#[derive(Debug, Clone)]
pub struct Parts {
    pub lines: Vec<Line>,
    pub places: Vec<Place>,
}

impl Parts {
    /// A ground program with each of its constraints by itself, and with those that are assumed.
    pub fn of_ground(ground: &Ground, assumed: &[String]) -> Result<Parts, Failure> {
        let (mut lines, mut places) = (lines(&ground.text), Vec::new());
        for (place, line) in lines.iter_mut().enumerate().filter(|(_, line)| line.is_constraint()) {
            line.owner = Some(places.len());
            places.push(Place::Line(ground.line(place + 2)));
        }
        for literal in assumed {
            let text = source::constraint(literal, &ground.names)?;
            lines.extend(text.and_then(Line::of).map(|line| Line { owner: Some(places.len()), ..line }));
            places.push(Place::Assumed(literal.clone()));
        }
        Ok(Parts { lines, places })
    }

    /// A plan whose constraints are marked: the marks go, and say which ground constraint is of which. The last ones
    /// are assumed.
    pub fn of_plan(ground: &Ground, marked: &[(Statement, String)], assumed: &[String]) -> Result<Parts, Failure> {
        let marks: Vec<Option<i32>> = marked.iter().map(|(_, mark)| ground.names.atom(mark)).collect();
        if marks.contains(&None) {
            return Err(Failure::misuse("a mark of the plan's constraints has no name"));
        }
        let own = marked.len().saturating_sub(assumed.len());
        let place = |(place, (statement, _)): (usize, &(Statement, String))| match place.checked_sub(own) {
            Some(later) => Place::Assumed(assumed.get(later).cloned().unwrap_or_default()),
            None => Place::Line(statement.line),
        };
        let places = marked.iter().enumerate().map(place).collect();
        let lines = lines(&ground.text).into_iter().map(|line| line.unmarked(&marks)).collect::<Result<Vec<_>, _>>()?;
        Ok(Parts { lines: lines.into_iter().flatten().collect(), places })
    }

    /// The same program with each ground constraint by itself, where those of the others are left out.
    pub fn by_line(&self, kept: &BTreeSet<usize>) -> Parts {
        let lines = self.lines.iter().filter(|line| line.owner.is_none_or(|owner| kept.contains(&owner)));
        let mut parts = Parts { lines: lines.cloned().collect(), places: Vec::new() };
        for line in parts.lines.iter_mut().filter(|line| line.is_constraint()) {
            parts.places.push(line.owner.map_or(Place::Rule, |owner| self.places[owner].clone()));
            line.owner = Some(parts.places.len() - 1);
        }
        parts
    }

    /// How many ground constraints it has.
    pub fn constraint_count(&self) -> usize {
        self.lines.iter().filter(|line| line.is_constraint()).count()
    }

    /// The text of the program with some of its constraints only.
    pub fn text(&self, kept: &BTreeSet<usize>) -> Vec<u8> {
        let lines = self.lines.iter().filter(|line| line.owner.is_none_or(|owner| kept.contains(&owner)));
        let rules: String = lines.map(|line| format!("{}\n", line.text)).collect();
        format!("asp 1 0 0\n{rules}0\n").into_bytes()
    }

    /// The constraints with a ground constraint of one of these bodies. A sum that is split has other bodies, and may
    /// be one.
    pub fn owners_of(&self, bodies: &[Vec<i32>]) -> BTreeSet<usize> {
        let used = |line: &&Line| line.is_long() || line.rule.bodies().iter().any(|body| bodies.contains(body));
        self.lines.iter().filter(|line| line.owner.is_some()).filter(used).filter_map(|line| line.owner).collect()
    }

    /// The ground constraint that a place stands for, where it is just one.
    pub fn rule_of(&self, owner: usize) -> Option<&Rule> {
        self.lines.iter().find(|line| line.owner == Some(owner)).map(|line| &line.rule)
    }
}

impl Line {
    fn is_constraint(&self) -> bool {
        self.rule.heads.is_empty()
    }

    /// The line of a rule.
    fn of(text: String) -> Option<Line> {
        Rule::of_line(&text).map(|rule| Line { text, rule, owner: None })
    }

    /// Whether it has a sum that is split.
    fn is_long(&self) -> bool {
        matches!(&self.rule.body, Body::Weights { pairs, .. } if pairs.len() > SHORT)
    }

    /// The line without a mark, which belongs to the constraint marked so; none of the choice of a mark.
    fn unmarked(mut self, marks: &[Option<i32>]) -> Result<Option<Line>, Failure> {
        let place = |literal: i32| marks.iter().position(|mark| *mark == Some(literal.abs()));
        if self.rule.heads.iter().any(|head| place(*head).is_some()) {
            return Ok(None);
        }
        let literals = match &mut self.rule.body {
            Body::Plain(literals) => literals,
            Body::Weights { pairs, .. } if pairs.iter().all(|(literal, _)| place(*literal).is_none()) => return Ok(Some(self)),
            Body::Weights { .. } => return Err(Failure::misuse("gringo does not ground a marked constraint as one")),
        };
        let Some(at) = literals.iter().position(|literal| place(*literal).is_some()) else { return Ok(Some(self)) };
        self.owner = place(literals.remove(at));
        if !self.rule.heads.is_empty() {
            return Err(Failure::misuse("gringo does not ground a marked constraint as one"));
        }
        self.text = self.rule.line();
        Ok(Some(self))
    }
}

/// The rules of a program that the library takes, its long sums split.
fn lines(text: &[u8]) -> Vec<Line> {
    String::from_utf8_lossy(text).lines().filter_map(|line| Line::of(String::from(line))).collect()
}

#[cfg(test)]
mod tests {
    use super::*;
    use crate::plan::Plan;
    use crate::statements::{as_it_is, cut_down};

    #[test]
    fn ground_constraints_one_by_one() {
        let ground = as_it_is(b"asp 1 0 0\n1 1 2 1 2 0 0\n1 0 0 0 1 -1\n1 0 1 3 0 1 1\n1 0 0 0 2 2 3\n0\n").unwrap();
        let parts = Parts::of_ground(&ground, &[String::from("not 2")]).unwrap();
        assert_eq!(parts.places, [Place::Line(3), Place::Line(5), Place::Assumed(String::from("not 2"))]);
        let text = |kept: &[usize]| String::from_utf8(parts.text(&kept.iter().copied().collect())).unwrap();
        assert_eq!(text(&[]), "asp 1 0 0\n1 1 2 1 2 0 0\n1 0 1 3 0 1 1\n0\n");
        assert_eq!(text(&[1, 2]), "asp 1 0 0\n1 1 2 1 2 0 0\n1 0 1 3 0 1 1\n1 0 0 0 2 2 3\n1 0 0 0 1 2\n0\n");
        assert_eq!(parts.owners_of(&[vec![2, 3], vec![1]]), BTreeSet::from([1]));
    }

    #[test]
    fn constraints_of_a_plan() {
        let plan = Plan::of(b"{a; b}.\n:- a.\n:- b, a. :- not a.");
        let marked: Vec<(Statement, String)> = plan.constraints().cloned().zip(["x", "y", "z"].map(String::from)).collect();
        let text = b"asp 1 0 0\n1 1 1 1 0 0\n1 1 1 2 0 0\n1 1 1 3 0 0\n1 1 2 4 5 0 0\n1 0 0 0 2 4 1\n1 0 0 0 3 5 2 4\n1 0 0 0 1 4\n4 1 x 1 1\n4 1 y 1 2\n4 1 z 1 3\n0\n";
        let parts = Parts::of_plan(&cut_down(text).unwrap(), &marked, &[String::from("a")]).unwrap();
        assert_eq!(parts.places, [Place::Line(2), Place::Line(3), Place::Assumed(String::from("a"))]);
        assert_eq!(parts.text(&BTreeSet::from([1])), b"asp 1 0 0\n1 1 2 4 5 0 0\n1 0 0 0 2 4 5\n1 0 0 0 1 4\n0\n");
        let ground = parts.by_line(&BTreeSet::from([0]));
        assert_eq!(ground.places, [Place::Line(2), Place::Rule]);
        assert_eq!(ground.text(&BTreeSet::from([1])), b"asp 1 0 0\n1 1 2 4 5 0 0\n1 0 0 0 1 4\n0\n");
    }
}
