//! `aspdrupe cheapest`: whether a set is an answer set and no answer set costs less.

use aspdrupe::{Cheapest, CheapestQuestion};

use crate::arguments::ROOM;
use crate::arguments::{Subcommand, Words};
use crate::files::{self, PROOF_LIMIT, TEXT_LIMIT};
use crate::json::Json;
use crate::library::{self, Program};
use crate::names::Names;
use crate::outcome::{Failure, Outcome, Status};
use crate::rules::{holds, Body, Rule};
use crate::statements::{as_it_is, Ground};
use crate::{constrained, explain, ground, set_test, source};

pub const SUBCOMMAND: Subcommand = Subcommand {
    name: "cheapest",
    form: "PROGRAM [PROOF] --set ATOM.. --costs LITERAL=COST.. [-o OUT.aspif] [--table N] [--store N]",
    about: "Certifies that a set is an answer set and that no answer set costs less, by costs on up to 12 literals.",
    more: "PROGRAM is a ground program, as the checker takes it, or a plan. An ATOM is a number, or a name where the program has names, as in `test`.
A LITERAL is an ATOM, one with `not ` before it, or a number with `-` before it: -7=3 and \"not rest(2)=3\" cost 3 where the atom is not in the set.
The set costs C, the sum of the costs whose literals it makes true. PROOF is for the program restricted to less than C: one constraint more,
which a set breaks that costs C or more. Where C is 0 no proof is read, and PROOF may be left out. Prints
    cheapest C
    refused program NUMBER LINE
    refused cheapest NUMBER      for 63 what the set test or the check of the proof says is on the standard error
-o OUT.aspif writes the restricted program where the set is an answer set and C is 1 to 4095, whatever becomes of the proof: `aspdrupe prove
OUT.aspif -o PROOF` finds the proof or an answer set that costs less. A PROOF beyond 65,535 bytes certifies nothing here; what the check for
proofs of any length says of it is told.
--table N and --store N are the words for rules and nogoods, 16384 each where nothing is said, as in `verdict`.",
    options: &["-o", "--table", "--store"],
    lists: &["--set", "--costs"],
    flags: &[],
    inputs: &[0, 1],
    operands: (1, 2),
    run,
};

/// The most literals with a cost, and the most that one or a set may cost.
const MOST_LITERALS: usize = 12;
const MOST_COST: i32 = 4_095;

/// What is put to the library, and what it is read from.
struct Question<'a> {
    ground: &'a Ground,
    program: &'a Program,
    set: &'a [u16],
    costs: Vec<(i16, i16)>,
    proof: Option<Vec<u8>>,
    table: usize,
    store: Option<usize>,
}

fn run(words: &Words) -> Result<Outcome, Failure> {
    let (table, store) = (words.room("--table")?, words.room_told("--store")?);
    let ground = source::split(source::load(words.path(0)?, as_it_is)?)?;
    let proof = words.path(1).ok().map(|path| files::read(path, PROOF_LIMIT)).transpose()?;
    let program = match library::read_program(&ground.text, table)? {
        Ok(program) => program,
        Err(refusal) => return source::refused(refusal, &ground, words.path(0)?),
    };
    let set = set_test::named(&words.texts("--set"), &program, &ground)?;
    let costs = costs_of(&words.texts("--costs"), &ground.names)?;
    let question = Question { ground: &ground, program: &program, set: &set.atoms, costs, proof, table, store };
    let Answered { mut told, restricted } = match question.put()? {
        Cheapest::Certified(cost) => question.certified(cost),
        Cheapest::RefusedProgram(refusal) => return source::refused(refusal, &ground, words.path(0)?),
        Cheapest::Refused(refused) => question.refused(refused)?,
    };
    if let Some(path) = words.output("-o") {
        told.words.push(if restricted {
            ground::write(&path, &constrained::text(&ground.text, &[question.restriction().line()]), &ground.names)?;
            format!("the program restricted to less than {} is {}", question.cost(), path.display())
        } else {
            format!("{} is not written: the set is no answer set, or does not cost 1 to {MOST_COST}", path.display())
        });
    }
    told.words.extend(set.note());
    told.words.splice(0..0, ground.notes.iter().cloned());
    Ok(told)
}

/// An outcome, and whether there is a restricted program to write.
struct Answered {
    told: Outcome,
    restricted: bool,
}

impl Question<'_> {
    /// What the library says. Where no proof is given an empty text is lent in its place.
    fn put(&self) -> Result<Cheapest, Failure> {
        let costs: Vec<i16> = self.costs.iter().flat_map(|(literal, cost)| [*literal, *cost]).collect();
        let proof = self.proof.as_deref().unwrap_or(b"");
        let (mut table, mut store) = (library::lent(self.table)?, library::lent(self.store.unwrap_or(ROOM))?);
        Ok(aspdrupe::check_cheapest(&self.ground.text, self.set, &costs, proof, &mut table, &mut store)?)
    }

    /// What the set costs, by the command's own sum.
    fn cost(&self) -> i32 {
        let held = self.costs.iter().filter(|(literal, _)| holds(i32::from(*literal), self.set));
        held.map(|(_, cost)| i32::from(*cost)).fold(0, i32::saturating_add)
    }

    /// The constraint that a set breaks which costs as much as this one or more.
    fn restriction(&self) -> Rule {
        let pairs = self.costs.iter().map(|(literal, cost)| (i32::from(*literal), i32::from(*cost))).collect();
        Rule { choice: false, heads: Vec::new(), body: Body::Weights { bound: self.cost(), pairs } }
    }

    fn certified(&self, cost: usize) -> Answered {
        let shown = self.ground.names.shown(self.set);
        let words = vec![
            format!("an answer set: {}", shown.join(" ")),
            format!("it costs {cost}, and no answer set costs less, nor does one of the program with any further constraints"),
        ];
        let fields = vec![("answer", Json::text("cheapest")), ("cost", Json::count(cost)), ("shown", Json::texts(&shown))];
        Answered { told: Outcome { status: Status::Good, line: format!("cheapest {cost}"), words, fields }, restricted: cost > 0 }
    }

    /// A refusal, with what is at fault where that can be told.
    fn refused(&self, question: CheapestQuestion) -> Result<Answered, Failure> {
        let told = explain::question("cheapest", question.number(), question.to_string(), question.mend());
        let told = match question {
            CheapestQuestion::Set => told,
            CheapestQuestion::Costs => told.for_reason(fault(&self.costs, self.program.atoms, self.cost())),
            CheapestQuestion::Certificate => return self.uncertified(told),
        };
        Ok(Answered { told, restricted: false })
    }

    /// 63: what the set test says of the set, or what is missing of the proof.
    fn uncertified(&self, told: Outcome) -> Result<Answered, Failure> {
        let test = set_test::told(self.set, self.program, self.ground)?;
        if test.status != Status::Good {
            return Ok(Answered { told: told.explained_by("test", "the set test", test), restricted: false });
        }
        Ok(Answered { told: self.unproved(told)?, restricted: true })
    }

    /// What the proof is to be for, and what the check says of it. The restricted program may be beyond a limit of texts, which the library does
    /// not ask of it.
    fn unproved(&self, mut told: Outcome) -> Result<Outcome, Failure> {
        let (cost, restriction) = (self.cost(), self.restriction());
        told.words.push(format!("the set is an answer set and costs {cost}; the proof is for the program and this constraint:"));
        told.words.push(format!("    {}", self.ground.names.rule(&restriction)));
        told.fields.push(("cost", Json::Number(i64::from(cost))));
        let Some(proof) = &self.proof else {
            let why = "no PROOF is given: -o OUT.aspif writes that program, and `aspdrupe prove OUT.aspif -o PROOF` finds a proof or a cheaper set";
            return Ok(told.for_reason(String::from(why)));
        };
        if proof.len() > TEXT_LIMIT {
            told.words.push(format!("a proof that is to certify has at most {TEXT_LIMIT} bytes, and this one has {}", proof.len()));
        }
        Ok(match constrained::check_long(&self.ground.text, &[restriction.line()], proof, self.store)? {
            Ok(check) => told.explained_by("check", "the check of the proof for them", check),
            Err(question) => {
                let why = "what is wrong with the proof cannot be told: with the constraint the program has too many bytes or rules for a check of its own";
                told.for_reason(format!("{why} (question {})", question.number()))
            }
        })
    }
}

/// What question 62 is about: the first fault of the list, or what the set costs.
fn fault(costs: &[(i16, i16)], atoms: usize, cost: i32) -> String {
    if costs.len() > MOST_LITERALS {
        return format!("{} literals have a cost", costs.len());
    }
    for (place, (literal, cost)) in costs.iter().enumerate() {
        let atom = literal.unsigned_abs();
        if atom == 0 || usize::from(atom) > atoms {
            return format!("{literal} is over no atom of the program, whose largest is {atoms}");
        }
        if costs[..place].iter().any(|(other, _)| other.unsigned_abs() == atom) {
            return format!("atom {atom} stands twice");
        }
        if !(0..=MOST_COST).contains(&i32::from(*cost)) {
            return format!("{literal} costs {cost}");
        }
    }
    format!("the set costs {cost}")
}

/// The literals and costs that the words stand for.
fn costs_of(words: &[String], names: &Names) -> Result<Vec<(i16, i16)>, Failure> {
    words.iter().map(|word| cost_of(word, names)).collect()
}

fn cost_of(word: &str, names: &Names) -> Result<(i16, i16), Failure> {
    let (literal, cost) = word.rsplit_once('=').ok_or_else(|| Failure::misuse(format!("`{word}` is no LITERAL=COST")))?;
    let cost = cost.parse().map_err(|_| Failure::misuse(format!("`{cost}` in `{word}` is no cost: a number, 0 to {MOST_COST}")))?;
    let (atom, negated) = literal.strip_prefix("not ").map_or((literal, false), |atom| (atom, true));
    let number = names.number::<i16>(atom).and_then(|number| if negated { number.checked_neg() } else { Some(number) });
    let literal = number.ok_or_else(|| {
        Failure::misuse(format!("`{literal}` in `{word}` is over neither an atom's number nor a name that the program has"))
    })?;
    Ok((literal, cost))
}

#[cfg(test)]
mod tests {
    use super::*;

    fn names() -> Names {
        let mut names = Names::default();
        for line in [&b"4 4 a(1) 1 1"[..], b"4 3 b=c 1 2", b"4 2 -a 1 3", b"4 1 f 0"] {
            assert!(names.take(line));
        }
        names
    }

    #[test]
    fn costs_of_words() {
        for (word, pair) in [
            ("7=3", (7, 3)),
            ("-7=0", (-7, 0)),
            ("a(1)=5", (1, 5)),
            ("not a(1)=5", (-1, 5)),
            ("b=c=4", (2, 4)),
            ("-a=1", (3, 1)),
            ("not -a=1", (-3, 1)),
            ("not -7=2", (7, 2)),
            ("0=-1", (0, -1)),
        ] {
            assert_eq!(cost_of(word, &names()), Ok(pair), "{word}");
        }
        for (word, part) in [
            ("7", "no LITERAL=COST"),
            ("7=", "is no cost"),
            ("7=x", "is no cost"),
            ("7=40000", "is no cost"),
            ("=3", "`` in `=3`"),
            ("-a(1)=3", "neither"),
            ("f=3", "neither"),
            ("40000=3", "neither"),
            ("not -32768=3", "neither"),
        ] {
            assert!(cost_of(word, &names()).unwrap_err().message.contains(part), "{word}");
        }
    }

    #[test]
    fn faults_of_costs() {
        for (costs, part) in [
            (&[(3, 1)][..], "3 is over no atom of the program, whose largest is 2"),
            (&[(0, 1)], "0 is over no atom"),
            (&[(i16::MIN, 1)], "-32768 is over no atom"),
            (&[(1, 1), (-1, 1)], "atom 1 stands twice"),
            (&[(1, 1), (-2, -1)], "-2 costs -1"),
            (&[(1, 4_096)], "1 costs 4096"),
            (&[(1, 1); 13], "13 literals have a cost"),
            (&[(1, 4_095), (2, 1)], "the set costs 4096"),
        ] {
            assert!(fault(costs, 2, 4_096).starts_with(part), "{costs:?}");
        }
    }
}
