//! Proofs to be trimmed: the worked cases of Change 10 of document 02 with what is left of each, cases at the limits, and random refutations
//! with steps put in that they do not need, or only for room in the store.

use inputs::lines::line_of;
use inputs::random::Random;
use inputs::rules::program_text;
use inputs::{Pair, ROOM};

use super::fixed::{program, proof, PROOF_1, RULE_1};
use super::halves::{any_rules, with_more};
use super::merges::{closed, refused_texts};
use super::refutations::{refute, Author, Found};
use crate::reference::lines::{lines_of, Line};
use crate::reference::program::{read, Program};
use crate::reference::trim::is_accepted;
use crate::reference::trim::Answer::{self, Refused, RefusedProgram, Trimmed};
use crate::reference::{filled, LINE_LIMIT, TEXT_LIMIT};

/// Two texts, the words of table and store that are lent, the answer, and every byte that the text then has.
pub struct Case {
    pub name: String,
    pub pair: Pair,
    pub table: usize,
    pub store: usize,
    pub answer: Answer,
    pub text: Vec<u8>,
}

/// The words that starred example 1's rule takes in the table.
const TABLE_1: usize = 6;

/// Starred example 1's proof with steps that it does not need.
const LONGER: [&str; 9] = ["b 2 -1", "c 2 1", "e 3 2", "s 1 2", "a 1", "d 3 2", "a 1", "a", "a 1"];
/// Of which, starting again with the last step after each removal, `a 1` would be left and not `a -2`.
const ONWARD: [&str; 7] = ["b 2 -1", "c 2 1", "s 1 2", "a 1", "d 1", "a -2", "a"];
const ONWARD_LEFT: [&str; 5] = ["b 2 -1", "c 2 1", "s 1 2", "a -2", "a"];
/// Its deletion makes room in a store of 19 or 20 words.
const MAKES_ROOM: [&str; 6] = ["b 2 -1", "c 2 1", "s 1 2", "a 1", "d 1 2", "a"];
/// With 27 or 28 words the first pass takes only `e 3 2` away, and the second the deletion.
const THREE_PASSES: [&str; 7] = ["b 2 -1", "c 2 1", "s 1 2", "e 3 2", "a 1", "d 1 2", "a"];

/// A case with starred example 1's program, which leaves the text as it was.
fn kept(name: &str, proof: &[u8], store: usize, answer: Answer) -> Case {
    let pair = Pair::of(program(RULE_1), proof);
    Case { name: String::from(name), pair, table: TABLE_1, store, answer, text: proof.to_vec() }
}

/// A case with starred example 1's program, of which these lines are left.
fn left(name: &str, lines: &[&str], store: usize, lines_left: &[u8]) -> Case {
    let case = kept(name, &closed(lines), store, Trimmed(lines_left.len()));
    Case { text: filled(lines_left.to_vec(), case.text.len()), ..case }
}

/// All cases.
pub fn cases() -> Vec<Case> {
    let mut cases = worked();
    cases.extend(refused_proofs());
    cases.extend(refused_programs());
    cases.extend(long_texts());
    cases
}

fn worked() -> Vec<Case> {
    let one = proof(PROOF_1);
    vec![
        kept("starred 1", &one, 21, Trimmed(35)),
        left("steps that are not needed", &LONGER, 99, &one),
        left("going on with the step before", &ONWARD, 99, &closed(&ONWARD_LEFT)),
        kept("a deletion makes room, 19 words", &closed(&MAKES_ROOM), 19, Trimmed(43)),
        kept("a deletion makes room, 20 words", &closed(&MAKES_ROOM), 20, Trimmed(43)),
        left("a deletion makes room, 21 words", &MAKES_ROOM, 21, &one),
        left("three passes, 27 words", &THREE_PASSES, 27, &one),
        left("three passes, 28 words", &THREE_PASSES, 28, &one),
    ]
}

/// "An input that isn't accepted itself"
fn refused_proofs() -> Vec<Case> {
    let one = proof(PROOF_1);
    let unknown = LONGER.map(|line| if line == "d 3 2" { "d 3 4" } else { line });
    let refused = |name: &str, proof: &[u8], store| kept(name, proof, store, Refused(60));
    vec![
        refused("starred 1, 20 words", &one, 20),
        refused("an open proof", &[&one[..], b"d 0\n"].concat(), 99),
        refused("a zero byte after it", &[&one[..], &[0]].concat(), 99),
        refused("a last line that does not end", &one[..one.len() - 1], 99),
        refused("nothing", b"", 99),
        refused("a step that is refused", &closed(&unknown), 99),
        refused("a deletion makes room, 18 words", &closed(&MAKES_ROOM), 18),
        refused("three passes, 26 words", &closed(&THREE_PASSES), 26),
    ]
}

/// Every refusal of a program, also where the proof is refused too.
fn refused_programs() -> Vec<Case> {
    let one = proof(PROOF_1);
    let mut cases = vec![Case { table: TABLE_1 - 1, ..kept("a table of 5 words", &one, 21, RefusedProgram { number: 10, line: 2 }) }];
    let mut cut = program(RULE_1);
    cut.pop();
    for (number, line, program) in [(3, 3, cut)].into_iter().chain(refused_texts()) {
        for proof in [&one[..], b"x"] {
            let case = kept(&format!("program {number}"), proof, 99, RefusedProgram { number, line });
            cases.push(Case { pair: Pair::of(&program, proof), table: ROOM, ..case });
        }
    }
    cases
}

/// Starred example 1's proof, with lines of 65 numbers after it, so that the text has so many bytes.
fn proof_of_length(bytes: usize) -> Vec<u8> {
    let names = 8_001..=8_000 + LINE_LIMIT;
    let wide = format!("a {} 0\n", names.clone().map(|name| name.to_string()).collect::<Vec<_>>().join(" ")).into_bytes();
    let mut text = proof(PROOF_1);
    text.extend(names.flat_map(|name| format!("e {name} 0\n").into_bytes()));
    while text.len() + wide.len() < bytes {
        text.extend(&wide);
    }
    // One of 7 bytes and one of 6, where the rest does not fall into lines of 4.
    if (bytes - text.len()) % 2 == 1 {
        text.extend(b"a -2 0\n");
    }
    if (bytes - text.len()) % 4 == 2 {
        text.extend(b"a 1 0\n");
    }
    while text.len() < bytes {
        text.extend(b"a 0\n");
    }
    text
}

/// "a text over 65,535 bytes"
fn long_texts() -> Vec<Case> {
    let one = proof(PROOF_1);
    let full = proof_of_length(TEXT_LIMIT);
    let good = kept("65,535 bytes", &full, ROOM, Trimmed(35));
    let long = proof_of_length(TEXT_LIMIT + 1);
    vec![Case { text: filled(one, full.len()), ..good }, kept("65,536 bytes", &long, ROOM, Refused(60))]
}

/// How often another program is tried where one is not refuted.
const TRIES: usize = 100;

/// A program that is refuted, and the refutation with steps put in; nothing where none is found.
pub fn refutation(random: &mut Random) -> Option<Pair> {
    (0..TRIES).find_map(|_| {
        let text = program_text(&any_rules(random));
        let program = read(&text, usize::MAX).ok()?;
        let mut author = Author::of(&program);
        let at_first = if program.plain.len() > 100 { 0 } else { *random.pick(&[100, 100, 60, 0]) };
        let found = refute(&mut author, random, at_first);
        let put_in = if random.percent(30) { with_deletions } else { with_more };
        (found == Found::Refutation).then(|| Pair::of(&text, put_in(&program, &author.text(), random)))
    })
}

/// The proof with deletions of nogoods that no later line needs, so that it takes less of the store.
fn with_deletions(program: &Program, text: &[u8], random: &mut Random) -> Vec<u8> {
    let lines = lines_of(text).unwrap_or_default();
    let line_text = |line: &Line| line_of(line.letter, &line.numbers).into_bytes();
    let mut author = Author::of(program);
    for (place, line) in lines.iter().enumerate() {
        let _ = author.write(line.letter, &line.numbers);
        let rest: Vec<u8> = lines[place + 1..].iter().flat_map(line_text).collect();
        while random.percent(70) {
            let live: Vec<Vec<i32>> = author.state.live().into_iter().map(<[i32]>::to_vec).collect();
            let Some(nogood) = (!live.is_empty()).then(|| random.pick(&live)) else { break };
            let whole = [author.text(), line_of(b'd', nogood).into_bytes(), rest.clone()].concat();
            if is_accepted(program, &whole, ROOM) {
                let _ = author.write(b'd', nogood);
            }
        }
    }
    author.text()
}

#[cfg(test)]
mod tests {
    use super::*;

    #[test]
    fn lengths_are_as_said() {
        assert_eq!([TEXT_LIMIT, TEXT_LIMIT + 1].map(|bytes| proof_of_length(bytes).len()), [TEXT_LIMIT, TEXT_LIMIT + 1]);
        let bytes = [&LONGER[..], &ONWARD, &ONWARD_LEFT, &MAKES_ROOM, &THREE_PASSES].map(|lines| closed(lines).len());
        assert_eq!(bytes, [63, 48, 36, 43, 51]);
    }
}
