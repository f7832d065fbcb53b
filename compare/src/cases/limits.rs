//! Inputs at the limits of document 01: counts of heads, literals, numbers and rules, sizes of atoms and variables, lengths of
//! texts, a store that is just full, nogoods of late steps, loops of as many atoms as a line names, long loop nogoods and long chains of
//! propagation.

use std::sync::OnceLock;

use inputs::lines::{self, line_of, proof_text};
use inputs::rules::{choice, constraint, normal, program_text, rule_line, weighted, Body, Rule};
use inputs::{joined, Pair};

use super::fixed::{program, proof, PROOF_1, RULE_1};

/// A name, two texts, and the line that `verdict` must print where it is plain from the document.
#[derive(Clone)]
pub struct Case {
    pub name: String,
    pub pair: Pair,
    pub line: Option<String>,
}

fn case(name: impl Into<String>, program: impl AsRef<[u8]>, proof: impl AsRef<[u8]>, line: &str) -> Case {
    let line = Some(String::from(line)).filter(|line| !line.is_empty());
    Case { name: name.into(), pair: Pair::of(program, proof), line }
}

/// All cases, made once.
pub fn cases() -> &'static [Case] {
    static CASES: OnceLock<Vec<Case>> = OnceLock::new();
    CASES.get_or_init(all_cases)
}

fn all_cases() -> Vec<Case> {
    let mut cases = Vec::new();
    cases.extend(head_counts());
    cases.extend(body_counts());
    cases.extend(program_numbers());
    cases.extend(rule_counts());
    cases.extend(weight_limits());
    cases.push(many_minimal_sets());
    cases.extend(program_lengths());
    cases.extend(program_shapes());
    cases.extend(proof_lengths());
    cases.extend(number_counts());
    cases.extend(variable_sizes());
    cases.extend(proof_shapes());
    cases.extend(full_stores());
    cases.extend(late_steps());
    cases.extend(wide_loops());
    cases.extend(weight_rings());
    cases.extend(long_loops());
    cases.extend(long_chains());
    cases.extend(chains_behind_many_words());
    cases
}

fn count_to(last: i32) -> Vec<i32> {
    (1..=last).collect()
}

fn head_counts() -> Vec<Case> {
    let mut cases = Vec::new();
    for (count, line) in
        [(0, "refused program 7 2"), (1, "open 1 1 0 0"), (64, "open 64 1 0 0"), (65, "refused program 6 2"), (66, "refused program 6 2")]
    {
        cases.push(case(format!("choice of {count}"), program_text(&[choice(&count_to(count), &[])]), "", line));
    }
    for (count, line) in
        [(0, "open 0 1 0 0"), (1, "open 1 1 0 0"), (2, "refused program 7 2"), (64, "refused program 7 2"), (65, "refused program 6 2")]
    {
        let rule = Rule { choice: false, heads: count_to(count), body: Body::Plain(Vec::new()) };
        cases.push(case(format!("normal rule with {count} heads"), program_text(&[rule]), "", line));
    }
    cases
}

fn body_counts() -> Vec<Case> {
    let mut cases = Vec::new();
    for (count, line) in
        [(0, "open 1 1 0 0"), (63, "open 63 1 0 0"), (64, "open 64 1 0 0"), (65, "refused program 6 2"), (66, "refused program 6 2")]
    {
        for sign in [1, -1] {
            let body: Vec<i32> = count_to(count).iter().rev().map(|atom| atom * sign).collect();
            cases.push(case(format!("body of {count}"), program_text(&[normal(1, &body)]), "", line));
        }
    }
    let both = choice(&count_to(64), &(65..=128).collect::<Vec<_>>());
    cases.push(case("64 heads and 64 literals", program_text(&[both]), "", "open 128 1 0 0"));
    cases
}

/// Numbers at the limits of a program's lines.
const PROGRAM_NUMBERS: [i32; 27] = [
    -8_193, -8_192, -8_191, -4_097, -4_096, -4_095, -65, -64, -1, 0, 1, 2, 3, 12, 13, 63, 64, 65, 4_094, 4_095, 4_096, 4_097, 8_190, 8_191,
    8_192, 8_193, 65_536,
];

/// Rows that are good, with a number at a limit in each of their places in turn.
fn program_numbers() -> Vec<Case> {
    let mut cases = Vec::new();
    for row in [&[1, 1, 2, 3, 4, 0, 2, 5, -6][..], &[1, 1, 2, 3, 4, 1, 7, 2, 5, 3, -6, 8]] {
        for number in PROGRAM_NUMBERS {
            for place in 0..row.len() {
                let mut changed = row.to_vec();
                changed[place] = number;
                cases.push(case(format!("{number} at place {place}"), program(&[&joined(&changed)]), "", ""));
            }
        }
        for place in 0..=row.len() {
            cases.push(case(format!("{place} numbers"), program(&[&joined(&row[..place])]), "", ""));
        }
    }
    cases
}

fn rule_counts() -> Vec<Case> {
    let mut cases = Vec::new();
    for (count, line) in [(1_023, "open 0 1023 0 0"), (1_024, "open 0 1024 0 0"), (1_025, "refused program 9 1026")] {
        cases.push(case(format!("{count} rules"), program_text(&vec![constraint(&[]); count]), "", line));
    }
    let wide = vec![normal(1, &count_to(13).iter().map(|atom| -atom).collect::<Vec<_>>()); 910];
    cases.push(case("910 rules of 18 words", program_text(&wide), "", "open 13 910 0 0"));
    let with = |more: &[Rule]| program_text(&[&wide, more].concat());
    cases.push(case("a table of 16,385 words", with(&[constraint(&[1])]), "", "refused program 10 912"));
    cases.push(case("a table of 16,384 words", with(&[constraint(&[])]), "", "open 13 911 0 0"));
    cases.push(case("a table of 16,388 words", with(&[constraint(&[]), constraint(&[])]), "", "refused program 10 913"));
    cases
}

/// So many literals, each of this weight.
fn evenly(count: i32, weight: i32) -> Vec<(i32, i32)> {
    (1..=count).map(|atom| (atom, weight)).collect()
}

/// Counts of literals with weights, the largest weights and bounds, and a table that rules with weights fill.
fn weight_limits() -> Vec<Case> {
    let mut cases = Vec::new();
    for (count, line) in [(0, "open 0 1 0 0"), (11, "open 11 1 0 0"), (12, "open 12 1 0 0")] {
        cases.push(case(format!("{count} weights"), program_text(&[weighted(&[], 1, &evenly(count, 1))]), "", line));
    }
    for (count, line) in
        [(13, "refused program 55 2"), (63, "refused program 55 2"), (64, "refused program 55 2"), (65, "refused program 6 2")]
    {
        cases.push(case(format!("{count} weights"), program_text(&[weighted(&[], 1, &evenly(count, 1))]), "", line));
    }
    let heaviest = [weighted(&[20], 4_095, &evenly(12, 4_095))];
    let mut names: String = (1..=12).map(|atom| line_of(b'b', &[20 + atom, atom])).collect();
    names.push_str("s 20 21 22 23 24 25 26 27 28 29 30 31 32 0\n");
    cases.push(case("the largest weights", program_text(&heaviest), &names, "open 20 1 13 25"));
    let full = vec![weighted(&[], 12, &evenly(12, 1)); 564];
    let with = |empty: usize| program_text(&[&full[..], &vec![constraint(&[]); empty]].concat());
    let steps = "b 13 1 2 3 4 5 6 7 8 9 10 11 12 0\nc 13 0\n";
    cases.push(case("564 rules with weights, 16,384 words", with(7), steps, "open 12 571 2 14"));
    cases.push(case("564 rules with weights, 16,388 words", with(8), steps, "refused program 10 573"));
    cases
}

/// All 924 minimal sets of one rule, with loop nogoods over them; they need a longer store than `verdict` has.
fn many_minimal_sets() -> Case {
    let chosen = Rule { choice: true, ..weighted(&[13, 12], 1, &evenly(1, 1)) };
    let rules = [weighted(&[13], 6, &evenly(12, 1)), chosen, choice(&count_to(7), &[13]), normal(13, &[13])];
    let bodies = rules[0].bodies();
    assert_eq!(bodies.len(), 924);
    let mut text = String::new();
    for (place, body) in bodies.iter().enumerate() {
        text.push_str(&line_of(b'b', &[&[14 + place as i32], &body[..]].concat()));
    }
    text.push_str("l 13 1 0\nl 13 1 2 3 4 5 6 7 0\nl 13 0\n");
    case("924 minimal sets", program_text(&rules), text, "refused proof 34 497")
}

/// Lines of three kinds that have just so many bytes together, most of them of the first kind.
fn lines_of_length(length: usize, kinds: [&str; 3]) -> String {
    let first = kinds[0].len();
    for (second, third) in (0..first).flat_map(|second| [(second, 0), (second, 1)]) {
        let others = kinds[1].repeat(second) + &kinds[2].repeat(third);
        if (length - others.len()).is_multiple_of(first) {
            return kinds[0].repeat((length - others.len()) / first) + &others;
        }
    }
    panic!("no lines of these kinds have {length} bytes together")
}

/// A program of just so many bytes.
pub fn program_of_length(length: usize) -> Vec<u8> {
    let big = rule_line(&choice(&(1_000..1_064).collect::<Vec<_>>(), &[]));
    let inner = length - "asp 1 0 0\n0\n".len();
    let many = inner / big.len() - 1;
    let rest = lines_of_length(inner - many * big.len(), ["1 0 0 0 0\n", "1 0 1 1 0 0\n", "1 0 1 10 0 0\n"]);
    format!("asp 1 0 0\n{}{rest}0\n", big.repeat(many)).into_bytes()
}

fn program_lengths() -> Vec<Case> {
    let mut cases = Vec::new();
    for length in [65_534, 65_535, 65_536, 65_537] {
        let text = program_of_length(length);
        assert_eq!(text.len(), length);
        let line = if length > 65_535 { "refused program 1 0" } else { "" };
        cases.push(case(format!("a program of {length} bytes"), text, "", line));
        let line = if length > 65_535 { "refused program 1 0" } else { "refused program 2 1" };
        cases.push(case(format!("a program of {length} newlines"), vec![b'\n'; length], "", line));
    }
    cases.push(case("a program of 200,000 bytes", vec![b'0'; 200_000], vec![b'0'; 200_000], "refused program 1 0"));
    cases
}

fn program_shapes() -> Vec<Case> {
    let mut cases = Vec::new();
    for (text, line) in [
        ("", "refused program 2 1"),
        ("asp 1 0 0", "refused program 2 1"),
        ("asp 1 0 0\n", "refused program 3 2"),
        ("asp 1 0 0\n0", "refused program 3 2"),
        ("asp 1 0 0\n\n0\n", "refused program 5 2"),
        ("asp 1 0 0 \n0\n", "refused program 2 1"),
        ("asp 1 0 0\r\n0\n", "refused program 2 1"),
        ("asp 1 0 0\n0\n\n", "refused program 11 2"),
        ("asp 1 0 0\n0\n0\n", "refused program 11 2"),
        ("asp 1 0 0\n0\n ", "refused program 11 2"),
        ("asp 1 0 0\n0 \n", "refused program 3 2"),
        ("asp 1 0 0\n0 1\n", "refused program 5 2"),
        ("asp 1 0 0\n1 0 1 1 0 0\n", "refused program 3 3"),
        ("asp 1 0 0\n1 0 1 1 0 0", "refused program 3 2"),
        ("asp 1 0 0\n1 0 1 1 0 0\n10 1\n0\n", "refused program 5 3"),
        ("asp 1 0 0\n1 0 1 01 0 0\n0\n", "refused program 3 2"),
        ("asp 1 0 0\n1 0 1 1  0 0\n0\n", "refused program 3 2"),
        ("asp 1 0 0\n8192 00\n0\n", "refused program 3 2"),
    ] {
        cases.push(case(format!("text {text:?}"), text, "a 0\n", line));
    }
    let digits = "9".repeat(3_000);
    cases.push(case("3,000 digits", program(&[&format!("1 0 1 {digits} 0 0")]), "", "refused program 4 2"));
    cases.push(case("20,000 numbers", program(&[&format!("1 0 1 1 0 0{}", " 1".repeat(20_000))]), "", "refused program 6 2"));
    cases.push(case("20,000 ones", program(&[&format!("1{}", " 1".repeat(20_000))]), "", "refused program 6 2"));
    cases.push(case("20,000 twos", program(&[&format!("1{}", " 2".repeat(20_000))]), "", "refused program 5 2"));
    cases.push(case("a bad one after 20,000", program(&[&format!("1{} -", " 8192".repeat(10_000))]), "", "refused program 3 2"));
    cases
}

/// A proof of just so many bytes, all of it deletions of nothing.
fn proof_of_length(length: usize) -> Vec<u8> {
    lines_of_length(length, ["d 0\n", "d 1 0\n", "d -1 0\n"]).into_bytes()
}

fn proof_lengths() -> Vec<Case> {
    let mut cases = Vec::new();
    for length in [65_534, 65_535, 65_536, 65_537] {
        let text = proof_of_length(length);
        assert_eq!(text.len(), length);
        let over = length > 65_535;
        cases.push(case(format!("a proof of {length} bytes"), program(RULE_1), text, if over { "refused proof 21 0" } else { "" }));
        let line = if over { "refused proof 21 0" } else { "refused proof 22 1" };
        cases.push(case(format!("a proof of {length} newlines"), program(RULE_1), vec![b'\n'; length], line));
        cases.push(case(format!("one line of {length} bytes"), program(RULE_1), vec![b'a'; length], line));
    }
    cases
}

/// 64 to 66 numbers after every letter, and the steps of the largest size that can be good.
fn number_counts() -> Vec<Case> {
    let mut cases = Vec::new();
    let rules = [choice(&count_to(64), &(65..=128).collect::<Vec<_>>()), normal(200, &(1..=64).map(|atom| -atom).collect::<Vec<_>>())];
    for letter in *b"abcdels" {
        for count in [0, 1, 2, 3, 64, 65, 66, 67] {
            for first in [1, 300] {
                let mut numbers: Vec<i32> = (1..=count).collect();
                if let Some(number) = numbers.first_mut() {
                    *number = first;
                }
                cases.push(case(
                    format!("{} with {count} numbers from {first}", letter as char),
                    program_text(&rules),
                    line_of(letter, &numbers),
                    "",
                ));
            }
        }
    }
    let mut largest = vec![300];
    largest.extend((65..=128).rev());
    let mut smallest = vec![8_191];
    smallest.extend((1..=64).map(|atom| -atom));
    let named = line_of(b'b', &largest) + &line_of(b'b', &smallest);
    cases.push(case("bodies of 64 literals", program_text(&rules), &named, "open 200 2 2 130"));
    cases.push(case("completed", program_text(&rules), named.clone() + "c 8191 200 0\nc 300 1 0\n", "refused proof 29 4"));
    let all = line_of(b'l', &count_to(65));
    cases.push(case("65 atoms, one of them without a rule", program_text(&rules), &all, "refused proof 56 1"));
    let back = normal(65, &count_to(64));
    let ring = [&rules[..], &[back]].concat();
    cases.push(case("a loop of 65", program_text(&ring), &all, "open 200 3 1 1"));
    let entered = program_text(&[&ring[..], &[normal(7, &(66..=129).collect::<Vec<_>>())]].concat());
    let mut outside = vec![300];
    outside.extend(66..=129);
    cases.push(case("a loop of 65 with a body outside", &entered, &all, "refused proof 32 1"));
    cases.push(case("a loop of 65 with a named body outside", &entered, line_of(b'b', &outside) + &all, "open 200 4 2 66"));
    cases.extend(supports());
    cases
}

/// Support by 64 bodies, which is the most that a line can name, and by 65.
fn supports() -> Vec<Case> {
    let mut cases = Vec::new();
    for (count, line) in [(63, "open 100 63 64 127"), (64, "open 100 64 65 129"), (65, "refused proof 23 66")] {
        let rules: Vec<Rule> = (1..=count).map(|atom| normal(100, &[atom])).collect();
        let mut text: String = (1..=count).map(|atom| line_of(b'b', &[100 + atom, atom])).collect();
        let mut numbers = vec![100];
        numbers.extend((101..=100 + count).rev());
        text.push_str(&line_of(b's', &numbers));
        cases.push(case(format!("support by {count} bodies"), program_text(&rules), text, line));
    }
    cases
}

fn variable_sizes() -> Vec<Case> {
    let mut cases = Vec::new();
    for number in [4_094, 4_095, 4_096, 4_097, 8_190, 8_191, 8_192, 8_193, 65_536, 2_147_483_647] {
        for letter in ["a", "d", "c", "l", "s", "b", "e", "a -", "d -", "e 2 -", "b 2 -", "c 2 ", "c -", "b -", "l 1 ", "s 1 "] {
            let spaced = if letter.len() == 1 { " " } else { "" };
            for largest in ["1 0 1 1 0 0", "1 0 1 4095 0 0", "1 0 1 8191 0 0"] {
                let step = format!("{letter}{spaced}{number} 0");
                cases.push(case(format!("step {step}"), program(&[largest]), proof(&[&step]), ""));
            }
        }
    }
    for name in [4_095, 4_096, 8_191] {
        cases.push(case(format!("name {name}"), program(RULE_1), format!("e {name} -1 0\na {name} 1 0\n"), "open 1 1 2 3"));
    }
    let names: String = (2_732..=8_191).rev().map(|name| line_of(b'e', &[name])).collect();
    cases.push(case("5,460 names", program(RULE_1), names.clone() + "a -8191 0\n", "open 1 1 5461 5461"));
    cases.push(case("one name more than the store holds", program(RULE_1), names.clone() + "e 2 0\ne 3 0\n", "refused proof 34 5462"));
    cases.push(case("a name of 5,460 again", program(RULE_1), names + "e 4096 0\n", "refused proof 27 5461"));
    cases.push(case("names after 4,095", program(&["1 0 1 4095 0 0"]), "e 4096 0\n", "open 4095 1 1 1"));
    cases.push(case("no name is left", program(&["1 0 1 8191 0 0"]), "e 8191 0\n", "refused proof 27 1"));
    cases
}

fn proof_shapes() -> Vec<Case> {
    let mut cases = Vec::new();
    for (step, line) in [
        ("", "refused proof 22 1"),
        ("a", "refused proof 22 1"),
        ("a ", "refused proof 22 1"),
        ("a0", "refused proof 22 1"),
        ("a  0", "refused proof 22 1"),
        ("a 0 ", "refused proof 22 1"),
        (" a 0", "refused proof 22 1"),
        ("a 0\r", "refused proof 22 1"),
        ("a 1", "refused proof 22 1"),
        ("a 0 0", "refused proof 22 1"),
        ("a -0", "refused proof 22 1"),
        ("a 00", "refused proof 22 1"),
        ("a +1 0", "refused proof 22 1"),
        ("A 0", "refused proof 22 1"),
        ("f 0", "refused proof 22 1"),
        ("0", "refused proof 22 1"),
        ("b 0", "refused proof 24 1"),
        ("b -2 0", "refused proof 24 1"),
        ("b 2 2 0", "refused proof 25 1"),
        ("b 2 3 0", "refused proof 26 1"),
        ("b 1 -1 0", "refused proof 25 1"),
        ("b 2 1 0", "refused proof 28 1"),
        ("e 2 3 0", "refused proof 26 1"),
        ("e 1 0", "refused proof 27 1"),
        ("e 1 3 0", "refused proof 26 1"),
        ("b 1 3 0", "refused proof 26 1"),
        ("c 1 0", "refused proof 29 1"),
        ("c 2 0", "refused proof 26 1"),
        ("s 1 0", "refused proof 30 1"),
        ("l 1 0", "refused proof 56 1"),
        ("a 1 0", "refused proof 33 1"),
        ("a 1 -1 0", "refused proof 25 1"),
        ("d 1 0", "open 1 1 1 0"),
        ("d 2 0", "refused proof 26 1"),
    ] {
        cases.push(case(format!("step {step:?}"), program(RULE_1), proof(&[step]), line));
    }
    for (step, line) in [
        ("s 2 0", "refused proof 30 2"),
        ("l 1 0", "open 1 2 2 3"),
        ("l 2 0", "refused proof 31 2"),
        ("l 1 2 0", "refused proof 31 2"),
        ("c 2 1 3 0", "refused proof 26 2"),
        ("c 2 0", "refused proof 29 2"),
        ("e 2 0", "refused proof 27 2"),
        ("b 4 -1 0", "refused proof 28 2"),
        ("a 1 2 0", "open 1 2 2 3"),
    ] {
        let named = proof(&["b 2 -1 0", step]);
        cases.push(case(format!("step 2 {step:?}"), program(&["1 0 1 1 0 1 -1", "1 1 1 1 0 1 1"]), named, line));
    }
    cases.push(case("c with a head too many", program(&["1 0 1 1 0 1 2"]), "b 3 2 0\nc 3 1 2 0\n", "refused proof 29 2"));
    cases.push(case("c with the head twice", program(&["1 0 1 1 0 1 2"]), "b 3 2 0\nc 3 1 1 0\n", "refused proof 25 2"));
    cases.push(case("no newline at the end", program(RULE_1), &proof(PROOF_1)[..proof(PROOF_1).len() - 1], "refused proof 22 5"));
    cases.push(case("text after the proof", program(RULE_1), [proof(PROOF_1), b" ".to_vec()].concat(), "refused proof 22 6"));
    cases.push(case("a step of 3,000 digits", program(RULE_1), format!("a {} 0\n", "9".repeat(3_000)), "refused proof 23 1"));
    cases
}

/// Extensions that take the 16,384 words of the store to the last, and one word more. One over so many literals takes three words and five for
/// each of them.
fn full_stores() -> Vec<Case> {
    let rules = [choice(&count_to(64), &[])];
    let wide = (0..50).map(|place| extension_over(100 + place, 64));
    let text: String = wide.chain((0..3).map(|place| extension_over(200 + place, 15))).collect();
    let with = |more: &str| text.clone() + more;
    let three = ["d 100 -1 0\n", "d 100 -2 0\n", "d 100 -3 0\n"].concat();
    let four = ["e 203 0\n", "e 204 0\n", "e 205 0\n", "e 206 0\n"].concat();
    vec![
        case("a full store", program_text(&rules), &text, "open 64 1 53 3298"),
        case("a full store and three words", program_text(&rules), with("e 203 0\n"), "refused proof 34 54"),
        case("a full store and a deletion of nothing", program_text(&rules), with("d 1 0\n"), "open 64 1 54 3298"),
        case("a full store with words used again", program_text(&rules), with("d 100 -1 0\ne 203 0\n"), "open 64 1 55 3298"),
        case("all of them used again", program_text(&rules), with(&(three.clone() + &four)), "open 64 1 60 3299"),
        case("and one word more", program_text(&rules), with(&(three[11..].to_string() + &four[8..])), "refused proof 34 58"),
        case("a refused step before the store", program_text(&rules), with("a 0\n"), "refused proof 33 54"),
        case("a line too wide for the store", program_text(&rules), with("a 100 -1 0\n"), "refused proof 34 54"),
    ]
}

/// Nogoods of late steps: up to the last of a text of 65,535 bytes, and after deletions that take nothing away or all that there is.
fn late_steps() -> Vec<Case> {
    let mut cases = Vec::new();
    for idle in [126, 127, 254, 255, 4_094, 4_095, 8_191, 16_382] {
        let text = "d 0\n".repeat(idle) + "e 2 0\n";
        cases.push(case(format!("a nogood of step {}", idle + 1), program(RULE_1), text, &format!("open 1 1 {} 1", idle + 1)));
    }
    let pairs = "e 2 0\n".to_string() + &"a -2 0\nd -2 0\n".repeat(4_000);
    cases.push(case("a nogood that is always the older one", program(RULE_1), &pairs, "open 1 1 8001 1"));
    cases.push(case("a nogood that is added 4,000 times", program(RULE_1), pairs.replace("d -2 0\n", ""), "open 1 1 4001 4001"));
    cases
}

fn extension_over(name: i32, count: i32) -> String {
    let mut numbers = vec![name];
    numbers.extend(1..=count);
    line_of(b'e', &numbers)
}

/// A rule to each atom from the one before it, and to the first from the last.
fn ring(atoms: &[i32]) -> Vec<Rule> {
    let before = atoms.iter().cycle().skip(atoms.len() - 1);
    atoms.iter().zip(before).map(|(atom, before)| normal(*atom, &[*before])).collect()
}

fn loop_case(name: &str, rules: &[Rule], atoms: &[i32], line: &str) -> Case {
    case(format!("{name}, {} atoms", atoms.len()), program_text(rules), line_of(b'l', atoms), line)
}

/// Loops of up to as many atoms as a line names, of the last atoms, and by the last of as many rules as there may be.
fn wide_loops() -> Vec<Case> {
    let mut cases: Vec<Case> =
        [2, 63, 64, 65].into_iter().flat_map(|count| [rings(count), cut_rings(count), two_rings(count)].concat()).collect();
    let most = count_to(64);
    cases.push(loop_case("every atom from every atom", &[choice(&most, &most)], &most, "open 64 1 1 1"));
    let last: Vec<i32> = (8_127..=8_191).collect();
    cases.push(loop_case("a ring of the last", &ring(&last), &last, "open 8191 65 1 1"));
    cases.push(loop_case("a ring of the last", &ring(&last[63..]), &last[63..], "open 8191 2 1 1"));
    cases.push(loop_case("a ring at 4,096", &ring(&[4_095, 4_096, 4_097]), &[4_096, 4_097, 4_095], "open 4097 3 1 1"));
    let late = [vec![constraint(&[1, 2]); 1_022], ring(&[1, 2])].concat();
    cases.push(loop_case("a ring by the last of 1,024 rules", &late, &[1, 2], "open 2 1024 1 1"));
    cases.push(loop_case("a ring without the last of 1,024 rules", &late[..1_023], &[1, 2], NO_LOOP));
    cases
}

const NO_LOOP: &str = "refused proof 56 1";

/// A ring in the order of the line, against it and in none; all but one of a ring; one atom that all others come from or lead to.
fn rings(count: i32) -> Vec<Case> {
    let atoms = count_to(count);
    let (rules, open) = (ring(&atoms), format!("open {count} {count} 1 1"));
    let turned: Vec<i32> = atoms.iter().rev().copied().collect();
    let mixed = [atoms.iter().copied().step_by(2).collect::<Vec<_>>(), atoms.iter().copied().skip(1).step_by(2).collect()].concat();
    vec![
        loop_case("a ring", &rules, &atoms, &open),
        loop_case("a ring against the order", &rules, &turned, &open),
        loop_case("a ring in no order", &rules, &mixed, &open),
        loop_case("all but one of a ring", &ring(&count_to(count + 1)), &atoms, NO_LOOP),
        loop_case("every atom from the first", &every(&atoms[..1], &atoms), &atoms, NO_LOOP),
        loop_case("every atom to the first", &every(&atoms, &atoms[..1]), &atoms, NO_LOOP),
        loop_case("every atom to the last", &every(&atoms, &atoms[count as usize - 1..]), &atoms, NO_LOOP),
    ]
}

/// A ring without one of its edges, or with a negated atom in its place.
fn cut_rings(count: i32) -> Vec<Case> {
    let atoms = count_to(count);
    let turned: Vec<i32> = atoms.iter().rev().copied().collect();
    let mut cases = Vec::new();
    for cut in [0, 1, count / 2, count - 1] {
        let mut rules = ring(&atoms);
        let before = (cut + count - 1) % count + 1;
        rules[cut as usize] = normal(cut + 1, &[-before]);
        cases.push(loop_case(&format!("a ring with edge {cut} negated"), &rules, &atoms, NO_LOOP));
        rules.remove(cut as usize);
        cases.push(loop_case(&format!("a ring without edge {cut}"), &rules, &atoms, NO_LOOP));
        cases.push(loop_case(&format!("a ring without edge {cut}, against the order"), &rules, &turned, NO_LOOP));
    }
    cases
}

/// Two rings, apart, with an edge between them one way, the other way, and both.
fn two_rings(count: i32) -> Vec<Case> {
    let atoms = count_to(count);
    let half = atoms.len() / 2;
    let apart = [ring(&atoms[..half]), ring(&atoms[half..])].concat();
    let with = |more: &[Rule]| [&apart[..], more].concat();
    let between = [normal(count, &[1]), normal(1, &[count])];
    vec![
        loop_case("two rings", &apart, &atoms, NO_LOOP),
        loop_case("two rings, an edge to the other", &with(&between[..1]), &atoms, NO_LOOP),
        loop_case("two rings, an edge from the other", &with(&between[1..]), &atoms, NO_LOOP),
        loop_case("two rings, edges both ways", &with(&between), &atoms, &format!("open {count} {} 1 1", count + 2)),
    ]
}

/// A rule for each head with each of the atoms alone as its body.
fn every(from: &[i32], heads: &[i32]) -> Vec<Rule> {
    heads.iter().flat_map(|head| from.iter().map(|atom| normal(*head, &[*atom]))).collect()
}

/// Rings whose edges go by literals of twelve weights: all of them relevant, or one of them not.
fn weight_rings() -> Vec<Case> {
    let mut cases = Vec::new();
    let count = 24;
    // By one of its twelve literals each atom depends on the atom after it; the others are outside the set.
    let rules = |bound: i32, light: i32| -> Vec<Rule> {
        let pairs = |atom: i32| (0..12).map(|place| if place == 5 { (atom % count + 1, light) } else { (100 + place, 2) }).collect();
        (1..=count).map(|atom| weighted(&[atom], bound, &pairs(atom) as &Vec<(i32, i32)>)).collect()
    };
    for (name, bound, light, line) in [
        ("each literal is needed", 24, 2, "open 111 24 1 1"),
        ("only all literals reach the bound", 23, 1, "open 111 24 1 1"),
        ("the ring's literal is too light", 22, 1, "refused proof 56 1"),
        ("the ring's literal has weight 0", 22, 0, "refused proof 56 1"),
        ("bound 0", 0, 4_095, "refused proof 56 1"),
        ("no bound is reached", 4_095, 2, "refused proof 56 1"),
        ("some sets are without it", 21, 1, "refused proof 32 1"),
        ("sets with and without it", 3, 1, "refused proof 32 1"),
    ] {
        let step = line_of(b'l', &count_to(count));
        cases.push(case(name, program_text(&rules(bound, light)), &step, line));
        let mut mixed = rules(bound, light);
        mixed.splice(3.., rules(24, 2).into_iter().skip(3));
        cases.push(case(format!("{name}, in three of {count} rules"), program_text(&mixed), &step, line));
    }
    cases
}

/// Loop nogoods that are longer than any line.
fn long_loops() -> Vec<Case> {
    let mut cases = Vec::new();
    for (count, line) in
        [(64, "open 65 65 65 129"), (65, "open 66 66 66 131"), (66, "open 67 67 67 133"), (1_023, "open 1024 1024 1024 2047")]
    {
        let top = count + 1;
        let mut rules: Vec<Rule> = (1..=count).map(|atom| normal(top, &[atom])).collect();
        rules.push(normal(top, &[top]));
        let mut text: String = (1..=count).map(|atom| line_of(b'b', &[top + atom, atom])).collect();
        text.push_str(&line_of(b'l', &[top]));
        cases.push(case(format!("a loop nogood of {top}"), program_text(&rules), text.clone(), line));
        let mut most: Vec<i32> = vec![top];
        most.extend((1..=count.min(64)).map(|atom| -(top + atom)));
        text.push_str(&line_of(b'd', &most));
        cases.push(case(format!("a deletion after a loop nogood of {top}"), program_text(&rules), text, ""));
    }
    cases
}

/// Rules that leave atom 1 no way to be true, and steps that say so by propagation and not by a nogood of atom 1 alone.
const DEAD_END: &[&str] = &["1 1 2 1 2 0 0", "1 0 0 0 2 1 2", "1 0 0 0 2 1 -2"];
const DEAD_END_STEPS: &str = "b 3 1 2 0\nb 4 1 -2 0\nc 3 0\nc 4 0\n";

/// Names that are each equal to the one before, the first to an atom.
fn chain(atom: i32, first: i32, last: i32) -> String {
    proof_text(&lines::chain(atom, first, last))
}

/// Chains of extensions that propagation has to go along, with the order of the store and against it.
fn long_chains() -> Vec<Case> {
    let mut cases = Vec::new();
    for (first, links) in [(5, 1), (5, 3), (5, 100), (5, 2_000), (6_192, 2_000)] {
        let last = first + links - 1;
        let steps = String::from(DEAD_END_STEPS) + &chain(1, first, last);
        let with = |more: String| steps.clone() + &more + "\n";
        let open = format!("open 2 3 {} {}", links + 5, 2 * links + 9);
        let refused = format!("refused proof 33 {}", links + 5);
        cases.push(case(format!("against the order, {links} links"), program(DEAD_END), with(format!("a {last} 0")), &open));
        cases.push(case(format!("no contradiction over {links} links"), program(DEAD_END), with(format!("a -{last} 0")), &refused));
        cases.push(case(format!("with the order, {links} links"), program(DEAD_END), with(format!("a 1 -{last} 0")), &open));
        let elsewhere = chain(2, first, last);
        cases.push(case(
            format!("a chain of {links} links elsewhere"),
            program(DEAD_END),
            String::from(DEAD_END_STEPS) + &elsewhere + &format!("a {last} 0\n"),
            &refused,
        ));
        let cut = with(format!("d -{last} {} 0\nd {last} -{} 0\na {last} 0", last - 1, last - 1));
        cases.push(case(format!("a cut chain of {links} links"), program(DEAD_END), cut, ""));
    }
    cases
}

/// Chains among more live words than the store of `verdict` has; a longer store holds them.
fn chains_behind_many_words() -> Vec<Case> {
    let rules = [choice(&count_to(64), &[]), constraint(&[1, 2]), constraint(&[1, -2])];
    let wide: String = (0..65).map(|place| extension_over(2_000 + place, 64)).collect();
    let steps = DEAD_END_STEPS.replace("b 3", "b 3000").replace("b 4", "b 3001").replace("c 3", "c 3000").replace("c 4", "c 3001")
        + &chain(1, 65, 465);
    let mut cases = Vec::new();
    for last in ["a 465 0", "a -465 0", "a 1 -465 0", "a 465 2064 0", "a -2 2003 0", "a 3 -2003 0"] {
        cases.push(case(
            format!("{last} behind many words"),
            program_text(&rules),
            wide.clone() + &steps + last + "\n",
            "refused proof 34 51",
        ));
        cases.push(case(format!("{last} before many words"), program_text(&rules), steps.clone() + &wide + last + "\n", ""));
    }
    cases
}

#[cfg(test)]
mod tests {
    use super::*;
    use crate::reference::check::{check, verdict_line};
    use inputs::ROOM;

    #[test]
    fn reference_says_what_is_plain() {
        for case in cases() {
            if let Some(line) = case.line.as_ref().filter(|_| case.pair.proof.len() < 30_000) {
                let ending = check(&case.pair.program, &case.pair.proof, ROOM, ROOM);
                assert_eq!(verdict_line(&ending.verdict), *line, "{}", case.name);
            }
        }
    }
}
