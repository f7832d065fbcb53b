//! Packets with the answers that document 02 asks for, packets at the limits, and changes of packets, of both versions. All are put together
//! here byte by byte, and not by the writer.

use inputs::random::Random;

use super::fixed::{proof, PROOF_1};
use crate::reference::packets::Version;

/// A packet, the version told, the words and bytes lent, and the rule count and the proof text that the reader must come to, or its refusal.
pub struct ReaderCase {
    pub name: String,
    pub version: Version,
    pub packet: Vec<u8>,
    pub table: usize,
    pub proof: usize,
    pub answer: Result<(usize, Vec<u8>), u8>,
}

/// The version told, a table with a rule count, a proof text, the bytes lent, and the bytes that the packet must have, or the refusal.
pub struct WriterCase {
    pub name: &'static str,
    pub version: Version,
    pub table: Vec<i32>,
    pub rules: usize,
    pub proof: Vec<u8>,
    pub packet: usize,
    pub answer: Result<usize, u8>,
}

/// Enough words and bytes for every case but those at the limits.
const ENOUGH: usize = 500;

/// "the three bytes `RVP`, 16-bit version 1", or 2.
fn front(version: Version) -> [u8; 5] {
    match version {
        Version::One => [0x52, 0x56, 0x50, 0x01, 0x00],
        Version::Two => [0x52, 0x56, 0x50, 0x02, 0x00],
    }
}

/// The words of starred example 1 in the table; its packet of version 1 has them without the body kind.
pub const TABLE_1: [i32; 6] = [0, 1, 0, 1, 1, -1];

/// The packet of starred example 1.
pub const PACKET_1: [u8; 57] = [
    0x52, 0x56, 0x50, 0x01, 0x00, 0x05, 0x00, 0x00, 0x00, 0x05, 0x00, 0x00, 0x00, //
    0x00, 0x00, 0x00, 0x00, 0x01, 0x00, 0x00, 0x00, 0x01, 0x00, 0x00, 0x00, 0x01, 0x00, 0x00, 0x00, 0xff, 0xff, 0xff, 0xff, //
    0x62, 0x02, 0x02, 0x00, 0xff, 0xff, 0x63, 0x02, 0x02, 0x00, 0x01, 0x00, 0x73, 0x02, 0x01, 0x00, 0x02, 0x00, //
    0x61, 0x01, 0x01, 0x00, 0x61, 0x00,
];

/// The packet of starred example 1 in version 2: a word more.
pub const PACKET_1_IN_2: [u8; 61] = [
    0x52, 0x56, 0x50, 0x02, 0x00, 0x06, 0x00, 0x00, 0x00, 0x05, 0x00, 0x00, 0x00, //
    0x00, 0x00, 0x00, 0x00, 0x01, 0x00, 0x00, 0x00, 0x00, 0x00, 0x00, 0x00, 0x01, 0x00, 0x00, 0x00, 0x01, 0x00, 0x00, 0x00, //
    0xff, 0xff, 0xff, 0xff, //
    0x62, 0x02, 0x02, 0x00, 0xff, 0xff, 0x63, 0x02, 0x02, 0x00, 0x01, 0x00, 0x73, 0x02, 0x01, 0x00, 0x02, 0x00, //
    0x61, 0x01, 0x01, 0x00, 0x61, 0x00,
];

/// A packet that states these counts, with the bytes after them.
pub fn stating(version: Version, words: u32, steps: u32, rest: &[u8]) -> Vec<u8> {
    [&front(version), &words.to_le_bytes()[..], &steps.to_le_bytes(), rest].concat()
}

/// The bytes of words.
pub fn word_bytes(words: &[i32]) -> Vec<u8> {
    words.iter().flat_map(|word| word.to_le_bytes()).collect()
}

/// A packet of words alone.
pub fn of_words(version: Version, words: &[i32]) -> Vec<u8> {
    stating(version, words.len() as u32, 0, &word_bytes(words))
}

/// The bytes of a step, its count as it is or cut to a byte.
pub fn step(letter: u8, numbers: &[i32]) -> Vec<u8> {
    let mut bytes = vec![letter, numbers.len() as u8];
    bytes.extend(numbers.iter().flat_map(|number| (*number as i16).to_le_bytes()));
    bytes
}

/// A packet of one step alone.
fn of_step(version: Version, letter: u8, numbers: &[i32]) -> Vec<u8> {
    stating(version, 0, 1, &step(letter, numbers))
}

/// A packet of so many steps of one kind.
fn of_steps(version: Version, bytes: &[u8], count: usize) -> Vec<u8> {
    stating(version, 0, count as u32, &bytes.repeat(count))
}

fn numbers_to(last: i32) -> Vec<i32> {
    (1..=last).collect()
}

fn refused(number: u8, name: &str, packet: Vec<u8>) -> ReaderCase {
    ReaderCase { name: String::from(name), version: Version::One, packet, table: ENOUGH, proof: ENOUGH, answer: Err(number) }
}

fn taken(rules: usize, text: &str, name: &str, packet: Vec<u8>) -> ReaderCase {
    ReaderCase { answer: Ok((rules, text.as_bytes().to_vec())), ..refused(0, name, packet) }
}

/// The cases with version 2 told.
fn in_version_2(cases: Vec<ReaderCase>) -> Vec<ReaderCase> {
    cases.into_iter().map(|case| ReaderCase { name: format!("{} in version 2", case.name), version: Version::Two, ..case }).collect()
}

/// The reader's worked cases.
pub fn reader_cases() -> Vec<ReaderCase> {
    let mut cases = vec![taken(1, "b 2 -1 0\nc 2 1 0\ns 1 2 0\na 1 0\na 0\n", "starred 1", PACKET_1.to_vec())];
    cases.extend(marks());
    cases.extend(lengths(Version::One));
    cases.extend(tables());
    cases.extend(steps(Version::One));
    cases.extend(old_steps());
    cases.extend(outputs());
    cases.extend(in_version_2(marks_in_2()));
    cases.extend(in_version_2(lengths(Version::Two)));
    cases.extend(in_version_2(tables_in_2()));
    cases.extend(in_version_2(steps(Version::Two)));
    cases.extend(in_version_2(new_steps()));
    cases
}

fn marks() -> Vec<ReaderCase> {
    let zeros = [0; 8];
    vec![
        refused(51, "no bytes", Vec::new()),
        refused(51, "four bytes", b"RVP\x01".to_vec()),
        refused(51, "another mark", [b"RVQ\x01\x00", &zeros[..]].concat()),
        refused(51, "version 2", [b"RVP\x02\x00", &zeros[..]].concat()),
        refused(51, "the version's bytes the other way", [b"RVP\x00\x01", &zeros[..]].concat()),
    ]
}

fn marks_in_2() -> Vec<ReaderCase> {
    let zeros = [0; 8];
    vec![
        refused(51, "no bytes", Vec::new()),
        refused(51, "four bytes", b"RVP\x02".to_vec()),
        refused(51, "another mark", [b"RVQ\x02\x00", &zeros[..]].concat()),
        refused(51, "version 1", [b"RVP\x01\x00", &zeros[..]].concat()),
        refused(51, "version 3", [b"RVP\x03\x00", &zeros[..]].concat()),
        refused(51, "version 258", [b"RVP\x02\x01", &zeros[..]].concat()),
        refused(51, "starred 1 of version 1", PACKET_1.to_vec()),
    ]
}

fn lengths(version: Version) -> Vec<ReaderCase> {
    let stating = |words, steps, rest: &[u8]| stating(version, words, steps, rest);
    let after_front = |zeros: usize| [&front(version)[..], &vec![0; zeros]].concat();
    vec![
        refused(52, "mark and version alone", after_front(0)),
        refused(52, "7 zeros", after_front(7)),
        refused(52, "9 zeros", after_front(9)),
        refused(52, "a step that is missing", stating(0, 1, &[])),
        refused(52, "ffffffff words", stating(u32::MAX, 0, &[])),
        refused(52, "a number that is cut", stating(0, 1, &[0x61, 0x01, 0x05])),
        refused(52, "lengths before a letter that is none", stating(0, 1, &[0x78, 0x01])),
        taken(0, "", "8 zeros", after_front(8)),
        ReaderCase { table: 0, proof: 0, ..taken(0, "", "8 zeros, nothing lent", after_front(8)) },
    ]
}

fn tables() -> Vec<ReaderCase> {
    let of_words = |words: &[i32]| of_words(Version::One, words);
    let mut last = of_words(&[0, 0, 1, 5]);
    let end = last.len();
    last[end - 4..].copy_from_slice(&[0x00, 0x00, 0x00, 0x80]);
    vec![
        taken(1, "", "3 zero words", of_words(&[0; 3])),
        ReaderCase { table: 4, ..taken(1, "", "3 zero words, 4 lent", of_words(&[0; 3])) },
        ReaderCase { table: 3, ..refused(52, "3 zero words, 3 lent", of_words(&[0; 3])) },
        ReaderCase { table: 4_096, ..taken(1_024, "", "3,072 zero words", of_words(&[0; 3_072])) },
        ReaderCase { table: 4_095, ..refused(52, "3,072 zero words, 4,095 lent", of_words(&[0; 3_072])) },
        refused(53, "2 zero words", of_words(&[0; 2])),
        ReaderCase { table: 3_075, ..refused(53, "3,075 zero words", of_words(&[0; 3_075])) },
        taken(1, "", "head 4,095", of_words(&[0, 1, 0, 4_095])),
        refused(53, "head 4,096", of_words(&[0, 1, 0, 4_096])),
        refused(53, "head 8,191", of_words(&[0, 1, 0, 8_191])),
        refused(53, "head 8,192", of_words(&[0, 1, 0, 8_192])),
        taken(1, "", "literal -4,095", of_words(&[0, 0, 1, -4_095])),
        refused(53, "literal -4,096", of_words(&[0, 0, 1, -4_096])),
        ReaderCase { table: 0, ..refused(53, "head 4,096, no table lent", of_words(&[0, 1, 0, 4_096])) },
        refused(53, "literals that do not ascend", of_words(&[0, 0, 2, 2, -1])),
        refused(53, "a last word of 80000000", last),
        refused(53, "words with a body kind", of_words(&TABLE_1)),
        refused(53, "a rule with weights", of_words(&[0, 0, 1, 1, 1, 5, 1])),
        ReaderCase { table: 0, ..refused(53, "2 zero words, no table lent", of_words(&[0; 2])) },
    ]
}

/// Tables of version 2, which are those outside.
fn tables_in_2() -> Vec<ReaderCase> {
    let of_words = |words: &[i32]| of_words(Version::Two, words);
    vec![
        ReaderCase { answer: Ok((1, proof(PROOF_1))), ..taken(1, "", "starred 1", PACKET_1_IN_2.to_vec()) },
        ReaderCase { table: 6, proof: 35, answer: Ok((1, proof(PROOF_1))), ..taken(1, "", "just enough lent", PACKET_1_IN_2.to_vec()) },
        ReaderCase { table: 5, ..refused(52, "a table of 5 words", PACKET_1_IN_2.to_vec()) },
        ReaderCase { proof: 34, ..refused(52, "a text of 34 bytes", PACKET_1_IN_2.to_vec()) },
        taken(1, "", "4 zero words", of_words(&[0; 4])),
        ReaderCase { table: 4, ..taken(1, "", "4 zero words, 4 lent", of_words(&[0; 4])) },
        ReaderCase { table: 3, ..refused(52, "4 zero words, 3 lent", of_words(&[0; 4])) },
        ReaderCase { table: 4_096, ..taken(1_024, "", "4,096 zero words", of_words(&[0; 4_096])) },
        refused(53, "3 zero words", of_words(&[0; 3])),
        ReaderCase { table: 4_100, ..refused(53, "4,100 zero words", of_words(&[0; 4_100])) },
        refused(53, "words without a body kind", of_words(&[0, 1, 1, 1, -1])),
        taken(1, "", "head 4,096", of_words(&[0, 1, 0, 0, 4_096])),
        taken(1, "", "head 8,191", of_words(&[0, 1, 0, 0, 8_191])),
        refused(53, "head 8,192", of_words(&[0, 1, 0, 0, 8_192])),
        taken(1, "", "literal -8,191", of_words(&[0, 0, 0, 1, -8_191])),
        refused(53, "literal -8,192", of_words(&[0, 0, 0, 1, -8_192])),
        taken(1, "", "weights and no literal", of_words(&[0, 0, 1, 0, 0])),
        taken(1, "", "bound and weight 4,095", of_words(&[0, 0, 1, 1, 4_095, 8_191, 4_095])),
        taken(1, "", "weight 0", of_words(&[0, 0, 1, 1, 0, 8_191, 0])),
        refused(53, "weight 4,096", of_words(&[0, 0, 1, 1, 1, 5, 4_096])),
        refused(53, "weight -1", of_words(&[0, 0, 1, 1, 1, 5, -1])),
        refused(53, "bound 4,096", of_words(&[0, 0, 1, 1, 4_096, 5, 1])),
        refused(53, "body kind 2", of_words(&[0, 0, 2, 0, 0])),
        refused(53, "weights cut", of_words(&[0, 0, 1, 1, 1, 5])),
        refused(53, "no bound", of_words(&[0, 0, 1, 0])),
    ]
}

/// Steps that are alike in both versions.
fn steps(version: Version) -> Vec<ReaderCase> {
    let of_step = |letter, numbers: &[i32]| of_step(version, letter, numbers);
    let all: String = numbers_to(65).iter().map(|number| format!(" {number}")).collect();
    let many = |count, name: &str| ReaderCase { proof: 65_535, ..refused(53, name, of_steps(version, &[0x61, 0x00], count)) };
    let text = "a 0\n".repeat(16_383);
    vec![
        taken(0, "a 0\n", "a without numbers", of_step(b'a', &[])),
        taken(0, "a -4095 0\n", "-4,095", of_step(b'a', &[-4_095])),
        taken(0, "a 7 0\n", "a variable that is not known", of_step(b'a', &[7])),
        taken(0, &format!("a{all} 0\n"), "65 numbers", of_step(b'a', &numbers_to(65))),
        refused(53, "letter 78", of_step(0x78, &[])),
        refused(53, "b without a number", of_step(0x62, &[])),
        refused(53, "a number 0", of_step(b'a', &[0])),
        refused(53, "8,192", of_step(b'a', &[8_192])),
        refused(53, "-32,768", of_step(b'a', &[-32_768])),
        refused(53, "c with -1", of_step(0x63, &[-1])),
        refused(53, "a variable twice", of_step(b'a', &[1, -1])),
        refused(53, "66 numbers", of_step(b'a', &numbers_to(66))),
        ReaderCase { answer: Ok((0, text.into_bytes())), ..many(16_383, "16,383 steps") },
        many(16_384, "16,384 steps"),
        ReaderCase { proof: 10, ..many(16_384, "16,384 steps, 10 bytes lent") },
    ]
}

/// Steps with variables above 4,095, in version 1 and in version 2.
fn old_steps() -> Vec<ReaderCase> {
    let of_step = |letter, numbers: &[i32]| of_step(Version::One, letter, numbers);
    vec![
        refused(53, "4,096", of_step(b'a', &[4_096])),
        refused(53, "-8,191", of_step(b'a', &[-8_191])),
        refused(53, "a name 4,096", of_step(b'e', &[4_096])),
        refused(53, "4,096 after others", of_step(b'd', &[1, 2, -4_096])),
    ]
}

fn new_steps() -> Vec<ReaderCase> {
    let of_step = |letter, numbers: &[i32]| of_step(Version::Two, letter, numbers);
    vec![
        taken(0, "a 4096 0\n", "4,096", of_step(b'a', &[4_096])),
        taken(0, "a -8191 0\n", "-8,191", of_step(b'a', &[-8_191])),
        taken(0, "e 4096 0\n", "a name 4,096", of_step(b'e', &[4_096])),
        refused(53, "-8,192", of_step(b'd', &[1, 2, -8_192])),
    ]
}

fn outputs() -> Vec<ReaderCase> {
    let starred = |name, table, text| ReaderCase { table, proof: text, ..refused(52, name, PACKET_1.to_vec()) };
    let enough = ReaderCase { answer: Ok((1, proof(PROOF_1))), ..starred("starred 1, just enough lent", 6, 35) };
    vec![
        enough,
        starred("starred 1, a table of 5 words", 5, 35),
        starred("starred 1, a text of 34 bytes", 6, 34),
        refused(52, "starred 1 and a zero", [&PACKET_1[..], &[0]].concat()),
    ]
}

/// The writer's worked cases, those of version 1 and then those of version 2.
pub fn writer_cases() -> Vec<WriterCase> {
    let mut cases = writer_cases_of_1();
    cases.extend(writer_cases_of_2());
    cases
}

fn writer_case(
    name: &'static str,
    version: Version,
    table: &[i32],
    rules: usize,
    text: &[u8],
    rest: (usize, Result<usize, u8>),
) -> WriterCase {
    WriterCase { name, version, table: table.to_vec(), rules, proof: text.to_vec(), packet: rest.0, answer: rest.1 }
}

fn writer_cases_of_2() -> Vec<WriterCase> {
    let case =
        |name, table: &[i32], rules, text: &[u8], packet, answer| writer_case(name, Version::Two, table, rules, text, (packet, answer));
    let text = &proof(PROOF_1);
    let weights = [0, 0, 1, 0, 0];
    vec![
        case("starred 1 in version 2", &TABLE_1, 1, text, 61, Ok(61)),
        case("starred 1 in version 2, an output of 60 bytes", &TABLE_1, 1, text, 60, Err(52)),
        case("a rule count of 0 in version 2", &TABLE_1, 0, text, 61, Err(53)),
        case("zeros after the rules in version 2", &[&TABLE_1[..], &[0; 4]].concat(), 1, text, 61, Ok(61)),
        case("a rule of zeros in version 2", &[&TABLE_1[..], &[0; 4]].concat(), 2, b"", 53, Ok(53)),
        case("a rule with weights in version 2", &weights, 1, b"", 33, Ok(33)),
        case("a rule with weights in version 2, an output of 32 bytes", &weights, 1, b"", 32, Err(52)),
        case(
            "twelve weights",
            &[&[0, 0, 1, 12, 6][..], &(1..=12).flat_map(|atom| [atom, 1]).collect::<Vec<_>>()].concat(),
            1,
            b"",
            129,
            Ok(129),
        ),
        case(
            "thirteen weights",
            &[&[0, 0, 1, 13, 6][..], &(1..=13).flat_map(|atom| [atom, 1]).collect::<Vec<_>>()].concat(),
            1,
            b"",
            199,
            Err(53),
        ),
        case("atom 8,191 and step -8,191", &[0, 1, 0, 0, 8_191], 1, b"a -8191 0\n", 37, Ok(37)),
        case("atom 8,192", &[0, 1, 0, 0, 8_192], 1, b"", 99, Err(53)),
        case("step 8,192", &[], 0, b"a 8192 0\n", 99, Err(53)),
        case("a rule with weights, and a line cut", &weights, 1, b"a 0", 99, Err(53)),
        case("nothing in version 2", &[], 0, b"", 13, Ok(13)),
        case("nothing in version 2, an output of 12 bytes", &[], 0, b"", 12, Err(52)),
    ]
}

fn writer_cases_of_1() -> Vec<WriterCase> {
    let case =
        |name, table: &[i32], rules, text: &[u8], packet, answer| writer_case(name, Version::One, table, rules, text, (packet, answer));
    let text = &proof(PROOF_1);
    let and_zeros = [&TABLE_1[..], &[0; 4]].concat();
    let weights = [0, 0, 1, 0, 0];
    vec![
        case("starred 1", &TABLE_1, 1, text, 57, Ok(57)),
        case("starred 1, an output of 56 bytes", &TABLE_1, 1, text, 56, Err(52)),
        case("a rule count of 0", &TABLE_1, 0, text, 57, Err(53)),
        case("a rule of zeros", &and_zeros, 2, b"", 45, Ok(45)),
        case("zeros after the rules", &and_zeros, 1, text, 57, Ok(57)),
        case("starred 1 without steps", &TABLE_1, 1, b"", 33, Ok(33)),
        case("a rule with weights", &weights, 1, b"", 99, Err(53)),
        case("a rule with weights, no output", &weights, 1, b"", 0, Err(53)),
        case("a rule with weights after another", &[&TABLE_1[..], &weights].concat(), 2, text, 99, Err(53)),
        case("a table without body kinds", &[0, 1, 1, 1, -1], 1, text, 99, Err(53)),
        case("atom 4,095", &[0, 1, 0, 0, 4_095], 1, b"", 29, Ok(29)),
        case("atom 4,096", &[0, 1, 0, 0, 4_096], 1, b"", 99, Err(53)),
        case("atom 4,096, no output", &[0, 1, 0, 0, 4_096], 1, b"", 0, Err(53)),
        case("atom 8,191 after a rule", &[&TABLE_1[..], &[0, 1, 0, 0, 8_191]].concat(), 2, b"", 99, Err(53)),
        case("literal -4,096", &[0, 0, 0, 1, -4_096], 1, b"", 99, Err(53)),
        case("step -4,095", &TABLE_1, 1, b"a -4095 0\n", 99, Ok(37)),
        case("step 4,096", &TABLE_1, 1, b"a 4096 0\n", 99, Err(53)),
        case("step 4,096, no output", &TABLE_1, 1, b"a 0\na 4096 0\n", 0, Err(53)),
        case("step 8,191 after others", &TABLE_1, 1, b"a 0\nd 1 2 -8191 0\n", 99, Err(53)),
        case("no newline at the end", &TABLE_1, 1, b"a 0", 57, Err(53)),
        case("no newline at the end, no output", &TABLE_1, 1, b"a 0", 0, Err(53)),
        case("nothing", &[], 0, b"", 13, Ok(13)),
        case("nothing, an output of 12 bytes", &[], 0, b"", 12, Err(52)),
    ]
}

/// Small packets of which every prefix and every change of a byte is tried.
pub fn small_packets() -> Vec<(Version, Vec<u8>)> {
    let mut packets = vec![(Version::One, PACKET_1.to_vec()), (Version::Two, PACKET_1_IN_2.to_vec())];
    let old_words = word_bytes(&[1, 2, 1, 1, 4_095, -7, 0, 0, 0]);
    let new_words = word_bytes(&[1, 2, 0, 1, 1, 4_095, -7, 0, 0, 0, 0]);
    let weights = word_bytes(&[0, 1, 1, 2, 3, 8_191, -2, 4, 4_096, 0]);
    let limits = [step(b'a', &[-4_095, 4_094]), step(b'd', &[256, -255]), step(b'e', &[1])].concat();
    packets.push((Version::One, stating(Version::One, 9, 3, &[old_words, limits.clone()].concat())));
    packets.push((Version::Two, stating(Version::Two, 11, 3, &[new_words, limits].concat())));
    packets.push((Version::Two, stating(Version::Two, 10, 1, &[weights, step(b'a', &[-8_191])].concat())));
    packets.push((Version::Two, of_words(Version::Two, &[0, 0, 1, 0, 0])));
    for version in [Version::One, Version::Two] {
        let each_letter: Vec<u8> = b"abcdels".iter().flat_map(|letter| step(*letter, &[3, 4])).collect();
        packets.push((version, stating(version, 0, 0, &[])));
        packets.push((version, of_words(version, if version == Version::One { &[0; 3] } else { &[0; 4] })));
        packets.push((version, stating(version, 0, 7, &each_letter)));
        packets.push((version, of_steps(version, &[0x61, 0x00], 3)));
    }
    packets
}

/// Packets at the limits of what is counted and of what a number may be.
pub fn limits(version: Version) -> Vec<Vec<u8>> {
    let mut packets = Vec::new();
    packets.extend(count_limits(version));
    packets.extend(word_limits(version));
    packets.extend(step_limits(version));
    packets.extend(text_limits(version));
    packets
}

/// Counts of words and steps far above what is there, and such that four times the words is small in 32 bits.
fn count_limits(version: Version) -> Vec<Vec<u8>> {
    let stating = |words, steps, rest: &[u8]| stating(version, words, steps, rest);
    let mut packets = Vec::new();
    for count in [1, 2, 3, 255, 256, 65_535, 65_536, 0x3fff_ffff, 0x4000_0000, 0x4000_0001, 0x7fff_ffff, 0x8000_0000, u32::MAX] {
        for rest in [&[][..], &[0; 12], &[0x61, 0x00, 0x61, 0x00], &[0x61, 0xff]] {
            packets.extend([stating(count, 0, rest), stating(0, count, rest), stating(count, count, rest), stating(count, 1, rest)]);
        }
    }
    packets
}

/// A plain rule's words: its head kind and count, in version 2 the body kind, the body count, and what follows.
fn plain_words(version: Version, kind: i32, heads: &[i32], body: &[i32]) -> Vec<i32> {
    let body_kind: &[i32] = if version == Version::One { &[] } else { &[0] };
    [&[kind, heads.len() as i32], body_kind, &[body.len() as i32], heads, body].concat()
}

/// Rules at the limit of their number and of their size, and words at every limit in every place of a rule.
fn word_limits(version: Version) -> Vec<Vec<u8>> {
    let of_words = |words: &[i32]| of_words(version, words);
    let least = plain_words(version, 0, &[], &[]).len();
    let mut packets: Vec<Vec<u8>> =
        [1_023 * least, 1_024 * least - 1, 1_024 * least, 1_024 * least + 1, 1_025 * least].map(|words| of_words(&vec![0; words])).into();
    let largest = if version == Version::One { 4_095 } else { 8_191 };
    let body: Vec<i32> = (largest - 63..=largest).map(|atom| -atom).collect();
    let widest = plain_words(version, 1, &numbers_to(64), &body);
    packets.extend([1_024, 1_025].map(|rules| of_words(&widest.repeat(rules))));
    let mut goods = vec![plain_words(version, 1, &[3, 4], &[5, -6])];
    if version == Version::Two {
        goods.push(vec![1, 2, 1, 2, 5, 3, 4, -1, 2, 4_095, 3]);
        packets.push(of_words(&goods[1].repeat(1_024)));
    }
    let sizes = [4_095, 4_096, 8_191, 8_192, -4_095, -4_096, -8_191, -8_192, 65_536, 65_537, i32::MAX, i32::MIN];
    for good in goods {
        for word in [0, 1, -1, 2, 3, 4, 5, 6, 7, 12, 13, 63, 64, 65].into_iter().chain(sizes) {
            for place in 0..good.len() {
                let mut changed = good.clone();
                changed[place] = word;
                packets.push(of_words(&changed));
            }
        }
        packets.extend((0..good.len()).map(|count| of_words(&good[..count])));
    }
    for (kind, count) in [(0, 1), (0, 2), (1, 0), (1, 1), (1, 64), (1, 65)] {
        packets.push(of_words(&plain_words(version, kind, &numbers_to(count), &[])));
        packets.push(of_words(&plain_words(version, 0, &[], &numbers_to(count))));
    }
    packets
}

/// Every byte as a letter; numbers of every size in the first and a later place, and 0 to 255 of them, after each letter.
fn step_limits(version: Version) -> Vec<Vec<u8>> {
    let of_step = |letter, numbers: &[i32]| of_step(version, letter, numbers);
    let mut packets = Vec::new();
    for letter in 0..=255 {
        packets.extend([of_step(letter, &[]), of_step(letter, &[9]), of_step(letter, &[9, 8])]);
    }
    for letter in *b"abcdelsx" {
        for number in [0, 1, 2, 3, 9, 10, 99, 100, 999, 1_000, 4_094, 4_095, 4_096, 4_097, 8_190, 8_191, 8_192, 32_767, 32_768] {
            for signed in [number, -number] {
                packets.extend([of_step(letter, &[signed]), of_step(letter, &[3, signed]), of_step(letter, &[signed, 3])]);
            }
        }
        for count in [63, 64, 65, 66, 67, 127, 128, 255] {
            packets.push(of_step(letter, &numbers_to(count)));
        }
    }
    packets
}

/// Steps whose text has 65,534 to 65,536 bytes, and many more.
fn text_limits(version: Version) -> Vec<Vec<u8>> {
    let short = [0x61, 0x00].repeat(16_382);
    let with = |numbers: &[i32]| stating(version, 0, 16_383, &[&short[..], &step(b'a', numbers)].concat());
    let mut packets = vec![with(&[1]), with(&[10]), with(&[100]), with(&[-10])];
    packets.extend([16_382, 16_384, 20_000].map(|count| of_steps(version, &[0x61, 0x00], count)));
    let wide = step(b'd', &(4_031..=4_095).map(|number| -number).collect::<Vec<_>>());
    packets.extend([168, 169, 170].map(|count| of_steps(version, &wide, count)));
    packets
}

/// The packet with a byte or two changed, put in or taken out, cut off, doubled, or with a count changed.
pub fn changed(packet: &[u8], random: &mut Random) -> Vec<u8> {
    let mut packet = packet.to_vec();
    for _ in 0..random.between(1, 2) {
        change_once(&mut packet, random);
    }
    packet
}

fn change_once(packet: &mut Vec<u8>, random: &mut Random) {
    let place = random.below(packet.len() + 1);
    let byte = *random.pick(&[0, 1, 2, 3, 0x0f, 0x10, 0x40, 0x41, 0x42, 0x61, 0x63, 0x6c, 0x78, 0x7f, 0x80, 0xf0, 0xff]);
    match random.below(8) {
        0 => packet.insert(place, byte),
        1 if place < packet.len() => {
            packet.remove(place);
        }
        2 => packet.truncate(place),
        3 if packet.len() > 13 => {
            let count = *random.pick(&[5, 9]);
            packet[count] = packet[count].wrapping_add(*random.pick(&[1, 255]));
        }
        4 if place < packet.len() => packet[place] ^= 1 << random.below(8),
        5 if place + 1 < packet.len() => packet.swap(place, place + 1),
        _ if place < packet.len() => packet[place] = byte,
        _ => packet.push(byte),
    }
}

#[cfg(test)]
mod tests {
    use super::*;
    use crate::reference::packets::{read, write};

    #[test]
    fn reference_reads_as_the_documents_ask() {
        for case in reader_cases() {
            let found = read(case.version, &case.packet, case.table, case.proof);
            let answer = found.answer.map(|(rules, bytes)| (rules, found.proof[..bytes].to_vec()));
            assert_eq!(answer, case.answer, "{}", case.name);
        }
    }

    #[test]
    fn reference_writes_as_the_documents_ask() {
        for case in writer_cases() {
            let found = write(case.version, &case.table, case.rules, &case.proof, case.packet);
            assert_eq!(found.answer, case.answer, "{}", case.name);
        }
        assert_eq!(write(Version::One, &TABLE_1, 1, &proof(PROOF_1), 57).packet, PACKET_1);
        assert_eq!(write(Version::Two, &TABLE_1, 1, &proof(PROOF_1), 61).packet, PACKET_1_IN_2);
    }

    #[test]
    fn limits_are_met_on_both_sides() {
        for version in [Version::One, Version::Two] {
            let answers: Vec<Result<(usize, usize), u8>> =
                limits(version).iter().map(|packet| read(version, packet, 200_000, 65_535).answer).collect();
            for answer in [Ok((1_024, 0)), Ok((0, 65_534)), Ok((0, 65_535)), Err(52), Err(53)] {
                assert!(answers.contains(&answer), "{answer:?}");
            }
        }
    }

    #[test]
    fn small_packets_are_good() {
        for (version, packet) in small_packets() {
            assert!(read(version, &packet, 99, 999).answer.is_ok(), "{packet:?}");
        }
    }
}
