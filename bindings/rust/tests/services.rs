//! The fourteen services on document 01's starred examples, on rules with weights, and on buffers that are too small or
//! empty.

use aspdrupe::*;

// Starred example 1.
const PROGRAM: &[u8] = b"asp 1 0 0\n1 0 1 1 0 1 -1\n0\n";
const PROOF: &[u8] = b"b 2 -1 0\nc 2 1 0\ns 1 2 0\na 1 0\na 0\n";
const RULES: [i32; 6] = [0, 1, 0, 1, 1, -1];
// Before each count the step.
const STORE: [i32; 21] = [1, 2, -1, -2, 1, 2, 1, 2, 2, 2, -1, 2, 3, 2, 1, -2, 4, 1, 1, 5, 0];

// Its packet of version 1: mark and version, 5 words, 5 steps; the words without the body kind; the steps.
const PACKET: [u8; 57] = [
    0x52, 0x56, 0x50, 1, 0, 5, 0, 0, 0, 5, 0, 0, 0, //
    0, 0, 0, 0, 1, 0, 0, 0, 1, 0, 0, 0, 1, 0, 0, 0, 255, 255, 255, 255, //
    b'b', 2, 2, 0, 255, 255, b'c', 2, 2, 0, 1, 0, b's', 2, 1, 0, 2, 0, b'a', 1, 1, 0, b'a', 0,
];

/// The verdict's line, the table and the store, for buffers of so many words.
fn checked(program: &[u8], proof: &[u8], table: usize, store: usize) -> (String, Vec<i32>, Vec<i32>) {
    let (mut table, mut store) = (vec![7; table], vec![7; store]);
    let verdict = check_texts(program, proof, &mut table, &mut store).unwrap();
    (verdict.to_string(), table, store)
}

fn line(text: &str) -> String {
    String::from(text)
}

fn refused(question: ProgramQuestion, line: usize) -> Result<ProgramReading, UnknownAnswer> {
    Ok(ProgramReading::Refused(ProgramRefusal { question, line }))
}

#[test]
fn starred_1() {
    assert_eq!(checked(PROGRAM, PROOF, 6, 21), (line("inconsistent 1 1 5 6"), RULES.to_vec(), STORE.to_vec()));
    assert_eq!(checked(PROGRAM, PROOF, 6, 20), (line("refused proof 34 5"), vec![0; 6], vec![0; 20]));
    assert_eq!(checked(PROGRAM, PROOF, 5, 21), (line("refused program 10 2"), vec![0; 5], vec![0; 21]));
}

#[test]
fn starred_2() {
    let proof = [PROOF, b"d 0\n"].concat();
    let left = [&STORE[..19], &[-5, 0]].concat();
    assert_eq!(checked(PROGRAM, &proof, 6, 21), (line("open 1 1 6 5"), RULES.to_vec(), left));
}

#[test]
fn steps_of_nogoods() {
    let fact = b"asp 1 0 0\n1 0 1 1 0 0\n0\n";
    for (proof, words) in [
        (&b"d 1 0\nb 2 0\n"[..], &[2, 1, -2][..]),
        (b"b 2 0\nc 2 1 0\nc 2 1 0\nd -1 2 0\n", &[1, 1, -2, -2, 2, -1, 2, 3, 2, -1, 2]),
        (b"b 2 0\ne 3 1 2 0\n", &[1, 1, -2, 2, 3, 1, 2, -3, 2, 2, -1, 3, 2, 2, -2, 3]),
    ] {
        assert_eq!(checked(fact, proof, 5, words.len()).2, words);
    }
    assert_eq!(checked(fact, b"b 2 0\ne 3 1 2 0\n", 5, 15), (line("refused proof 34 2"), vec![0; 5], vec![0; 15]));
}

#[test]
fn deleted_nogoods() {
    let fact = b"asp 1 0 0\n1 0 1 1 0 0\n0\n";
    let proof = b"b 2 0\nc 2 1 0\nd -2 0\nc 2 1 0\nc 2 1 0\n";
    let left = |words| checked(fact, proof, 5, words);
    let marked = vec![-1, 1, -2, 2, 2, -1, 2, 4, 2, -1, 2, 5, 2, -1, 2];
    let closed = vec![2, 2, -1, 2, 4, 2, -1, 2, 5, 2, -1, 2, 0, 0];
    assert_eq!(left(15), (line("open 1 1 5 3"), vec![0, 1, 0, 0, 1], marked));
    assert_eq!(left(14), (line("open 1 1 5 3"), vec![0, 1, 0, 0, 1], closed));
    assert_eq!(left(11), (line("refused proof 34 5"), vec![0; 5], vec![0; 11]));
}

#[test]
fn verdicts_as_enums() {
    let (mut table, mut store) = ([7; 6], [7; 21]);
    let counts = Counts { atoms: 1, rules: 1, steps: 5, nogoods: 6 };
    assert_eq!(check_texts(PROGRAM, PROOF, &mut table, &mut store), Ok(Verdict::Inconsistent(counts)));
    let refusal = ProofRefusal { question: ProofQuestion::Addition, step: 1 };
    assert_eq!(check_texts(PROGRAM, b"a 1 0\n", &mut table, &mut store), Ok(Verdict::RefusedProof(refusal)));
    let refusal = ProgramRefusal { question: ProgramQuestion::Header, line: 1 };
    assert_eq!(check_texts(b"", PROOF, &mut table, &mut store), Ok(Verdict::RefusedProgram(refusal)));
}

/// What the long check says and leaves, with a memory of so many words, which it must leave 0 throughout.
fn checked_long(proof: &[u8], table: usize, store: usize, memory: usize) -> (String, Vec<i32>, Vec<i32>) {
    let (mut table, mut store, mut memory) = (vec![7; table], vec![7; store], vec![7; memory]);
    let verdict = check_long_with(PROGRAM, proof, &mut table, &mut store, &mut memory).unwrap();
    assert!(memory.iter().all(|word| *word == 0));
    (verdict.to_string(), table, store)
}

#[test]
fn the_long_check_says_the_same() {
    let deleted = [PROOF, b"d 0\n"].concat();
    for proof in [PROOF, &deleted, b"", b"a 1 0\n", b"b 2 -1\n"] {
        for (table, store) in [(6, 21), (6, 20), (5, 21), (0, 0), (9, 40)] {
            for memory in [0, 1, 9, memory_for(0), memory_for(store)] {
                let long = checked_long(proof, table, store, memory);
                assert_eq!(long, checked(PROGRAM, proof, table, store), "{proof:?} {table} {store} {memory}");
            }
        }
    }
}

#[test]
fn proofs_beyond_a_text() {
    // 65,536 bytes and more: six for each step that takes nothing away
    let idle = b"d 1 0\n".repeat(10_923);
    let proof = [&idle[..], PROOF].concat();
    assert_eq!(checked(PROGRAM, &proof, 6, 21).0, "refused proof 21 0");
    let mut words = STORE;
    [0, 4, 8, 12, 16, 19].iter().for_each(|place| words[*place] += 10_923);
    for memory in [0, memory_for(21)] {
        assert_eq!(checked_long(&proof, 6, 21, memory), (line("inconsistent 1 1 10928 6"), RULES.to_vec(), words.to_vec()));
        assert_eq!(checked_long(&proof, 6, 20, memory).0, "refused proof 34 10928");
    }
    assert_eq!(check_long(PROGRAM, &proof).unwrap().to_string(), "inconsistent 1 1 10928 6");
    assert_eq!(check_long(b"", &proof).unwrap().to_string(), "refused program 2 1");
    let refused = [&idle[..], b"a 1 0\n"].concat();
    assert_eq!(check_long(PROGRAM, &refused).unwrap().to_string(), "refused proof 33 10924");
}

// Neither is read further than to its first line: pages of zeros that nobody reads take no memory.
#[test]
fn proofs_of_two_gigabytes() {
    let zeros = vec![0; 1 << 31];
    let (mut table, mut store) = ([7; 6], [7; 21]);
    for (bytes, line) in [(1 << 31, "refused proof 21 0"), ((1 << 31) - 1, "refused proof 22 1")] {
        let verdict = check_long_with(PROGRAM, &zeros[..bytes], &mut table, &mut store, &mut []).unwrap();
        assert_eq!((verdict.to_string(), table, store), (line.into(), [0; 6], [0; 21]));
        assert_eq!(check_long(PROGRAM, &zeros[..bytes]).unwrap().to_string(), line);
    }
}

#[test]
fn programs() {
    let mut table = [7; 8];
    assert_eq!(read_program(PROGRAM, &mut table), Ok(ProgramReading::Read { atoms: 1, rules: 1 }));
    assert_eq!(table, [0, 1, 0, 1, 1, -1, 0, 0]);
    let mut short = [7; 5];
    assert_eq!(read_program(PROGRAM, &mut short), refused(ProgramQuestion::Table, 2));
    assert_eq!(short, [0; 5]);
    assert_eq!(read_program(&[b'\n'; 65_536], &mut short), refused(ProgramQuestion::Length, 0));
}

#[test]
fn programs_with_weights() {
    // bound 5 with the literals 4, -2 and 3 of weights 3, 2 and 4
    let mut table = [7; 12];
    assert_eq!(read_program(b"asp 1 0 0\n1 0 0 1 5 3 4 3 -2 2 3 4\n0\n", &mut table), Ok(ProgramReading::Read { atoms: 4, rules: 1 }));
    assert_eq!(table, [0, 0, 1, 3, 5, -2, 2, 3, 4, 4, 3, 0]);
    assert_eq!(read_program(b"asp 1 0 0\n1 0 1 1 1 3 1 2 -1\n0\n", &mut table), refused(ProgramQuestion::Weights, 2));
    assert_eq!(table, [0; 12]);
    let many = format!("asp 1 0 0\n1 0 0 1 6 13{}\n0\n", (1..=13).map(|atom| format!(" {atom} 1")).collect::<String>());
    assert_eq!(read_program(many.as_bytes(), &mut table), refused(ProgramQuestion::WeightCount, 2));
    assert_eq!(checked(many.as_bytes(), b"", 99, 9).0, "refused program 55 2");
}

#[test]
fn steps_with_weights() {
    let program = b"asp 1 0 0\n1 1 3 1 2 3 0 0\n1 0 0 1 4 3 1 3 2 2 3 2\n1 0 0 0 1 -1\n1 0 0 0 1 -2\n0\n";
    let proof = b"b 4 1 2 0\nb 5 -1 0\nb 6 -2 0\nc 4 0\nc 5 0\nc 6 0\na 0\n";
    assert_eq!(checked(program, proof, 28, 50).0, "inconsistent 3 4 7 11");
    // 1, 2 and 3 reach the bound, but are no minimal set
    assert_eq!(checked(program, b"b 4 1 2 3 0\n", 28, 50).0, "refused proof 28 1");
}

#[test]
fn sets_with_weights() {
    let mut marks = [7; MARKS];
    // the choice over 2 and 3, and 1 where the weights 2, 2 and 1 of 2, 3 and 4 reach 3
    let sum = [1, 2, 0, 0, 2, 3, 0, 1, 1, 3, 3, 1, 2, 2, 3, 2, 4, 1];
    assert_eq!(test_set(&sum, 2, &[1, 2, 3], &mut marks), Ok(SetAnswer::Yes));
    assert_eq!(test_set(&sum, 2, &[2], &mut marks), Ok(SetAnswer::Yes));
    assert_eq!(test_set(&sum, 2, &[2, 3], &mut marks), Ok(SetAnswer::Differs(1)));
    for words in [&[0, 0, 1, 1, 1, 1, -1][..], &[0, 0, 1, 1, 1, 1, 4_096], &[0, 0, 2, 1, 1, 1, 1], &[0, 0, 1, 0]] {
        assert_eq!(test_set(words, 1, &[], &mut marks), Ok(SetAnswer::Refused(SetQuestion::Table)), "{words:?}");
    }
}

#[test]
fn sets() {
    let mut marks = [7; MARKS];
    // example 1's rule: its head and its negated atom are the same
    assert_eq!(test_set(&RULES, 1, &[], &mut marks), Ok(SetAnswer::Differs(1)));
    assert_eq!(marks[..3], [0, 1, 0]);
    assert_eq!(test_set(&RULES, 1, &[1], &mut marks), Ok(SetAnswer::Differs(1)));
    assert_eq!(marks, [0; MARKS]);
    // starred example 7, `1 1 1 1 0 0`: both pass
    assert_eq!(test_set(&[1, 1, 0, 0, 1], 1, &[], &mut marks), Ok(SetAnswer::Yes));
    assert_eq!(test_set(&[1, 1, 0, 0, 1], 1, &[1], &mut marks), Ok(SetAnswer::Yes));
    // the same with a constraint that asks for atom 1
    let asks = [1, 1, 0, 0, 1, 0, 0, 0, 1, -1];
    assert_eq!(test_set(&asks, 2, &[], &mut marks), Ok(SetAnswer::Broken(2)));
    assert_eq!(test_set(&asks, 2, &[1], &mut marks), Ok(SetAnswer::Yes));
    assert_eq!(test_set(&asks, usize::MAX, &[], &mut marks), Ok(SetAnswer::Refused(SetQuestion::Table)));
    assert_eq!(test_set(&asks, 2, &[2], &mut marks), Ok(SetAnswer::Refused(SetQuestion::Set)));
    assert_eq!(test_set(&asks, 2, &[1], &mut marks[1..]), Ok(SetAnswer::Refused(SetQuestion::Marks)));
}

#[test]
fn largest_variables() {
    let mut marks = [7; MARKS];
    assert_eq!(read_program(b"asp 1 0 0\n1 0 1 8191 0 0\n0\n", &mut [0; 5]), Ok(ProgramReading::Read { atoms: 8_191, rules: 1 }));
    assert_eq!(read_program(b"asp 1 0 0\n1 0 1 8192 0 0\n0\n", &mut [0; 5]), refused(ProgramQuestion::Range, 2));
    assert_eq!(read_program(b"asp 1 0 0\n1 0 1 1 1 4096 0\n0\n", &mut [0; 9]), refused(ProgramQuestion::Weights, 2));
    assert_eq!(test_set(&[0, 1, 0, 0, 8_191], 1, &[8_191], &mut marks), Ok(SetAnswer::Yes));
    assert_eq!((marks[8_190], marks[8_191]), (0, 1));
    assert_eq!(test_set(&[0, 1, 0, 0, 8_191], 1, &[], &mut marks), Ok(SetAnswer::Differs(8_191)));
    assert_eq!(test_set(&[0, 1, 0, 0, 8_192], 1, &[], &mut marks), Ok(SetAnswer::Refused(SetQuestion::Table)));
    for count in [4_096, 8_193] {
        assert_eq!(test_set(&[0, 1, 0, 0, 8_191], 1, &[], &mut vec![7; count]), Ok(SetAnswer::Refused(SetQuestion::Marks)));
    }
    let line = |text| read_line(text, 0).map(|(line, numbers)| (line, numbers[0]));
    assert_eq!(line(b"a -8191 0\n"), Ok((LineAnswer::Line { letter: Letter::Addition, count: 1, next: 10 }, -8_191)));
    assert_eq!(line(b"a 8192 0\n"), Ok((LineAnswer::Refused(ProofQuestion::Sizes), 0)));
    assert_eq!(checked(b"asp 1 0 0\n1 0 1 1 0 0\n0\n", b"b 8191 0\n", 5, 3).0, "open 1 1 1 1");
}

#[test]
fn lowest_atoms() {
    let mut marks = [7; MARKS];
    // a loop, which gives neither of its atoms
    let circle = [0, 1, 0, 1, 1, 2, 0, 1, 0, 1, 2, 1];
    assert_eq!(test_set(&circle, 2, &[1, 2], &mut marks), Ok(SetAnswer::Differs(1)));
    assert_eq!(test_set(&circle, 2, &[2], &mut marks), Ok(SetAnswer::Differs(2)));
    // 1 and 2 are in the set only, 3 is in the model only
    assert_eq!(test_set(&[0, 1, 0, 0, 3], 1, &[1, 2], &mut marks), Ok(SetAnswer::Differs(1)));
    // 2 is in the model only, 3 in the set only
    let given = [0, 1, 0, 0, 1, 0, 1, 0, 0, 2, 0, 1, 0, 1, 3, -1];
    assert_eq!(test_set(&given, 3, &[1, 3], &mut marks), Ok(SetAnswer::Differs(2)));
    assert_eq!(marks[..4], [0, 1, 1, 0]);
    // atom 1 differs, and rule 3 is broken too
    let broken = [0, 1, 0, 0, 2, 0, 1, 0, 0, 1, 0, 0, 0, 1, 2];
    assert_eq!(test_set(&broken, 3, &[2], &mut marks), Ok(SetAnswer::Differs(1)));
}

#[test]
fn lines_of_starred_1() {
    let mut at = 0;
    let mut seen = Vec::new();
    while let (LineAnswer::Line { letter, count, next }, numbers) = read_line(PROOF, at).unwrap() {
        assert_eq!(numbers[count..], vec![0; MOST_NUMBERS - count]);
        seen.push((letter, numbers[..count].to_vec()));
        at = next;
    }
    assert_eq!(at, PROOF.len());
    let expected = [
        (Letter::Body, vec![2, -1]),
        (Letter::Completion, vec![2, 1]),
        (Letter::Support, vec![1, 2]),
        (Letter::Addition, vec![1]),
        (Letter::Addition, vec![]),
    ];
    assert_eq!(seen, expected);
}

#[test]
fn lines_and_positions() {
    let answered = |answer| Ok((answer, [0; MOST_NUMBERS]));
    assert_eq!(read_line(PROOF, PROOF.len()), answered(LineAnswer::End));
    for at in [1, PROOF.len() + 1, usize::MAX] {
        assert_eq!(read_line(PROOF, at), answered(LineAnswer::Refused(ProofQuestion::Shape)));
    }
    assert_eq!(read_line(b"s -1 0\n", 0), answered(LineAnswer::Refused(ProofQuestion::Signs)));
    for letter in Letter::ALL.iter().copied() {
        let text = format!("{letter} 1 0\n");
        let answer = LineAnswer::Line { letter, count: 1, next: 6 };
        assert_eq!(read_line(text.as_bytes(), 0).unwrap().0, answer);
    }
}

/// Its packet of version 2, which has a word more, the body kind.
fn packet_in_2() -> Vec<u8> {
    [b"RVP\x02\x00\x06\x00\x00\x00", &PACKET[9..21], &[0; 4], &PACKET[21..]].concat()
}

/// What the writer says in a version, and every byte of an output of so many.
fn packed_in(version: Version, table: &[i32], rules: usize, proof: &[u8], size: usize) -> (PacketWriting, Vec<u8>) {
    let mut packet = vec![7; size];
    let writing = write_packet(version, table, rules, proof, &mut packet).unwrap();
    (writing, packet)
}

fn packed(table: &[i32], rules: usize, proof: &[u8], size: usize) -> (PacketWriting, Vec<u8>) {
    packed_in(Version::One, table, rules, proof, size)
}

/// What the reader says in a version, with every word of a table and every byte of a text of so many.
fn unpacked_in(version: Version, packet: &[u8], words: usize, bytes: usize) -> (PacketReading, Vec<i32>, Vec<u8>) {
    let (mut table, mut proof) = (vec![7; words], vec![7; bytes]);
    let reading = read_packet(version, packet, &mut table, &mut proof).unwrap();
    (reading, table, proof)
}

fn unpacked(packet: &[u8], words: usize, bytes: usize) -> (PacketReading, Vec<i32>, Vec<u8>) {
    unpacked_in(Version::One, packet, words, bytes)
}

/// What a move says, and every byte of an output of so many.
fn moved_up(packet: &[u8], size: usize) -> (PacketWriting, Vec<u8>) {
    let mut output = vec![7; size];
    (packet_up(packet, &mut output).unwrap(), output)
}

fn moved_down(packet: &[u8], size: usize) -> (PacketWriting, Vec<u8>) {
    let mut output = vec![7; size];
    (packet_down(packet, &mut output).unwrap(), output)
}

/// The same words or bytes with so many zeros after them.
fn and_zeros<T: Copy + Default>(front: &[T], zeros: usize) -> Vec<T> {
    [front, &vec![T::default(); zeros]].concat()
}

#[test]
fn packet_of_starred_1() {
    for more in [0, 1, 100] {
        assert_eq!(packed(&RULES, 1, PROOF, 57 + more), (PacketWriting::Written(57), and_zeros(&PACKET, more)));
        let read = PacketReading::Read { rules: 1, bytes: 35 };
        assert_eq!(unpacked(&PACKET, 6 + more, 35 + more), (read, and_zeros(&RULES, more), and_zeros(PROOF, more)));
        assert_eq!(packed(&and_zeros(&RULES, more), 1, PROOF, 57).0, PacketWriting::Written(57));
    }
}

#[test]
fn packets_that_are_not_written() {
    let refused = |question, size| (PacketWriting::Refused(question), vec![0; size]);
    assert_eq!(packed(&RULES, 1, PROOF, 56), refused(PacketQuestion::Lengths, 56));
    for size in [0, 57] {
        assert_eq!(packed(&RULES, 0, PROOF, size), refused(PacketQuestion::Pair, size));
        assert_eq!(packed(&RULES, usize::MAX, PROOF, size), refused(PacketQuestion::Pair, size));
        assert_eq!(packed(&RULES, 1, b"a 0", size), refused(PacketQuestion::Pair, size));
    }
    assert_eq!(packed(&[], 0, &[], 12), refused(PacketQuestion::Lengths, 12));
    // a rule with weights
    for size in [0, 99] {
        assert_eq!(packed(&[0, 0, 1, 0, 0], 1, &[], size), refused(PacketQuestion::Pair, size));
    }
}

/// "packets of version 1 keep the old" largest variable.
#[test]
fn variables_of_packets() {
    let refused = (PacketWriting::Refused(PacketQuestion::Pair), vec![0; 99]);
    assert_eq!(packed(&[0, 1, 0, 0, 4_095], 1, b"a -4095 0\n", 99).0, PacketWriting::Written(33));
    assert_eq!(packed(&[0, 1, 0, 0, 4_096], 1, &[], 99), refused);
    assert_eq!(packed(&[0, 0, 0, 1, -8_191], 1, &[], 99), refused);
    assert_eq!(packed(&[0, 1, 0, 0, 1], 1, b"a 0\na 4096 0\n", 99), refused);
    let words = [0, 1, 0, 4_096i32].map(i32::to_le_bytes).concat();
    let packet = [&PACKET[..5], &[4, 0, 0, 0, 0, 0, 0, 0], &words].concat();
    assert_eq!(unpacked(&packet, 5, 0), (PacketReading::Refused(PacketQuestion::Pair), vec![0; 5], vec![]));
}

#[test]
fn packets_that_are_not_read() {
    let refused = |question, words, bytes| (PacketReading::Refused(question), vec![0; words], vec![0; bytes]);
    for size in 0..57 {
        let question = if size < 5 { PacketQuestion::Mark } else { PacketQuestion::Lengths };
        assert_eq!(unpacked(&PACKET[..size], 6, 35), refused(question, 6, 35));
    }
    assert_eq!(unpacked(&and_zeros(&PACKET, 1), 6, 35), refused(PacketQuestion::Lengths, 6, 35));
    assert_eq!(unpacked(&PACKET, 5, 35), refused(PacketQuestion::Lengths, 5, 35));
    assert_eq!(unpacked(&PACKET, 6, 34), refused(PacketQuestion::Lengths, 6, 34));
    for (place, byte, question) in [
        (3, 2, PacketQuestion::Mark),
        (5, 4, PacketQuestion::Lengths),
        (9, 6, PacketQuestion::Lengths),
        (13, 2, PacketQuestion::Pair),
        (55, b'x', PacketQuestion::Pair),
    ] {
        let mut changed = PACKET;
        changed[place] = byte;
        assert_eq!(unpacked(&changed, 6, 35), refused(question, 6, 35), "byte {place}");
    }
}

#[test]
fn packet_of_starred_1_in_2() {
    let packet = packet_in_2();
    let read = PacketReading::Read { rules: 1, bytes: 35 };
    for more in [0, 1, 100] {
        assert_eq!(packed_in(Version::Two, &RULES, 1, PROOF, 61 + more), (PacketWriting::Written(61), and_zeros(&packet, more)));
        assert_eq!(unpacked_in(Version::Two, &packet, 6 + more, 35 + more), (read, and_zeros(&RULES, more), and_zeros(PROOF, more)));
    }
    assert_eq!(packed_in(Version::Two, &RULES, 1, PROOF, 60), (PacketWriting::Refused(PacketQuestion::Lengths), vec![0; 60]));
    for (version, packet) in [(Version::One, &packet[..]), (Version::Two, &PACKET)] {
        assert_eq!(unpacked_in(version, packet, 6, 35), (PacketReading::Refused(PacketQuestion::Mark), vec![0; 6], vec![0; 35]));
    }
}

#[test]
fn packets_that_only_version_2_holds() {
    let written = |table: &[i32], proof: &[u8], size| packed_in(Version::Two, table, 1, proof, size).0;
    assert_eq!(written(&[0, 0, 1, 0, 0], b"", 33), PacketWriting::Written(33));
    assert_eq!(written(&[0, 1, 0, 0, 8_191], b"a -8191 0\n", 37), PacketWriting::Written(37));
    for (table, proof) in [(&[0, 1, 0, 0, 8_192][..], &b""[..]), (&[0, 1, 0, 0, 1], b"a 8192 0\n"), (&[0, 0, 1, 0, 0], b"a 0")] {
        assert_eq!(written(table, proof, 99), PacketWriting::Refused(PacketQuestion::Pair));
    }
}

#[test]
fn starred_1_moved() {
    let packet = packet_in_2();
    for more in [0, 1, 2, 100] {
        assert_eq!(moved_up(&PACKET, 61 + more), (PacketWriting::Written(61), and_zeros(&packet, more)));
        assert_eq!(moved_down(&packet, 57 + more), (PacketWriting::Written(57), and_zeros(&PACKET, more)));
    }
    let refused = |question, size| (PacketWriting::Refused(question), vec![0; size]);
    assert_eq!(moved_up(&PACKET, 60), refused(PacketQuestion::Lengths, 60));
    assert_eq!(moved_down(&packet, 56), refused(PacketQuestion::Lengths, 56));
    assert_eq!(moved_up(&packet, 99), refused(PacketQuestion::Mark, 99));
    assert_eq!(moved_down(&PACKET, 99), refused(PacketQuestion::Mark, 99));
    for size in 0..61 {
        let question = if size < 5 { PacketQuestion::Mark } else { PacketQuestion::Lengths };
        assert_eq!(moved_down(&packet[..size], 57), refused(question, 57));
    }
}

#[test]
fn packets_that_do_not_go_down() {
    let refused = |question, size| (PacketWriting::Refused(question), vec![0; size]);
    let weights = packed_in(Version::Two, &[0, 0, 1, 0, 0], 1, b"", 33).1;
    for size in [0, 99] {
        assert_eq!(moved_down(&weights, size), refused(PacketQuestion::Old, size));
    }
    assert_eq!(moved_down(&and_zeros(&weights, 1), 99), refused(PacketQuestion::Lengths, 99));
    let bad = [&weights[..9], &[1, 0, 0, 0], &weights[13..], b"x\0"].concat();
    assert_eq!(moved_down(&bad, 99), refused(PacketQuestion::Pair, 99));
    for (atom, step, question) in [(4_096, "a 0", None), (4_095, "a -4096 0", None), (4_095, "a -4095 0", Some(PacketQuestion::Lengths))] {
        let text = format!("{step}\n");
        let (_, packet) = packed_in(Version::Two, &[0, 1, 0, 0, atom], 1, text.as_bytes(), if step == "a 0" { 35 } else { 37 });
        assert_eq!(moved_down(&packet, 32), refused(question.unwrap_or(PacketQuestion::Old), 32), "{atom} {step}");
    }
    let held = packed_in(Version::Two, &[0, 1, 0, 0, 4_095], 1, b"a -4095 0\n", 37).1;
    assert_eq!(moved_down(&held, 33), packed(&[0, 1, 0, 0, 4_095], 1, b"a -4095 0\n", 33));
}

#[test]
fn empty_packet() {
    let empty = and_zeros(&PACKET[..5], 8);
    assert_eq!(packed(&[], 0, &[], 13), (PacketWriting::Written(13), empty.clone()));
    assert_eq!(packed(&[0; 4], 0, &[], 13).0, PacketWriting::Written(13));
    assert_eq!(packed(&[0; 4], 1, &[], 25).0, PacketWriting::Written(25));
    assert_eq!(unpacked(&empty, 0, 0), (PacketReading::Read { rules: 0, bytes: 0 }, vec![], vec![]));
}

#[test]
fn nothing_lent() {
    assert_eq!(read_program(&[], &mut []), refused(ProgramQuestion::Header, 1));
    assert_eq!(read_program(b"asp 1 0 0\n0\n", &mut []), Ok(ProgramReading::Read { atoms: 0, rules: 0 }));
    assert_eq!(test_set(&[], 0, &[], &mut []), Ok(SetAnswer::Refused(SetQuestion::Marks)));
    assert_eq!(test_set(&[], 1, &[], &mut []), Ok(SetAnswer::Refused(SetQuestion::Table)));
    assert_eq!(test_set(&[], 0, &[], &mut [7; MARKS]), Ok(SetAnswer::Yes));
    assert_eq!(read_line(&[], 0), Ok((LineAnswer::End, [0; MOST_NUMBERS])));
    for version in Version::ALL {
        assert_eq!(write_packet(version, &[], 0, &[], &mut []), Ok(PacketWriting::Refused(PacketQuestion::Lengths)));
        assert_eq!(write_packet(version, &[], 1, &[], &mut []), Ok(PacketWriting::Refused(PacketQuestion::Pair)));
        assert_eq!(read_packet(version, &[], &mut [], &mut []), Ok(PacketReading::Refused(PacketQuestion::Mark)));
    }
    assert_eq!(packet_up(&[], &mut []), Ok(PacketWriting::Refused(PacketQuestion::Mark)));
    assert_eq!(packet_down(&[], &mut []), Ok(PacketWriting::Refused(PacketQuestion::Mark)));
    assert_eq!(checked(&[], &[], 0, 0).0, "refused program 2 1");
    assert_eq!(checked(b"asp 1 0 0\n0\n", &[], 0, 0).0, "open 0 0 0 0");
    assert_eq!(checked(PROGRAM, b"a 1 0\n", 6, 0).0, "refused proof 33 1");
}

// Two halves of starred example 1, split on atom 1.
const DEMANDED: &[u8] = b"b 2 -1 0\nc 2 0\nc 2 1 0\ns 1 2 0\na 0\n";
const FORBIDDEN: &[u8] = b"b 2 -1 0\nb 3 1 0\nc 3 0\nc 2 1 0\ns 1 2 0\na 0\n";
const MERGED: &[u8; 66] = b"b 2 -1 0\nc 2 1 0\ns 1 2 0\na 1 0\ne 3 1 0\nc 2 1 0\ns 1 2 0\na -1 0\na 0\n";

/// What the merge says, with every word and byte of buffers of so many.
fn merged(program: &[u8], atom: usize, halves: [&[u8]; 2], rooms: [usize; 3]) -> (Merging, Vec<i32>, Vec<i32>, Vec<u8>) {
    let (mut table, mut store, mut output) = (vec![7; rooms[0]], vec![7; rooms[1]], vec![7; rooms[2]]);
    let merging = merge_halves(program, atom, halves[0], halves[1], &mut table, &mut store, &mut output).unwrap();
    (merging, table, store, output)
}

#[test]
fn halves_of_starred_1() {
    for more in [0, 1, 100] {
        let found = merged(PROGRAM, 1, [DEMANDED, FORBIDDEN], [6 + more, 40 + more, 66 + more]);
        let (_, table, store) = checked(PROGRAM, MERGED, 6 + more, 40 + more);
        assert_eq!(found, (Merging::Merged(66), table, store, and_zeros(MERGED, more)));
    }
    assert_eq!(checked(PROGRAM, MERGED, 6, 40).0, "inconsistent 1 1 9 11");
}

#[test]
fn halves_that_are_not_merged() {
    let refused = |question, rooms: [usize; 3]| (Merging::Refused(question), vec![0; rooms[0]], vec![0; rooms[1]], vec![0; rooms[2]]);
    let halves = [DEMANDED, FORBIDDEN];
    for (rooms, question) in [
        ([6, 13, 66], MergeQuestion::Halves),
        ([6, 13, 0], MergeQuestion::Halves),
        ([6, 40, 65], MergeQuestion::Limits),
        ([6, 39, 65], MergeQuestion::Limits),
        ([6, 39, 66], MergeQuestion::Store),
    ] {
        assert_eq!(merged(PROGRAM, 1, halves, rooms), refused(question, rooms));
    }
    let rooms = [6, 40, 66];
    for atom in [0, 2, usize::MAX] {
        assert_eq!(merged(PROGRAM, atom, halves, rooms), refused(MergeQuestion::Halves, rooms));
    }
    for halves in [[FORBIDDEN, DEMANDED], [DEMANDED, DEMANDED], [DEMANDED, &[]], [&[], &[]]] {
        assert_eq!(merged(PROGRAM, 1, halves, rooms), refused(MergeQuestion::Halves, rooms));
    }
    let refusal = ProgramRefusal { question: ProgramQuestion::Table, line: 2 };
    let zeros = (Merging::RefusedProgram(refusal), vec![0; 5], vec![0; 40], vec![0; 66]);
    assert_eq!(merged(PROGRAM, 1, halves, [5, 40, 66]), zeros);
}

/// What trimming says, with every byte of the text and every word of buffers of so many.
fn trimmed(program: &[u8], proof: &[u8], table: usize, store: usize) -> (Trimming, Vec<u8>, Vec<i32>, Vec<i32>) {
    let (mut text, mut table, mut store) = (proof.to_vec(), vec![7; table], vec![7; store]);
    let trimming = trim_proof(program, &mut text, &mut table, &mut store).unwrap();
    (trimming, text, table, store)
}

#[test]
fn trimmed_to_starred_1() {
    for lines in ["b 2 -1;c 2 1;s 1 2;a 1;a", "b 2 -1;c 2 1;e 3 2;s 1 2;a 1;d 3 2;a 1;a;a 1", "b 2 -1;c 2 1;s 1 2;a 1;d 1 2;a"] {
        let proof: Vec<u8> = lines.split(';').flat_map(|line| format!("{line} 0\n").into_bytes()).collect();
        let (_, table, store) = checked(PROGRAM, PROOF, 7, 99);
        assert_eq!(trimmed(PROGRAM, &proof, 7, 99), (Trimming::Trimmed(35), and_zeros(PROOF, proof.len() - 35), table, store));
    }
}

#[test]
fn not_trimmed() {
    let refused = |proof: &[u8], store| (Trimming::Refused(TrimQuestion::Accepted), proof.to_vec(), vec![0; 6], vec![0; store]);
    assert_eq!(trimmed(PROGRAM, PROOF, 6, 21), (Trimming::Trimmed(35), PROOF.to_vec(), RULES.to_vec(), STORE.to_vec()));
    assert_eq!(trimmed(PROGRAM, PROOF, 6, 20), refused(PROOF, 20));
    for proof in [&[PROOF, b"d 0\n"].concat()[..], &[PROOF, &[0]].concat(), b"", &[b'a'; 65_536]] {
        assert_eq!(trimmed(PROGRAM, proof, 6, 99), refused(proof, 99));
    }
    let refusal = |question, line| Trimming::RefusedProgram(ProgramRefusal { question, line });
    let short = refusal(ProgramQuestion::Table, 2);
    assert_eq!(trimmed(PROGRAM, PROOF, 5, 21), (short, PROOF.to_vec(), vec![0; 5], vec![0; 21]));
    let cut = refusal(ProgramQuestion::Numbers, 3);
    assert_eq!(trimmed(&PROGRAM[..PROGRAM.len() - 1], PROOF, 6, 21), (cut, PROOF.to_vec(), vec![0; 6], vec![0; 21]));
}

// A choice over 1 and 2 of which one must hold, that program with the restriction of the costs 1 3 2 5 to less than 3, and a proof for it.
const EITHER: &[u8] = b"asp 1 0 0\n1 1 2 1 2 0 0\n1 0 0 0 2 -1 -2\n0\n";
const EITHER_WORDS: [i32; 12] = [1, 2, 0, 0, 1, 2, 0, 0, 0, 2, -1, -2];
const RESTRICTED: &[u8] = b"asp 1 0 0\n1 1 2 1 2 0 0\n1 0 0 0 2 -1 -2\n1 0 0 1 3 2 1 3 2 5\n0\n";
const DEAR: &[u8] = b"b 3 1 0\nc 3 0\nb 4 2 0\nc 4 0\nb 5 -1 -2 0\nc 5 0\na 0\n";

/// What is said of a set with its costs, with every word of buffers of so many.
fn certified(set: &[u16], costs: &[i16], proof: &[u8], table: usize, store: usize) -> (Cheapest, Vec<i32>, Vec<i32>) {
    let (mut table, mut store) = (vec![7; table], vec![7; store]);
    let cheapest = check_cheapest(EITHER, set, costs, proof, &mut table, &mut store).unwrap();
    (cheapest, table, store)
}

#[test]
fn cheapest_sets() {
    for more in [0, 1, 20] {
        let (line, _, store) = checked(RESTRICTED, DEAR, 99, 40 + more);
        assert_eq!(line, "inconsistent 2 3 7 11");
        for costs in [[1, 3, 2, 5], [2, 5, 1, 3]] {
            let found = certified(&[1], &costs, DEAR, 12 + more, 40 + more);
            assert_eq!(found, (Cheapest::Certified(3), and_zeros(&EITHER_WORDS, more), store.clone()));
        }
        for costs in [&[2, 5][..], &[], &[1, 0, 2, 5]] {
            let found = certified(&[1], costs, b"junk", 12 + more, more);
            assert_eq!(found, (Cheapest::Certified(0), and_zeros(&EITHER_WORDS, more), vec![0; more]));
        }
    }
}

#[test]
fn not_certified() {
    let refused = |question| (Cheapest::Refused(question), vec![0; 20], vec![0; 60]);
    for set in [&[][..], &[2]] {
        assert_eq!(certified(set, &[1, 3, 2, 5], DEAR, 20, 60), refused(CheapestQuestion::Certificate));
    }
    assert_eq!(certified(&[1], &[-2, 7], b"", 20, 60), refused(CheapestQuestion::Certificate));
    for costs in [&[1][..], &[1, 3, 2], &[0, 1], &[3, 1], &[-3, 1], &[1, -1], &[1, 4_096], &[1, 1, -1, 1], &[i16::MIN, 1], &[1, i16::MIN]] {
        for (set, question) in [
            (&[1][..], CheapestQuestion::Costs),
            (&[], CheapestQuestion::Costs),
            (&[3], CheapestQuestion::Set),
            (&[2, 1], CheapestQuestion::Set),
        ] {
            assert_eq!(certified(set, costs, DEAR, 20, 60), refused(question), "{set:?} {costs:?}");
        }
    }
    for (set, costs, question) in [
        (&[1, 2][..], [1, 4_000, 2, 96], CheapestQuestion::Costs),
        (&[1, 2], [1, 4_000, 2, 95], CheapestQuestion::Certificate),
        (&[], [-1, 4_000, -2, 96], CheapestQuestion::Costs),
        (&[], [-1, 4_000, -2, 95], CheapestQuestion::Certificate),
    ] {
        assert_eq!(certified(set, &costs, b"", 20, 60), refused(question), "{set:?} {costs:?}");
    }
    let short = (Cheapest::Refused(CheapestQuestion::Certificate), vec![0; 12], vec![0; 39]);
    assert_eq!(certified(&[1], &[1, 3, 2, 5], DEAR, 12, 39), short);
    let refusal = ProgramRefusal { question: ProgramQuestion::Table, line: 3 };
    assert_eq!(certified(&[9], &[1], DEAR, 11, 60), (Cheapest::RefusedProgram(refusal), vec![0; 11], vec![0; 60]));
}

/// In a thread with the stack that the merge of a tree needs.
fn on_tree_stack(test: fn()) {
    std::thread::Builder::new().stack_size(TREE_STACK).spawn(test).unwrap().join().unwrap();
}

/// What the merge of a tree says, with every word and byte of buffers of so many; the ends are given apart.
fn merged_tree(program: &[u8], tree: &[u16], ends: &[&[u8]], rooms: [usize; 3]) -> (Merging, Vec<i32>, Vec<i32>, Vec<u8>) {
    let lengths: Vec<u64> = ends.iter().map(|end| end.len() as u64).collect();
    let (mut table, mut store, mut output) = (vec![7; rooms[0]], vec![7; rooms[1]], vec![7; rooms[2]]);
    let merging = merge_tree(program, tree, &ends.concat(), &lengths, &mut table, &mut store, &mut output).unwrap();
    (merging, table, store, output)
}

// Seven atoms to choose from, of which the last is both ruled out and demanded, and a proof under whatever constraints.
const SEVEN: &[u8] = b"asp 1 0 0\n1 1 7 1 2 3 4 5 6 7 0 0\n1 0 0 0 1 7\n1 0 0 0 1 -7\n0\n";
const END: &[u8] = b"b 8 7 0\nc 8 0\nb 9 -7 0\nc 9 0\na 0\n";

#[test]
fn trees_that_are_merged() {
    on_tree_stack(|| {
        for more in [0, 1, 100] {
            let rooms = [6 + more, 40 + more, 66 + more];
            let found = merged_tree(PROGRAM, &[1, 0, 0], &[DEMANDED, FORBIDDEN], rooms);
            assert_eq!(found, merged(PROGRAM, 1, [DEMANDED, FORBIDDEN], rooms));
            assert_eq!(found.0, Merging::Merged(66));
        }
        for (tree, text) in [
            ([1, 0, 2, 0, 0], "b 8 7;c 8;b 9 -7;c 9;a 1;c 8;c 9;a 2 -1;c 8;c 9;a -2 -1;a -1;a"),
            ([1, 2, 0, 0, 0], "b 8 7;c 8;b 9 -7;c 9;a 2 1;c 8;c 9;a -2 1;a 1;c 8;c 9;a -1;a"),
        ] {
            let text: Vec<u8> = text.split(';').flat_map(|line| format!("{line} 0\n").into_bytes()).collect();
            let (_, table, store) = checked(SEVEN, &text, 30, 99);
            let expected = (Merging::Merged(text.len()), table, store, and_zeros(&text, 3));
            assert_eq!(merged_tree(SEVEN, &tree, &[END; 3], [30, 99, text.len() + 3]), expected);
        }
    });
}

#[test]
fn trees_six_splits_deep() {
    on_tree_stack(|| {
        let chain = |depth: u16| [(1..=depth).flat_map(|atom| [atom, 0]).collect(), vec![0]].concat();
        let answer = |depth: u16, store, output| merged_tree(SEVEN, &chain(depth), &vec![END; depth as usize + 1], [21, store, output]).0;
        assert_eq!(answer(6, 126, 273), Merging::Merged(273));
        assert_eq!(answer(6, 126, 272), Merging::Refused(MergeQuestion::Limits));
        assert_eq!(answer(6, 125, 273), Merging::Refused(MergeQuestion::Store));
        assert_eq!(answer(7, 999, 999), Merging::Refused(MergeQuestion::Tree));
    });
}

#[test]
fn trees_that_are_not_merged() {
    on_tree_stack(|| {
        let rooms = [21, 99, 400];
        let refused = |question| (Merging::Refused(question), vec![0; 21], vec![0; 99], vec![0; 400]);
        for tree in [&[][..], &[1], &[1, 0], &[1, 0, 0, 0], &[0, 0], &[0], &[8, 0, 0], &[65_535, 0, 0]] {
            assert_eq!(merged_tree(SEVEN, tree, &[END; 2], rooms), refused(MergeQuestion::Tree), "{tree:?}");
        }
        // a number after the tree, and an atom twice on a path: with as many ends as the tree has
        assert_eq!(merged_tree(SEVEN, &[0, 0], &[END], rooms), refused(MergeQuestion::Tree));
        assert_eq!(merged_tree(SEVEN, &[1, 0, 1, 0, 0], &[END; 3], rooms), refused(MergeQuestion::Tree));
        for ends in [&[][..], &[END], &[END; 3], &[END, END, b""]] {
            assert_eq!(merged_tree(SEVEN, &[1, 0, 0], ends, rooms), refused(MergeQuestion::Tree));
        }
        for lengths in [[33, 32], [33, 34], [66, 1], [u64::MAX, 67], [1 << 63 | 33, 1 << 63 | 33]] {
            let (mut table, mut store, mut output) = ([7; 21], [7; 99], [7; 400]);
            let merging = merge_tree(SEVEN, &[1, 0, 0], &END.repeat(2), &lengths, &mut table, &mut store, &mut output);
            assert_eq!((merging, table, store, output), (Ok(Merging::Refused(MergeQuestion::Tree)), [0; 21], [0; 99], [0; 400]));
        }
        assert_eq!(merged_tree(SEVEN, &[1, 0, 0], &[&END[..32], &[&END[32..], END].concat()], rooms), refused(MergeQuestion::Halves));
        let refusal = ProgramRefusal { question: ProgramQuestion::Table, line: 4 };
        let short = (Merging::RefusedProgram(refusal), vec![0; 20], vec![0; 99], vec![0; 400]);
        assert_eq!(merged_tree(SEVEN, &[], &[], [20, 99, 400]), short);
    });
}

/// The side that demands an atom decides before the other.
#[test]
fn first_refusals_of_trees() {
    on_tree_stack(|| {
        let bad = &END[..29];
        let (right, left) = ([1, 0, 2, 0, 0], [1, 2, 0, 0, 0]);
        for (tree, ends, store, output, question) in [
            (right, [bad, END, END], 99, 40, MergeQuestion::Halves),
            (right, [END, END, END], 99, 40, MergeQuestion::Limits),
            (left, [END, END, bad], 99, 40, MergeQuestion::Limits),
            (left, [END, END, bad], 99, 400, MergeQuestion::Halves),
            (left, [END, END, bad], 24, 400, MergeQuestion::Store),
            (left, [END, END, bad], 23, 400, MergeQuestion::Halves),
        ] {
            let zeros = (Merging::Refused(question), vec![0; 21], vec![0; store], vec![0; output]);
            assert_eq!(merged_tree(SEVEN, &tree, &ends, [21, store, output]), zeros, "{tree:?} {store} {output}");
        }
    });
}

/// A tree of one end is a plain proof: its deletions stay, and the store shows the dead nogood.
#[test]
fn root_ends() {
    on_tree_stack(|| {
        let proof = b"b 2 -1 0\nc 2 1 0\ns 1 2 0\na 1 0\nd 1 2 0\na 0\n";
        let (_, table, store) = checked(PROGRAM, proof, 6, 25);
        assert_eq!((store[4], proof.len()), (-1, 43));
        assert_eq!(merged_tree(PROGRAM, &[0], &[proof], [6, 25, 44]), (Merging::Merged(43), table, store, and_zeros(proof, 1)));
        let answer = |end: &[u8], store, output| merged_tree(PROGRAM, &[0], &[end], [6, store, output]).0;
        assert_eq!(answer(proof, 25, 42), Merging::Refused(MergeQuestion::Limits));
        assert_eq!(answer(proof, 19, 43), Merging::Merged(43));
        assert_eq!(answer(proof, 18, 42), Merging::Refused(MergeQuestion::Halves));
        assert_eq!(answer(&[&proof[..], b"d 0\n"].concat(), 25, 0), Merging::Refused(MergeQuestion::Halves));
    });
}

/// Rules of each kind with a long sum: a choice over 1 to 13, 14 where twelve of them hold, and not 14.
fn with_sums() -> String {
    let pairs: String = (1..=13).map(|atom| format!(" {atom} 1")).collect();
    let heads: String = (1..=13).map(|atom| format!(" {atom}")).collect();
    format!("asp 1 0 0\n1 1 13{heads} 0 0\n1 0 1 14 1 12 13{pairs}\n1 0 0 0 1 14\n0\n")
}

/// What the splitting says of those rules, with every word of a table and every byte of an output of so many.
fn split(group: usize, words: usize, bytes: usize) -> (Splitting, Vec<i32>, Vec<u8>) {
    let (mut table, mut output) = (vec![7; words], vec![7; bytes]);
    let splitting = split_sums(with_sums().as_bytes(), group, &mut table, &mut output).unwrap();
    (splitting, table, output)
}

#[test]
fn sums_that_are_split() {
    let (splitting, text) = split_program(with_sums().as_bytes(), 7).unwrap();
    let Splitting::Split { bytes, atoms, rules, old_atoms } = splitting else { panic!("{splitting:?}") };
    assert_eq!((bytes, atoms, rules, old_atoms), (text.len(), 19, 9, 14));
    let lines: Vec<&str> = std::str::from_utf8(&text).unwrap().lines().collect();
    assert_eq!(lines[2], "1 0 1 15 1 6 7 1 1 2 1 3 1 4 1 5 1 6 1 7 1");
    assert_eq!(lines[5], "1 0 1 18 1 6 6 8 1 9 1 10 1 11 1 12 1 13 1");
    assert_eq!(lines[6..], ["1 0 1 19 0 2 15 18", "1 0 1 19 0 2 16 17", "1 0 1 14 0 1 19", "1 0 0 0 1 14", "0"]);
    // the table is the program's as written, and nothing stands behind the text
    let words = 17 + 32 + 5;
    let (again, table, output) = split(7, words + 2, bytes + 3);
    assert_eq!((again, &output[..bytes], &output[bytes..]), (splitting, &text[..], &[0; 3][..]));
    assert_eq!((&table[17..23], &table[words..]), (&[0, 1, 1, 13, 12, 14][..], &[0; 2][..]));
    // what is written is read, and has the program's answer sets
    let mut table = vec![7; text.len()];
    assert_eq!(read_program(&text, &mut table), Ok(ProgramReading::Read { atoms: 19, rules: 9 }));
    let eleven: Vec<u16> = (1..=11).chain([16]).collect();
    let six: Vec<u16> = (1..=6).chain([15]).collect();
    for set in [&[][..], &eleven, &six] {
        let mut marks = [7; MARKS];
        let answer = test_set(&table, 9, set, &mut marks).unwrap();
        assert_eq!(answer == SetAnswer::Yes, set != eleven.as_slice(), "{set:?}: {answer:?}");
    }
}

#[test]
fn sums_that_are_not_split() {
    let (Splitting::Split { bytes, .. }, ..) = split(7, 99, 999) else { panic!("not split") };
    let refused = |question, words, bytes| (Splitting::Refused(question), vec![0; words], vec![0; bytes]);
    for group in [0, 1, 13, 258, usize::MAX] {
        assert_eq!(split(group, 54, 3), refused(SplitQuestion::Group, 54, 3));
    }
    for size in [0, bytes - 1] {
        assert_eq!(split(7, 54, size), refused(SplitQuestion::Room, 54, size));
    }
    let refusal = ProgramRefusal { question: ProgramQuestion::Table, line: 4 };
    assert_eq!(split(0, 53, 2), (Splitting::RefusedProgram(refusal), vec![0; 53], vec![0; 2]));
    let short = split_program(b"asp 1 0 0\n1 0 0 1 1 65\n0\n", 7).unwrap();
    let refusal = ProgramRefusal { question: ProgramQuestion::Counts, line: 2 };
    assert_eq!(short, (Splitting::RefusedProgram(refusal), Vec::new()));
}
