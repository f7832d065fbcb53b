//! The families of packets of both versions: worked cases, small packets with every prefix and every change of a byte, packets and pairs at
//! the limits, and the packets of random pairs with changes of them. Each is tried with outputs that are one short, just enough and one longer,
//! and each packet is moved up and down.

use aspdrupe::{PacketReading, PacketWriting, UnknownAnswer};
use inputs::random::Random;
use inputs::ROOM;

use crate::cases::{changes, guided, limits, moves, noise, packets};
use crate::comparison::{difference, Comparison};
use crate::families::small_program;
use crate::reference::packets::{down, read, up, write, Read, Version, Written};
use crate::reference::program::{self, table_words};
use crate::reference::{filled, TEXT_LIMIT};
use crate::shrink::cut;
use crate::tables;

const VERSIONS: [Version; 2] = [Version::One, Version::Two];

/// What a run has to see of the services, each in both versions or by both moves.
pub const WANTED: [&str; 25] = [
    "write_packet 1: written",
    "write_packet 1: refused 52",
    "write_packet 1: refused 53",
    "write_packet 2: written",
    "write_packet 2: refused 52",
    "write_packet 2: refused 53",
    "read_packet 1: read",
    "read_packet 1: refused 51",
    "read_packet 1: refused 52",
    "read_packet 1: refused 53",
    "read_packet 2: read",
    "read_packet 2: refused 51",
    "read_packet 2: refused 52",
    "read_packet 2: refused 53",
    "packet_up: moved",
    "packet_up: refused 51",
    "packet_up: refused 52",
    "packet_up: refused 53",
    "packet_down: moved",
    "packet_down: refused 51",
    "packet_down: refused 52",
    "packet_down: refused 53",
    "packet_down: refused 61",
    "packet_down: refused 61 for a rule",
    "packet_down: refused 61 for a step",
];

impl Comparison {
    /// The writer with an output of so many bytes; answers what the reference says.
    fn write_packet(&mut self, version: Version, table: &[i32], rules: usize, proof: &[u8], room: usize) -> Written {
        let expected = write(version, table, rules, proof, room);
        let mut packet = vec![self.random.below(256) as u8; room];
        let answered = aspdrupe::write_packet(told(version), table, rules, proof, &mut packet);
        let good = answered.as_ref().map(writing_as_numbers) == Ok(expected.answer) && packet == expected.packet;
        self.tally.packet(&format!("write_packet {}", number(version)), "written", expected.answer.err());
        self.settle(good, || {
            format!(
                "write_packet {version:?}, {rules} rules, output {room}: {answered:?}, not {:?}{}: table {:?} proof {}",
                expected.answer,
                difference(&packet, &expected.packet),
                &table[..table.len().min(400)],
                cut(proof)
            )
        });
        expected
    }

    /// The reader with a table and a text of so many words and bytes; answers what the reference says.
    fn read_packet(&mut self, version: Version, packet: &[u8], table_room: usize, proof_room: usize) -> Read {
        let expected = read(version, packet, table_room, proof_room);
        let mut table = self.pattern(table_room);
        let mut proof = vec![self.random.below(256) as u8; proof_room];
        let answered = aspdrupe::read_packet(told(version), packet, &mut table, &mut proof);
        let good = answered.as_ref().map(unpacking_as_numbers) == Ok(expected.answer);
        let good = good && table == expected.table && proof == expected.proof;
        self.tally.packet(&format!("read_packet {}", number(version)), "read", expected.answer.err());
        self.settle(good, || {
            format!(
                "read_packet {version:?}, table {table_room}, text {proof_room}: {answered:?}, not {:?}; table{}; text{}: {}",
                expected.answer,
                difference(&table, &expected.table),
                difference(&proof, &expected.proof),
                cut(packet)
            )
        });
        expected
    }

    /// The move of a packet to the other version, with an output of so many bytes; answers what the reference says.
    fn move_packet(&mut self, by: &Move, packet: &[u8], room: usize) -> Written {
        let expected = (by.expected)(packet, room);
        let mut output = vec![self.random.below(256) as u8; room];
        let answered = (by.asked)(packet, &mut output);
        let good = answered.as_ref().map(writing_as_numbers) == Ok(expected.answer) && output == expected.packet;
        self.tally.packet(by.name, "moved", expected.answer.err());
        self.settle(good, || {
            format!(
                "{}, output {room}: {answered:?}, not {:?}{}: {}",
                by.name,
                expected.answer,
                difference(&output, &expected.packet),
                cut(packet)
            )
        });
        expected
    }
}

/// A move: its name, the versions that it goes from and to, what the reference says, and the service.
struct Move {
    name: &'static str,
    from: Version,
    to: Version,
    expected: fn(&[u8], usize) -> Written,
    asked: fn(&[u8], &mut [u8]) -> Result<PacketWriting, UnknownAnswer>,
}

const UP: Move = Move { name: "packet_up", from: Version::One, to: Version::Two, expected: up, asked: aspdrupe::packet_up };
const DOWN: Move = Move { name: "packet_down", from: Version::Two, to: Version::One, expected: down, asked: aspdrupe::packet_down };

/// The move that a packet of the version can go.
fn move_of(version: Version) -> (&'static Move, &'static Move) {
    match version {
        Version::One => (&UP, &DOWN),
        Version::Two => (&DOWN, &UP),
    }
}

fn told(version: Version) -> aspdrupe::Version {
    match version {
        Version::One => aspdrupe::Version::One,
        Version::Two => aspdrupe::Version::Two,
    }
}

fn number(version: Version) -> u8 {
    told(version).number()
}

/// The packet's bytes, or a refusal's number.
fn writing_as_numbers(writing: &PacketWriting) -> Result<usize, u8> {
    match *writing {
        PacketWriting::Written(bytes) => Ok(bytes),
        PacketWriting::Refused(question) => Err(question.number()),
    }
}

/// The rule count and the bytes of the proof text, or a refusal's number.
fn unpacking_as_numbers(reading: &PacketReading) -> Result<(usize, usize), u8> {
    match *reading {
        PacketReading::Read { rules, bytes } => Ok((rules, bytes)),
        PacketReading::Refused(question) => Err(question.number()),
    }
}

/// A table with its rule count, and a proof text.
struct Pair {
    table: Vec<i32>,
    rules: usize,
    proof: Vec<u8>,
}

impl Pair {
    /// Bytes that hold the packet whatever it is.
    fn enough(&self) -> usize {
        13 + 4 * self.table.len() + self.proof.len()
    }
}

/// How many worked cases there are: the reader's, the writer's, and then those of the moves.
pub fn worked_cases() -> usize {
    packets::reader_cases().len() + packets::writer_cases().len() + moves::cases().len()
}

pub fn run_worked(comparison: &mut Comparison, index: u64) {
    let index = index as usize;
    let (readers, writers) = (packets::reader_cases(), packets::writer_cases());
    if let Some(case) = readers.get(index) {
        run_reader_case(comparison, case);
    } else if let Some(case) = writers.get(index - readers.len()) {
        run_writer_case(comparison, case);
    } else {
        run_move_case(comparison, &moves::cases()[index - readers.len() - writers.len()]);
    }
}

fn run_reader_case(comparison: &mut Comparison, case: &packets::ReaderCase) {
    let found = comparison.read_packet(case.version, &case.packet, case.table, case.proof);
    let answer = found.answer.map(|(rules, bytes)| (rules, found.proof[..bytes].to_vec()));
    comparison.settle(answer == case.answer, || format!("{}: the reference says {:?}", case.name, found.answer));
    compare_packet(comparison, case.version, &case.packet);
}

fn run_writer_case(comparison: &mut Comparison, case: &packets::WriterCase) {
    let found = comparison.write_packet(case.version, &case.table, case.rules, &case.proof, case.packet);
    comparison.settle(found.answer == case.answer, || format!("{}: the reference says {:?}", case.name, found.answer));
    compare_pair(comparison, &Pair { table: case.table.clone(), rules: case.rules, proof: case.proof.clone() });
}

fn run_move_case(comparison: &mut Comparison, case: &moves::MoveCase) {
    let by = move_of(case.from).0;
    let found = comparison.move_packet(by, &case.packet, case.room);
    let left = filled(case.answer.clone().unwrap_or_default(), case.room);
    let good = found.answer == case.answer.as_ref().map(Vec::len).map_err(|number| *number) && found.packet == left;
    comparison.settle(good, || format!("{}: the reference says {:?}", case.name, found.answer));
    compare_packet(comparison, case.from, &case.packet);
}

/// Lengths around those that are needed: none, one short, just enough, one more.
fn around(needed: usize) -> [usize; 4] {
    [0, needed.saturating_sub(1), needed, needed + 1]
}

/// The writer on a pair in both versions, and where it is taken the reader on its packet: "Reading it back gives that pair."
fn compare_pair(comparison: &mut Comparison, pair: &Pair) {
    for version in VERSIONS {
        let found = write(version, &pair.table, pair.rules, &pair.proof, pair.enough());
        for room in around(found.answer.unwrap_or(57)).into_iter().chain([12, pair.enough()]) {
            comparison.write_packet(version, &pair.table, pair.rules, &pair.proof, room);
        }
        let Ok(size) = found.answer else { continue };
        let back = compare_packet(comparison, version, &found.packet[..size]);
        let (table, rules, text) = back.unwrap_or_default();
        let good = filled(table, pair.table.len()) == pair.table && rules == pair.rules && text == pair.proof;
        comparison.settle(good, || String::from("another pair is read back"));
    }
}

/// The reader on a packet and its moves, and where it is taken the writer on what it gives: "A packet has one byte form for each such pair."
/// Answers the words in use, the rule count and the text.
fn compare_packet(comparison: &mut Comparison, version: Version, packet: &[u8]) -> Option<(Vec<i32>, usize, Vec<u8>)> {
    compare_moves(comparison, version, packet);
    // A rule has three words or more in a packet of version 1, and one more in the table.
    let found = comparison.read_packet(version, packet, packet.len() / 3, TEXT_LIMIT);
    let (rules, bytes) = found.answer.ok()?;
    let words = words_outside(version, packet, rules);
    for table in around(words) {
        comparison.read_packet(version, packet, table, bytes);
    }
    for text in around(bytes) {
        comparison.read_packet(version, packet, words, text);
    }
    let (table, text) = (found.table[..words].to_vec(), found.proof[..bytes].to_vec());
    let again = comparison.write_packet(version, &table, rules, &text, packet.len());
    comparison.settle(again.packet == packet, || String::from("the pair of a packet has another packet"));
    Some((table, rules, text))
}

/// The words that the table of a packet with so many rules has: those that it states, and in version 1 one more for each rule.
fn words_outside(version: Version, packet: &[u8], rules: usize) -> usize {
    let stated = u32::from_le_bytes([packet[5], packet[6], packet[7], packet[8]]) as usize;
    if version == Version::One {
        stated + rules
    } else {
        stated
    }
}

/// A packet moved by both moves, and where it goes moved back: its bytes must come back.
fn compare_moves(comparison: &mut Comparison, version: Version, packet: &[u8]) {
    let (by, back) = move_of(version);
    let found = (by.expected)(packet, 2 * packet.len());
    for room in around(found.answer.unwrap_or(57)) {
        comparison.move_packet(by, packet, room);
    }
    let other = comparison.move_packet(back, packet, packet.len());
    comparison.settle(found.answer == Err(51) || other.answer == Err(51), || String::from("a packet is moved both ways"));
    if found.answer == Err(61) {
        let why = why_not_down(packet);
        comparison.tally.count(format!("packet_down: refused 61 for {why}"));
    }
    let Ok(size) = found.answer else { return };
    let made = &found.packet[..size];
    for room in around(packet.len()) {
        let again = comparison.move_packet(back, made, room);
        let good = again.answer == if room < packet.len() { Err(52) } else { Ok(packet.len()) };
        comparison.settle(good && (room < packet.len() || again.packet.starts_with(packet)), || String::from("another packet comes back"));
    }
    comparison.read_packet(by.to, made, packet.len() / 3, TEXT_LIMIT);
    comparison.read_packet(by.from, made, packet.len() / 3, TEXT_LIMIT);
}

/// What keeps a packet of version 2 from going down, by its pair.
fn why_not_down(packet: &[u8]) -> &'static str {
    let found = read(Version::Two, packet, packet.len() / 3, TEXT_LIMIT);
    let (rules, bytes) = found.answer.unwrap_or_default();
    let without_steps = write(Version::One, &found.table, rules, b"", packet.len());
    let without_rules = write(Version::One, &[], 0, &found.proof[..bytes], packet.len());
    match (without_steps.answer, without_rules.answer) {
        (Ok(_), Err(_)) => "a step",
        (Err(_), Ok(_)) => "a rule",
        _ => "both",
    }
}

/// A packet that is most likely refused, with outputs that are long enough, or short of a word or a byte.
fn compare_changed(comparison: &mut Comparison, version: Version, packet: &[u8], words: usize, bytes: usize) {
    let (table, text) = match comparison.random.below(4) {
        0 => (words.saturating_sub(1), bytes),
        1 => (words, bytes.saturating_sub(1)),
        2 => (words, bytes),
        _ => (words + 300, bytes + 600),
    };
    comparison.read_packet(version, packet, table, text);
    let (by, _) = move_of(version);
    let least = (by.expected)(packet, 2 * packet.len()).answer.unwrap_or(packet.len());
    let room = *comparison.random.pick(&around(least));
    comparison.move_packet(by, packet, room);
}

/// Every prefix of a small packet, each byte taken out or doubled, and every change of one byte; and its move to every length of output up to
/// what it needs and a few bytes more.
pub fn run_bytes(comparison: &mut Comparison, index: u64) {
    let (version, packet) = &packets::small_packets()[index as usize];
    let version = *version;
    let found = read(version, packet, ROOM, TEXT_LIMIT);
    let (rules, bytes) = found.answer.unwrap_or_default();
    let words = words_outside(version, packet, rules);
    for place in 0..packet.len() {
        compare_changed(comparison, version, &packet[..place], words, bytes);
        let (before, after) = packet.split_at(place);
        compare_changed(comparison, version, &[before, &after[1..]].concat(), words, bytes);
        compare_changed(comparison, version, &[before, &after[..1], after].concat(), words, bytes);
        for byte in 0..=255 {
            let mut changed = packet.clone();
            changed[place] = byte;
            compare_changed(comparison, version, &changed, words, bytes);
        }
    }
    for byte in 0..=255 {
        compare_changed(comparison, version, &[packet, &[byte][..]].concat(), words, bytes);
    }
    let (by, _) = move_of(version);
    let least = (by.expected)(packet, 2 * packet.len()).answer.unwrap_or(packet.len());
    for room in 0..least + 9 {
        comparison.move_packet(by, packet, room);
    }
    compare_packet(comparison, version, packet);
}

/// Packets at the limits.
pub fn run_limits(comparison: &mut Comparison, _: u64) {
    for version in VERSIONS {
        for packet in packets::limits(version) {
            compare_packet(comparison, version, &packet);
            comparison.read_packet(version, &packet, 0, 0);
            comparison.read_packet(version, &packet, 9, 10);
        }
    }
}

/// Tables at the limits with a short proof, and the proofs of the texts at the limits with the tables of their programs.
pub fn run_limit_pairs(comparison: &mut Comparison, _: u64) {
    for (table, rules) in tables::wide() {
        compare_pair(comparison, &Pair { table, rules, proof: b"a 1 0\n".to_vec() });
    }
    for case in limits::cases() {
        let rules = program::read(&case.pair.program, ROOM).map(|program| program.rules).unwrap_or_default();
        compare_pair(comparison, &Pair { table: table_words(&rules), rules: rules.len(), proof: case.pair.proof.clone() });
    }
}

/// A pair of the random families, its packets, and changes of all of them.
pub fn run_pairs(comparison: &mut Comparison, _: u64) {
    let pair = any_pair(&mut comparison.random);
    compare_pair(comparison, &pair);
    for version in VERSIONS {
        let written = write(version, &pair.table, pair.rules, &pair.proof, pair.enough());
        let Ok(size) = written.answer else { continue };
        for _ in 0..10 {
            let packet = packets::changed(&written.packet[..size], &mut comparison.random);
            compare_packet(comparison, version, &packet);
            compare_changed(comparison, version, &packet, pair.table.len(), pair.proof.len());
        }
        if comparison.random.percent(10) {
            compare_each_byte(comparison, version, &written.packet[..size], &pair);
        }
    }
}

/// Each byte of the pair's packet changed in turn, to any other.
fn compare_each_byte(comparison: &mut Comparison, version: Version, packet: &[u8], pair: &Pair) {
    for place in 0..packet.len() {
        let mut changed = packet.to_vec();
        changed[place] ^= comparison.random.between(1, 255) as u8;
        compare_changed(comparison, version, &changed, pair.table.len(), pair.proof.len());
    }
}

/// The table of a small program and a proof for it, either now and then changed.
fn any_pair(random: &mut Random) -> Pair {
    let (_, program) = small_program(random);
    let words = table_words(&program.rules);
    let (table, rules) = match random.below(4) {
        0 => tables::changed(&words, program.rules.len(), random),
        _ => (filled(words.clone(), words.len() + random.below(4)), program.rules.len()),
    };
    let proof = match random.below(4) {
        0 => guided::proof(&program, random, 25),
        _ => guided::proof_for_packet(&program, random, 25),
    };
    let proof = match random.below(10) {
        0 => noise::pair(random).proof,
        1 | 2 => changes::changed(&proof, random),
        _ => proof,
    };
    Pair { table, rules, proof }
}

#[cfg(test)]
mod tests {
    use super::*;
    use aspdrupe::PacketQuestion;

    #[test]
    fn packet_answers_as_numbers() {
        assert_eq!(writing_as_numbers(&PacketWriting::Written(57)), Ok(57));
        assert_eq!(unpacking_as_numbers(&PacketReading::Read { rules: 1, bytes: 35 }), Ok((1, 35)));
        for question in PacketQuestion::ALL.iter().copied() {
            assert_eq!(writing_as_numbers(&PacketWriting::Refused(question)), Err(question.number()));
            assert_eq!(unpacking_as_numbers(&PacketReading::Refused(question)), Err(question.number()));
        }
    }

    #[test]
    fn why_packets_stay() {
        let packet = |table: &[i32], proof: &[u8]| write(Version::Two, table, 1, proof, 200).packet;
        for (table, proof, why) in [
            (&[0, 1, 0, 0, 4_096][..], &b"a 1 0\n"[..], "a rule"),
            (&[0, 0, 1, 0, 0], b"", "a rule"),
            (&[0, 1, 0, 0, 1], b"a 4096 0\n", "a step"),
            (&[0, 1, 0, 0, 4_096], b"a 4096 0\n", "both"),
        ] {
            let found = write(Version::Two, table, 1, proof, 200);
            assert_eq!(why_not_down(&packet(table, proof)[..found.answer.unwrap()]), why);
        }
    }
}
