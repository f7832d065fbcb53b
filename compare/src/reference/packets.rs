//! Case packets, Change 1 of document 02: the writer and the reader with their questions 51 to 53; and Change 11: packets of version 2, and
//! the moves up and down with question 61. "Packets keep the old table and refuse a weight rule with 53": inside version 1 stand the words of
//! the base, outside those of Change 3. "packets of version 1 keep the old" largest variable. "Version 2 carries the table of Change 3 and is
//! otherwise the same".

use super::filled;
use super::lines::{lines_of, Line};
use super::models::{rule_at_front, rules_of};
use super::program::{table_words, InputRule};
use super::{LARGEST, PACKET_LARGEST, PART_LIMIT, RULE_LIMIT};

/// "Reader and writer are told the version".
#[derive(Clone, Copy, Debug, PartialEq, Eq)]
pub enum Version {
    One,
    Two,
}

impl Version {
    /// "the three bytes `RVP`, 16-bit version 1", or 2.
    pub fn front(self) -> [u8; 5] {
        match self {
            Version::One => *b"RVP\x01\x00",
            Version::Two => *b"RVP\x02\x00",
        }
    }

    fn largest(self) -> i32 {
        match self {
            Version::One => PACKET_LARGEST,
            Version::Two => LARGEST,
        }
    }

    /// The words of a rule inside the packet; none of a rule with weights in version 1.
    fn words_of(self, rule: &InputRule) -> Option<Vec<i32>> {
        match self {
            Version::One => old_words(rule),
            Version::Two => Some(rule.words()),
        }
    }

    /// The rule that the words inside a packet begin with.
    fn rule_at_front(self, words: &[i32]) -> Option<InputRule> {
        match self {
            Version::One => old_rule_at_front(words),
            Version::Two => rule_at_front(words),
        }
    }
}

/// What the writer or a move answers, the packet's bytes or a refusal's number, and every byte of the output lent.
#[derive(Clone, Debug, PartialEq, Eq)]
pub struct Written {
    pub answer: Result<usize, u8>,
    pub packet: Vec<u8>,
}

/// What the reader answers, the rule count and the bytes of the proof text or a refusal's number, and every word and byte lent.
#[derive(Clone, Debug, PartialEq, Eq)]
pub struct Read {
    pub answer: Result<(usize, usize), u8>,
    pub table: Vec<i32>,
    pub proof: Vec<u8>,
}

/// A pair: the rules of a table, and the lines of a proof text.
type Pair = (Vec<InputRule>, Vec<Line>);

/// The writer, lent an output of `room` bytes.
pub fn write(version: Version, table: &[i32], rule_count: usize, proof: &[u8], room: usize) -> Written {
    let pair = rules_of(table, rule_count).zip(lines_of(proof)).ok_or(53);
    left(pair.and_then(|pair| packet_within(version, &pair, 53, room)), room)
}

/// "Up takes only version 1": read as version 1, written as version 2.
pub fn up(packet: &[u8], room: usize) -> Written {
    left(pair_in(Version::One, packet).and_then(|pair| packet_within(Version::Two, &pair, 53, room)), room)
}

/// "down only version 2. A version 2 packet with a weight body or a variable above 4,095 cannot go down and gets 61, after the tests of Change 1
/// but before the output's length is asked".
pub fn down(packet: &[u8], room: usize) -> Written {
    left(pair_in(Version::Two, packet).and_then(|pair| packet_within(Version::One, &pair, 61, room)), room)
}

/// "Outputs are 0 past what is written. A refusal zeroes whatever was lent to be filled."
fn left(packet: Result<Vec<u8>, u8>, room: usize) -> Written {
    match packet {
        Ok(packet) => Written { answer: Ok(packet.len()), packet: filled(packet, room) },
        Err(number) => Written { answer: Err(number), packet: vec![0; room] },
    }
}

/// The packet of the pair; a refusal with the number where the version cannot hold it, and then with 52 where it is longer than the output.
fn packet_within(version: Version, (rules, lines): &Pair, number: u8, room: usize) -> Result<Vec<u8>, u8> {
    if !variables_are_held(version, rules, lines) {
        return Err(number);
    }
    let words: Option<Vec<Vec<i32>>> = rules.iter().map(|rule| version.words_of(rule)).collect();
    let packet = bytes_of(version, &words.ok_or(number)?.concat(), lines);
    if packet.len() > room {
        return Err(52);
    }
    Ok(packet)
}

/// No variable of a rule or of a step is above the version's largest.
fn variables_are_held(version: Version, rules: &[InputRule], steps: &[Line]) -> bool {
    let is_held = |number: &i32| number.abs() <= version.largest();
    let rule_is_held = |rule: &InputRule| rule.heads.iter().all(is_held) && rule.literals().iter().all(is_held);
    rules.iter().all(rule_is_held) && steps.iter().all(|step| step.numbers.iter().all(is_held))
}

/// The words of a rule in the old table, "head kind, head count, body count, heads ascending, body literals ascending by atom"; none with
/// weights.
fn old_words(rule: &InputRule) -> Option<Vec<i32>> {
    let front = vec![i32::from(rule.choice), rule.heads.len() as i32, rule.literals().len() as i32];
    (!rule.has_weights()).then_some([front, rule.heads.clone(), rule.literals()].concat())
}

/// "the number of table words in use and the number of steps, 32 bits each, those words, and each step as a letter byte, a count byte and
/// its 16-bit signed numbers without the closing 0; all little-endian"
fn bytes_of(version: Version, words: &[i32], steps: &[Line]) -> Vec<u8> {
    let mut packet = version.front().to_vec();
    packet.extend((words.len() as u32).to_le_bytes());
    packet.extend((steps.len() as u32).to_le_bytes());
    packet.extend(words.iter().flat_map(|word| word.to_le_bytes()));
    for step in steps {
        packet.extend([step.letter, step.numbers.len() as u8]);
        packet.extend(step.numbers.iter().flat_map(|number| (*number as i16).to_le_bytes()));
    }
    packet
}

/// The reader, lent a table and a text of so many words and bytes.
pub fn read(version: Version, packet: &[u8], table_room: usize, proof_room: usize) -> Read {
    match pair_within(version, packet, table_room, proof_room) {
        Ok((rules, text)) => {
            Read { answer: Ok((rules.len(), text.len())), table: filled(table_words(&rules), table_room), proof: filled(text, proof_room) }
        }
        Err(number) => Read { answer: Err(number), table: vec![0; table_room], proof: vec![0; proof_room] },
    }
}

fn pair_within(version: Version, packet: &[u8], table_room: usize, proof_room: usize) -> Result<(Vec<InputRule>, Vec<u8>), u8> {
    let (rules, lines) = pair_in(version, packet)?;
    let text: Vec<u8> = lines.iter().flat_map(|line| line_text(line.letter, &line.numbers)).collect();
    if table_words(&rules).len() > table_room || text.len() > proof_room {
        return Err(52);
    }
    Ok((rules, text))
}

/// "A wrong or missing mark or version is 51, lengths that don't make up the bytes given 52, a table that 41 or a proof text that 21 to 25 would
/// refuse 53".
fn pair_in(version: Version, packet: &[u8]) -> Result<Pair, u8> {
    let rest = packet.strip_prefix(&version.front()).ok_or(51)?;
    let (words, steps) = parts(rest).ok_or(52)?;
    let rules = rules_in(version, &words).ok_or(53)?;
    let text: Vec<u8> = steps.iter().flat_map(|(letter, numbers)| line_text(*letter, numbers)).collect();
    let lines = lines_of(&text).ok_or(53)?;
    if !variables_are_held(version, &rules, &lines) {
        return Err(53);
    }
    Ok((rules, lines))
}

/// A step as it stands in a packet: its letter byte, which may be none, and its numbers.
type Step = (u8, Vec<i32>);

/// The words and the steps, where the lengths make up the bytes after mark and version.
fn parts(mut rest: &[u8]) -> Option<(Vec<i32>, Vec<Step>)> {
    let word_count = take_count(&mut rest)?;
    let step_count = take_count(&mut rest)?;
    let words = take(&mut rest, 4 * word_count)?;
    let words = words.chunks_exact(4).map(|word| i32::from_le_bytes([word[0], word[1], word[2], word[3]])).collect();
    let mut steps = Vec::new();
    for _ in 0..step_count {
        let front = take(&mut rest, 2)?;
        let numbers = take(&mut rest, 2 * usize::from(front[1]))?;
        steps.push((front[0], numbers.chunks_exact(2).map(|number| i32::from(i16::from_le_bytes([number[0], number[1]]))).collect()));
    }
    rest.is_empty().then_some((words, steps))
}

/// So many bytes off the front.
fn take<'a>(rest: &mut &'a [u8], count: usize) -> Option<&'a [u8]> {
    let (front, others) = rest.split_at_checked(count)?;
    *rest = others;
    Some(front)
}

/// 32 bits off the front.
fn take_count(rest: &mut &[u8]) -> Option<usize> {
    let bytes = take(rest, 4)?;
    Some(u32::from_le_bytes([bytes[0], bytes[1], bytes[2], bytes[3]]) as usize)
}

/// Question 41 of the words with the number of rules that they fall into.
fn rules_in(version: Version, words: &[i32]) -> Option<Vec<InputRule>> {
    let mut rest = words;
    let mut rules = Vec::new();
    while !rest.is_empty() {
        let rule = version.rule_at_front(rest)?;
        rest = &rest[version.words_of(&rule)?.len()..];
        rules.push(rule);
    }
    (rules.len() <= RULE_LIMIT).then_some(rules)
}

/// The rule that old words begin with: body kind 0 is left out of them.
fn old_rule_at_front(words: &[i32]) -> Option<InputRule> {
    let (front, rest) = words.split_at_checked(2)?;
    let longest = 1 + 2 * PART_LIMIT as usize;
    rule_at_front(&[front, &[0], &rest[..rest.len().min(longest)]].concat())
}

/// "A line is the letter, a space, up to 65 nonzero numbers, a closing `0`, newline."
fn line_text(letter: u8, numbers: &[i32]) -> Vec<u8> {
    let mut text = vec![letter];
    for number in numbers.iter().chain(&[0]) {
        text.extend(format!(" {number}").bytes());
    }
    text.push(b'\n');
    text
}

#[cfg(test)]
mod tests {
    use super::Version::{One, Two};
    use super::*;

    const TABLE: [i32; 6] = [0, 1, 0, 1, 1, -1];
    const PROOF: &[u8] = b"b 2 -1 0\nc 2 1 0\ns 1 2 0\na 1 0\na 0\n";
    const STEPS: &[u8; 24] = b"b\x02\x02\x00\xff\xffc\x02\x02\x00\x01\x00s\x02\x01\x00\x02\x00a\x01\x01\x00a\x00";

    #[test]
    fn starred_example_1() {
        let written = write(One, &TABLE, 1, PROOF, 60);
        assert_eq!(written.answer, Ok(57));
        assert_eq!(written.packet[..17], *b"RVP\x01\x00\x05\x00\x00\x00\x05\x00\x00\x00\x00\x00\x00\x00");
        assert_eq!(written.packet[29..], [&[255; 4], &STEPS[..], &[0; 3]].concat());
        let back = read(One, &written.packet[..57], 7, 36);
        assert_eq!(back.answer, Ok((1, 35)));
        assert_eq!((back.table, back.proof), (filled(TABLE.to_vec(), 7), filled(PROOF.to_vec(), 36)));
    }

    #[test]
    fn starred_example_1_in_version_2() {
        let written = write(Two, &TABLE, 1, PROOF, 61);
        assert_eq!(written.answer, Ok(61));
        assert_eq!(written.packet[..13], [0x52, 0x56, 0x50, 2, 0, 6, 0, 0, 0, 5, 0, 0, 0]);
        assert_eq!(written.packet[37..], *STEPS);
        let back = read(Two, &written.packet, 7, 36);
        assert_eq!((back.table, back.proof), (filled(TABLE.to_vec(), 7), filled(PROOF.to_vec(), 36)));
        let old = write(One, &TABLE, 1, PROOF, 57).packet;
        assert_eq!(up(&old, 61), written);
        assert_eq!(down(&written.packet, 59), Written { answer: Ok(57), packet: [&old[..], &[0; 2]].concat() });
        assert_eq!([up(&old, 60).answer, down(&written.packet, 56).answer], [Err(52); 2]);
        assert_eq!([up(&written.packet, 99).answer, down(&old, 99).answer], [Err(51); 2]);
        assert_eq!([read(One, &written.packet, 9, 99).answer, read(Two, &old, 9, 99).answer], [Err(51); 2]);
    }

    #[test]
    fn refusals_leave_zeros() {
        let short = write(One, &TABLE, 1, PROOF, 56);
        assert_eq!(short, Written { answer: Err(52), packet: vec![0; 56] });
        let packet = write(One, &TABLE, 1, PROOF, 57).packet;
        for (bytes, words, text, number) in [(4, 6, 35, 51), (56, 6, 35, 52), (57, 5, 35, 52), (57, 6, 34, 52)] {
            assert_eq!(read(One, &packet[..bytes], words, text), Read { answer: Err(number), table: vec![0; words], proof: vec![0; text] });
        }
    }

    #[test]
    fn weights_and_version_1() {
        let weights = [0, 0, 1, 0, 0];
        for room in [0, 60] {
            assert_eq!(write(One, &weights, 1, b"", room), Written { answer: Err(53), packet: vec![0; room] });
        }
        assert_eq!(write(One, &[&TABLE[..], &weights].concat(), 2, PROOF, 99).answer, Err(53));
        let alone = write(One, &TABLE, 1, b"", 33);
        assert_eq!(alone.answer, Ok(33));
        assert_eq!((read(One, &alone.packet, 6, 0).answer, read(One, &alone.packet, 5, 0).answer), (Ok((1, 0)), Err(52)));
        let packet = write(Two, &weights, 1, b"", 33).packet;
        for room in [0, 99] {
            assert_eq!(down(&packet, room), Written { answer: Err(61), packet: vec![0; room] });
        }
        assert_eq!(down(&[&packet[..], &[0]].concat(), 99).answer, Err(52));
    }

    #[test]
    fn variables_and_version_1() {
        for (atom, step, answer) in [(4_095, -4_095, Ok(33)), (4_096, 1, Err(61)), (1, 4_096, Err(61)), (4_095, -8_191, Err(61))] {
            let packet = write(Two, &[0, 1, 0, 0, atom], 1, format!("a {step} 0\n").as_bytes(), 37).packet;
            assert_eq!(down(&packet, 33).answer, answer);
        }
    }

    #[test]
    fn letters_that_are_none() {
        for letter in 0..=255 {
            for version in [One, Two] {
                let packet = [&version.front()[..], &[0, 0, 0, 0, 1, 0, 0, 0, letter, 1, 5, 0]].concat();
                let expected = if b"abcdels".contains(&letter) { Ok((0, 6)) } else { Err(53) };
                assert_eq!(read(version, &packet, 0, 6).answer, expected, "{letter}");
            }
        }
    }
}
