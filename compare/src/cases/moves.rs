//! Packets to be moved to the other version, with what document 02 asks for: the packet made, or the refusal.

use super::packets::{of_words, stating, step, word_bytes, PACKET_1, PACKET_1_IN_2};
use crate::reference::packets::Version;

/// A packet, the version that it is moved from, the bytes lent, and the packet that must be made, or the refusal.
pub struct MoveCase {
    pub name: &'static str,
    pub from: Version,
    pub packet: Vec<u8>,
    pub room: usize,
    pub answer: Result<Vec<u8>, u8>,
}

/// The worked cases.
pub fn cases() -> Vec<MoveCase> {
    let mut cases = ups();
    cases.extend(downs());
    cases.extend(weights());
    cases.extend(limits());
    cases
}

fn ups() -> Vec<MoveCase> {
    let up = |name, packet: &[u8], room, answer| MoveCase { name, from: Version::One, packet: packet.to_vec(), room, answer };
    let bad = [&PACKET_1[..55], b"x\0"].concat();
    let two_rules = of_words(Version::One, &[0, 1, 0, 1, 0, 0, 1, -1]);
    vec![
        up("starred 1 up", &PACKET_1, 61, Ok(PACKET_1_IN_2.to_vec())),
        up("starred 1 up, more lent", &PACKET_1, 99, Ok(PACKET_1_IN_2.to_vec())),
        up("starred 1 up, 60 bytes lent", &PACKET_1, 60, Err(52)),
        up("starred 1 up, nothing lent", &PACKET_1, 0, Err(52)),
        up("version 2 up", &PACKET_1_IN_2, 61, Err(51)),
        up("a packet cut, up", &PACKET_1[..56], 61, Err(52)),
        up("a packet and a zero, up", &[&PACKET_1[..], &[0]].concat(), 61, Err(52)),
        up("a letter that is none, up", &bad, 61, Err(53)),
        up("4 bytes up", &PACKET_1[..4], 61, Err(51)),
        up("12 bytes up", &PACKET_1[..12], 61, Err(52)),
        up("two rules up", &two_rules, 53, Ok(of_words(Version::Two, &[0, 1, 0, 0, 1, 0, 0, 0, 1, -1]))),
        up("a body kind in version 1", &of_words(Version::One, &[0, 1, 0, 0, 1]), 99, Err(53)),
        up("atom 4,096 in version 1", &of_words(Version::One, &[0, 1, 0, 4_096]), 99, Err(53)),
        up("nothing up", &stating(Version::One, 0, 0, &[]), 13, Ok(stating(Version::Two, 0, 0, &[]))),
    ]
}

fn down(name: &'static str, packet: &[u8], room: usize, answer: Result<Vec<u8>, u8>) -> MoveCase {
    MoveCase { name, from: Version::Two, packet: packet.to_vec(), room, answer }
}

fn downs() -> Vec<MoveCase> {
    let empty = stating(Version::Two, 0, 0, &[]);
    vec![
        down("starred 1 down", &PACKET_1_IN_2, 57, Ok(PACKET_1.to_vec())),
        down("starred 1 down, two bytes more lent", &PACKET_1_IN_2, 59, Ok(PACKET_1.to_vec())),
        down("starred 1 down, 56 bytes lent", &PACKET_1_IN_2, 56, Err(52)),
        down("version 1 down", &PACKET_1, 57, Err(51)),
        down("nothing down", &empty, 13, Ok(stating(Version::One, 0, 0, &[]))),
        down("nothing down, 12 bytes lent", &empty, 12, Err(52)),
        down("7 zeros down", &empty[..12], 13, Err(52)),
        down("4 bytes down", &empty[..4], 13, Err(51)),
        down("5 bytes down", &empty[..5], 13, Err(52)),
        down("9 zeros down", &[&empty[..], &[0]].concat(), 14, Err(52)),
    ]
}

fn weights() -> Vec<MoveCase> {
    let alone = of_words(Version::Two, &[0, 0, 1, 0, 0]);
    let with = |steps: u32, bytes: &[u8]| stating(Version::Two, 5, steps, &[&word_bytes(&[0, 0, 1, 0, 0]), bytes].concat());
    let after = of_words(Version::Two, &[0, 1, 0, 1, 1, -1, 0, 0, 1, 0, 0]);
    vec![
        down("a weight body", &alone, 33, Err(61)),
        down("a weight body, nothing lent", &alone, 0, Err(61)),
        down("a weight body after a plain rule", &after, 99, Err(61)),
        down("a weight body and a zero", &[&alone[..], &[0]].concat(), 33, Err(52)),
        down("a weight body and a letter that is none", &with(1, &[0x78, 0]), 33, Err(53)),
        down("a weight body and a number 0", &with(1, &step(b'a', &[0])), 33, Err(53)),
        down("a weight body of 4,096", &of_words(Version::Two, &[0, 0, 1, 1, 4_096, 1, 1]), 99, Err(53)),
        down("a weight 0 on atom 4,096", &of_words(Version::Two, &[0, 0, 1, 1, 0, 4_096, 0]), 99, Err(61)),
    ]
}

fn limits() -> Vec<MoveCase> {
    let packet =
        |version, words: &[i32], number: i32| stating(version, words.len() as u32, 1, &[word_bytes(words), step(b'a', &[number])].concat());
    let held = packet(Version::Two, &[0, 1, 0, 0, 4_095], -4_095);
    let made = packet(Version::One, &[0, 1, 0, 4_095], -4_095);
    vec![
        down("atom 4,096", &of_words(Version::Two, &[0, 1, 0, 0, 4_096]), 99, Err(61)),
        down("atom 4,096, nothing lent", &of_words(Version::Two, &[0, 1, 0, 0, 4_096]), 0, Err(61)),
        down("literal -4,096", &of_words(Version::Two, &[0, 0, 0, 1, -4_096]), 99, Err(61)),
        down("atom 4,095, step -4,096", &packet(Version::Two, &[0, 1, 0, 0, 4_095], -4_096), 99, Err(61)),
        down("atom 4,095, step -4,095", &held, 33, Ok(made.clone())),
        down("atom 4,095, step -4,095, 32 bytes lent", &held, 32, Err(52)),
        down("atom 8,192", &of_words(Version::Two, &[0, 1, 0, 0, 8_192]), 99, Err(53)),
        down("step 8,192", &packet(Version::Two, &[0, 1, 0, 0, 1], 8_192), 99, Err(53)),
        MoveCase { from: Version::One, packet: made, answer: Ok(held), ..down("atom 4,095, step -4,095, up", &[], 37, Err(0)) },
    ]
}

#[cfg(test)]
mod tests {
    use super::*;
    use crate::reference::filled;
    use crate::reference::packets::{down, up};

    #[test]
    fn reference_moves_as_the_documents_ask() {
        for case in cases() {
            let found = if case.from == Version::One { up(&case.packet, case.room) } else { down(&case.packet, case.room) };
            assert_eq!(found.answer, case.answer.as_ref().map(Vec::len).map_err(|number| *number), "{}", case.name);
            assert_eq!(found.packet, filled(case.answer.unwrap_or_default(), case.room), "{}", case.name);
        }
    }
}
