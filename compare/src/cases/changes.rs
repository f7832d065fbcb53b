//! Changes of good texts: lines dropped, doubled, swapped and altered, numbers moved to a limit, and damaged bytes.

use inputs::random::Random;

/// Numbers at the limits of documents 01 and 02, as they may be written in a text.
const NOTABLE: [&str; 25] = [
    "0",
    "1",
    "-1",
    "2",
    "-2",
    "12",
    "13",
    "64",
    "65",
    "66",
    "1024",
    "1025",
    "4094",
    "4095",
    "-4095",
    "4096",
    "-4096",
    "8190",
    "8191",
    "-8191",
    "8192",
    "-8192",
    "-0",
    "01",
    "99999999999999999999",
];

/// Bytes that matter to the readers.
const BYTES: &[u8] = b"0123456789- \nabcdelsf\r\t\0\xff";

/// The text with one to three random changes.
pub fn changed(text: &[u8], random: &mut Random) -> Vec<u8> {
    let mut text = text.to_vec();
    for _ in 0..random.between(1, 3) {
        text = if random.percent(75) { with_line_changed(&text, random) } else { damaged(&text, random) };
    }
    text
}

fn with_line_changed(text: &[u8], random: &mut Random) -> Vec<u8> {
    let mut lines: Vec<Vec<u8>> = text.split_inclusive(|byte| *byte == b'\n').map(<[u8]>::to_vec).collect();
    if lines.is_empty() {
        return text.to_vec();
    }
    let place = random.below(lines.len());
    let other = random.below(lines.len());
    match random.below(8) {
        0 | 1 => {
            lines.remove(place);
        }
        2 => lines.insert(other, lines[place].clone()),
        3 => lines.swap(place, other),
        4 => {
            let line = lines.remove(place);
            lines.insert(other.min(lines.len()), line);
        }
        _ => lines[place] = with_word_changed(&lines[place], random),
    }
    lines.concat()
}

/// Changes, adds, drops or swaps words of a line; its newline stays.
fn with_word_changed(line: &[u8], random: &mut Random) -> Vec<u8> {
    let line = String::from_utf8_lossy(line).into_owned();
    let mut words: Vec<String> = line.trim_end_matches('\n').split(' ').map(String::from).collect();
    let place = random.below(words.len());
    let other = random.below(words.len());
    match random.below(7) {
        0 => words[place] = String::from(*random.pick(&NOTABLE)),
        1 | 2 => words[place] = near(&words[place], random),
        3 => words.insert(place, random.between(-9, 9).to_string()),
        4 => {
            words.remove(place);
        }
        5 => words.swap(place, other),
        _ => words[0] = String::from(*random.pick(&["a", "b", "c", "d", "e", "l", "s", "1", "0"])),
    }
    (words.join(" ") + "\n").into_bytes()
}

fn near(word: &str, random: &mut Random) -> String {
    match word.parse::<i64>() {
        Ok(number) => (*random.pick(&[number + 1, number - 1, -number, number * 2, number + 7])).to_string(),
        Err(_) => String::from(word),
    }
}

/// The text with a byte changed, put in, taken out, a part cut off or doubled.
pub fn damaged(text: &[u8], random: &mut Random) -> Vec<u8> {
    let mut text = text.to_vec();
    let place = random.below(text.len() + 1);
    let byte = if random.percent(80) { *random.pick(BYTES) } else { random.below(256) as u8 };
    match random.below(6) {
        0 => text.insert(place, byte),
        1 if place < text.len() => {
            text.remove(place);
        }
        2 => text.truncate(place),
        3 => {
            let part = text[place..].to_vec();
            text.extend(part);
        }
        4 if place < text.len() => text[place] ^= 1 << random.below(8),
        _ if place < text.len() => text[place] = byte,
        _ => text.push(byte),
    }
    text
}
