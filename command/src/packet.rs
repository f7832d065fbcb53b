//! `aspdrupe packet`: a program and a proof as one file to send, and back; and such a file moved to the other version.

use std::path::PathBuf;

use aspdrupe::{PacketQuestion, PacketReading, PacketWriting, UnknownAnswer, Version};

use crate::arguments::{Subcommand, Words};
use crate::explain;
use crate::files::{self, TEXT_LIMIT};
use crate::json::Json;
use crate::library::{self, Program};
use crate::outcome::{Failure, Outcome, Status};
use crate::rules::{rules, Rule};

pub const SUBCOMMAND: Subcommand = Subcommand {
    name: "packet",
    form: "write PROGRAM PROOF -o PACKET [--version 1|2] | read PACKET --program P --proof D [--version 1|2] | up|down PACKET -o OUT",
    about: "Writes a program and a proof as one file to send, reads such a file back into two texts, or moves it to the other version.",
    more: "Version 1 has no place for weight bodies, nor for a variable above 4,095; version 2 has. --version is for `write`, which takes 1 where
nothing is said, and for `read`, which then takes the one that the packet names. `up` makes version 2 of version 1, `down` the other way round.
None checks the proof: `aspdrupe check` does, on the texts. The program's text comes back with heads and literals in ascending order.
Prints
    packet BYTES             what was written or moved
    packet RULES BYTES       what was read: the rules, and the proof's bytes
    refused packet NUMBER",
    options: &["-o", "--program", "--proof", "--version"],
    lists: &[],
    flags: &[],
    inputs: &[1, 2],
    operands: (2, 3),
    run,
};

/// The most words of a table: 1,024 rules, each of four words, 64 heads and 64 literals.
const MOST_WORDS: usize = 1_024 * 132;

/// The most bytes of a packet that are read: as many as the largest table and the longest proof take.
const LIMIT: usize = 13 + 4 * MOST_WORDS + TEXT_LIMIT;

fn run(words: &Words) -> Result<Outcome, Failure> {
    match words.texts_from(0)[..] {
        [ref way, _, _] if way == "write" => write(words),
        [ref way, _] if way == "read" => read(words),
        [ref way, _] if way == "up" => moved(words, Version::Two, aspdrupe::packet_up),
        [ref way, _] if way == "down" => moved(words, Version::One, aspdrupe::packet_down),
        _ => Err(Failure::misuse(format!("aspdrupe packet {}", SUBCOMMAND.form))),
    }
}

/// The version of `--version`.
fn version(words: &Words) -> Result<Option<Version>, Failure> {
    let Some(value) = words.text("--version") else { return Ok(None) };
    let listed = Version::ALL.into_iter().find(|version| version.number().to_string() == value);
    listed.map(Some).ok_or_else(|| Failure::misuse(format!("--version takes 1 or 2, not `{value}`")))
}

fn write(words: &Words) -> Result<Outcome, Failure> {
    let version = version(words)?.unwrap_or(Version::One);
    let output = packet_output(words)?;
    let text = files::read(words.path(1)?, TEXT_LIMIT)?;
    let proof = files::read(words.path(2)?, TEXT_LIMIT)?;
    let program = match library::read_program(&text, library::EVERY_TABLE)? {
        Ok(program) => program,
        Err(refusal) => return Ok(explain::program(refusal, &text)),
    };
    let mut packet = vec![0; 13 + 4 * program.table.len() + proof.len()];
    match aspdrupe::write_packet(version, &program.table, program.rules, &proof, &mut packet)? {
        PacketWriting::Refused(question) => Ok(refused(question)),
        PacketWriting::Written(bytes) => {
            files::write(&output, &packet[..bytes])?;
            let mut outcome = written(bytes, version);
            outcome.words = vec![format!("{} rules and a proof of {} bytes: {}", program.rules, proof.len(), output.display())];
            outcome.fields.push(("rules", Json::count(program.rules)));
            Ok(outcome)
        }
    }
}

fn packet_output(words: &Words) -> Result<PathBuf, Failure> {
    words.output("-o").ok_or_else(|| Failure::misuse("-o names the packet to write"))
}

fn written(bytes: usize, version: Version) -> Outcome {
    let fields = vec![("bytes", Json::count(bytes)), ("version", Json::Number(i64::from(version.number())))];
    Outcome { status: Status::Good, line: format!("packet {bytes}"), words: Vec::new(), fields }
}

/// A packet moved to a version.
fn moved(words: &Words, to: Version, service: Move) -> Result<Outcome, Failure> {
    if words.text("--version").is_some() {
        return Err(Failure::misuse("`up` and `down` take no --version: they go from one to the other"));
    }
    let output = packet_output(words)?;
    let packet = files::read(words.path(1)?, LIMIT)?;
    let mut made = vec![0; packet.len() + packet.len() / 3];
    match service(&packet, &mut made)? {
        PacketWriting::Refused(question) => Ok(refused(question)),
        PacketWriting::Written(bytes) => {
            files::write(&output, &made[..bytes])?;
            let mut outcome = written(bytes, to);
            outcome.words =
                vec![format!("a packet of version {}, made of one of {} bytes: {}", to.number(), packet.len(), output.display())];
            Ok(outcome)
        }
    }
}

/// A service that moves a packet.
type Move = fn(&[u8], &mut [u8]) -> Result<PacketWriting, UnknownAnswer>;

/// The version that a packet names, or 1 where it names none that there is.
fn named(packet: &[u8]) -> Version {
    match packet.get(3..5) {
        Some([2, 0]) => Version::Two,
        _ => Version::One,
    }
}

fn read(words: &Words) -> Result<Outcome, Failure> {
    let outputs = words.output("--program").zip(words.output("--proof"));
    let (to_program, to_proof) = outputs.ok_or_else(|| Failure::misuse("--program and --proof name the texts to write"))?;
    let packet = files::read(words.path(1)?, LIMIT)?;
    let mut table = library::lent(packet.len() / 3)?;
    let mut proof = vec![0; TEXT_LIMIT];
    let version = version(words)?.unwrap_or(named(&packet));
    match aspdrupe::read_packet(version, &packet, &mut table, &mut proof)? {
        PacketReading::Refused(question) => Ok(refused(question)),
        PacketReading::Read { rules: count, bytes } => {
            proof.truncate(bytes);
            let text = program_text(&Program { atoms: 0, rules: count, table })?;
            files::write_together(&[(&to_program, text.as_bytes()), (&to_proof, &proof)])?;
            let words = vec![format!("{count} rules: {}; a proof of {bytes} bytes: {}", to_program.display(), to_proof.display())];
            let number = Json::Number(i64::from(version.number()));
            let fields = vec![("rules", Json::count(count)), ("bytes", Json::count(bytes)), ("version", number)];
            Ok(Outcome { status: Status::Good, line: format!("packet {count} {bytes}"), words, fields })
        }
    }
}

fn refused(question: PacketQuestion) -> Outcome {
    explain::question("packet", question.number(), question.to_string(), question.mend())
}

/// The text of a table. The library reads it back: it must leave the same table.
fn program_text(program: &Program) -> Result<String, Failure> {
    let lines: Vec<String> = rules(program).iter().map(Rule::line).chain([String::from("0")]).collect();
    let text = format!("asp 1 0 0\n{}\n", lines.join("\n"));
    match library::read_program(text.as_bytes(), program.table.len())? {
        Ok(again) if again.table == program.table && again.rules == program.rules => Ok(text),
        _ => Err(Failure::refused("the packet's rules are no program text: it has more than 65,535 bytes")),
    }
}
