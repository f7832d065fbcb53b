//! The packets of the longest proof among the inputs that have one in version 1: how long it takes to write each version and to read it back,
//! and to move one to the other.

use crate::cases::Input;
use crate::measure::{timed, times_of, Times};
use aspdrupe::{PacketReading, PacketWriting, ProgramReading, UnknownAnswer, Version};
use inputs::{ROOM, TEXT_LIMIT};
use std::hint::black_box;
use std::time::Duration;

/// Bytes that hold the packet of any table and text of these lengths.
const PACKET: usize = 13 + 4 * ROOM + TEXT_LIMIT;

/// The packets of a pair in version 1 and in version 2.
pub struct Packed {
    pub name: String,
    pub versions: [PacketTimes; 2],
}

/// The bytes of a packet; the times of writing it and of reading it back, and of moving it to the other version.
pub struct PacketTimes {
    pub size: usize,
    pub writing: Times,
    pub reading: Times,
    pub moving: Times,
}

/// A table of the length that the program `verdict` has, with its rule count, and a proof text.
struct Case<'a> {
    table: Vec<i32>,
    rules: usize,
    proof: &'a [u8],
}

/// Writes, reads and moves the packets so many times. None where one is refused, another table or text is read back, or a move makes another
/// packet than the writer.
pub fn measure(inputs: &[Input], repetitions: usize) -> Option<Packed> {
    let longest = inputs.iter().filter(|input| input.packs).max_by_key(|input| input.texts.proof.len())?;
    let mut table = vec![0; ROOM];
    let Ok(ProgramReading::Read { rules, .. }) = aspdrupe::read_program(&longest.texts.program, &mut table) else { return None };
    let case = Case { table, rules, proof: &longest.texts.proof };
    let mut buffers = Buffers::new();
    let runs: Option<Vec<[Run; 2]>> = (0..repetitions).map(|_| buffers.run(&case)).collect();
    let runs = runs?;
    let times = |place: usize| PacketTimes {
        size: runs[0][place].size,
        writing: times_of(runs.iter().map(|run| run[place].writing).collect()),
        reading: times_of(runs.iter().map(|run| run[place].reading).collect()),
        moving: times_of(runs.iter().map(|run| run[place].moving).collect()),
    };
    Some(Packed { name: longest.name.clone(), versions: [times(0), times(1)] })
}

/// One packet written, read back and moved: its bytes, and the three times.
struct Run {
    size: usize,
    writing: Duration,
    reading: Duration,
    moving: Duration,
}

/// What is lent to each call. The calls themselves zero it.
struct Buffers {
    packets: [Vec<u8>; 2],
    moved: Vec<u8>,
    table: Vec<i32>,
    proof: Vec<u8>,
}

impl Buffers {
    fn new() -> Self {
        Buffers { packets: [vec![0; PACKET], vec![0; PACKET]], moved: vec![0; PACKET], table: vec![0; ROOM], proof: vec![0; TEXT_LIMIT] }
    }

    fn run(&mut self, case: &Case) -> Option<[Run; 2]> {
        let [one, two] = [self.write_and_read(case, 0)?, self.write_and_read(case, 1)?];
        let up = self.move_packet([0, 1], [one.0, two.0], aspdrupe::packet_up)?;
        let down = self.move_packet([1, 0], [two.0, one.0], aspdrupe::packet_down)?;
        let run = |(size, writing, reading), moving| Run { size, writing, reading, moving };
        Some([run(one, up), run(two, down)])
    }

    /// The bytes of the packet of a version, and how long it takes to write and to read it.
    fn write_and_read(&mut self, case: &Case, place: usize) -> Option<(usize, Duration, Duration)> {
        let (version, packet) = (Version::ALL[place], &mut self.packets[place]);
        let (written, writing) =
            timed(|| aspdrupe::write_packet(version, black_box(&case.table), case.rules, black_box(case.proof), packet));
        let Ok(PacketWriting::Written(size)) = written else { return None };
        let (read, reading) = timed(|| aspdrupe::read_packet(version, black_box(&packet[..size]), &mut self.table, &mut self.proof));
        let same = read == Ok(PacketReading::Read { rules: case.rules, bytes: case.proof.len() });
        (same && self.table == case.table && self.proof.starts_with(case.proof)).then_some((size, writing, reading))
    }

    /// How long it takes to move the packet of one version to the other.
    fn move_packet(
        &mut self,
        places: [usize; 2],
        sizes: [usize; 2],
        by: fn(&[u8], &mut [u8]) -> Result<PacketWriting, UnknownAnswer>,
    ) -> Option<Duration> {
        let (moved, moving) = timed(|| by(black_box(&self.packets[places[0]][..sizes[0]]), &mut self.moved));
        (moved == Ok(PacketWriting::Written(sizes[1])) && self.moved == self.packets[places[1]]).then_some(moving)
    }
}
