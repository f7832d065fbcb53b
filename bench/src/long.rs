//! The check for proofs of any length beside the unverified checker, on proofs of growing length. It is printed, and drawn in docs/length.svg.

use crate::cases::{self, Input};
use crate::measure::{self, timed, times_of, Answer, Measured};
use crate::picture::{self, Axis, Labels, Series};
use crate::{report, unverified};
use inputs::ROOM;
use std::hint::black_box;
use std::time::Duration;

/// Where the picture goes, from the repository's root.
const PICTURE: &str = "docs/length.svg";

/// The megabytes of the longest input, and of the longest where each is run once.
const LONGEST: f64 = 16.0;
const LONGEST_ONCE: f64 = 0.1;

/// The bytes of noise that are refused at their first line.
const NOISE: usize = 100_000_000;

/// What the long check is lent, of the store and the memory as much as the input needs. The check itself zeroes it.
struct Buffers {
    table: Vec<i32>,
    store: Vec<i32>,
    memory: Vec<u32>,
}

impl Buffers {
    fn of(inputs: &[Input]) -> Buffers {
        let store = inputs.iter().map(|input| input.store).max().unwrap_or(0);
        Buffers { table: vec![0; ROOM], store: vec![0; store], memory: vec![0; aspdrupe::memory_for(store)] }
    }

    fn verified(&mut self, input: &Input) -> Answer {
        let (program, proof) = (black_box(&input.texts.program), black_box(&input.texts.proof));
        let memory = &mut self.memory[..aspdrupe::memory_for(input.store)];
        aspdrupe::check_long_with(program, proof, &mut self.table, &mut self.store[..input.store], memory)
    }
}

fn unverified(input: &Input) -> Answer {
    unverified::check_long(black_box(&input.texts.program), black_box(&input.texts.proof), ROOM, input.store)
}

/// Goes so many times through all inputs and runs both checkers on each.
fn measure(inputs: &[Input], repetitions: usize) -> Vec<Measured> {
    let mut buffers = Buffers::of(inputs);
    measure::measure_by(inputs, repetitions, |input| buffers.verified(input), unverified)
}

/// The shortest inputs, each once; on how many the checkers differ.
pub fn once() -> (usize, usize) {
    let inputs = cases::long(LONGEST_ONCE);
    let measured = measure(&inputs, 1);
    (inputs.len(), report_all(&inputs, &measured))
}

/// All inputs, with those of the command where one is named, so many times; prints and draws them. How many went wrong.
pub fn run(command: Option<&str>, repetitions: usize) -> usize {
    let mut inputs = cases::long(LONGEST);
    match command.map_or(Ok(Vec::new()), cases::long_plans) {
        Ok(plans) => inputs.extend(plans),
        Err(message) => {
            println!("FAILED: {message}");
            return 1;
        }
    }
    let measured = measure(&inputs, repetitions);
    report::long_heading(repetitions);
    let failed = report_all(&inputs, &measured) + usize::from(!noise(repetitions)) + usize::from(!drawn(&inputs, &measured));
    println!("{} passed, {failed} failed", inputs.len() + 2 - failed);
    failed
}

fn report_all(inputs: &[Input], measured: &[Measured]) -> usize {
    let differing = inputs.iter().zip(measured).filter(|(input, measured)| {
        let same = measured.verified == measured.unverified && report::counts_of(&measured.verified).is_some();
        if same {
            report::long_row(input, measured);
        } else {
            report::difference(input, measured);
        }
        !same
    });
    differing.count()
}

/// Bytes of every kind, which are refused at their first line: the time of that, and whether it is what is said.
fn noise(repetitions: usize) -> bool {
    let bytes: Vec<u8> = (0..NOISE as u32).map(|place| (place.wrapping_mul(2_654_435_761) >> 13) as u8).collect();
    let program = b"asp 1 0 0\n1 0 1 1 0 1 -1\n0\n";
    let mut memory = vec![0; aspdrupe::memory_for(ROOM)];
    let (mut table, mut store) = (vec![0; ROOM], vec![0; ROOM]);
    let mut run = || aspdrupe::check_long_with(program, black_box(&bytes), &mut table, &mut store, &mut memory);
    let runs: Vec<(Answer, Duration)> = (0..repetitions).map(|_| timed(&mut run)).collect();
    let good = runs.iter().all(|(answer, _)| answer.is_ok_and(|verdict| verdict.to_string() == "refused proof 22 1"));
    report::noise(NOISE, good, &times_of(runs.iter().map(|run| run.1).collect()));
    good
}

/// Draws nanoseconds a byte over megabytes, both in powers of ten, of one family of inputs, since a line through several would join what has
/// nothing to do with one another; whether it is written.
fn drawn(inputs: &[Input], measured: &[Measured]) -> bool {
    let series = |class, label, kept: bool, time: fn(&Measured) -> Duration| {
        let family = inputs.iter().zip(measured).filter(|(input, _)| input.name.starts_with(DRAWN));
        let shown = family.filter(|(input, _)| input.name.ends_with("-no-d") != kept);
        let mut points: Vec<(f64, f64)> = shown.map(|(input, measured)| point(input, time(measured))).collect();
        points.sort_by(|one, other| one.0.total_cmp(&other.0));
        Series { class, label, points }
    };
    let lines = [
        series("after", "verified, with deletions", true, |measured| measured.verified_times.least),
        series("before", "verified, without", false, |measured| measured.verified_times.least),
        series("unverified", "unverified, with deletions", true, |measured| measured.unverified_times.least),
        series("other", "unverified, without", false, |measured| measured.unverified_times.least),
    ];
    let labels = Labels {
        about: "Time a byte against the length of the proof",
        title: "Nanoseconds a byte, pigeons, in powers of ten",
        across: "megabytes of the proof, in powers of ten",
    };
    let picture = picture::draw_in(&lines, &labels, Axis::powers(LEAST_POWER, 2), Axis::powers(0, 4));
    let written = std::fs::write(PICTURE, picture);
    if let Err(error) = &written {
        println!("FAILED: {PICTURE}: {error}");
    }
    written.is_ok()
}

/// The inputs that are drawn.
const DRAWN: &str = "pigeons-";

/// The picture begins at so many megabytes, as a power of ten.
const LEAST_POWER: i32 = -2;

fn point(input: &Input, time: Duration) -> (f64, f64) {
    let bytes = input.texts.proof.len() as f64;
    ((bytes / 1e6).log10() - f64::from(LEAST_POWER), (time.as_secs_f64() * 1e9 / bytes).log10().max(0.0))
}
