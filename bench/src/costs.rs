//! A set certified as cheapest: how long it takes, and how long the whole check of its proof takes for the restricted program as a text.

use crate::cases::Certificate;
use crate::measure::{timed, times_of, Times};
use aspdrupe::{Cheapest, Verdict};
use inputs::lines::proof_text;
use inputs::ROOM;
use std::hint::black_box;
use std::time::Duration;

/// A set that was certified: what it costs and how many literals have a cost, the bytes of program and proof, the proof's steps, and the times.
pub struct Certified {
    pub name: String,
    pub cost: usize,
    pub literals: usize,
    pub program: usize,
    pub proof: usize,
    pub steps: usize,
    pub certifying: Times,
    pub checking: Times,
}

/// Certifies the set and checks its proof so many times. None where it is refused, or costs something else.
pub fn measure(certificate: &Certificate, repetitions: usize) -> Option<Certified> {
    let proof = proof_text(&certificate.proof);
    let (mut table, mut store) = (vec![0; ROOM], vec![0; ROOM]);
    let runs: Option<Vec<Run>> = (0..repetitions).map(|_| run(certificate, proof.as_bytes(), &mut table, &mut store)).collect();
    let runs = runs?;
    Some(Certified {
        name: certificate.name.clone(),
        cost: certificate.cost,
        literals: certificate.costs.len() / 2,
        program: certificate.program.len(),
        proof: proof.len(),
        steps: runs.first()?.steps,
        certifying: times_of(runs.iter().map(|run| run.certifying).collect()),
        checking: times_of(runs.iter().map(|run| run.checking).collect()),
    })
}

/// One certificate and one check of its proof: the steps, and the two times.
struct Run {
    steps: usize,
    certifying: Duration,
    checking: Duration,
}

/// What is lent is zeroed by the calls themselves.
fn run(certificate: &Certificate, proof: &[u8], table: &mut [i32], store: &mut [i32]) -> Option<Run> {
    let Certificate { program, set, costs, restricted, .. } = certificate;
    let (certified, certifying) =
        timed(|| aspdrupe::check_cheapest(black_box(program), black_box(set), black_box(costs), black_box(proof), table, store));
    if certified != Ok(Cheapest::Certified(certificate.cost)) {
        return None;
    }
    let (verdict, checking) = timed(|| aspdrupe::check_texts(black_box(restricted), black_box(proof), table, store));
    let Ok(Verdict::Inconsistent(counts)) = verdict else { return None };
    Some(Run { steps: counts.steps, certifying, checking })
}
