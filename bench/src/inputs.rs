//! The inputs of timed runs, and what is done with them.

use crate::ids::Id;
use crate::kinds::{Boxed, Kind, Verdict};
use crate::scripts::{parts, step, Random};
use crate::steps::{prepared, Step, Tables, COPY, EVENT, FORK, JOIN, NOTHING, UNITE};
use std::ops::RangeInclusive;

// Where the inputs of a timed run stand, the copies of the first of them, and the results.
pub const INPUTS: RangeInclusive<u32> = 48..=95;
const COPIES: RangeInclusive<u32> = 96..=111;
const RESULTS: RangeInclusive<u32> = 112..=127;
const NO_PEN: u32 = 126;

/// Replicas that edit and take from one another. A stamp of theirs is kept in an
/// input's slot where its clock fits, the pen being the replica's own.
pub fn stamps<K: Kind>(
    random: &mut Random,
    replicas: u32,
    fits: impl Fn(&K::Clock) -> bool,
) -> Vec<Step> {
    let mut tables = Tables::<K>::new();
    let mut steps = Vec::new();
    let mut take = |tables: &mut Tables<K>, step: Step| {
        tables.step(&step);
        steps.push(step);
    };
    for step in parts(replicas) {
        take(&mut tables, step);
    }
    let mut inputs = INPUTS;
    while !inputs.is_empty() {
        let i = random.among(0..=replicas - 1);
        if random.below(100) < 60 {
            take(&mut tables, step(EVENT, i, i, i));
        } else {
            take(
                &mut tables,
                step(JOIN, i, random.among(0..=replicas - 1), i),
            );
        }
        if fits(&tables.clocks[i as usize]) && random.below(6) == 0 {
            if let Some(to) = inputs.next() {
                take(&mut tables, step(COPY, i, 0, to));
            }
        }
    }
    for (copy, of) in COPIES.zip(INPUTS) {
        take(&mut tables, step(COPY, of, 0, copy));
    }
    steps
}

/// After `stamps`: the pens of the inputs are replaced by unions of the replicas'
/// pens, two and two with no mark in common; they and what each two make have a size in the range.
pub fn unions(
    random: &mut Random,
    before: &[Step],
    replicas: u32,
    sizes: RangeInclusive<usize>,
) -> Vec<Step> {
    let (tables, _) = prepared::<Boxed>(before);
    let sum = |leaves: &[u32]| {
        leaves.iter().fold(Id::Zero, |id, leaf| {
            id.sum(&tables.pens[*leaf as usize])
                .expect("the pens have no mark in common")
        })
    };
    let mut steps = before.to_vec();
    for first in INPUTS.step_by(2) {
        let (ours, theirs) = loop {
            let (mut ours, mut theirs) = (Vec::new(), Vec::new());
            for leaf in 0..replicas {
                match random.below(3) {
                    0 => ours.push(leaf),
                    1 => theirs.push(leaf),
                    _ => {}
                }
            }
            let (a, b) = (sum(&ours), sum(&theirs));
            let both = a.sum(&b).expect("the pens have no mark in common");
            if [&a, &b, &both].iter().all(|id| sizes.contains(&id.size())) {
                break (ours, theirs);
            }
        };
        for (to, leaves) in [(first, ours), (first + 1, theirs)] {
            steps.push(step(UNITE, NO_PEN, NO_PEN, to));
            steps.extend(leaves.iter().map(|leaf| step(UNITE, to, *leaf, to)));
        }
    }
    steps
}

/// How many steps a timed run has.
pub const WORK: usize = 256;

fn result(k: usize) -> u32 {
    RESULTS.start() + (k % 14) as u32
}

/// Pens parted into two.
pub fn forks(random: &mut Random) -> Vec<Step> {
    (0..WORK)
        .map(|k| step(FORK, random.among(INPUTS), result(2 * k), result(2 * k + 1)))
        .collect()
}

/// Pens united that `unions` made two and two.
pub fn unites(random: &mut Random) -> Vec<Step> {
    (0..WORK)
        .map(|k| {
            let a = random.among(INPUTS);
            step(UNITE, a, a ^ 1, result(k))
        })
        .collect()
}

/// Each clock under its stamp's pen.
pub fn events(random: &mut Random) -> Vec<Step> {
    (0..WORK)
        .map(|k| {
            let a = random.among(INPUTS);
            step(EVENT, a, a, result(k))
        })
        .collect()
}

/// Two clocks at random.
pub fn joins(random: &mut Random) -> Vec<Step> {
    (0..WORK)
        .map(|k| step(JOIN, random.among(INPUTS), random.among(INPUTS), result(k)))
        .collect()
}

/// The call on pairs of clocks with these verdicts, as many of each. Equal
/// clocks are two values in two slots.
pub fn pairs<K: Kind>(
    random: &mut Random,
    before: &[Step],
    call: u32,
    wanted: &[Verdict],
) -> Vec<Step> {
    let (tables, _) = prepared::<K>(before);
    (0..WORK)
        .map(|k| {
            let verdict = wanted[k % wanted.len()];
            if verdict == Verdict::Equal {
                let i = random.below(16) as u32;
                return step(call, INPUTS.start() + i, COPIES.start() + i, 0);
            }
            loop {
                let (a, b) = (random.among(INPUTS), random.among(INPUTS));
                if K::compare(&tables.clocks[a as usize], &tables.clocks[b as usize]) == verdict {
                    return step(call, a, b, 0);
                }
            }
        })
        .collect()
}

/// Steps that do nothing.
pub fn nothings() -> Vec<Step> {
    vec![step(NOTHING, 0, 0, 0); WORK]
}

/// Copies of records among the inputs' slots.
pub fn copies(random: &mut Random) -> Vec<Step> {
    (0..WORK)
        .map(|_| step(COPY, random.among(INPUTS), 0, random.among(INPUTS)))
        .collect()
}
