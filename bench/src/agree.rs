//! The library and the peers do the same: every line of every run is the same text.

use crate::kinds::{Boxed, Cause, Crdts, Kind};
use crate::ours::Proved;
use crate::scripts::{self, Random};
use crate::seasons;
use crate::steps::{Answer, Step, Tables};
use std::collections::BTreeMap;

/// How often each cause came, and how many steps were compared.
#[derive(Default)]
struct Seen {
    steps: usize,
    refused: BTreeMap<u8, usize>,
}

const ROOM: usize = 64 << 20;

fn first_difference(ours: &str, peers: &str) -> Option<String> {
    if ours == peers {
        return None;
    }
    let pairs = ours.lines().zip(peers.lines()).enumerate();
    let differs = pairs.into_iter().find(|(_, (a, b))| a != b);
    Some(match differs {
        Some((line, (a, b))) => format!("line {line}: ours {a}, peer {b}"),
        None => format!("lengths {} and {}", ours.len(), peers.len()),
    })
}

/// Compares a run of steps, and fails at the first line that differs.
pub fn same_steps<K: Kind>(proved: Proved, steps: &[Step]) -> Result<BTreeMap<u8, usize>, String> {
    let mut refused = BTreeMap::new();
    let mut tables = Tables::<K>::new();
    let mut text = String::new();
    for step in steps {
        if let Answer::Refused(cause) = tables.tell(step, &mut text) {
            *refused.entry(cause).or_insert(0) += 1;
        }
    }
    let ours = proved.steps(steps, ROOM);
    first_difference(&ours, &text).map_or(Ok(refused), Err)
}

fn kind<K: Kind>(name: &str, proved: Proved, vectors: bool, seed: u64) -> Result<(), String> {
    let mut random = Random(seed);
    let mut seen = Seen::default();
    let mut runs = Vec::new();
    for _ in 0..150 {
        runs.push(scripts::any_steps(&mut random, 1000));
    }
    if !vectors {
        for _ in 0..10 {
            runs.push(scripts::wide_steps(&mut random, 2000));
        }
    }
    runs.push(scripts::long_steps(vectors));
    for (i, steps) in runs.iter().enumerate() {
        let refused =
            same_steps::<K>(proved, steps).map_err(|e| format!("{name}, run {i}: {e}"))?;
        seen.steps += steps.len();
        for (cause, times) in refused {
            *seen.refused.entry(cause).or_insert(0) += times;
        }
    }
    let causes = seasons::causes(&seen.refused);
    println!(
        "{name}: {} steps in {} runs agree; refusals {causes}",
        seen.steps,
        runs.len()
    );
    Ok(())
}

fn yards<K: Kind>(name: &str, proved: Proved, seed: u64) -> Result<(), String> {
    let mut random = Random(seed);
    let mut made = 0;
    let mut refused = BTreeMap::new();
    for i in 0..20 {
        let habits = if i % 2 == 0 {
            &seasons::RESTLESS
        } else {
            &seasons::SETTLED
        };
        let calls = seasons::season::<K>(&mut random, habits, 2000);
        let peers = seasons::tell::<K>(&calls);
        let ours = proved.season(&calls, ROOM);
        if let Some(e) = first_difference(&ours, &peers) {
            return Err(format!("{name}, season {i}: {e}"));
        }
        made += calls.len();
        for cause in peers.lines().filter_map(refusal) {
            *refused.entry(cause).or_insert(0) += 1;
        }
    }
    let causes = seasons::causes(&refused);
    println!("{name}: {made} calls in 20 seasons agree, and the copies that they leave; refusals {causes}");
    Ok(())
}

/// The cause in a line of a season.
fn refusal(line: &str) -> Option<Cause> {
    line.strip_prefix("refused ")?
        .split(' ')
        .next()?
        .parse()
        .ok()
}

/// All comparisons.
pub fn all(seed: u64) -> Result<(), String> {
    kind::<Boxed>("trees", Proved::Trees, false, seed)?;
    kind::<Crdts>("vectors", Proved::Vectors, true, seed + 1)?;
    yards::<Boxed>("yards of trees", Proved::Trees, seed + 2)?;
    yards::<Crdts>("yards of vectors", Proved::Vectors, seed + 3)
}
