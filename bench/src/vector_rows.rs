//! The rows of vectors, beside `VClock`.

use crate::inputs::{self, WORK};
use crate::kinds::{Crdts, Verdict};
use crate::measure::{beside, row};
use crate::ours::Proved;
use crate::scripts::Random;
use crate::steps::{prepared, Step, COMPARE};
use crate::timing::{timed, Row};
use crdts::{CmRDT, CvRDT};
use std::time::Duration;

use Verdict::{Ahead, Conflict, Equal, Stale};

/// The rows of vectors with so many counts above 0.
pub fn rows<'a>(seed: u64, names: u32) -> Result<Vec<Row<'a>>, String> {
    let random = &mut Random(seed);
    let before = inputs::stamps::<Crdts>(random, names, |clock| {
        clock.0.iter().count() == names as usize
    });
    let goal = Some(5.0);
    let mix = inputs::pairs::<Crdts>(random, &before, COMPARE, &[Equal, Stale, Ahead, Conflict]);
    let (joins, events) = (inputs::joins(random), inputs::events(random));
    let join_row = merges(
        &before,
        &joins,
        format!("vectors of {names}: join, VClock in place"),
    );
    let event_row = increments(
        &before,
        &events,
        format!("vectors of {names}: increment, VClock in place"),
    );
    let rows = [("compare", mix), ("join", joins), ("increment", events)];
    let mut rows: Vec<Row> = rows
        .into_iter()
        .map(|(name, work)| {
            row::<Crdts>(
                Proved::Vectors,
                format!("vectors of {names}: {name}"),
                &before,
                work,
                goal,
            )
        })
        .collect::<Result<_, _>>()?;
    rows.push(join_row);
    rows.push(event_row);
    Ok(rows)
}

/// The merges alone: the clocks that they use up are cloned outside the time.
fn merges<'a>(before: &[Step], work: &[Step], name: String) -> Row<'a> {
    let (tables, _) = prepared::<Crdts>(before);
    let clock = |slot: u32| tables.clocks[slot as usize].0.clone();
    let pairs: Vec<_> = work
        .iter()
        .map(|step| (clock(step.a), clock(step.b)))
        .collect();
    let vectors = Proved::Vectors;
    beside(vectors, name, before, work.to_vec(), None, move |times| {
        let mut spent = Duration::ZERO;
        let mut merged = Vec::with_capacity(WORK);
        for _ in 0..times {
            merged.clear();
            let batch = pairs.clone();
            spent += timed(|| {
                for (mut a, b) in batch {
                    a.merge(b);
                    merged.push(a);
                }
            });
        }
        spent
    })
}

/// The increments alone, of one clock again and again.
fn increments<'a>(before: &[Step], work: &[Step], name: String) -> Row<'a> {
    let (tables, _) = prepared::<Crdts>(before);
    let mut clocks: Vec<_> = work
        .iter()
        .map(|step| {
            (
                tables.clocks[step.a as usize].0.clone(),
                tables.pens[step.b as usize].0[0],
            )
        })
        .collect();
    let vectors = Proved::Vectors;
    beside(vectors, name, before, work.to_vec(), None, move |times| {
        timed(|| {
            for _ in 0..times {
                for (clock, name) in &mut clocks {
                    let dot = clock.inc(*name);
                    clock.apply(dot);
                }
            }
        })
    })
}
