//! The rows of the table: the same steps by the library and by the peers.

use crate::agree::same_steps;
use crate::inputs::{self, WORK};
use crate::kinds::{Boxed, Crdts, Kind, Verdict};
use crate::ours::{record_copies, Proved};
use crate::scripts::Random;
use crate::seasons::{self, Call};
use crate::steps::{prepared, rounds, Step, COMPARE, COVERS};
use crate::timing::{enough, timed, Row};
use crate::vector_rows;
use std::time::{Duration, Instant};

use Verdict::{Ahead, Conflict, Equal, Stale};

/// A row of steps, after the check that both sides give the same lines and sums.
pub fn row<'a, K: Kind + 'a>(
    proved: Proved,
    name: String,
    before: &[Step],
    work: Vec<Step>,
    goal: Option<f64>,
) -> Result<Row<'a>, String> {
    let both = [before, &work].concat();
    same_steps::<K>(proved, &both).map_err(|e| format!("{name}: {e}"))?;
    let (mut tables, start) = prepared::<K>(before);
    let call = work[0].call;
    let sum = start.wrapping_add(rounds(&mut tables, call, &work, 3));
    if sum != proved.rounds(before, call, &work, 3) {
        return Err(format!("{name}: the sums differ"));
    }
    let again = work.clone();
    Ok(beside(proved, name, before, again, goal, move |times| {
        timed(|| rounds(&mut tables, call, &work, times))
    }))
}

/// A row of steps by the library, beside what a peer does.
pub fn beside<'a>(
    proved: Proved,
    name: String,
    before: &[Step],
    work: Vec<Step>,
    goal: Option<f64>,
    peer: impl FnMut(u32) -> Duration + 'a,
) -> Row<'a> {
    let (before, call) = (before.to_vec(), work[0].call);
    Row {
        name,
        operations: WORK,
        goal,
        ours: Box::new(move |times| timed(|| proved.rounds(&before, call, &work, times))),
        peer: Box::new(peer),
    }
}

/// The rows of one size of tree.
fn trees<'a>(seed: u64, large: bool) -> Result<Vec<Row<'a>>, String> {
    let random = &mut Random(seed);
    let (size, replicas, sizes) = if large {
        ("large", 32, 40..=63)
    } else {
        ("small", 5, 3..=9)
    };
    let goal = |small, big| Some(if large { big } else { small });
    let range = sizes.clone();
    let before = inputs::stamps::<Boxed>(random, replicas, |clock| range.contains(&clock.size()));
    let wide = inputs::unions(random, &before, replicas, sizes);
    let pairs = |random: &mut Random, call, verdicts: &[Verdict]| {
        inputs::pairs::<Boxed>(random, &before, call, verdicts)
    };
    let all = [Equal, Stale, Ahead, Conflict];
    let rows = [
        (
            "verdict, as many of each",
            pairs(random, COMPARE, &all),
            &before,
            goal(1.5, 3.0),
        ),
        (
            "verdict, equal",
            pairs(random, COMPARE, &[Equal]),
            &before,
            None,
        ),
        (
            "verdict, stale or ahead",
            pairs(random, COMPARE, &[Stale, Ahead]),
            &before,
            None,
        ),
        (
            "verdict, conflict",
            pairs(random, COMPARE, &[Conflict]),
            &before,
            None,
        ),
        (
            "covers, yes",
            pairs(random, COVERS, &[Equal, Ahead]),
            &before,
            None,
        ),
        (
            "covers, no",
            pairs(random, COVERS, &[Stale, Conflict]),
            &before,
            None,
        ),
        ("join", inputs::joins(random), &before, goal(2.5, 4.0)),
        (
            "event, a replica's own pen",
            inputs::events(random),
            &before,
            goal(3.0, 8.0),
        ),
        (
            "event, a pen of many parts",
            inputs::events(random),
            &wide,
            goal(3.0, 8.0),
        ),
        ("fork", inputs::forks(random), &wide, goal(3.0, 5.0)),
        ("unite", inputs::unites(random), &wide, goal(3.0, 5.0)),
    ];
    rows.into_iter()
        .map(|(name, work, before, goal)| {
            row::<Boxed>(
                Proved::Trees,
                format!("{size} trees: {name}"),
                before,
                work,
                goal,
            )
        })
        .collect()
}

/// Steps that do nothing, and copies of pens and clocks, in the same loops.
fn overhead<'a>(seed: u64) -> Result<Vec<Row<'a>>, String> {
    let random = &mut Random(seed);
    let before = inputs::stamps::<Boxed>(random, 32, |clock| (40..=63).contains(&clock.size()));
    let copies = inputs::copies(random);
    Ok(vec![
        row::<Boxed>(
            Proved::Trees,
            "the loop alone".into(),
            &before,
            inputs::nothings(),
            None,
        )?,
        row::<Boxed>(
            Proved::Trees,
            "large trees: copy a clock".into(),
            &before,
            copies,
            None,
        )?,
    ])
}

/// As long as a record of a tree clock and a ticket.
type Bytes = [u64; 37];

fn records<'a>(seed: u64) -> Row<'a> {
    let work = inputs::copies(&mut Random(seed));
    let again = work.clone();
    let mut table = vec![[1u64; 37] as Bytes; 128];
    Row {
        name: "a record copied, beside memcpy of 296 bytes".into(),
        operations: WORK,
        goal: None,
        ours: Box::new(move |times| timed(|| record_copies(&again, times))),
        peer: Box::new(move |times| {
            timed(|| {
                for _ in 0..times {
                    for step in &work {
                        table[step.to as usize % 128] = table[step.a as usize % 128];
                    }
                }
                table[0][36]
            })
        }),
    }
}

/// Calls of a season, 20,000 at once.
fn season<'a, K: Kind + 'a>(proved: Proved, name: &str, seed: u64) -> Result<Row<'a>, String> {
    let calls: Vec<Call> = seasons::season::<K>(&mut Random(seed), &seasons::SETTLED, 20_000);
    if proved.seasons(&calls, 2) != seasons::seasons::<K>(&calls, 2) {
        return Err(format!("{name}: the sums differ"));
    }
    println!("{name}: {}", seasons::tally::<K>(&calls));
    let again = calls.clone();
    Ok(Row {
        name: name.into(),
        operations: calls.len(),
        goal: None,
        ours: Box::new(move |times| timed(|| proved.seasons(&calls, times))),
        peer: Box::new(move |times| timed(|| seasons::seasons::<K>(&again, times))),
    })
}

fn rows<'a>(seed: u64) -> Result<Vec<Row<'a>>, String> {
    let mut rows = overhead(seed)?;
    rows.extend(trees(seed + 1, false)?);
    rows.extend(trees(seed + 2, true)?);
    rows.extend(vector_rows::rows(seed + 3, 3)?);
    rows.extend(vector_rows::rows(seed + 4, 16)?);
    rows.push(records(seed + 5));
    rows.push(season::<Boxed>(
        Proved::Trees,
        "a season of trees, a call",
        seed + 6,
    )?);
    rows.push(season::<Crdts>(
        Proved::Vectors,
        "a season of vectors, a call",
        seed + 7,
    )?);
    Ok(rows)
}

/// The table of all rows.
pub fn all(seed: u64) -> Result<(), String> {
    let mut rows = rows(seed)?;
    println!();
    println!(
        "{:<46} {:>9} {:>9} {:>8}   goal",
        "nanoseconds an operation", "ours", "peer", "ratio"
    );
    for row in &mut rows {
        row.print();
    }
    Ok(())
}

/// One row of one side again and again, for a profiler: ROW ours|peer SECONDS.
pub fn one(seed: u64, words: &[String]) -> Result<(), String> {
    let [name, side, seconds] = words else {
        return Err("which row, which side, and how many seconds?".into());
    };
    let seconds: u64 = seconds.parse().map_err(|_| "how many seconds?")?;
    let mut rows = rows(seed)?;
    let row = rows
        .iter_mut()
        .find(|row| row.name == *name)
        .ok_or("no such row")?;
    let run = if side == "ours" {
        &mut row.ours
    } else {
        &mut row.peer
    };
    let times = enough(run);
    let start = Instant::now();
    while start.elapsed() < Duration::from_secs(seconds) {
        run(times);
    }
    Ok(())
}
