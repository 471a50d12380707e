//! Seasons of a yard: their calls, how they are drawn, and how a peer makes them.

use crate::kinds::{Cause, Kind, Verdict};
use crate::outcomes::Outcome;
use crate::scripts::Random;
use crate::yard::{Yard, BERTHS, FILES};
use std::collections::BTreeMap;
use std::fmt::Write;

pub const FORK: u32 = 0;
pub const EDIT: u32 = 1;
pub const JUDGE: u32 = 2;
pub const REPORT: u32 = 3;
pub const PULL: u32 = 4;
pub const SETTLE: u32 = 5;
pub const RETIRE: u32 = 6;
pub const DROP: u32 = 7;

/// One call of a season, as the library has it.
#[repr(C)]
#[derive(Clone, Copy, Debug)]
pub struct Call {
    pub call: u32,
    pub a: u32,
    pub b: u32,
    pub file: u32,
    pub payload: u64,
}

/// The sum over a season made `times` times.
pub fn seasons<K: Kind>(calls: &[Call], times: u32) -> u64 {
    let mut sum = 0u64;
    for _ in 0..times {
        let mut yard = Yard::<K>::open();
        for call in calls {
            sum = sum.wrapping_add(yard.make(call).number());
        }
    }
    sum
}

/// A season as text: a line for each call, and one for each copy.
pub fn tell<K: Kind>(calls: &[Call]) -> String {
    let mut yard = Yard::<K>::open();
    let mut text = String::new();
    for call in calls {
        writeln!(text, "{}", yard.make(call)).expect("a String takes text");
    }
    for copy in &yard.copies {
        writeln!(text, "{} {}", copy.clock, copy.payload.length).expect("a String takes text");
    }
    text
}

/// How often a season edits, judges, reports, pulls, settles, forks, retires and drops.
pub type Habits = [usize; 8];

/// Replicas come and go all the time.
pub const RESTLESS: Habits = [4200, 1900, 400, 1700, 1300, 300, 120, 80];

/// The berths are soon full, and then a replica seldom retires or is dropped.
pub const SETTLED: Habits = [4500, 2000, 400, 1700, 1300, 80, 8, 1];

/// A season: one call in fifty is drawn with no regard to the yard.
pub fn season<K: Kind>(random: &mut Random, habits: &Habits, count: usize) -> Vec<Call> {
    let mut yard = Yard::<K>::open();
    let mut calls = Vec::new();
    while calls.len() < count {
        let call = if random.below(50) == 0 {
            any_call(random)
        } else {
            likely_call(random, habits, &yard)
        };
        yard.make(&call);
        calls.push(call);
    }
    calls
}

fn any_call(random: &mut Random) -> Call {
    Call {
        call: random.among(0..=SETTLE),
        a: random.among(0..=BERTHS as u32),
        b: random.among(0..=BERTHS as u32),
        file: random.among(0..=FILES as u32),
        payload: random.below(40) as u64,
    }
}

fn likely_call<K: Kind>(random: &mut Random, habits: &Habits, yard: &Yard<K>) -> Call {
    let (working, empty): (Vec<u32>, Vec<u32>) =
        (0..BERTHS as u32).partition(|b| yard.berths[*b as usize].is_some());
    let (first, file) = (random.below(working.len()), random.among(0..=31));
    let second = first + 1 + random.below((working.len() - 1).max(1));
    let (a, b) = (working[first], working[second % working.len()]);
    let payload = random.below(40) as u64;
    let call = |call, a, b, file| Call {
        call,
        a,
        b,
        file,
        payload,
    };
    match random.weighed(habits) {
        0 => call(EDIT, a, 0, file),
        1 => call(JUDGE, a, b, file),
        2 => call(REPORT, a, b, 0),
        3 => call(PULL, a, b, 0),
        4 => {
            let open = (0..32).map(|k| (file + k) % 32).find(|f| {
                let at = |berth: u32| &yard.copies[berth as usize * FILES + *f as usize].clock;
                K::compare(at(b), at(a)) == Verdict::Conflict
            });
            call(SETTLE, a, b, open.unwrap_or(file))
        }
        5 if !empty.is_empty() => call(FORK, a, random.pick(&empty), 0),
        6 => call(RETIRE, a, b, 0),
        7 if working.len() > 1 => call(DROP, a, 0, 0),
        _ => call(JUDGE, a, b, file),
    }
}

/// Causes, and how often each came.
pub fn causes(refused: &BTreeMap<Cause, usize>) -> String {
    let causes: Vec<String> = refused
        .iter()
        .map(|(cause, times)| format!("{cause}: {times}"))
        .collect();
    causes.join(", ")
}

/// What a season's calls were, and how many were refused.
pub fn tally<K: Kind>(calls: &[Call]) -> String {
    let mut yard = Yard::<K>::open();
    let mut made = [0; 8];
    let mut refused = BTreeMap::new();
    let mut working = 0;
    for call in calls {
        made[call.call as usize] += 1;
        if let Outcome::Refused(fault) = yard.make(call) {
            *refused.entry(fault.cause).or_insert(0) += 1;
        }
        working += yard.berths.iter().flatten().count();
    }
    let [forks, edits, judges, reports, pulls, settles, retires, drops] = made;
    format!(
        "{} calls ({edits} edit, {judges} judge, {reports} report, {pulls} pull, {settles} settle, {forks} fork, \
         {retires} retire, {drops} drop), {:.1} berths working on average; refusals {}",
        calls.len(),
        working as f64 / calls.len() as f64,
        causes(&refused)
    )
}
