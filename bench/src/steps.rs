//! Runs of steps on a table of pens and a table of clocks, as the library does them.

use crate::kinds::{Cause, Kind, Verdict};
use std::fmt;
use std::fmt::Write;

pub const SLOTS: usize = 128;

pub const FORK: u32 = 0;
pub const EVENT: u32 = 1;
pub const JOIN: u32 = 2;
pub const UNITE: u32 = 3;
pub const COVERS: u32 = 4;
pub const COMPARE: u32 = 5;
pub const COPY: u32 = 6;
/// Does nothing: what the loop itself costs.
pub const NOTHING: u32 = 7;

/// One operation, as the library has it.
#[repr(C)]
#[derive(Clone, Copy, Debug)]
pub struct Step {
    pub call: u32,
    pub a: u32,
    pub b: u32,
    pub to: u32,
}

/// What a step answers.
#[derive(Clone, Copy)]
pub enum Answer {
    Done,
    Covers(bool),
    Judged(Verdict),
    Refused(Cause),
}

impl Answer {
    pub fn number(&self) -> u64 {
        match *self {
            Answer::Done => 1,
            Answer::Covers(answer) => 2 + u64::from(answer),
            Answer::Judged(verdict) => 10 + verdict as u64,
            Answer::Refused(cause) => 100 + u64::from(cause),
        }
    }
}

impl fmt::Display for Answer {
    fn fmt(&self, f: &mut fmt::Formatter) -> fmt::Result {
        match self {
            Answer::Done => f.write_str("done"),
            Answer::Covers(true) => f.write_str("covers"),
            Answer::Covers(false) => f.write_str("does not cover"),
            Answer::Judged(verdict) => write!(f, "{verdict}"),
            Answer::Refused(cause) => write!(f, "refused {cause}"),
        }
    }
}

/// The two tables of a run.
pub struct Tables<K: Kind> {
    pub pens: Vec<K::Pen>,
    pub clocks: Vec<K::Clock>,
}

impl<K: Kind> Tables<K> {
    /// Pen 0 is the seed, the others and the clocks are empty.
    pub fn new() -> Tables<K> {
        let mut pens = vec![K::no_pen(); SLOTS];
        pens[0] = K::seed();
        Tables {
            pens,
            clocks: vec![K::blank(); SLOTS],
        }
    }

    pub fn step(&mut self, step: &Step) -> Answer {
        match step.call {
            FORK => self.fork(step),
            EVENT => self.event(step),
            JOIN => self.join(step),
            UNITE => self.unite(step),
            COVERS => self.covers(step),
            COMPARE => self.judge(step),
            COPY => {
                self.pens[slot(step.to)] = self.pens[slot(step.a)].clone();
                self.copy(step)
            }
            _ => Answer::Done,
        }
    }

    #[inline]
    fn fork(&mut self, step: &Step) -> Answer {
        match K::fork(&self.pens[slot(step.a)]) {
            Ok((first, second)) => {
                self.pens[slot(step.to)] = first;
                self.pens[slot(step.b)] = second;
                Answer::Done
            }
            Err(cause) => Answer::Refused(cause),
        }
    }

    #[inline]
    fn event(&mut self, step: &Step) -> Answer {
        let answer = K::event(&self.clocks[slot(step.a)], &self.pens[slot(step.b)]);
        put(&mut self.clocks, step, answer)
    }

    #[inline]
    fn join(&mut self, step: &Step) -> Answer {
        let answer = K::join(&self.clocks[slot(step.a)], &self.clocks[slot(step.b)]);
        put(&mut self.clocks, step, answer)
    }

    #[inline]
    fn unite(&mut self, step: &Step) -> Answer {
        let answer = K::unite(&self.pens[slot(step.a)], &self.pens[slot(step.b)]);
        put(&mut self.pens, step, answer)
    }

    #[inline]
    fn covers(&self, step: &Step) -> Answer {
        Answer::Covers(K::covers(
            &self.clocks[slot(step.a)],
            &self.clocks[slot(step.b)],
        ))
    }

    #[inline]
    fn judge(&self, step: &Step) -> Answer {
        Answer::Judged(K::compare(
            &self.clocks[slot(step.a)],
            &self.clocks[slot(step.b)],
        ))
    }

    #[inline]
    fn copy(&mut self, step: &Step) -> Answer {
        self.clocks[slot(step.to)] = self.clocks[slot(step.a)].clone();
        Answer::Done
    }

    /// Does the step and writes its line.
    pub fn tell(&mut self, step: &Step, text: &mut String) -> Answer {
        let answer = self.step(step);
        let (b, to) = (slot(step.b), slot(step.to));
        let (pens, clocks) = (&self.pens, &self.clocks);
        match (answer, step.call) {
            (Answer::Done, FORK) => writeln!(text, "{} {}", pens[to], pens[b]),
            (Answer::Done, EVENT | JOIN) => writeln!(text, "{}", clocks[to]),
            (Answer::Done, UNITE) => writeln!(text, "{}", pens[to]),
            (Answer::Done, COPY) => writeln!(text, "{} {}", pens[to], clocks[to]),
            _ => writeln!(text, "{answer}"),
        }
        .expect("a String takes text");
        answer
    }
}

fn slot(number: u32) -> usize {
    number as usize % SLOTS
}

/// Tables after the first steps, and the sum over them.
pub fn prepared<K: Kind>(before: &[Step]) -> (Tables<K>, u64) {
    let mut tables = Tables::new();
    let sum = before.iter().fold(0u64, |sum, step| {
        sum.wrapping_add(tables.step(step).number())
    });
    (tables, sum)
}

/// Puts what was made into its slot.
#[inline]
fn put<T>(table: &mut [T], step: &Step, answer: Result<T, Cause>) -> Answer {
    match answer {
        Ok(made) => {
            table[slot(step.to)] = made;
            Answer::Done
        }
        Err(cause) => Answer::Refused(cause),
    }
}

/// One call with the numbers of each step, `times` times. The sum over it.
pub fn rounds<K: Kind>(tables: &mut Tables<K>, call: u32, work: &[Step], times: u32) -> u64 {
    (0..times).fold(0u64, |sum, _| sum.wrapping_add(pass(tables, call, work)))
}

/// One loop for each call, as the library has them.
fn pass<K: Kind>(tables: &mut Tables<K>, call: u32, work: &[Step]) -> u64 {
    match call {
        FORK => summed(work, |step| tables.fork(step)),
        EVENT => summed(work, |step| tables.event(step)),
        JOIN => summed(work, |step| tables.join(step)),
        UNITE => summed(work, |step| tables.unite(step)),
        COVERS => summed(work, |step| tables.covers(step)),
        COMPARE => summed(work, |step| tables.judge(step)),
        COPY => summed(work, |step| tables.copy(step)),
        _ => work.iter().fold(0u64, |sum, step| {
            sum.wrapping_add((slot(step.a) + slot(step.b) + slot(step.to)) as u64)
        }),
    }
}

fn summed(work: &[Step], mut answer: impl FnMut(&Step) -> Answer) -> u64 {
    work.iter()
        .fold(0u64, |sum, step| sum.wrapping_add(answer(step).number()))
}
