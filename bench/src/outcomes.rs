//! What a call of a yard answers, as the library prints it.

use crate::kinds::{Cause, Verdict};
use std::fmt;

/// A refusal with the berth and the file that it is about.
#[derive(Clone, Copy)]
pub struct Fault {
    pub cause: Cause,
    pub berth: Option<usize>,
    pub file: Option<usize>,
}

#[derive(Clone, Copy)]
pub enum Outcome {
    Done,
    Judged(Verdict),
    Pulled(usize, usize),
    Reported([usize; 5]),
    Refused(Fault),
}

impl Outcome {
    pub fn number(&self) -> u64 {
        match *self {
            Outcome::Done => 1,
            Outcome::Judged(verdict) => 10 + verdict as u64,
            Outcome::Pulled(taken, conflicts) => sum([taken, conflicts, 0, 0, 0]),
            Outcome::Reported(counts) => sum(counts),
            Outcome::Refused(fault) => 100 + u64::from(fault.cause),
        }
    }
}

fn sum(counts: [usize; 5]) -> u64 {
    counts.iter().fold(0u64, |sum, count| {
        sum.wrapping_mul(33).wrapping_add(*count as u64)
    })
}

impl fmt::Display for Outcome {
    fn fmt(&self, f: &mut fmt::Formatter) -> fmt::Result {
        match self {
            Outcome::Done => f.write_str("done"),
            Outcome::Judged(verdict) => write!(f, "{verdict}"),
            Outcome::Pulled(taken, conflicts) => write!(f, "taken {taken} conflicts {conflicts}"),
            Outcome::Reported([equal, stale, ahead, conflicts, twins]) => {
                write!(f, "report {equal} {stale} {ahead} {conflicts} {twins}")
            }
            Outcome::Refused(fault) => {
                write!(f, "refused {}", fault.cause)?;
                if let Some(berth) = fault.berth {
                    write!(f, " berth {berth}")?;
                }
                if let Some(file) = fault.file {
                    write!(f, " file {file}")?;
                }
                Ok(())
            }
        }
    }
}
