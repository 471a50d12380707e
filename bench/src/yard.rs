//! A yard in plain Rust, for any peer: 16 berths and 32 files.

use crate::kinds::{Cause, Kind, Verdict};
use crate::outcomes::{Fault, Outcome};
use crate::seasons::{Call, EDIT, FORK, JUDGE, PULL, REPORT, RETIRE, SETTLE};

pub const BERTHS: usize = 16;
pub const FILES: usize = 32;

#[derive(Clone, Copy, PartialEq, Eq)]
pub struct Ticket {
    digest: [u8; 32],
    pub length: u64,
}

fn ticket(number: u64) -> Ticket {
    Ticket {
        digest: [(number % 256) as u8; 32],
        length: number,
    }
}

/// A copy of a file.
#[derive(Clone)]
pub struct Copy<C> {
    pub clock: C,
    pub payload: Ticket,
}

/// A berth has a pen where it works. Copy f of berth b is copy b × 32 + f.
pub struct Yard<K: Kind> {
    pub berths: Vec<Option<K::Pen>>,
    pub copies: Vec<Copy<K::Clock>>,
    verdicts: [Verdict; FILES],
}

fn refuse<T>(cause: Cause, berth: usize, file: Option<usize>) -> Result<T, Fault> {
    Err(Fault {
        cause,
        berth: Some(berth),
        file,
    })
}

impl<K: Kind> Yard<K> {
    pub fn open() -> Yard<K> {
        let mut berths = vec![None; BERTHS];
        berths[0] = Some(K::seed());
        let copy = Copy {
            clock: K::blank(),
            payload: ticket(0),
        };
        Yard {
            berths,
            copies: vec![copy; BERTHS * FILES],
            verdicts: [Verdict::Equal; FILES],
        }
    }

    fn check_berth(&self, a: usize) -> Result<(), Fault> {
        if a < BERTHS {
            Ok(())
        } else {
            refuse(2, a, None)
        }
    }

    fn check_file(&self, f: usize) -> Result<(), Fault> {
        if f < FILES {
            Ok(())
        } else {
            Err(Fault {
                cause: 3,
                berth: None,
                file: Some(f),
            })
        }
    }

    fn check_two(&self, a: usize, b: usize) -> Result<(), Fault> {
        if a != b {
            Ok(())
        } else {
            refuse(4, a, None)
        }
    }

    fn pen(&self, a: usize) -> Result<&K::Pen, Fault> {
        match &self.berths[a] {
            Some(pen) => Ok(pen),
            None => refuse(5, a, None),
        }
    }

    fn at(a: usize, f: usize) -> usize {
        a * FILES + f
    }

    fn verdict(&self, a: usize, b: usize, f: usize) -> Verdict {
        K::compare(
            &self.copies[Self::at(a, f)].clock,
            &self.copies[Self::at(b, f)].clock,
        )
    }

    fn fork(&mut self, a: usize, b: usize) -> Result<Outcome, Fault> {
        self.check_berth(a)?;
        self.check_berth(b)?;
        self.check_two(a, b)?;
        let pen = self.pen(a)?;
        if self.berths[b].is_some() {
            return refuse(5, b, None);
        }
        let (first, second) = K::fork(pen).or_else(|cause| refuse(cause, a, None))?;
        self.berths[a] = Some(first);
        self.berths[b] = Some(second);
        for f in 0..FILES {
            self.copies[Self::at(b, f)] = self.copies[Self::at(a, f)].clone();
        }
        Ok(Outcome::Done)
    }

    fn edit(&mut self, a: usize, f: usize, payload: Ticket) -> Result<Outcome, Fault> {
        self.check_berth(a)?;
        self.check_file(f)?;
        let pen = self.pen(a)?;
        let clock = &self.copies[Self::at(a, f)].clock;
        let clock = K::event(clock, pen).or_else(|cause| refuse(cause, a, Some(f)))?;
        self.copies[Self::at(a, f)] = Copy { clock, payload };
        Ok(Outcome::Done)
    }

    fn judge(&self, a: usize, b: usize, f: usize) -> Result<Outcome, Fault> {
        self.check_berth(a)?;
        self.check_berth(b)?;
        self.check_file(f)?;
        self.pen(a)?;
        self.pen(b)?;
        Ok(Outcome::Judged(self.verdict(a, b, f)))
    }

    fn report(&mut self, a: usize, b: usize) -> Result<Outcome, Fault> {
        self.check_berth(a)?;
        self.check_berth(b)?;
        self.pen(a)?;
        self.pen(b)?;
        let mut counts = [0; 5];
        for f in 0..FILES {
            let verdict = self.verdict(a, b, f);
            let (mine, theirs) = (&self.copies[Self::at(a, f)], &self.copies[Self::at(b, f)]);
            self.verdicts[f] = verdict;
            counts[verdict as usize] += 1;
            if verdict == Verdict::Conflict && mine.payload == theirs.payload {
                counts[4] += 1;
            }
        }
        Ok(Outcome::Reported(counts))
    }

    /// The verdict on b's copy beforehand; a stale copy is replaced by a's.
    fn take_newer(&mut self, a: usize, b: usize, f: usize) -> Verdict {
        let verdict = self.verdict(b, a, f);
        if verdict == Verdict::Stale {
            self.copies[Self::at(b, f)] = self.copies[Self::at(a, f)].clone();
        }
        verdict
    }

    fn pull(&mut self, a: usize, b: usize) -> Result<Outcome, Fault> {
        self.check_berth(a)?;
        self.check_berth(b)?;
        self.check_two(a, b)?;
        self.pen(a)?;
        self.pen(b)?;
        let (mut taken, mut conflicts) = (0, 0);
        for f in 0..FILES {
            let verdict = self.take_newer(a, b, f);
            self.verdicts[f] = verdict;
            match verdict {
                Verdict::Stale => taken += 1,
                Verdict::Conflict => conflicts += 1,
                _ => {}
            }
        }
        Ok(Outcome::Pulled(taken, conflicts))
    }

    fn settle(&mut self, a: usize, b: usize, f: usize, payload: Ticket) -> Result<Outcome, Fault> {
        self.check_berth(a)?;
        self.check_berth(b)?;
        self.check_file(f)?;
        self.check_two(a, b)?;
        self.pen(a)?;
        let pen = self.pen(b)?;
        if self.verdict(b, a, f) != Verdict::Conflict {
            return refuse(7, b, Some(f));
        }
        let (ours, theirs) = (
            &self.copies[Self::at(b, f)].clock,
            &self.copies[Self::at(a, f)].clock,
        );
        let clock = K::join(ours, theirs)
            .and_then(|joined| K::event(&joined, pen))
            .or_else(|cause| refuse(cause, b, Some(f)))?;
        self.copies[Self::at(b, f)] = Copy { clock, payload };
        Ok(Outcome::Done)
    }

    fn retire(&mut self, a: usize, b: usize) -> Result<Outcome, Fault> {
        self.check_berth(a)?;
        self.check_berth(b)?;
        self.check_two(a, b)?;
        let (theirs, ours) = (self.pen(a)?, self.pen(b)?);
        if let Some(f) = (0..FILES).find(|f| self.verdict(b, a, *f) == Verdict::Conflict) {
            return refuse(8, b, Some(f));
        }
        let pen = K::unite(theirs, ours).or_else(|cause| refuse(cause, b, None))?;
        self.berths[b] = Some(pen);
        self.berths[a] = None;
        for f in 0..FILES {
            self.take_newer(a, b, f);
        }
        Ok(Outcome::Done)
    }

    fn drop(&mut self, a: usize) -> Result<Outcome, Fault> {
        self.check_berth(a)?;
        self.pen(a)?;
        self.berths[a] = None;
        Ok(Outcome::Done)
    }

    pub fn make(&mut self, call: &Call) -> Outcome {
        let (a, b, f) = (call.a as usize, call.b as usize, call.file as usize);
        let payload = ticket(call.payload);
        match call.call {
            FORK => self.fork(a, b),
            EDIT => self.edit(a, f, payload),
            JUDGE => self.judge(a, b, f),
            REPORT => self.report(a, b),
            PULL => self.pull(a, b),
            SETTLE => self.settle(a, b, f, payload),
            RETIRE => self.retire(a, b),
            _ => self.drop(a),
        }
        .unwrap_or_else(Outcome::Refused)
    }
}
