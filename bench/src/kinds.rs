//! The two peers as clock kinds: interval tree clocks of boxed enums, and the
//! `VClock` of the crate `crdts` with pens that are lists of names.

use crate::ids::Id;
use crate::trees::Tree;
use crdts::{CmRDT, CvRDT, VClock};
use std::cmp::Ordering;
use std::fmt::{self, Display};

/// The number of a refusal.
pub type Cause = u8;

#[derive(Clone, Copy, Debug, PartialEq, Eq)]
pub enum Verdict {
    Equal,
    Stale,
    Ahead,
    Conflict,
}

impl Display for Verdict {
    fn fmt(&self, f: &mut fmt::Formatter) -> fmt::Result {
        f.write_str(match self {
            Verdict::Equal => "equal",
            Verdict::Stale => "stale",
            Verdict::Ahead => "ahead",
            Verdict::Conflict => "conflict",
        })
    }
}

/// A clock kind in plain Rust.
pub trait Kind {
    type Pen: Clone + Display;
    type Clock: Clone + Display;

    fn seed() -> Self::Pen;
    fn no_pen() -> Self::Pen;
    fn blank() -> Self::Clock;
    fn fork(pen: &Self::Pen) -> Result<(Self::Pen, Self::Pen), Cause>;
    fn event(clock: &Self::Clock, pen: &Self::Pen) -> Result<Self::Clock, Cause>;
    fn join(a: &Self::Clock, b: &Self::Clock) -> Result<Self::Clock, Cause>;
    fn covers(a: &Self::Clock, b: &Self::Clock) -> bool;
    fn compare(a: &Self::Clock, b: &Self::Clock) -> Verdict;
    fn unite(a: &Self::Pen, b: &Self::Pen) -> Result<Self::Pen, Cause>;
}

/// Interval tree clocks of boxed enums.
pub struct Boxed;

const MOST_NODES: usize = 63;
const MOST_VALUE: u32 = 65535;

impl Kind for Boxed {
    type Pen = Id;
    type Clock = Tree;

    fn seed() -> Id {
        Id::One
    }

    fn no_pen() -> Id {
        Id::Zero
    }

    fn blank() -> Tree {
        Tree::Leaf(0)
    }

    fn fork(pen: &Id) -> Result<(Id, Id), Cause> {
        pen.split().ok_or(11)
    }

    // Fill neither adds a node nor raises the largest value, so only what has grown is measured.
    fn event(clock: &Tree, pen: &Id) -> Result<Tree, Cause> {
        if *pen == Id::Zero {
            return Err(14);
        }
        let filled = clock.fill(pen);
        if filled != *clock {
            return Ok(filled);
        }
        let (grown, _) = clock.grow(pen);
        if grown.size() > MOST_NODES {
            return Err(15);
        }
        if grown.top() > MOST_VALUE {
            return Err(16);
        }
        Ok(grown)
    }

    fn join(a: &Tree, b: &Tree) -> Result<Tree, Cause> {
        let joined = a.join(b);
        if joined.size() > MOST_NODES {
            return Err(15);
        }
        Ok(joined)
    }

    fn covers(a: &Tree, b: &Tree) -> bool {
        a.covers(b)
    }

    fn compare(a: &Tree, b: &Tree) -> Verdict {
        match (a.covers(b), b.covers(a)) {
            (true, true) => Verdict::Equal,
            (false, true) => Verdict::Stale,
            (true, false) => Verdict::Ahead,
            (false, false) => Verdict::Conflict,
        }
    }

    fn unite(a: &Id, b: &Id) -> Result<Id, Cause> {
        let sum = a.sum(b).ok_or(12)?;
        if sum.size() > MOST_NODES {
            return Err(13);
        }
        Ok(sum)
    }
}

/// `VClock` with lists of names as pens.
pub struct Crdts;

const NAMES: u8 = 16;
const MOST_COUNT: u64 = 65535;

/// Names in rising order.
#[derive(Clone)]
pub struct NameList(pub Vec<u8>);

/// A `VClock` that prints all its counts.
#[derive(Clone)]
pub struct CountMap(pub VClock<u8>);

impl Kind for Crdts {
    type Pen = NameList;
    type Clock = CountMap;

    fn seed() -> NameList {
        NameList((0..NAMES).collect())
    }

    fn no_pen() -> NameList {
        NameList(Vec::new())
    }

    fn blank() -> CountMap {
        CountMap(VClock::new())
    }

    fn fork(pen: &NameList) -> Result<(NameList, NameList), Cause> {
        let size = pen.0.len();
        if size < 2 {
            return Err(11);
        }
        let (lower, upper) = pen.0.split_at(size - size / 2);
        Ok((NameList(lower.to_vec()), NameList(upper.to_vec())))
    }

    fn event(clock: &CountMap, pen: &NameList) -> Result<CountMap, Cause> {
        if pen.0.is_empty() {
            return Err(14);
        }
        let open = pen.0.iter().find(|name| clock.0.get(name) < MOST_COUNT);
        let name = *open.ok_or(16)?;
        let mut next = clock.0.clone();
        next.apply(clock.0.inc(name));
        Ok(CountMap(next))
    }

    fn join(a: &CountMap, b: &CountMap) -> Result<CountMap, Cause> {
        let mut joined = a.0.clone();
        joined.merge(b.0.clone());
        Ok(CountMap(joined))
    }

    fn covers(a: &CountMap, b: &CountMap) -> bool {
        a.0 >= b.0
    }

    fn compare(a: &CountMap, b: &CountMap) -> Verdict {
        match a.0.partial_cmp(&b.0) {
            Some(Ordering::Equal) => Verdict::Equal,
            Some(Ordering::Less) => Verdict::Stale,
            Some(Ordering::Greater) => Verdict::Ahead,
            None => Verdict::Conflict,
        }
    }

    fn unite(a: &NameList, b: &NameList) -> Result<NameList, Cause> {
        if a.0.iter().any(|name| b.0.contains(name)) {
            return Err(12);
        }
        let mut names: Vec<u8> = a.0.iter().chain(&b.0).copied().collect();
        names.sort_unstable();
        Ok(NameList(names))
    }
}

fn listed(f: &mut fmt::Formatter, numbers: impl Iterator<Item = u64>) -> fmt::Result {
    for (i, number) in numbers.enumerate() {
        if i > 0 {
            f.write_str(",")?;
        }
        write!(f, "{number}")?;
    }
    Ok(())
}

impl Display for NameList {
    fn fmt(&self, f: &mut fmt::Formatter) -> fmt::Result {
        f.write_str("{")?;
        listed(f, self.0.iter().map(|name| u64::from(*name)))?;
        f.write_str("}")
    }
}

impl Display for CountMap {
    fn fmt(&self, f: &mut fmt::Formatter) -> fmt::Result {
        f.write_str("[")?;
        listed(f, (0..NAMES).map(|name| self.0.get(&name)))?;
        f.write_str("]")
    }
}
